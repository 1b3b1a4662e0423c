//! `sheet`: a block kept in a folder of N books on one machine, or by nodes anywhere. The library decides; this program keeps files, carries frames from one to
//! the other, and says what happened. `words` reads the command line, `folder` keeps the files, `drive` carries an operation to its
//! end, `verbs` are the commands but three: `picture` is what `show` prints, `wish` what `plan` prints, `serve` is a node over channels, which
//! `wire` cuts. The program is `command`; other programs that save and open over nodes again and again take `Client`.

mod book;
mod check;
mod claim;
mod code;
mod drive;
mod files;
mod folder;
mod help;
mod json;
mod nodes;
mod operation;
mod picture;
mod plan_text;
mod serve;
mod verbs;
mod wire;
mod wish;
mod words;

pub use code::{Code, Fault};
pub use nodes::client::{Client, Opened, Saved};

use code::Report;
use std::io::{self, Write};
use std::process::ExitCode;
use words::{At, Command};

/// What the command line asks for, done.
fn obey(command: &Command) -> Result<Report, Fault> {
    match command {
        Command::Help(text) => Ok(Report::help(text)),
        Command::Plan { wish } => wish::tell(wish),
        Command::New { folder, plan, room } => verbs::new(folder, plan, *room),
        Command::Save { at: At::Folder(folder, down), file, stop_after } => {
            verbs::save(folder, file, down, *stop_after)
        }
        Command::Save { at: At::Nodes(net), file, .. } => nodes::verbs::save(net, file),
        Command::Open { at: At::Folder(folder, down), file } => verbs::open(folder, file, down),
        Command::Open { at: At::Nodes(net), file } => nodes::verbs::open(net, file),
        Command::Show { at: At::Folder(folder, down), all } => picture::show(folder, down, *all),
        Command::Check { at: At::Folder(folder, _), .. } => check::check(folder),
        Command::Serve(wish) => Ok(serve::serve(wish)),
        Command::Fresh(fresh) => serve::fresh::make(fresh),
        Command::Show { at: At::Nodes(net), all } => nodes::look::show(net, *all),
        Command::Check { at: At::Nodes(net), room_for } => nodes::look::check(net, *room_for),
        Command::Heal { net, node } => nodes::heal::heal(net, *node),
    }
}

/// Prints a report: its notes on standard error, the rest on standard output, or there too if the block went to standard output.
fn print(report: &Report, json: bool) -> io::Result<()> {
    if report.said {
        return Ok(());
    }
    for note in &report.notes {
        writeln!(io::stderr(), "sheet: {note}")?;
    }
    let text = if json && !report.is_help { report.json() } else { report.lines.concat() };
    if report.aside {
        return io::stderr().write_all(text.as_bytes());
    }
    let mut out = io::stdout().lock();
    out.write_all(text.as_bytes())?;
    out.flush()
}

/// Does what the command line says, and prints what came of it.
pub fn command() -> ExitCode {
    let given: Vec<_> = std::env::args_os().skip(1).collect();
    let json = given.iter().take_while(|word| *word != "--").any(|word| word == "--json");
    let report = words::read(&given).and_then(|command| obey(&command)).unwrap_or_else(|fault| fault.report(json));
    let code = report.code as u8;
    match print(&report, json) {
        Ok(()) => ExitCode::from(code),
        // Nobody reads any more: what was to be done is done, but it cannot be said.
        Err(error) => {
            let came = report.code.name();
            let _ = writeln!(io::stderr(), "sheet: {came}, but the result cannot be written: {error}");
            ExitCode::from(Code::System as u8)
        }
    }
}
