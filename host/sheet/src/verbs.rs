//! The commands over a folder but `plan`, `show` and `check`, and what they share with those over nodes.

use crate::code::{fault, Code, Fault, Report};
use crate::drive::{self, Nodes, FULL};
use crate::files;
use crate::folder::{missing, read_plan, Folder};
use crate::json::Json;
use crate::operation::{Block, Run, NOT_CLOSED};
use crate::plan_text;
use crate::wish;
use crate::words::Chosen;
use pasis::{Answer, Plan, Stage, BOOK_MOST};
use std::ffi::OsStr;
use std::io::{self, Write};
use std::path::Path;

/// Nodes by number, for people.
pub fn list(nodes: &[usize]) -> String {
    let numbers: Vec<String> = nodes.iter().map(usize::to_string).collect();
    match numbers.as_slice() {
        [] => "no node".to_string(),
        [one] => format!("node {one}"),
        more => format!("nodes {}", more.join(" ")),
    }
}

pub fn rounds(rounds: u16) -> String {
    if rounds == 1 {
        "1 round".to_string()
    } else {
        format!("{rounds} rounds")
    }
}

pub fn plan_json(plan: &Plan) -> Json {
    let value = |value: String| value.parse().map_or(Json::Text(value), Json::Number);
    Json::Object(plan_text::values(plan).map(|(name, word)| (name, value(word))).to_vec())
}

/// Refuses nodes that the plan does not have.
pub fn known(plan: &Plan, down: &[usize]) -> Result<(), Fault> {
    match down.iter().find(|node| **node >= usize::from(plan.n)) {
        None => Ok(()),
        Some(node) => {
            fault(Code::WrongUse, format!("--down: there is no node {node}, the plan has 0 to {}", plan.n - 1))
        }
    }
}

pub fn new(folder: &Path, plan: &Chosen, room: Option<usize>) -> Result<Report, Fault> {
    let plan = match plan {
        Chosen::Default => Plan::default(),
        Chosen::File(file) => read_plan(file, Code::WrongUse)?,
        Chosen::Smallest(wish) => wish::smallest(wish)?,
    };
    let room = room.unwrap_or(BOOK_MOST);
    let least = plan.book_size(1);
    if room < least || room > BOOK_MOST {
        return fault(Code::WrongUse, format!("--room: a book of this plan has {least} to {BOOK_MOST} bytes"));
    }
    Folder::make(folder, &plan, room)?;
    let saves = (room - 11) / plan.record_size();
    let mut report = Report::new(Code::Done);
    let (books, block) = (plan.n, plan.item_size());
    report.line(format!("{}: {books} books, each with room for {saves} saves of {block} bytes", folder.display()));
    report.say("plan", plan_json(&plan));
    report.say("block", Json::Number(block as u64));
    report.say("saves", Json::Number(saves as u64));
    Ok(report)
}

/// The block that is to be saved: exactly m·F bytes.
pub fn block(plan: &Plan, file: &OsStr) -> Result<Vec<u8>, Fault> {
    let size = plan.item_size();
    let shown = if file == "-" { "standard input".to_string() } else { file.display().to_string() };
    match files::read(file, size) {
        Ok(bytes) if bytes.len() == size => Ok(bytes),
        Ok(bytes) => {
            let many = if bytes.len() > size { "more".to_string() } else { bytes.len().to_string() };
            fault(
                Code::WrongUse,
                format!("{shown}: a block of this plan has exactly {size} bytes, and this has {many}"),
            )
        }
        Err(error) if missing(&error) => fault(Code::WrongUse, format!("{shown}: no such file")),
        Err(error) => fault(Code::System, format!("{shown}: {error}")),
    }
}

/// The report of a run, with what every one says.
pub fn told(code: Code, line: String, run: &Run) -> Report {
    let mut report = Report::new(code);
    report.line(line);
    report.notes.clone_from(&run.notes);
    report.say("timestamp", Json::or_null(run.stamp.map(Json::stamp)));
    report.say("stored", Json::numbers(&run.stored));
    report
}

/// A round that did not end.
fn no_end(plan: &Plan, run: &Run, round: &str) -> String {
    let heard = (0..usize::from(plan.n)).filter(|node| run.session.mark(*node) != Some(pasis::Mark::Unheard));
    let (heard, needed) = (list(&heard.collect::<Vec<_>>()), plan.replies());
    let full = match run.notes.iter().filter(|note| note.contains(FULL)).count() {
        0 => String::new(),
        1 => "; 1 book is full".to_string(),
        full => format!("; {full} books are full"),
    };
    format!("no end: the {round} round heard {heard}, and {needed} replies end it{full}")
}

/// A save's code and line. Where a node that did not answer may have stored all the same, `sure` is false.
pub fn saved(plan: &Plan, run: &Run, sure: bool) -> (Code, String) {
    let at = list(&run.stored);
    let stamp = run.stamp.map(|stamp| stamp.to_string()).unwrap_or_default();
    match run.answer {
        Answer::Done { timestamp, .. } => (Code::Done, format!("saved: {timestamp}, stored at {at}")),
        Answer::ClockSpent => {
            let line = format!("clock spent: {} or more nodes say that the last time is reached", plan.b + 1);
            (Code::ClockSpent, line)
        }
        _ if run.cut_off && run.stored.is_empty() => {
            (Code::NoEnd, "cut off before any node stored it; nothing was stored".to_string())
        }
        _ if run.cut_off => (Code::InPart, format!("cut off: {stamp}, stored at {at}")),
        _ if run.stamp.is_none() => (Code::NoEnd, format!("{}; nothing was stored", no_end(plan, run, "time"))),
        _ if !sure => {
            let line = format!("{}; {stamp} is stored at {at}, and may be at others", no_end(plan, run, "write"));
            (Code::InPart, line)
        }
        _ if run.stored.is_empty() => (Code::NoEnd, format!("{}; nothing was stored", no_end(plan, run, "write"))),
        _ => (Code::InPart, format!("{}; {stamp} is stored at {at}", no_end(plan, run, "write"))),
    }
}

pub fn save(folder: &Path, file: &OsStr, down: &[usize], stop_after: Option<usize>) -> Result<Report, Fault> {
    let folder = Folder::enter(folder)?;
    let plan = &folder.plan;
    known(plan, down)?;
    if stop_after.is_some_and(|nodes| nodes > usize::from(plan.n)) {
        return fault(Code::WrongUse, format!("--stop-after: the plan has {} nodes", plan.n));
    }
    let item = block(plan, file)?;
    let session = pasis::open_write(plan, folder.take_ask()?).or_else(|refusal| fault(Code::Damaged, refusal))?;
    let mut nodes = Nodes::of(&folder, down, true);
    let run = drive::run(plan, &mut nodes, session, Block::Save(&item), stop_after);
    let (code, line) = saved(plan, &run, true);
    let mut report = told(code, line, &run);
    report.notes.extend(folder.note.clone());
    Ok(report)
}

/// Where an opened block goes.
pub fn give(file: &OsStr, item: &[u8]) -> Result<(), Fault> {
    let (shown, given) = if file == "-" {
        let mut out = io::stdout().lock();
        ("standard output".to_string(), out.write_all(item).and_then(|()| out.flush()))
    } else {
        (file.display().to_string(), files::give(Path::new(file), item))
    };
    given.or_else(|error| fault(Code::System, format!("{shown}: {error}")))
}

/// An open's code and line.
pub fn ending(plan: &Plan, run: &Run) -> (Code, String) {
    let repaired = match run.stored.as_slice() {
        [] => String::new(),
        at => format!(", after a repair at {}", list(at)),
    };
    match run.answer {
        Answer::Done { timestamp, rounds: used } => {
            (Code::Done, format!("done: {timestamp}, in {}{repaired}", rounds(used)))
        }
        Answer::NeverWritten { .. } => {
            (Code::NeverWritten, "never written: no node that was heard holds a save".to_string())
        }
        Answer::Aborted { .. } => {
            (Code::Aborted, "aborted: the newest save can be neither taken nor passed".to_string())
        }
        Answer::RoundsSpent { rounds: used } => {
            (Code::RoundsSpent, format!("rounds spent: {} found no save to take", rounds(used)))
        }
        Answer::ClockSpent => (Code::ClockSpent, "clock spent".to_string()),
        Answer::Open => {
            let round = if run.session.stage() == Some(Stage::Storing) { "repair" } else { "read" };
            (Code::NoEnd, no_end(plan, run, round))
        }
    }
}

pub fn open(folder: &Path, file: &OsStr, down: &[usize]) -> Result<Report, Fault> {
    let folder = Folder::enter(folder)?;
    let plan = &folder.plan;
    known(plan, down)?;
    if file != "-" && files::lies_in(Path::new(file), &folder.path) {
        return fault(Code::WrongUse, format!("{}: the sheet's own folder is no place for a block", file.display()));
    }
    let (ask, note) = folder.take_ask_to_read()?;
    let session = pasis::open_read(plan, ask).or_else(|refusal| fault(Code::Damaged, refusal))?;
    let mut item = vec![0; plan.item_size()];
    let mut nodes = Nodes::of(&folder, down, true);
    let mut run = drive::run(plan, &mut nodes, session, Block::Open(&mut item), None);
    run.notes.extend(note.into_iter().chain(folder.note.clone()));
    if let Answer::Done { timestamp, .. } = run.answer {
        run.stamp = Some(timestamp);
        give(file, &item)?;
    }
    let (code, line) = ending(plan, &run);
    let mut report = told(code, line, &run);
    report.say("rounds", Json::Number(run.rounds.iter().filter(|round| round.verdict != NOT_CLOSED).count() as u64));
    report.aside = file == "-";
    Ok(report)
}
