//! `sheet serve`: a node. One process owns one book: it has the lock, keeps the book in memory and serves channels, one on standard input and
//! output or many by sockets. `kept` is the book and its file, `owner` the thread that takes what waits as one run, `channel` one connection,
//! `listen` where connections come from, `gate` who may come in; `log` and `counters` are what it tells, `voice` is standard error, `system` what it
//! asks of the system. `fresh` makes a book to serve.

mod channel;
mod counters;
pub mod fresh;
mod gate;
mod kept;
mod listen;
mod log;
mod owner;
mod system;
mod voice;

use crate::code::{fault, Code, Fault, Report};
use crate::files;
use crate::json::Json;
use channel::{Channel, Parting};
use counters::{add, Counters};
use gate::Gate;
use kept::Kept;
use listen::Listener;
pub use log::Level;
use log::Log;
use owner::{Job, Stopped};
use pasis::Plan;
use std::io;
use std::panic::{catch_unwind, AssertUnwindSafe};
use std::path::PathBuf;
use std::sync::mpsc::{channel, sync_channel, Receiver, RecvTimeoutError, Sender, SyncSender};
use std::sync::Arc;
use std::thread;
use std::time::Duration;
use system::{Awaited, Wanted};

/// Where a server takes its channels from.
pub enum On {
    Standard,
    Listen { address: String, beyond_loopback: bool },
    Socket,
}

/// What the command line asks for.
pub struct Wish {
    pub plan: PathBuf,
    pub book: PathBuf,
    pub on: On,
    pub connections: usize,
    pub idle: Option<Duration>,
    pub idle_stop: Option<Duration>,
    pub wait: Duration,
    pub counters: Option<PathBuf>,
    pub level: Level,
    pub json: bool,
}

/// How long a server that ends waits for clients to take the replies to what was under way.
const PATIENCE: Duration = Duration::from_secs(5);

/// What all threads share.
pub struct Shared {
    plan: Plan,
    node: u8,
    /// The bytes of the book, which a client is told.
    room: usize,
    jobs: SyncSender<Job>,
    gate: Arc<Gate>,
    log: Log,
    counters: Counters,
}

/// What the first thread hears of.
enum Heard {
    Signal(Wanted),
    /// The book is not served any more.
    Stopped(Fault),
    /// The one channel has ended.
    Parted(Parting),
}

/// Serves until the one channel ends, a signal says so, nobody was there for as long as was asked for, or the book fails.
pub fn serve(wish: &Wish) -> Report {
    let mut report = served(wish).unwrap_or_else(|fault| ended(Err(fault), wish.json));
    // Standard output is the channel's.
    report.aside = true;
    report
}

/// What is to be said at the end.
fn ended(end: Result<(), Fault>, json: bool) -> Report {
    match end {
        Ok(()) => Report::new(Code::Done),
        Err(fault) if json => {
            let mut report = Report::new(fault.code);
            report.say("error", Json::text(&fault.line));
            report
        }
        Err(fault) => fault.report(false),
    }
}

/// Refuses to have the counters written over what is served.
fn apart(wish: &Wish) -> Result<(), Fault> {
    let Some(counters) = &wish.counters else { return Ok(()) };
    let (file, book) = (files::followed(counters), files::followed(&wish.book));
    let ours = [files::followed(&wish.plan), files::beside(&book, ".plan"), files::beside(&book, ".lock"), book];
    match ours.iter().any(|own| *own == file || files::same(own, &file)) {
        true => fault(Code::WrongUse, format!("--counters: {}: this file is the node's own", counters.display())),
        false => Ok(()),
    }
}

fn served(wish: &Wish) -> Result<Report, Fault> {
    apart(wish)?;
    let listeners = listeners(&wish.on)?;
    let mut kept = Kept::open(&wish.plan, &wish.book, wish.wait)?;
    // Only now: until it has the book, a signal ends it as any program.
    let awaited = Awaited::hold_back();
    let (note, (jobs, waiting)) = (kept.note.take(), sync_channel(wish.connections));
    let log = Log::new(kept.node, wish.json, wish.level).or_else(no_thread)?;
    let (plan, node, room, gate) = (kept.plan, kept.node, kept.bytes.len(), Gate::new(wish.connections));
    let shared = Arc::new(Shared { plan, node, room, jobs, gate, log, counters: Counters::default() });
    add(&shared.counters.fsyncs, 2);
    if let Some(note) = note {
        shared.log.note("note", "its plan", &note);
    }
    let end = run(&shared, wish, awaited, listeners, (kept, waiting));
    let mut report = ended(end, wish.json);
    let notes = report.notes.iter().map(|note| format!("sheet: {note}\n"));
    shared.log.end(if wish.json { report.json() } else { notes.collect() });
    report.said = true;
    Ok(report)
}

/// Starts all threads, and waits for the end.
fn run(
    shared: &Arc<Shared>,
    wish: &Wish,
    awaited: Awaited,
    listeners: Option<Vec<Listener>>,
    (kept, waiting): (Kept, Receiver<Job>),
) -> Result<(), Fault> {
    let (tell, heard) = channel();
    start("signals", tell.clone(), move |tell| while tell.send(Heard::Signal(awaited.next())).is_ok() {})?;
    let own = shared.clone();
    start("book", tell.clone(), move |tell| {
        let failed = || Fault { code: Code::System, line: "the thread that has the book failed".to_string() };
        let kept = catch_unwind(AssertUnwindSafe(|| owner::keep(kept, &waiting, &own.counters)));
        let stopped = kept.unwrap_or_else(|_| Err(Stopped { fault: failed(), unanswered: Vec::new() }));
        if let Err(Stopped { fault, unanswered }) = stopped {
            let _ = tell.send(Heard::Stopped(fault));
            drop(unanswered);
        }
    })?;
    match listeners {
        None => standard(shared, wish, tell)?,
        Some(listeners) => listen(shared, wish, tell, listeners)?,
    }
    let end = until(shared, wish, &heard);
    count(shared, wish, false);
    end
}

/// A thread, which tells what it hears.
fn start(name: &str, tell: Sender<Heard>, work: impl FnOnce(Sender<Heard>) + Send + 'static) -> Result<(), Fault> {
    match thread::Builder::new().name(name.to_string()).spawn(move || work(tell)) {
        Ok(_) => Ok(()),
        Err(error) => no_thread(error),
    }
}

fn no_thread<T>(error: io::Error) -> Result<T, Fault> {
    fault(Code::System, format!("a thread cannot be started: {error}"))
}

/// The sockets; none where standard input and output are served.
fn listeners(on: &On) -> Result<Option<Vec<Listener>>, Fault> {
    match on {
        On::Standard => Ok(None),
        On::Listen { address, beyond_loopback } => Ok(Some(vec![listen::at(address, *beyond_loopback)?])),
        On::Socket => {
            let sockets = system::handed_over();
            if sockets.is_empty() {
                return fault(Code::WrongUse, "--socket: no socket was handed over (LISTEN_FDS and LISTEN_PID say so)");
            }
            sockets.into_iter().map(listen::handed).collect::<Result<_, _>>().map(Some)
        }
    }
}

fn standard(shared: &Arc<Shared>, wish: &Wish, tell: Sender<Heard>) -> Result<(), Fault> {
    let (shared, idle, admitted) = (shared.clone(), wish.idle, shared.gate.admit().ok());
    add(&shared.counters.connections, 1);
    start("channel", tell, move |tell| {
        let _admitted = admitted;
        let mut channel = Channel::standard(&shared, system::standard(), idle);
        let parting = channel.serve();
        drop(channel);
        if !parting.of_the_book {
            let _ = tell.send(Heard::Parted(parting));
        }
    })
}

fn listen(shared: &Arc<Shared>, wish: &Wish, tell: Sender<Heard>, listeners: Vec<Listener>) -> Result<(), Fault> {
    for listener in listeners {
        let (shared, idle) = (shared.clone(), wish.idle);
        let name = listener.name().unwrap_or_default();
        shared.log.serving(&name);
        start("listener", tell.clone(), move |_| listener.serve(&shared, idle))?;
    }
    Ok(())
}

/// Waits for the end, and makes it a clean one: what is under way is answered.
fn until(shared: &Arc<Shared>, wish: &Wish, heard: &Receiver<Heard>) -> Result<(), Fault> {
    loop {
        let look = wish.idle_stop.map_or(Duration::from_secs(3600), |stop| stop.min(Duration::from_secs(1)));
        match heard.recv_timeout(look) {
            Ok(Heard::Signal(Wanted::Counters)) => count(shared, wish, true),
            Ok(Heard::Signal(Wanted::End)) => break shared.gate.end(PATIENCE),
            Ok(Heard::Stopped(fault)) => return Err(fault),
            Ok(Heard::Parted(parting)) => return parted(parting),
            Err(RecvTimeoutError::Timeout) => {
                if wish.idle_stop.is_some_and(|stop| shared.gate.end_if_empty(stop)) {
                    break;
                }
            }
            Err(RecvTimeoutError::Disconnected) => break,
        }
    }
    // What was under way may have met a fault of the disk.
    match heard.try_iter().find_map(|heard| if let Heard::Stopped(fault) = heard { Some(fault) } else { None }) {
        Some(fault) => Err(fault),
        None => Ok(()),
    }
}

/// The end of the one channel is the server's.
fn parted(Parting { code, words, .. }: Parting) -> Result<(), Fault> {
    match code {
        Code::Done => Ok(()),
        code => fault(code, format!("standard input: {words}")),
    }
}

/// Tells the counters: in a line where it was asked for, and in the file where there is one.
fn count(shared: &Shared, wish: &Wish, asked: bool) {
    let open = shared.gate.open();
    let (line, json) = (shared.counters.line(open), shared.counters.json(open));
    if let Some(path) = &wish.counters {
        let text = if wish.json { json.to_string() } else { line.clone() };
        if let Err(error) = files::give(path, format!("{text}\n").as_bytes()) {
            shared.log.note("failed", "--counters", &format!("{}: {error}", path.display()));
        }
    }
    if asked {
        shared.log.counters(&line, json);
    }
}
