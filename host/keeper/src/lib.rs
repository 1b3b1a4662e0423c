//! What the trials share: the program keeper or `sheet serve`, a folder with a plan and a book, requests and what is read out of replies. Frames, records and
//! books are the second program's; none of it is the library's.

pub mod disk;

use disk::{calls, Call, Disk, Left};
use second::book::Book;
use second::craft;
use second::frame::{Body, Frame, Party, HEADER};
use second::plan::{Clients, Member, Plan};
use second::random::Random;
use second::record::{Record, Timestamp};
use second::wire;
use std::collections::{BTreeMap, BTreeSet};
use std::fs;
use std::io::{self, Read, Write};
use std::path::{Path, PathBuf};
use std::process::{Command, Output, Stdio};
use std::sync::atomic::{AtomicUsize, Ordering};

/// The node whose book is kept, and the length of its book.
pub const NODE: usize = 3;
pub const BOOK: usize = 65_536;

/// The text of the plan.
pub const TEXT: &str = "N 5\nt 1\nb 1\nQ 3\nm 2\nF 16\nmember repairable\nclients crash\nW 16\n";

pub fn plan() -> Plan {
    Plan { n: 5, t: 1, b: 1, q: 3, m: 2, f: 16, member: Member::Repairable, clients: Clients::Crash, w: 16 }
}

/// The command `sheet`, where it is `sheet serve` that is tried: host/try-serve sets it. That keeps a book as keeper with the lock does.
fn served_by() -> Option<String> {
    std::env::var("SERVE").ok()
}

/// The words that run keeper: the lines of KEEPER, which host/try-keeper sets.
pub fn words() -> Vec<String> {
    let words = std::env::var("KEEPER").expect("KEEPER: the words that run keeper, one a line");
    words.lines().map(str::to_string).collect()
}

/// A folder of its own for a trial, with the file PLAN; gone at its end.
pub struct Place {
    pub folder: PathBuf,
}

impl Place {
    pub fn new(name: &str) -> Place {
        Place::within(&std::env::temp_dir(), name).expect("a folder")
    }

    /// The same in memory, where there is such a place: no disk is waited for.
    pub fn in_memory(name: &str) -> Place {
        Place::within(Path::new("/dev/shm"), name).unwrap_or_else(|_| Place::new(name))
    }

    fn within(parent: &Path, name: &str) -> io::Result<Place> {
        let folder = fs::canonicalize(parent)?.join(format!("keeper-{}-{name}", std::process::id()));
        fs::create_dir(&folder)?;
        fs::write(folder.join("PLAN"), TEXT)?;
        Ok(Place { folder })
    }

    pub fn file(&self, name: &str) -> PathBuf {
        self.folder.join(name)
    }

    /// An empty book, as the second program makes it, and its plan beside it.
    pub fn fresh(&self) {
        self.fresh_of(BOOK);
    }

    pub fn fresh_of(&self, bytes: usize) {
        let mut book = vec![0; bytes];
        assert_eq!(wire::fresh_book(&wire::plan_bytes(&plan()), NODE as u64, &mut book), 0);
        fs::write(self.file("BOOK"), book).expect("BOOK");
        fs::write(self.file("BOOK.plan"), TEXT).expect("BOOK.plan");
    }

    /// The files of the folder.
    pub fn files(&self) -> Left {
        disk::files(&self.folder)
    }

    /// These files in the place of what is there, the calls that were taken down too.
    pub fn set_files(&self, left: &Left) {
        disk::set_files(&self.folder, left);
    }

    /// keeper PLAN BOOK and more words, in this folder; or sheet serve PLAN BOOK, which always has the lock.
    pub fn keeper(&self, more: &[&str]) -> Command {
        self.program(more, None)
    }

    /// The same with `trace.c` before the C library, which KEEPER_TRACE names: the calls go to the file LOG, and `set` has more words for it.
    pub fn traced(&self, more: &[&str], set: &[(&str, String)]) -> Command {
        let trace = std::env::var("KEEPER_TRACE").expect("KEEPER_TRACE: what host/try-keeper makes of trace.c");
        let mut command = self.program(more, Some(&trace));
        command.env("TRACE_LOG", self.file("LOG")).envs(set.iter().map(|(name, value)| (name, value)));
        command
    }

    /// With a library before the C library: keeper under an emulator is told by its loader's word.
    fn program(&self, more: &[&str], trace: Option<&str>) -> Command {
        let (words, more) = match served_by() {
            Some(sheet) => {
                assert_eq!(more, ["locked"], "sheet serve has no other way");
                (vec![sheet, "serve".to_string()], &[] as &[&str])
            }
            None => (words(), more),
        };
        let mut command = Command::new(&words[0]);
        match (words.as_slice(), trace) {
            ([_, loader @ .., keeper], Some(trace)) if served_by().is_none() => {
                command.args(loader).args(["--preload", trace, keeper])
            }
            (_, trace) => command.args(&words[1..]).envs(trace.map(|trace| ("LD_PRELOAD", trace))),
        };
        command.args(["PLAN", "BOOK"]).args(more).current_dir(&self.folder);
        command.stdin(Stdio::piped()).stdout(Stdio::piped()).stderr(Stdio::piped());
        command
    }

    /// Every disk that a power cut may leave, at each moment between the calls that were taken down, from these files on: each must have a whole
    /// book with every record of a reply that was sent. Those disks, or what is wrong with one.
    pub fn cut_everywhere(&self, from: &Left) -> Result<BTreeSet<Left>, String> {
        let mut disk = Disk::new(&self.folder, from);
        let (mut told, mut all) = (Told::default(), BTreeSet::new());
        let made = calls(&self.file("LOG"));
        for (i, call) in made.iter().enumerate() {
            disk.make(call);
            told.hear(call);
            let cuts = disk.cuts();
            for left in &cuts {
                told.held_in(left).map_err(|why| format!("after call {i} a cut: {why}\n{}", shown(&made[..=i])))?;
            }
            all.extend(cuts);
        }
        Ok(all)
    }

    /// What a keeper writes that is given these bytes.
    pub fn run(&self, more: &[&str], input: &[u8]) -> Output {
        fed(self.keeper(more), input)
    }

    /// The timestamps of the records in the book, which must be whole.
    pub fn held(&self) -> BTreeSet<[u8; 40]> {
        let bytes = fs::read(self.file("BOOK")).expect("BOOK");
        let book = Book::read(&plan(), &bytes).expect("the book is whole");
        book.records.iter().map(|record| record.stamp.bytes()).collect()
    }
}

impl Drop for Place {
    fn drop(&mut self) {
        let _ = fs::remove_dir_all(&self.folder);
    }
}

/// What a program writes that is given these bytes.
pub fn fed(mut command: Command, input: &[u8]) -> Output {
    let mut child = command.spawn().expect("keeper");
    let mut to = child.stdin.take().expect("piped");
    let input = input.to_vec();
    let sent = std::thread::spawn(move || {
        let _ = to.write_all(&input);
    });
    let output = child.wait_with_output().expect("its output");
    sent.join().expect("sent");
    output
}

/// The same for requests that all wait when the program starts: a file is its input, so that one read takes what its area holds.
pub fn fed_at_once(mut command: Command, input: &[u8]) -> Output {
    static COUNT: AtomicUsize = AtomicUsize::new(0);
    let name = format!("keeper-{}-input-{}", std::process::id(), COUNT.fetch_add(1, Ordering::SeqCst));
    let path = std::env::temp_dir().join(name);
    fs::write(&path, input).expect("a file");
    command.stdin(Stdio::from(fs::File::open(&path).expect("the file")));
    let output = command.output();
    fs::remove_file(&path).expect("removed");
    output.expect("keeper")
}

/// The same for a client that waits for the replies of each part before it sends the next, so that each is a run of its own.
pub fn fed_in_turns(mut command: Command, parts: &[Vec<u8>]) -> Output {
    let mut child = command.spawn().expect("keeper");
    let mut to = child.stdin.take().expect("piped");
    let mut from = child.stdout.take().expect("piped");
    let mut stdout = Vec::new();
    for part in parts {
        let all = replies(&stdout) + replies(part);
        // A keeper that has ended takes nothing more, and its output ends.
        let _ = to.write_all(part);
        while replies(&stdout) < all && more_of(&mut from, &mut stdout) {}
    }
    drop(to);
    from.read_to_end(&mut stdout).expect("the rest of its output");
    Output { stdout, ..child.wait_with_output().expect("its end") }
}

/// What can be read now, or as soon as there is something; false at the end.
pub fn more_of(from: &mut impl Read, bytes: &mut Vec<u8>) -> bool {
    let mut part = [0; 65_536];
    let n = from.read(&mut part).expect("a read");
    bytes.extend_from_slice(&part[..n]);
    n > 0
}

/// What the replies told that were sent, by whichever keepers.
#[derive(Default)]
pub struct Told {
    output: BTreeMap<u32, Vec<u8>>,
    pub stamps: BTreeSet<[u8; 40]>,
    pub time: u64,
}

impl Told {
    /// A call that may have sent bytes on standard output.
    pub fn hear(&mut self, call: &Call) {
        if call.name != "write" || call.number != 1 {
            return;
        }
        let output = self.output.entry(call.process).or_default();
        output.extend_from_slice(&call.bytes);
        while let Some(frame) = first_frame(output) {
            match Frame::read(&plan(), Party::Client, &frame).expect("a reply").body {
                Body::TimeReply(time) => self.time = self.time.max(time),
                Body::WriteReply(stamp) => drop(self.stamps.insert(stamp.bytes())),
                Body::ReadReply(Some(record)) => drop(self.stamps.insert(record.stamp.bytes())),
                _ => {}
            }
            output.drain(..frame.len());
        }
    }

    /// Whether the book on this disk is whole, and holds all that was told.
    pub fn held_in(&self, left: &Left) -> Result<(), String> {
        let content = left.get("BOOK").ok_or("there is no book")?;
        let book = Book::read(&plan(), &content.bytes).ok_or("the book is not whole")?;
        let held: BTreeSet<[u8; 40]> = book.records.iter().map(|record| record.stamp.bytes()).collect();
        if !self.stamps.is_subset(&held) {
            return Err("a record of a reply is missing".into());
        }
        match book.last().map_or(0, |record| record.stamp.time) < self.time {
            true => Err("the record of a time reply is missing".into()),
            false => Ok(()),
        }
    }
}

/// The first frame of these bytes, where they have a whole one.
pub fn first_frame(bytes: &[u8]) -> Option<Vec<u8>> {
    let length = bytes.first_chunk::<4>()?;
    bytes.get(..u32::from_be_bytes(*length) as usize + 4).map(<[u8]>::to_vec)
}

/// These frames, each by itself.
pub fn each_frame(mut bytes: &[u8]) -> Vec<Vec<u8>> {
    let mut frames = Vec::new();
    while let Some(frame) = first_frame(bytes) {
        bytes = &bytes[frame.len()..];
        frames.push(frame);
    }
    frames
}

/// How many whole frames these are.
pub fn replies(output: &[u8]) -> usize {
    each_frame(output).len()
}

/// Calls for people, one a line.
fn shown(calls: &[Call]) -> String {
    let line = |call: &Call| format!("{} {} {} {} = {}\n", call.process, call.name, call.one, call.number, call.answer);
    calls.iter().map(line).collect()
}

/// Bytes that are written as hexadecimal digits.
pub fn unhex(digits: &str) -> Vec<u8> {
    let digit = |c: u8| (c as char).to_digit(16).expect("a digit") as u8;
    digits.as_bytes().chunks_exact(2).map(|pair| 16 * digit(pair[0]) + digit(pair[1])).collect()
}

/// Records for our node, one for each time from `first` on.
pub fn records(first: u64, count: u64) -> Vec<Record> {
    let mut random = Random::new(first);
    (first..first + count).map(|time| craft::honest(&mut random, &plan(), time)[NODE].clone()).collect()
}

/// The requests to write them, one frame after another.
pub fn writes(records: &[Record]) -> Vec<u8> {
    records.iter().flat_map(|record| craft::frame(NODE, 1, Body::WriteRequest(record.clone()))).collect()
}

/// The requests for the time and for the latest record.
pub fn looks() -> Vec<u8> {
    [Body::TimeRequest, Body::ReadLatest].into_iter().flat_map(|body| craft::frame(NODE, 1, body)).collect()
}

/// The timestamps that write replies acknowledge.
pub fn acknowledged(mut output: &[u8]) -> BTreeSet<[u8; 40]> {
    let mut stamps = BTreeSet::new();
    while let Some(length) = output.first_chunk::<4>() {
        let end = u32::from_be_bytes(*length) as usize + 4;
        let Some(frame) = output.get(..end) else { break };
        if frame[5] == 4 {
            stamps.insert(Timestamp::from_bytes(&frame[HEADER..]).bytes());
        }
        output = &output[end..];
    }
    stamps
}

/// Whether standard error is one line about this file.
pub fn one_line(output: &Output, about: &Path) -> bool {
    let text = String::from_utf8_lossy(&output.stderr);
    text.lines().count() == 1 && text.starts_with(&format!("{}: ", about.display()))
}
