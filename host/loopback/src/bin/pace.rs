//! How many saves and opens a second N nodes serve on this machine, with so many clients at once. Books are fresh at the start, since they fill up; a
//! fragment is 4 bytes, so that they have room for enough saves, and the book that is stored has 65,536 bytes all the same.
//!
//!     pace SHEET FOLDER N CLIENTS              nodes are processes of `sheet serve`, fsync and all
//!     pace SHEET FOLDER N keeper WORD..        one client, nodes are keepers that it starts by these words
//!
//! FOLDER is there and empty. One line: saves a second, opens a second, how often a node stored its book at most, and in how many seconds N books are
//! stored as often, all at once, by the same calls and nothing else.

use loopback::{floor, Outcome, Site};
use sheet::{Client, Opened, Saved};
use std::path::{Path, PathBuf};
use std::process::ExitCode;
use std::sync::Barrier;
use std::thread;
use std::time::{Duration, Instant};

const FRAGMENT: usize = 4;
const WITHIN: Duration = Duration::from_secs(60);

/// What is timed.
#[derive(Clone, Copy, PartialEq)]
enum Work {
    Save,
    Open,
}

/// The plan of so many nodes: t 1 and b 1, or of sixteen nodes t 3 and b 1.
fn plan(n: usize) -> Outcome<(&'static str, usize)> {
    match n {
        5 => Ok(("t 1\nb 1\nQ 3\nm 2", 2)),
        16 => Ok(("t 3\nb 1\nQ 12\nm 8", 8)),
        _ => Err("N is 5 or 16".to_string()),
    }
}

/// One operation, which must be done.
fn once(client: &mut Client, work: Work, block: &[u8]) -> Outcome<()> {
    let done = match work {
        Work::Save => client.save(block, WITHIN).map(|came| matches!(came, Saved::Done(_))),
        Work::Open => client.open(WITHIN).map(|came| matches!(came, Opened::Done(..) | Opened::NeverWritten)),
    };
    done.map_err(|fault| fault.line)?.then_some(()).ok_or("an operation was not done".to_string())
}

/// So many operations by each client, all at once, once all have their channels; operations a second.
fn paced(files: &[PathBuf], work: Work, each: usize, block: &[u8]) -> Outcome<f64> {
    let start = Barrier::new(files.len() + 1);
    thread::scope(|scope| {
        let start = &start;
        let one = |file: &'_ PathBuf| {
            let file = file.clone();
            scope.spawn(move || {
                let client = Client::new(&file).map_err(|fault| fault.line);
                let ready = client.and_then(|mut client| once(&mut client, Work::Open, block).map(|()| client));
                start.wait();
                let mut client = ready?;
                let done = (0..each).try_for_each(|_| once(&mut client, work, block));
                let ended = Instant::now();
                client.end();
                done.map(|()| ended)
            })
        };
        let clients: Vec<_> = files.iter().map(one).collect();
        start.wait();
        let begun = Instant::now();
        let came: Vec<Outcome<Instant>> =
            clients.into_iter().map(|one| one.join().expect("no client panics")).collect();
        let ended = came.into_iter().collect::<Outcome<Vec<Instant>>>()?.into_iter().max().unwrap_or(begun);
        Ok((files.len() * each) as f64 / ended.duration_since(begun).as_secs_f64())
    })
}

fn all(program: &Path, folder: &Path, n: usize, clients: usize, keeper: &[String]) -> Outcome<String> {
    let (values, m) = plan(n)?;
    let text = format!("N {n}\n{values}\nF {FRAGMENT}\nmember repairable\nclients crash\nW 16\n");
    let place = folder.join("site");
    let make = if keeper.is_empty() { Site::new } else { Site::made };
    let mut site = make(program, &place, n, FRAGMENT, &text)?;
    let file = |client| if keeper.is_empty() { site.file(client) } else { site.file_of_keepers(keeper) };
    let files: Vec<PathBuf> = (0..clients).map(file).collect::<Outcome<_>>()?;
    // The most saves that a book has room for, up to 288, so that all clients make as many.
    let each = ((65_536 - 11) / site.record).min(288) / clients;
    let block = vec![7; m * FRAGMENT];
    let saves = paced(&files, Work::Save, each, &block)?;
    let opens = paced(&files, Work::Open, each, &block)?;
    let mut stores = (each * clients) as u64;
    if keeper.is_empty() {
        (0..n).try_for_each(|node| site.end(node))?;
        stores = (0..n).map(|node| site.stores(node)).collect::<Outcome<Vec<u64>>>()?.into_iter().max().unwrap_or(0);
    }
    let floor = floor(folder, n, stores).map_err(|error| format!("{}: {error}", folder.display()))?;
    let alone = (each * clients) as f64 / floor.as_secs_f64();
    Ok(format!("{saves:.1} {opens:.1} {} {stores} {alone:.1}", each * clients))
}

fn main() -> ExitCode {
    let words: Vec<String> = std::env::args().skip(1).collect();
    let number = |place: usize| words.get(place).and_then(|word| word.parse::<usize>().ok());
    let keeper = if words.get(3).is_some_and(|word| word == "keeper") { words[4..].to_vec() } else { Vec::new() };
    let clients = if keeper.is_empty() { number(3) } else { Some(1) };
    let (Some(n), Some(clients @ 1..=16)) = (number(2), clients) else {
        eprintln!("usage: pace SHEET FOLDER N CLIENTS, or pace SHEET FOLDER N keeper WORD..");
        return ExitCode::from(2);
    };
    match all(Path::new(&words[0]), Path::new(&words[1]), n, clients, &keeper) {
        Ok(line) => {
            println!("{line}");
            ExitCode::SUCCESS
        }
        Err(why) => {
            eprintln!("pace: {why}");
            ExitCode::FAILURE
        }
    }
}
