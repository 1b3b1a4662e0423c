//! The trial in which nodes are killed: clients save and open one block over the processes of `sheet serve`, and up to t of them are killed by SIGKILL at
//! any moment and started again. A run has fresh books, which have room for its saves, and at most as many calls as the checker of histories takes.
//!
//!     kills SHEET FOLDER SAVES [SEED]
//!
//! SHEET is the program, FOLDER is there and empty. What is held against each run: the history is a register's, and none of its copies in which an open
//! is made stale is; each save that was acknowledged lies in N-t books or more, whatever was killed; an open that began after it has a
//! timestamp at least as great; the last open, in calm, has the block of a save.

mod clients;
mod held;

use clients::Shared;
use faults::histories;
use faults::register::Outcome as Came;
use held::{count, kept, register, Counts};
use loopback::{Outcome, Site};
use second::random::Random;
use sheet::Client;
use std::path::{Path, PathBuf};
use std::process::ExitCode;
use std::sync::atomic::{AtomicBool, Ordering};
use std::thread;
use std::time::{Duration, Instant};

/// The saves of one run, and its clients.
const SAVES: usize = 50;
const CLIENTS: usize = 4;

/// Five nodes, of which one may be lost and lie, or two may be lost: t, F and the text. A block has 16 bytes.
const PLANS: [(usize, usize, &str); 2] = [
    (1, 8, "N 5\nt 1\nb 1\nQ 3\nm 2\nF 8\nmember repairable\nclients crash\nW 16\n"),
    (2, 16, "N 5\nt 2\nb 0\nQ 3\nm 1\nF 16\nmember repairable\nclients crash\nW 16\n"),
];

/// Kills up to t nodes and starts them again, until the clients are done. How many it killed.
fn trouble(site: &mut Site, t: usize, done: &AtomicBool, random: &mut Random) -> Outcome<usize> {
    let mut kills = 0;
    while !done.load(Ordering::SeqCst) {
        thread::sleep(Duration::from_micros(random.below(20_000) as u64));
        let many = random.within(1, t);
        let mut nodes: Vec<usize> = (0..site.nodes()).collect();
        let chosen: Vec<usize> = (0..many).map(|_| nodes.remove(random.below(nodes.len()))).collect();
        for node in &chosen {
            site.kill(*node);
            thread::sleep(Duration::from_micros(random.below(20_000) as u64));
        }
        kills += many;
        thread::sleep(Duration::from_micros(random.below(40_000) as u64));
        chosen.iter().try_for_each(|node| site.start(*node))?;
    }
    Ok(kills)
}

/// All clients at work, and nodes killed meanwhile. How many were.
fn troubled(site: &mut Site, t: usize, files: &[PathBuf], shared: &Shared, random: &mut Random) -> Outcome<usize> {
    let done = &AtomicBool::new(false);
    let mut own = Random::new(random.number());
    thread::scope(|scope| {
        let mut work = |file: &'_ PathBuf| {
            let (random, file) = (Random::new(random.number()), file.clone());
            scope.spawn(move || shared.work(&file, random))
        };
        let clients: Vec<_> = files.iter().map(&mut work).collect();
        let killer = scope.spawn(move || trouble(site, t, done, &mut own));
        let came: Vec<Outcome<()>> = clients.into_iter().map(|one| one.join().expect("no client panics")).collect();
        done.store(true, Ordering::SeqCst);
        let kills = killer.join().expect("the killer does not panic")?;
        came.into_iter().collect::<Outcome<Vec<()>>>().map(|_| kills)
    })
}

/// One run with fresh books: so many saves at most.
fn run(program: &Path, folder: &Path, most_saves: usize, seed: u64, counts: &mut Counts) -> Outcome<()> {
    let (t, fragment, plan) = PLANS[counts.runs % PLANS.len()];
    let mut site = Site::new(program, folder, 5, fragment, plan)?;
    let shared = Shared::new(most_saves);
    let files: Vec<_> = (0..=CLIENTS).map(|client| site.file(client)).collect::<Outcome<_>>()?;
    counts.kills += troubled(&mut site, t, &files[..CLIENTS], &shared, &mut Random::new(seed))?;
    let mut calm = Client::new(&files[CLIENTS]).map_err(|fault| fault.line)?;
    shared.open(&mut calm)?;
    calm.end();
    (0..site.nodes()).try_for_each(|node| site.end(node))?;
    let taken = shared.taken();
    let last = taken.last().map(|taken| taken.call.outcome);
    if !matches!(last, Some(Came::Opened(Some(_)))) {
        return Err(format!("in calm the last open gives {last:?}"));
    }
    register(&taken, counts)?;
    kept(&taken, &site, t)?;
    count(&taken, counts);
    counts.runs += 1;
    Ok(())
}

fn all(program: &Path, folder: &Path, saves: usize, seed: u64) -> Outcome<()> {
    let begun = Instant::now();
    let mut counts = Counts::default();
    histories::test_of_the_checker()?;
    while counts.saved + counts.given_up < saves {
        let most = SAVES.min(saves - counts.saved - counts.given_up);
        let (place, own) = (folder.join(format!("run-{}", counts.runs)), seed ^ (counts.runs as u64) << 32);
        run(program, &place, most, own, &mut counts).map_err(|why| format!("run {}: {why}", counts.runs))?;
    }
    let Counts { runs, saved, given_up, opened, never, without, kills, good, stale, unjudged } = counts;
    println!(
        "kills: {saved} saves acknowledged and {given_up} given up, {opened} opens with a block, \
         {never} before the first save and {without} given up or without a value, in {runs} runs; \
         {kills} nodes killed and started again; none acknowledged is lost; {good} histories are a register's, \
         {stale} stale copies of them are not, {unjudged} were not judged; {} s",
        begun.elapsed().as_secs()
    );
    let enough = kills >= saves / 20 && saved >= saves - saves / 10 && stale >= saves / 10;
    enough.then_some(()).ok_or("too little happened".to_string())
}

fn main() -> ExitCode {
    let words: Vec<String> = std::env::args().skip(1).collect();
    let number = |place: usize| words.get(place).and_then(|word| word.parse::<u64>().ok());
    let (Some(saves), 3..=4) = (number(2), words.len()) else {
        eprintln!("usage: kills SHEET FOLDER SAVES [SEED]");
        return ExitCode::from(2);
    };
    match all(Path::new(&words[0]), Path::new(&words[1]), saves as usize, number(3).unwrap_or(1)) {
        Ok(()) => ExitCode::SUCCESS,
        Err(why) => {
            eprintln!("kills: {why}");
            ExitCode::FAILURE
        }
    }
}
