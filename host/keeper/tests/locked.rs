//! Stops of every kind: a keeper that was killed leaves a BOOK.new, and one that is told that it holds the lock goes on; one that is not
//! told never guesses. What was acknowledged is held.

use keeper_trials::{acknowledged, each_frame, records, writes, Place};
use second::frame::HEADER;
use second::random::Random;
use std::collections::BTreeSet;
use std::fs;
use std::io::{Read, Write};
use std::path::Path;
use std::process::{Child, ChildStdin, Command, Stdio};
use std::sync::atomic::{AtomicUsize, Ordering};
use std::sync::Arc;
use std::thread::{self, JoinHandle};
use std::time::{Duration, Instant};

/// The bytes of a write's reply.
const REPLY: usize = HEADER + 40;

/// host/keeper-locked PLAN BOOK.
fn locked(place: &Place) -> Command {
    let mut command = Command::new(Path::new(env!("CARGO_MANIFEST_DIR")).join("../keeper-locked"));
    command.args(["PLAN", "BOOK"]).current_dir(&place.folder);
    command.stdin(Stdio::piped()).stdout(Stdio::piped()).stderr(Stdio::piped());
    command
}

/// A keeper with requests under way, and what it writes.
struct Running {
    child: Child,
    output: JoinHandle<Vec<u8>>,
    told: Arc<AtomicUsize>,
}

fn begin(mut command: Command) -> (Running, ChildStdin) {
    let mut child = command.spawn().expect("keeper");
    let to = child.stdin.take().expect("piped");
    let mut from = child.stdout.take().expect("piped");
    let told = Arc::new(AtomicUsize::new(0));
    let so_far = told.clone();
    let output = thread::spawn(move || {
        let (mut bytes, mut part) = (Vec::new(), [0; 4096]);
        while let Ok(n @ 1..) = from.read(&mut part) {
            bytes.extend_from_slice(&part[..n]);
            so_far.store(bytes.len(), Ordering::SeqCst);
        }
        so_far.store(usize::MAX, Ordering::SeqCst);
        bytes
    });
    (Running { child, output, told }, to)
}

/// Its input ends after these writes, each of which is sent after the reply to the one before.
fn start(command: Command, parts: Vec<Vec<u8>>) -> Running {
    let (running, to) = begin(command);
    feed(to, running.told.clone(), parts);
    running
}

/// The first now, the others each after the reply to the one before. The input is left open for who takes it.
fn feed(mut to: ChildStdin, told: Arc<AtomicUsize>, parts: Vec<Vec<u8>>) -> JoinHandle<ChildStdin> {
    thread::spawn(move || {
        for (i, part) in parts.iter().enumerate() {
            while told.load(Ordering::SeqCst) < i * REPLY {
                thread::sleep(Duration::from_micros(200));
            }
            // A keeper that was killed takes nothing more.
            let _ = to.write_all(part);
        }
        to
    })
}

impl Running {
    fn ended(mut self) -> BTreeSet<[u8; 40]> {
        let mut lines = String::new();
        self.child.stderr.take().expect("piped").read_to_string(&mut lines).expect("its lines");
        print!("{lines}");
        let _ = self.child.wait();
        acknowledged(&self.output.join().expect("its output"))
    }

    /// Killed so long after so many replies, with requests left and its input open, so that it is at work; whether it was running.
    fn killed(mut self, replies: usize, after: Duration) -> (bool, BTreeSet<[u8; 40]>) {
        let began = Instant::now();
        while self.told.load(Ordering::SeqCst) < replies * REPLY {
            assert!(began.elapsed() < Duration::from_secs(120), "no reply for two minutes");
            thread::sleep(Duration::from_micros(200));
        }
        thread::sleep(after);
        let running = self.child.try_wait().expect("a state").is_none();
        let _ = self.child.kill();
        (running, self.ended())
    }
}

#[test]
fn told_of_the_lock_it_takes_away_what_a_crash_left() {
    let place = Place::new("over");
    place.fresh();
    fs::write(place.file("BOOK.new"), [7; 70_000]).expect("BOOK.new");
    let output = place.run(&["locked"], &writes(&records(1, 2)));
    assert_eq!(acknowledged(&output.stdout).len(), 2, "{output:?}");
    assert_eq!(acknowledged(&output.stdout), place.held());
    assert!(!place.file("BOOK.new").exists());
}

/// A crash within rename may leave the book under both names.
#[test]
fn a_second_name_of_the_book_is_no_new_book() {
    let place = Place::new("twin");
    place.fresh();
    place.run(&["locked"], &writes(&records(1, 1)));
    fs::hard_link(place.file("BOOK"), place.file("BOOK.new")).expect("a second name");
    let output = place.run(&["locked"], &writes(&records(2, 1)));
    assert_eq!(acknowledged(&output.stdout).len(), 1, "{output:?}");
    assert_eq!(place.held().len(), 2);
}

#[test]
fn not_told_it_never_guesses() {
    let place = Place::new("guess");
    place.fresh();
    fs::write(place.file("BOOK.new"), b"another's").expect("BOOK.new");
    let output = place.run(&[], &writes(&records(1, 1)));
    assert!(output.stdout.is_empty() && output.stderr.starts_with(b"BOOK.new: "), "{output:?}");
    assert!(place.held().is_empty());
    assert_eq!(fs::read(place.file("BOOK.new")).expect("BOOK.new"), b"another's");
}

#[test]
fn another_word_is_no_lock() {
    let place = Place::new("word");
    place.fresh();
    let output = place.run(&["lock"], &writes(&records(1, 1)));
    assert!(output.stdout.is_empty() && output.stderr.starts_with(b"usage: "), "{output:?}");
}

/// Several at once, by the lock and not by it. In memory: where the disk keeps one waiting for five seconds, the others without the lock give up.
#[test]
fn several_lose_nothing() {
    for by_lock in [true, false] {
        let place = Place::in_memory(if by_lock { "several-locked" } else { "several" });
        place.fresh();
        let command = || if by_lock { locked(&place) } else { place.keeper(&[]) };
        let running: Vec<Running> =
            (0..4).map(|i| start(command(), each_frame(&writes(&records(1 + 10 * i, 10))))).collect();
        let told: Vec<BTreeSet<[u8; 40]>> = running.into_iter().map(Running::ended).collect();
        assert_eq!(told.iter().map(BTreeSet::len).sum::<usize>(), 40, "by the lock: {by_lock}");
        assert_eq!(told.into_iter().flatten().collect::<BTreeSet<_>>(), place.held());
    }
}

/// After each kill the next start writes at once, and all that was ever acknowledged is held.
#[test]
fn after_a_kill_the_next_start_writes() {
    let place = Place::new("kills");
    place.fresh();
    let mut random = Random::new(1);
    let (mut told, mut left) = (BTreeSet::new(), 0);
    for i in 0..12 {
        let (running, to) = begin(locked(&place));
        // By turns one after another, and one and then ten at once.
        let mut parts = each_frame(&writes(&records(1 + 12 * i, 11)));
        let mut replies = random.within(0, 10);
        if i % 2 == 1 {
            parts = vec![parts[0].clone(), parts[1..].concat()];
            replies = 1;
        }
        let open = feed(to, running.told.clone(), parts);
        let after = Duration::from_micros(100 * random.within(0, 40) as u64);
        let (running, before) = running.killed(replies, after);
        assert!(running, "kill {i} met no running keeper");
        drop(open.join().expect("its input"));
        left += usize::from(place.file("BOOK.new").exists());
        told.extend(before);
        let next = start(locked(&place), each_frame(&writes(&records(12 + 12 * i, 1)))).ended();
        assert_eq!(next.len(), 1, "the start after kill {i} did not write");
        told.extend(next);
        assert!(told.is_subset(&place.held()), "kill {i} lost a record that was acknowledged");
    }
    println!("12 kills, {left} left a BOOK.new");
}
