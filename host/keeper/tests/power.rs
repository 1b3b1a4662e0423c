//! Power cuts, tried: what keepers ask of the system is taken down, and at each moment every disk is built that a cut may leave (`disk`). Each
//! must have a whole book with every record of a reply that was sent, and the next start must serve it.

use keeper_trials::disk::{calls, Left};
use keeper_trials::{acknowledged, each_frame, fed, fed_at_once, fed_in_turns, looks, plan, records, writes, Place};
use second::book::Book;
use std::collections::BTreeSet;
use std::fs;
use std::process::{Command, Output};
use std::thread;
use std::time::{Duration, Instant};

/// Room for nine records.
const BOOK: usize = 2048;

fn place(name: &str) -> (Place, Left) {
    let place = Place::in_memory(name);
    place.fresh_of(BOOK);
    let files = place.files();
    (place, files)
}

/// The time, two records, and the latest one.
fn requests() -> Vec<Vec<u8>> {
    each_frame(&[looks(), writes(&records(1, 2)), looks()].concat())
}

/// Requests that come in turns, or as one run.
type Fed = fn(Command, &[Vec<u8>]) -> Output;

fn in_turns(command: Command, parts: &[Vec<u8>]) -> Output {
    fed_in_turns(command, parts)
}

fn as_a_run(command: Command, parts: &[Vec<u8>]) -> Output {
    fed_at_once(command, &parts.concat())
}

/// How many calls a keeper makes that is not stopped.
fn calls_of(place: &Place, files: &Left, more: &[&str], give: Fed, input: &[Vec<u8>]) -> usize {
    place.set_files(files);
    give(place.traced(more, &[]), input);
    calls(&place.file("LOG")).len()
}

/// How many records the book of each disk holds.
fn held_in(disks: &BTreeSet<Left>) -> BTreeSet<usize> {
    let book = |left: &Left| Book::read(&plan(), &left["BOOK"].bytes).expect("a whole book");
    disks.iter().map(|left| book(left).records.len()).collect()
}

/// Each disk that a cut leaves is served by the next start: the time and the latest record are told, and one more record is stored.
fn all_served(place: &Place, disks: &BTreeSet<Left>) {
    for left in disks {
        place.set_files(left);
        let output = place.run(&["locked"], &[looks(), writes(&records(9, 1))].concat());
        assert_eq!(acknowledged(&output.stdout).len(), 1, "{output:?}");
    }
}

/// A keeper that is killed before each of its calls, and the next one, to which the client sends the same requests once more. How many records the
/// disks hold that a cut may leave.
fn killed_and_asked_again(more: &[&str], name: &str, give: Fed) -> BTreeSet<usize> {
    let (place, files) = place(name);
    let input = requests();
    let (mut disks, most) = (BTreeSet::new(), calls_of(&place, &files, more, give, &input));
    for n in 1..=most {
        place.set_files(&files);
        give(place.traced(more, &[("TRACE_KILL", n.to_string())]), &input);
        // Without the lock a keeper does not write where a BOOK.new was left.
        let stuck = more.is_empty() && place.file("BOOK.new").exists();
        let retry = if stuck { vec![looks()] } else { input.clone() };
        let output = give(place.traced(more, &[]), &retry);
        assert!(stuck || acknowledged(&output.stdout).len() == 2, "killed before call {n}: {output:?}");
        disks.extend(place.cut_everywhere(&files).unwrap_or_else(|why| panic!("killed before call {n}, {why}")));
    }
    all_served(&place, &disks);
    println!("{name}: {most} kills, {} disks", disks.len());
    held_in(&disks)
}

#[test]
fn with_the_lock() {
    assert_eq!(killed_and_asked_again(&["locked"], "cut-locked", in_turns), [0, 1, 2].into());
}

#[test]
fn without_the_lock() {
    assert_eq!(killed_and_asked_again(&[], "cut", in_turns), [0, 1, 2].into());
}

/// None or all of a run is on a disk, whenever the cut comes.
#[test]
fn a_run_with_the_lock() {
    assert_eq!(killed_and_asked_again(&["locked"], "cut-run-locked", as_a_run), [0, 2].into());
}

#[test]
fn a_run_without_the_lock() {
    assert_eq!(killed_and_asked_again(&[], "cut-run", as_a_run), [0, 2].into());
}

/// One keeper writes and is held up before each of its calls; meanwhile another tells what it reads.
fn a_reader_beside_a_writer(name: &str, give: Fed) {
    let (place, files) = place(name);
    let input = each_frame(&writes(&records(1, 2)));
    let most = calls_of(&place, &files, &[], give, &input);
    for n in 1..=most {
        place.set_files(&files);
        let writer = place.traced(&[], &[("TRACE_WAIT", n.to_string())]);
        let writer = thread::spawn({
            let input = input.clone();
            move || give(writer, &input)
        });
        let began = Instant::now();
        while !place.file("LOG.waits").exists() {
            assert!(began.elapsed() < Duration::from_secs(120), "the writer does not come to call {n}");
            thread::sleep(Duration::from_millis(1));
        }
        let reader = fed(place.traced(&[], &[]), &looks());
        assert!(!reader.stdout.is_empty(), "{reader:?}");
        fs::write(place.file("LOG.goes"), b"").expect("LOG.goes");
        let writer = writer.join().expect("its output");
        assert_eq!(acknowledged(&writer.stdout).len(), 2, "{writer:?}");
        place.cut_everywhere(&files).unwrap_or_else(|why| panic!("held up before call {n}, {why}"));
    }
}

#[test]
fn a_reader_beside_one_that_writes_in_turns() {
    a_reader_beside_a_writer("cut-beside", in_turns);
}

#[test]
fn a_reader_beside_one_that_writes_a_run() {
    a_reader_beside_a_writer("cut-beside-run", as_a_run);
}

/// Several at once, with their calls in the order that the machine gives.
#[test]
fn several_at_once() {
    let (place, files) = place("cut-several");
    let inputs: Vec<Vec<Vec<u8>>> =
        (0..4).map(|i| [each_frame(&writes(&records(1 + 2 * i, 2))), vec![looks()]].concat()).collect();
    let start = |input: &Vec<Vec<u8>>| {
        let (command, input) = (place.traced(&[], &[]), input.clone());
        thread::spawn(move || fed_in_turns(command, &input))
    };
    let running: Vec<_> = inputs.iter().map(start).collect();
    let told: usize = running.into_iter().map(|run| acknowledged(&run.join().expect("its output").stdout).len()).sum();
    assert_eq!(told, 8);
    place.cut_everywhere(&files).unwrap_or_else(|why| panic!("{why}"));
}
