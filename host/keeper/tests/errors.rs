//! Errors of the system, injected: each open, read, write, fsync and rename of a save fails once, with each of five reasons, and a write may take
//! half of its bytes. Nothing acknowledged is lost, by a power cut either; one line says what failed; the next start works.

use keeper_trials::disk::{calls, Disk, Left};
use keeper_trials::{each_frame, fed, fed_at_once, fed_in_turns, looks, plan, records, replies, writes, Place, TEXT};
use second::book::Book;
use std::fs;
use std::process::Output;

/// ENOSPC, EIO, EINTR, EMFILE, EROFS.
const ALL: &[u32] = &[28, 5, 4, 24, 30];

/// The calls, and the reasons for which they fail.
const CALLS: [(&str, &[u32]); 5] = [("open", ALL), ("read", &[5, 4]), ("write", ALL), ("fsync", ALL), ("rename", ALL)];

const BOOK: usize = 2048;

/// How requests come: in parts, each after the replies of the one before, or all at once.
#[derive(Clone, Copy)]
enum Come {
    InTurns,
    AtOnce,
}

/// The place as it was, with no calls taken down, and then a program with one call that fails. Whether that call was made.
fn with_a_fault(
    place: &Place,
    files: &Left,
    more: &[&str],
    set: (&str, String),
    come: Come,
    parts: &[Vec<u8>],
) -> (bool, Output) {
    place.set_files(files);
    let command = place.traced(more, &[set]);
    let output = match come {
        Come::InTurns => fed_in_turns(command, parts),
        Come::AtOnce => fed_at_once(command, &parts.concat()),
    };
    (calls(&place.file("LOG")).iter().any(|call| call.name == "failed"), output)
}

/// Every n-th call with each of its reasons, until a run makes fewer such calls; how many faults that are.
fn every_fault(reasons: &[u32], mut trial: impl FnMut((&str, String), &str) -> bool) -> usize {
    let mut faults = 0;
    for (call, errors) in CALLS {
        for error in errors.iter().filter(|error| reasons.contains(error)) {
            let set = |n: usize| ("TRACE_FAIL", format!("{call}.{n}.{error}"));
            faults += (1..).take_while(|n| trial(set(*n), &format!("{call} {n} fails with {error}"))).count();
        }
    }
    faults
}

/// The lines that a keeper wrote, each of which says something.
fn lines(output: &Output) -> usize {
    let text = String::from_utf8_lossy(&output.stderr).into_owned();
    assert!(text.lines().all(|line| line.contains(": ")), "{text}");
    text.lines().count()
}

/// A save with a fault, and the next start, to which the client sends the same and more. Whether the fault was met.
fn a_save(place: &Place, files: &Left, more: &[&str], set: (&str, String), come: Come, what: &str) -> bool {
    let parts = each_frame(&[writes(&records(1, 1)), looks()].concat());
    let (met, first) = with_a_fault(place, files, more, set, come, &parts);
    // All three replies, or a line that says why not; that the input cannot be read any more is told in any case.
    assert!(
        lines(&first) <= usize::from(met) && (lines(&first) == 1 || replies(&first.stdout) == 3),
        "{what}: {first:?}"
    );
    assert!(!String::from_utf8_lossy(&first.stderr).contains("longer than"), "{what}: {first:?}");
    assert!(!place.file("BOOK.new").exists(), "{what}: BOOK.new was left");
    let next = fed(place.traced(more, &[]), &[writes(&records(1, 2)), looks()].concat());
    assert!(replies(&next.stdout) == 4 && next.stderr.is_empty(), "{what}, and then: {next:?}");
    place.cut_everywhere(files).unwrap_or_else(|why| panic!("{what}, {why}"));
    met
}

fn saves(name: &str, more: &[&str], reasons: &[u32], come: Come) {
    let place = Place::in_memory(name);
    place.fresh_of(BOOK);
    let files = place.files();
    let faults = every_fault(reasons, |set, what| a_save(&place, &files, more, set, come, what));
    assert!(faults >= 20 * reasons.len(), "{faults} faults");
    println!("{name}: {faults} faults");
}

#[test]
fn a_save_with_the_lock() {
    saves("errors-locked", &["locked"], ALL, Come::InTurns);
}

/// It differs but in how it comes to BOOK.new and when it waits for the disk: one reason is enough.
#[test]
fn a_save_without_the_lock() {
    saves("errors", &[], &[5], Come::InTurns);
}

/// The requests are one run: one reason is enough.
#[test]
fn a_run_with_the_lock() {
    saves("errors-run", &["locked"], &[5], Come::AtOnce);
}

#[test]
fn a_run_without_the_lock() {
    saves("errors-run-unlocked", &[], &[5], Come::AtOnce);
}

/// A write that takes half of its bytes is gone on with.
#[test]
fn half_a_write() {
    let place = Place::in_memory("errors-half");
    place.fresh_of(BOOK);
    let files = place.files();
    for (come, most) in [(Come::InTurns, 4), (Come::AtOnce, 2)] {
        for n in 1..=most {
            let set = ("TRACE_SHORT", n.to_string());
            let (_, output) =
                with_a_fault(&place, &files, &["locked"], set, come, &each_frame(&writes(&records(1, 2))));
            assert!(replies(&output.stdout) == 2 && output.stderr.is_empty(), "write {n} takes half: {output:?}");
            place.cut_everywhere(&files).unwrap_or_else(|why| panic!("write {n} takes half, {why}"));
        }
    }
}

/// A fresh book: made, or one line and none, so that the next `new` makes it; or one that is whole, whose name could not be waited for.
#[test]
fn a_fresh_book() {
    let place = Place::in_memory("errors-new");
    let files = place.files();
    let new = ["new", "3", "2048"];
    let faults = every_fault(&[28, 5], |set, what| {
        let (met, first) = with_a_fault(&place, &files, &new, set, Come::InTurns, &[]);
        assert_eq!(lines(&first), usize::from(first.stdout != b"made\n"), "{what}: {first:?}");
        if !place.file("BOOK").exists() {
            let next = place.run(&new, b"");
            assert_eq!(next.stdout, b"made\n", "{what}, and then: {next:?}");
        }
        assert!(place.held().is_empty() && !place.file("BOOK.new").exists(), "{what}");
        assert_eq!(fs::read_to_string(place.file("BOOK.plan")).expect("BOOK.plan"), TEXT, "{what}");
        met
    });
    assert!(faults >= 20, "{faults} faults");
    println!("a fresh book: {faults} faults");
}

/// A cut while a fresh book is made leaves none, an empty one that no keeper serves, or a whole one beside its plan; one that was told is whole.
#[test]
fn a_cut_in_a_fresh_book() {
    let place = Place::in_memory("errors-new-cut");
    let files = place.files();
    fed(place.traced(&["new", "3", "2048"], &[]), b"");
    let (mut disk, mut made) = (Disk::new(&place.folder, &files), false);
    for call in calls(&place.file("LOG")) {
        disk.make(&call);
        made = made || call.bytes == b"made\n";
        for left in disk.cuts() {
            let whole = left.get("BOOK").is_some_and(|book| !book.bytes.is_empty());
            assert!(whole || !made, "made, and lost");
            if whole {
                assert!(
                    Book::read(&plan(), &left["BOOK"].bytes).is_some_and(|book| book.records.is_empty()),
                    "not whole"
                );
                assert_eq!(left.get("BOOK.plan").map(|plan| plan.bytes.as_slice()), Some(TEXT.as_bytes()));
            }
        }
    }
    assert!(made);
}
