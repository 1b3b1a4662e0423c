//! A book knows the plan that it was made with: BOOK.plan, which `new` leaves, has its text.

use keeper_trials::{acknowledged, looks, one_line, records, writes, Place, TEXT};
use std::fs;
use std::path::Path;

fn requests() -> Vec<u8> {
    [looks(), writes(&records(1, 1))].concat()
}

#[test]
fn new_leaves_the_plan() {
    let place = Place::new("plan-new");
    let output = place.run(&["new", "3", "2048"], b"");
    assert_eq!(output.stdout, b"made\n", "{output:?}");
    assert_eq!(fs::read_to_string(place.file("BOOK.plan")).expect("BOOK.plan"), TEXT);
    let output = place.run(&[], &requests());
    assert!(output.stderr.is_empty() && acknowledged(&output.stdout).len() == 1, "{output:?}");
}

/// One that was left by a book that is gone does not stand in the way.
#[test]
fn new_writes_over_a_plan_without_a_book() {
    let place = Place::new("plan-over");
    fs::write(place.file("BOOK.plan"), "another").expect("BOOK.plan");
    let output = place.run(&["new", "3", "2048"], b"");
    assert_eq!(output.stdout, b"made\n", "{output:?}");
    assert_eq!(fs::read_to_string(place.file("BOOK.plan")).expect("BOOK.plan"), TEXT);
}

/// The plan of a book that is there is left, and so is the book.
#[test]
fn new_leaves_what_is_there() {
    let place = Place::new("plan-there");
    place.fresh();
    fs::write(place.file("PLAN"), TEXT.replace("clients crash", "clients byzantine")).expect("PLAN");
    let output = place.run(&["new", "3", "2048"], b"");
    assert!(output.stdout.is_empty() && one_line(&output, Path::new("BOOK")), "{output:?}");
    assert_eq!(fs::read_to_string(place.file("BOOK.plan")).expect("BOOK.plan"), TEXT);
}

/// Each value but W, edited: one line that names it, and nothing is served, with the lock or without.
#[test]
fn an_edit_is_told_and_nothing_is_served() {
    let place = Place::new("plan-edit");
    place.fresh();
    let edits = [
        ("N 5", "N 6", "N"),
        ("t 1", "t 0", "t"),
        ("b 1", "b 0", "b"),
        ("Q 3", "Q 4", "Q"),
        ("m 2", "m 1", "m"),
        ("F 16", "F 32", "F"),
        ("member repairable", "member non-repair", "member"),
        ("clients crash", "clients byzantine", "clients"),
    ];
    for (was, is, name) in edits {
        fs::write(place.file("PLAN"), TEXT.replace(was, is)).expect("PLAN");
        for more in [&[] as &[&str], &["locked"]] {
            let output = place.run(more, &requests());
            let line =
                format!("PLAN: this is not the plan that the book was made with: {name} differs from BOOK.plan\n");
            assert_eq!(String::from_utf8_lossy(&output.stderr), line);
            assert!(output.stdout.is_empty(), "{output:?}");
        }
    }
    assert!(place.held().is_empty());
}

/// W is the reader's alone, and comments and blanks say nothing.
#[test]
fn what_is_no_edit() {
    let place = Place::new("plan-w");
    place.fresh();
    fs::write(place.file("PLAN"), format!("# node 3\n{}", TEXT.replace("W 16", "W  8"))).expect("PLAN");
    let output = place.run(&[], &requests());
    assert!(output.stderr.is_empty() && acknowledged(&output.stdout).len() == 1, "{output:?}");
}

/// Books made before have none: told, and served.
#[test]
fn a_book_without_a_plan_is_told_and_served() {
    let place = Place::new("plan-none");
    place.fresh();
    fs::remove_file(place.file("BOOK.plan")).expect("removed");
    let output = place.run(&[], &requests());
    assert!(one_line(&output, Path::new("BOOK.plan")) && acknowledged(&output.stdout).len() == 1, "{output:?}");
}

/// What cannot be read is not missing.
#[test]
fn one_that_is_no_plan_is_told_and_nothing_is_served() {
    let place = Place::new("plan-wrong");
    place.fresh();
    fs::write(place.file("BOOK.plan"), "N 5\n").expect("BOOK.plan");
    let output = place.run(&[], &requests());
    assert!(output.stdout.is_empty() && output.stderr.starts_with(b"BOOK.plan, line 1: "), "{output:?}");
    fs::remove_file(place.file("BOOK.plan")).expect("removed");
    fs::create_dir(place.file("BOOK.plan")).expect("a folder");
    let output = place.run(&[], &requests());
    assert!(output.stdout.is_empty() && one_line(&output, Path::new("BOOK.plan")), "{output:?}");
}
