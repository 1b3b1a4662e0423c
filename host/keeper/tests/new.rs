//! `keeper PLAN BOOK new NODE BYTES` makes a book only where nothing has its name: what cannot be opened is not missing.

use keeper_trials::{fed, one_line, records, words, writes, Place, BOOK, NODE};
use std::fs;
use std::os::unix::fs::{symlink, PermissionsExt};
use std::os::unix::process::CommandExt;
use std::path::Path;
use std::process::{Command, Output};

fn make() -> [String; 3] {
    ["new".to_string(), NODE.to_string(), BOOK.to_string()]
}

fn new_book(place: &Place) -> Output {
    let words = make();
    place.run(&words.each_ref().map(String::as_str), b"")
}

/// A book that holds a record.
fn with_a_record(name: &str) -> (Place, Vec<u8>) {
    let place = Place::new(name);
    place.fresh();
    place.run(&[], &writes(&records(1, 1)));
    assert_eq!(place.held().len(), 1);
    let book = fs::read(place.file("BOOK")).expect("BOOK");
    (place, book)
}

#[test]
fn makes_one() {
    let place = Place::new("makes");
    let output = new_book(&place);
    assert_eq!(output.stdout, b"made\n");
    assert!(place.held().is_empty());
    assert!(!place.file("BOOK.new").exists());
}

#[test]
fn leaves_one_that_is_there() {
    let (place, book) = with_a_record("there");
    let output = new_book(&place);
    assert!(output.stdout.is_empty() && one_line(&output, Path::new("BOOK")), "{output:?}");
    assert_eq!(fs::read(place.file("BOOK")).expect("BOOK"), book);
    assert!(!place.file("BOOK.new").exists());
}

/// The place that a link names is not there, as where a disk is not mounted.
#[test]
fn leaves_a_link_to_nothing() {
    let place = Place::new("link");
    symlink("disk/BOOK", place.file("BOOK")).expect("a link");
    let output = new_book(&place);
    assert!(output.stdout.is_empty() && one_line(&output, Path::new("BOOK")), "{output:?}");
    assert!(fs::symlink_metadata(place.file("BOOK")).expect("BOOK").is_symlink());
}

/// Another user may make files in the folder, and may not read the book.
#[test]
fn leaves_one_that_may_not_be_read() {
    let (place, book) = with_a_record("unread");
    let set = |path: &Path, mode| fs::set_permissions(path, fs::Permissions::from_mode(mode)).expect("a mode");
    set(&place.folder, 0o777);
    set(&place.file("PLAN"), 0o644);
    set(&place.file("BOOK"), 0o000);
    let mut command = place.keeper(&make().each_ref().map(String::as_str));
    // The superuser reads everything.
    if fs::read(place.file("BOOK")).is_ok() {
        command.uid(65534).gid(65534);
    }
    let output = command.output().expect("keeper");
    assert!(output.stdout.is_empty(), "{output:?}");
    set(&place.file("BOOK"), 0o600);
    assert_eq!(fs::read(place.file("BOOK")).expect("BOOK"), book);
}

/// One descriptor is left beside the three of the pipes.
#[test]
fn leaves_one_where_no_descriptor_is_free() {
    let words = words();
    if words.len() > 1 {
        return; // an emulator needs descriptors of its own
    }
    let (place, book) = with_a_record("descriptors");
    let mut command = Command::new("sh");
    command.args(["-c", "ulimit -n 4; exec \"$@\"", "sh"]).args(&words).args(["PLAN", "BOOK"]).args(make());
    let output = command.current_dir(&place.folder).output().expect("keeper");
    assert!(output.stdout.is_empty(), "{output:?}");
    assert_eq!(fs::read(place.file("BOOK")).expect("BOOK"), book);
}

/// No descriptor is free at one of the opens, whichever it is: what cannot be opened is not missing.
#[test]
fn leaves_one_whichever_open_fails() {
    let (place, book) = with_a_record("opens");
    for n in 1..=4 {
        let words = make();
        let set = [("TRACE_FAIL", format!("open.{n}.24"))];
        let output = fed(place.traced(&words.each_ref().map(String::as_str), &set), b"");
        assert!(output.stdout.is_empty() && !output.stderr.is_empty(), "open {n}: {output:?}");
        assert_eq!(fs::read(place.file("BOOK")).expect("BOOK"), book, "open {n}");
    }
}
