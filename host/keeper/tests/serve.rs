//! keeper and `sheet serve` keep one book after one another: each finds what the other acknowledged, and they keep apart by one lock.

use keeper_trials::{first_frame, looks, plan, records, writes, Place};
use second::wire;
use std::fs;
use std::io::{Read, Write};
use std::path::Path;
use std::process::{Child, Command, Output, Stdio};
use std::thread;
use std::time::Duration;

/// `sheet serve PLAN BOOK`; SHEET is the command, which host/try-keeper builds.
fn serve(place: &Place) -> Command {
    let mut command = Command::new(std::env::var("SHEET").expect("SHEET: the command sheet"));
    command.args(["serve", "PLAN", "BOOK", "--wait", "60"]);
    piped(command, place)
}

/// `host/keeper-locked PLAN BOOK`.
fn keeper(place: &Place) -> Command {
    let mut command = Command::new(Path::new(env!("CARGO_MANIFEST_DIR")).join("../keeper-locked"));
    command.args(["PLAN", "BOOK"]);
    piped(command, place)
}

fn piped(mut command: Command, place: &Place) -> Command {
    command.current_dir(&place.folder).stdin(Stdio::piped()).stdout(Stdio::piped()).stderr(Stdio::piped());
    command
}

/// Requests, and the end of the input.
fn end(mut child: Child, requests: &[u8]) -> Output {
    child.stdin.take().expect("piped").write_all(requests).expect("sent");
    child.wait_with_output().expect("its end")
}

/// What the second program answers.
fn singly(book: &mut [u8], mut input: &[u8]) -> Vec<u8> {
    let mut sent = Vec::new();
    while let Some(request) = first_frame(input) {
        let mut reply = vec![0; plan().frame_room()];
        assert_eq!(wire::node(&wire::plan_bytes(&plan()), &request, book, &mut reply), 0);
        sent.extend(first_frame(&reply).expect("a reply"));
        input = &input[request.len()..];
    }
    sent
}

#[test]
fn after_one_another() {
    let place = Place::new("one-another");
    assert_eq!(place.run(&["new", "3", "2048"], b"").stdout, b"made\n");
    let mut book = fs::read(place.file("BOOK")).expect("BOOK");
    for time in 1..=6 {
        let mut command = if time % 2 == 0 { serve(&place) } else { keeper(&place) };
        let requests = [looks(), writes(&records(time, 1)), looks()].concat();
        let output = end(command.spawn().expect("it starts"), &requests);
        assert_eq!(output.stdout, singly(&mut book, &requests), "{output:?}");
        assert!(output.stderr.is_empty(), "{output:?}");
        assert_eq!(fs::read(place.file("BOOK")).expect("BOOK"), book);
    }
}

/// The one that has the lock serves, and the other waits until it has ended.
#[test]
fn one_lock() {
    for (first, second) in [(serve as fn(&Place) -> Command, keeper as fn(&Place) -> Command), (keeper, serve)] {
        let place = Place::new("one-lock");
        place.fresh();
        let mut has = first(&place).spawn().expect("it starts");
        has.stdin.as_mut().expect("piped").write_all(&writes(&records(1, 1))).expect("sent");
        has.stdout.as_mut().expect("piped").read_exact(&mut [0; 55]).expect("a reply");
        let waits = second(&place).spawn().expect("it starts");
        let next = thread::spawn(move || end(waits, &looks()));
        thread::sleep(Duration::from_millis(200));
        assert!(!next.is_finished(), "two have the lock");
        has.stdin.as_mut().expect("piped").write_all(&writes(&records(2, 1))).expect("sent");
        has.stdout.as_mut().expect("piped").read_exact(&mut [0; 55]).expect("a reply");
        assert!(end(has, &[]).status.success());
        let output = next.join().expect("its end");
        let mut book = fs::read(place.file("BOOK")).expect("BOOK");
        assert_eq!((output.stdout, place.held().len()), (singly(&mut book, &looks()), 2));
    }
}
