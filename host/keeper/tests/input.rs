//! What is not a clean end of the input is told.

use keeper_trials::{acknowledged, records, writes, Place};
use std::io::{Read, Write};
use std::os::fd::OwnedFd;
use std::os::unix::net::UnixStream;
use std::process::Stdio;

/// Standard input that does not wait: the first read fails, and that is no end.
#[test]
fn an_input_that_cannot_be_read_is_told() {
    let place = Place::new("input");
    place.fresh();
    let (ours, its) = UnixStream::pair().expect("a pair");
    its.set_nonblocking(true).expect("a mode");
    let output = place.keeper(&[]).stdin(Stdio::from(OwnedFd::from(its))).output().expect("keeper");
    assert!(output.stderr.starts_with(b"standard input: "), "{output:?}");
    drop(ours);
}

#[test]
fn a_clean_end_is_silent() {
    let place = Place::new("end");
    place.fresh();
    let output = place.run(&[], &writes(&records(1, 1)));
    assert!(output.stderr.is_empty() && acknowledged(&output.stdout).len() == 1, "{output:?}");
}

#[test]
fn a_frame_that_is_cut_off_is_told() {
    let place = Place::new("cut");
    place.fresh();
    let input = writes(&records(1, 2));
    let output = place.run(&[], &input[..input.len() - 1]);
    assert_eq!(output.stderr, b"the input ends within a frame, which is dropped\n");
    assert_eq!(acknowledged(&output.stdout).len(), 1);
}

/// A client that goes away before its reply: keeper ends, and the record is held.
#[test]
fn a_reply_that_nobody_takes() {
    let place = Place::new("gone");
    place.fresh();
    let (mut ours, its) = UnixStream::pair().expect("a pair");
    let copy = its.try_clone().expect("a second");
    let mut child = place.keeper(&[]);
    child.stdin(Stdio::from(OwnedFd::from(its))).stdout(Stdio::from(OwnedFd::from(copy)));
    let mut child = child.spawn().expect("keeper");
    ours.write_all(&writes(&records(1, 1))).expect("sent");
    let mut first = [0; 1];
    ours.read_exact(&mut first).expect("a reply");
    drop(ours);
    child.wait().expect("its end");
    assert_eq!(place.held().len(), 1);
}
