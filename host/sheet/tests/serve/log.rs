//! A log that is not read: it holds up nothing, and what it lacks is told when somebody reads it.

use crate::node::{ask, serve, until, Node};
use keeper_trials::{looks, records, replies, writes, Place};
use std::io::Read;
use std::process::ChildStderr;

/// A server whose log is read up to the line that says where it listens, and no further.
fn unread(place: &Place, words: &[&str]) -> (Node, ChildStderr) {
    let mut child = serve(place, &[&["--listen", "127.0.0.1:0"], words].concat()).spawn().expect("sheet");
    let mut errors = child.stderr.take().expect("piped");
    let (mut line, mut byte) = (String::new(), [0]);
    while !line.ends_with('\n') && errors.read(&mut byte).expect("a read") == 1 {
        line.push(byte[0] as char);
    }
    let mut node = Node::around(child);
    node.is_at(&line);
    (node, errors)
}

/// Requests with a line each, more than a pipe and the server's own queue have room for. How many they were.
fn fill(node: &Node) -> usize {
    let (some, mut stream) = (looks().repeat(500), node.connect());
    (0..30).map(|_| replies(&ask(&mut stream, &some))).sum()
}

/// Requests are answered, records stored, connections taken, and the server ends.
#[test]
fn it_is_never_read() {
    let place = Place::new("serve-unread");
    place.fresh();
    let (mut node, _errors) = unread(&place, &["--verbose"]);
    assert_eq!(fill(&node), 30_000);
    assert_eq!(replies(&ask(&mut node.connect(), &writes(&records(1, 3)))), 3);
    assert_eq!(place.held().len(), 3);
    node.signal("USR1");
    assert_eq!(replies(&ask(&mut node.connect(), &looks())), 2);
    node.signal("TERM");
    until("it ends", || node.child.try_wait().expect("its end").is_some());
    assert_eq!(node.code(), Some(0));
}

/// How many lines of requests were written, and how many lines were dropped by those that tell it.
fn told(lines: &[String]) -> (usize, usize) {
    let count = |line: &String| {
        let count = line.strip_prefix("{\"event\":\"dropped\",\"node\":3,\"lines\":")?;
        Some(count.trim_end_matches('}').parse::<usize>().expect("a number"))
    };
    let whole =
        |line: &&String| line.starts_with("{\"event\":\"request\"") && line.ends_with("\"words\":\"answered\"}");
    (lines.iter().filter(whole).count(), lines.iter().filter_map(count).sum())
}

/// Lines that were written and those that were dropped are all that there were; then it goes on, to its last line.
#[test]
fn it_is_read_at_last() {
    let place = Place::new("serve-read-at-last");
    place.fresh();
    let (mut node, errors) = unread(&place, &["--json", "--verbose"]);
    let asked = fill(&node);
    node.read(errors);
    until("all is told", || matches!(told(&node.lines()), (lines, dropped @ 1..) if lines + dropped >= asked));
    // One connection came and went, of which there are two lines.
    let (lines, dropped) = told(&node.lines());
    assert!(lines > 0 && lines + dropped <= asked + 2, "{lines} and {dropped} of {asked}");
    assert_eq!(replies(&ask(&mut node.connect(), &writes(&records(1, 1)))), 1);
    node.signal("TERM");
    assert_eq!(node.code(), Some(0));
    until("the last line", || node.says("{\"code\":0,\"outcome\":\"done\",\"notes\":[]}"));
    assert!(node.says("\"words\":\"acknowledged 1:"), "{:?}", node.lines().last());
}
