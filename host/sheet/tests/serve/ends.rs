//! How a server ends and what it leaves: by SIGTERM, by SIGKILL, by the book; and what it counts.

use crate::node::{ask, hear, serve, until, Node};
use keeper_trials::{acknowledged, fed, fed_at_once, looks, records, replies, writes, Place};
use std::collections::BTreeSet;
use std::fs;
use std::io::{Read, Write};
use std::thread::{self, JoinHandle};
use std::time::Duration;

type Stamps = BTreeSet<[u8; 40]>;

/// A client that writes these records one after the other, and then once more, until it is cut off: what was acknowledged.
fn writer(node: &Node, first: u64, count: u64) -> JoinHandle<Stamps> {
    let mut stream = node.connect();
    thread::spawn(move || {
        let (mut told, own) = (Stamps::new(), records(first, count));
        for record in own.iter().cycle() {
            let mut reply = [0; 55];
            let sent = stream.write_all(&writes(std::slice::from_ref(record)));
            if sent.and_then(|()| stream.read_exact(&mut reply)).is_err() {
                break;
            }
            told.extend(acknowledged(&reply));
        }
        told
    })
}

/// Four clients write and the server ends in the middle, again and again: what was acknowledged is in the book that the next one serves.
fn ended_in_the_middle(name: &str, signal: &str, code: Option<i32>) {
    let place = Place::new(name);
    place.fresh();
    let mut told = Stamps::new();
    for round in 0..5 {
        let mut node = Node::start(&place, &[]);
        let writers: Vec<_> = (0..4).map(|i| writer(&node, 1 + 60 * round + 15 * i, 15)).collect();
        until("it writes", || place.held().len() > 60 * round as usize + 2);
        thread::sleep(Duration::from_millis(round));
        node.signal(signal);
        assert_eq!(node.code(), code);
        let new: Stamps = writers.into_iter().flat_map(|writer| writer.join().expect("its end")).collect();
        told.extend(new);
        let held = place.held();
        assert!(told.is_subset(&held), "round {round}: {} of {} are held", held.len(), told.len());
    }
    let output = fed(serve(&place, &[]), &looks());
    assert_eq!((replies(&output.stdout), output.status.code()), (2, Some(0)));
}

#[test]
fn by_sigterm_in_the_middle_of_writes() {
    ended_in_the_middle("serve-term", "TERM", Some(0));
}

#[test]
fn by_sigkill_in_the_middle_of_writes() {
    ended_in_the_middle("serve-kill", "KILL", None);
}

/// A server on standard input ends by SIGTERM and SIGINT too, while its input is open.
#[test]
fn by_signals_on_standard_input() {
    for signal in ["TERM", "INT"] {
        let place = Place::new(&format!("serve-standard-{signal}"));
        place.fresh();
        let mut child = serve(&place, &[]).spawn().expect("sheet");
        let (mut to, mut from) = (child.stdin.take().expect("piped"), child.stdout.take().expect("piped"));
        to.write_all(&writes(&records(1, 2))).expect("sent");
        assert_eq!(acknowledged(&hear(&mut from, 2)), place.held());
        let mut node = Node::around(child);
        node.signal(signal);
        assert_eq!(node.code(), Some(0));
    }
}

/// One on standard input has somebody there for as long as its channel is open.
#[test]
fn an_idle_stop_on_standard_input() {
    let place = Place::new("serve-standard-stop");
    place.fresh();
    let mut child = serve(&place, &["--idle-stop", "1"]).spawn().expect("sheet");
    let (mut to, mut from) = (child.stdin.take().expect("piped"), child.stdout.take().expect("piped"));
    thread::sleep(Duration::from_millis(2500));
    to.write_all(&looks()).expect("sent");
    assert_eq!(replies(&hear(&mut from, 2)), 2);
    drop(to);
    assert_eq!(child.wait().expect("its end").code(), Some(0));
}

/// What the counters say under this name.
fn counted(text: &str, name: &str) -> u64 {
    let field = text.split([',', ':']).map(str::trim).find_map(|field| field.strip_prefix(&format!("{name} ")));
    field.unwrap_or_else(|| panic!("{name}: {text}")).trim().parse().expect("a number")
}

/// All that waits is one run, one store and two fsyncs, besides those of the start.
#[test]
fn one_run_is_stored_once() {
    let place = Place::new("serve-one-run");
    place.fresh();
    let output = fed_at_once(serve(&place, &["--counters", "COUNTED"]), &writes(&records(1, 200)));
    assert_eq!((acknowledged(&output.stdout).len(), output.stderr), (200, Vec::new()));
    let text = fs::read_to_string(place.file("COUNTED")).expect("the counters");
    let counts = ["write", "accepted", "runs", "stores", "fsyncs", "connections"].map(|name| counted(&text, name));
    assert_eq!(counts, [200, 200, 1, 1, 4, 1]);
}

#[test]
fn counters_that_are_asked_for() {
    let place = Place::new("serve-counters");
    place.fresh();
    let mut node = Node::start(&place, &["--counters", "COUNTED"]);
    let mut stream = node.connect();
    ask(&mut stream, &[writes(&records(1, 3)), looks()].concat());
    let mut damaged = writes(&records(4, 1));
    *damaged.last_mut().expect("a byte") ^= 1;
    // The refused one comes last: where its line stands, all are counted.
    stream.write_all(&[looks(), damaged].concat()).expect("sent");
    hear(&mut stream, 2);
    until("the last is logged", || node.says("refused 6"));
    node.signal("USR1");
    until("they are told", || node.says("counters: "));
    let line = node.line("counters: ");
    let names = ["write", "time", "latest", "accepted", "refused_6", "open", "connections"];
    assert_eq!(names.map(|name| counted(&line, name)), [4, 2, 2, 7, 1, 1, 1], "{line}");
    let text = fs::read_to_string(place.file("COUNTED")).expect("the counters");
    assert!(line.ends_with(text.trim_end()), "{text}");
    drop(stream);
    node.signal("TERM");
    assert_eq!(node.code(), Some(0));
}

/// The same as objects, a line each.
#[test]
fn lines_as_objects() {
    let place = Place::new("serve-json");
    place.fresh();
    let mut node = Node::start(&place, &["--json", "--counters", "COUNTED"]);
    let mut damaged = writes(&records(2, 1));
    *damaged.last_mut().expect("a byte") ^= 1;
    let mut stream = node.connect();
    let from = stream.local_addr().expect("its address");
    stream.write_all(&[writes(&records(1, 1)), damaged, looks()].concat()).expect("sent");
    hear(&mut stream, 3);
    until("the last is logged", || node.says("\"answer\":6"));
    let request =
        format!("{{\"event\":\"request\",\"node\":3,\"from\":\"{from}\",\"kind\":\"write\",\"for\":3,\"ask\":1,");
    assert!(node.line("\"answer\":0").starts_with(&request), "{:?}", node.lines());
    assert!(node.line("\"answer\":6").starts_with(&request), "{:?}", node.lines());
    assert!(node.says("\"words\":\"refused 6: a hash check fails\"}"), "{:?}", node.lines());
    node.signal("TERM");
    assert_eq!(node.code(), Some(0));
    until("it tells its end", || node.says("{\"code\":0,\"outcome\":\"done\",\"notes\":[]}"));
    let text = fs::read_to_string(place.file("COUNTED")).expect("the counters");
    assert!(text.starts_with("{\"time\":1,\"write\":2,\"latest\":1,"), "{text}");
}
