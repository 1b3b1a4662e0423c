//! The requests that wait are one run: one BOOK.new, one fsync of it and one write of the replies, after it. A lone request is answered at once, and a
//! length that no request has ends the input at its place, however the bytes come.

use keeper_trials::disk::{calls, Call};
use keeper_trials::{
    acknowledged, fed, fed_at_once, first_frame, looks, more_of, plan, records, replies, writes, Place, NODE,
};
use second::craft;
use second::frame::Body;
use second::wire;
use std::fs;
use std::io::Write;
use std::os::fd::OwnedFd;
use std::os::unix::net::UnixStream;
use std::process::{Child, Command, Output, Stdio};
use std::thread;
use std::time::Duration;

/// The most requests of a run: 524,288 bytes of replies, by R+15 of the plan.
const MOST: usize = 524_288 / 231;

fn time_request() -> Vec<u8> {
    craft::frame(NODE, 1, Body::TimeRequest)
}

/// What the second program answers to these frames, one at a time: the replies, and the numbers of those that it refuses.
fn singly(book: &mut [u8], mut input: &[u8]) -> (Vec<u8>, Vec<u32>) {
    let (mut sent, mut refused) = (Vec::new(), Vec::new());
    while let Some(request) = first_frame(input) {
        let mut reply = vec![0; plan().frame_room()];
        match wire::node(&wire::plan_bytes(&plan()), &request, book, &mut reply) {
            0 => sent.extend(first_frame(&reply).expect("a reply")),
            number => refused.push(number),
        }
        input = &input[request.len()..];
    }
    (sent, refused)
}

/// The numbers of the lines `refused 6: ..`, which all are.
fn refused(output: &Output) -> Vec<u32> {
    let text = String::from_utf8_lossy(&output.stderr).into_owned();
    let number = |line: &str| line.strip_prefix("refused ")?.split(':').next()?.parse().ok();
    text.lines().map(|line| number(line).unwrap_or_else(|| panic!("{line}"))).collect()
}

fn count(made: &[Call], is: impl Fn(&Call) -> bool) -> usize {
    made.iter().filter(|call| is(call)).count()
}

/// One book is written and waited for, and then all replies go out by one call.
fn stored_once(place: &Place, fsyncs: usize) {
    let made = calls(&place.file("LOG"));
    let makes = |call: &Call| call.name == "open" && call.one.ends_with("BOOK.new");
    assert_eq!(count(&made, makes), 1);
    assert_eq!(count(&made, |call| call.name == "rename"), 1);
    assert_eq!(count(&made, |call| call.name == "fsync"), fsyncs);
    assert_eq!(count(&made, |call| call.name == "write" && call.number == 1), 1);
    let opened = made.iter().find(|call| makes(call)).expect("BOOK.new").answer;
    let own = |call: &Call| call.name == "fsync" && call.number == opened;
    let at = |is: &dyn Fn(&Call) -> bool| made.iter().position(is).expect("a call");
    let sent = at(&|call| call.name == "write" && call.number == 1);
    assert!(at(&own) < at(&|call| call.name == "rename"), "BOOK.new is on the disk before it has the name");
    assert!(made[sent..].iter().all(|call| call.name != "fsync" && call.name != "rename"), "a reply before the book");
}

/// Those of a fresh book: the same replies, refusals and book as from the second program one at a time.
fn as_singly(place: &Place, more: &[&str], input: &[u8]) -> Output {
    place.fresh();
    let mut book = fs::read(place.file("BOOK")).expect("BOOK");
    let output = fed_at_once(place.traced(more, &[]), input);
    let (sent, numbers) = singly(&mut book, input);
    assert_eq!(output.stdout, sent);
    assert_eq!(refused(&output), numbers);
    assert_eq!(fs::read(place.file("BOOK")).expect("BOOK"), book);
    output
}

/// An evening's writes: with the lock the book that was there is waited for once, at the start.
#[test]
fn three_hundred_writes_are_stored_once() {
    for (more, fsyncs) in [(&["locked"] as &[&str], 4), (&[], 2)] {
        let place = Place::in_memory("run-300");
        let output = as_singly(&place, more, &writes(&records(1, 300)));
        assert_eq!(acknowledged(&output.stdout).len(), 300);
        assert!(output.stderr.is_empty(), "{output:?}");
        stored_once(&place, fsyncs);
    }
}

/// The same out of a socket, whose other end stays open: all replies come.
#[test]
fn three_hundred_writes_wait_in_a_socket() {
    let place = Place::in_memory("run-socket");
    place.fresh();
    let (mut ours, its) = UnixStream::pair().expect("a pair");
    ours.write_all(&writes(&records(1, 300))).expect("sent, fewer bytes than a socket holds");
    let mut command = place.traced(&["locked"], &[]);
    command.stdin(Stdio::from(OwnedFd::from(its)));
    let mut child = command.spawn().expect("keeper");
    let (mut from, mut output) = (child.stdout.take().expect("piped"), Vec::new());
    while replies(&output) < 300 {
        assert!(more_of(&mut from, &mut output), "its output ended");
    }
    drop(ours);
    child.wait().expect("its end");
    assert_eq!(acknowledged(&output), place.held());
    stored_once(&place, 4);
}

/// Refused requests among others, too long and too short for their kind too: each has its line, none a reply, and the others are served.
#[test]
fn refused_requests_among_others() {
    let place = Place::in_memory("run-refused");
    let record = |time| writes(&records(time, 1));
    let mut other_hash = record(2);
    *other_hash.last_mut().expect("a byte") ^= 1;
    let mut other_node = time_request();
    other_node[6] = 1;
    let padded =
        |length: u32| [&length.to_be_bytes()[..], &time_request()[4..], &vec![0; length as usize - 11]].concat();
    let parts = [
        record(1),
        other_hash,
        looks(),
        other_node,
        padded(1587),
        record(3),
        padded(12),
        record(1),
        craft::frame(NODE, 1, Body::ReadPrevious(second::record::Timestamp::from_bytes(&[0; 40]))),
        looks(),
    ];
    let output = as_singly(&place, &["locked"], &parts.concat());
    assert_eq!(refused(&output), [6, 4, 4, 4, 5]);
    stored_once(&place, 4);
}

/// A run that asks for no write makes no BOOK.new, and one that is refused throughout sends nothing.
#[test]
fn runs_that_write_nothing() {
    let place = Place::in_memory("run-looks");
    as_singly(&place, &["locked"], &looks().repeat(100));
    let made = calls(&place.file("LOG"));
    assert_eq!(count(&made, |call| call.one.ends_with("BOOK.new")), 0);
    assert_eq!(count(&made, |call| call.name == "write"), 1);

    let place = Place::in_memory("run-nothing");
    let mut other_node = time_request();
    other_node[6] = 1;
    let output = as_singly(&place, &[], &other_node.repeat(3));
    assert_eq!((refused(&output), output.stdout.len()), (vec![4; 3], 0));
    assert_eq!(count(&calls(&place.file("LOG")), |call| call.name == "write" || call.name == "fsync"), 0);
}

/// More requests than the replies of one run have room for, and more bytes than the area of the input holds.
#[test]
fn more_than_one_run() {
    let place = Place::in_memory("run-more");
    as_singly(&place, &["locked"], &time_request().repeat(2 * MOST + 1));
    let made = calls(&place.file("LOG"));
    let sent: Vec<usize> = made.iter().filter(|call| call.name == "write").map(|call| replies(&call.bytes)).collect();
    assert_eq!(sent, [MOST, MOST, 1]);

    let place = Place::in_memory("run-bytes");
    let writes = [time_request().repeat(34_953), writes(&records(1, 2)), looks()].concat();
    assert!(writes.len() > 524_288);
    as_singly(&place, &["locked"], &writes);
}

/// The replies of the largest plan: 329 of them fit one run.
#[test]
fn the_largest_plan() {
    let place = Place::in_memory("run-largest");
    let text = "N 16\nt 2\nb 2\nQ 10\nm 8\nF 1024\nmember repairable\nclients crash\nW 16\n";
    fs::write(place.file("PLAN"), text).expect("PLAN");
    assert_eq!(place.run(&["new", "3", "65536"], b"").stdout, b"made\n");
    let output = fed_at_once(place.traced(&["locked"], &[]), &time_request().repeat(330));
    assert_eq!(replies(&output.stdout), 330);
    let made = calls(&place.file("LOG"));
    let sent: Vec<usize> =
        made.iter().filter(|call| call.name == "write" && call.number == 1).map(|call| replies(&call.bytes)).collect();
    assert_eq!(sent, [329, 1]);
}

/// A client with its requests on their way and its input open.
struct Client {
    child: Child,
    output: Vec<u8>,
}

impl Client {
    fn new(mut command: Command) -> Client {
        Client { child: command.spawn().expect("keeper"), output: Vec::new() }
    }

    fn send(&mut self, bytes: &[u8]) {
        self.child.stdin.as_mut().expect("open").write_all(bytes).expect("sent");
    }

    /// So many replies more, while the input stays open.
    fn hear(&mut self, count: usize) {
        let all = replies(&self.output) + count;
        while replies(&self.output) < all {
            assert!(more_of(self.child.stdout.as_mut().expect("open"), &mut self.output), "its output ended");
        }
    }

    fn end(mut self) -> Output {
        drop(self.child.stdin.take());
        let output = self.child.wait_with_output().expect("its end");
        Output { stdout: [self.output, output.stdout].concat(), ..output }
    }
}

#[test]
fn a_lone_request_is_answered_at_once() {
    let place = Place::in_memory("run-lone");
    place.fresh();
    let mut client = Client::new(place.keeper(&["locked"]));
    for time in 1..=5 {
        client.send(&writes(&records(time, 1)));
        client.hear(1);
        assert_eq!(place.held().len() as u64, time);
        client.send(&looks());
        client.hear(2);
    }
    assert_eq!(client.end().stderr, b"");
}

/// The whole requests of a part are answered while the rest of one is missing, wherever the cut is.
#[test]
fn requests_that_are_split_at_every_byte() {
    let place = Place::in_memory("run-split");
    place.fresh();
    let input = [time_request(), writes(&records(1, 1)), looks(), writes(&records(2, 1))].concat();
    let mut client = Client::new(place.keeper(&["locked"]));
    for k in 0..=input.len() {
        let whole = replies(&input[..k]);
        client.send(&input[..k]);
        client.hear(whole);
        thread::sleep(Duration::from_millis(1));
        client.send(&input[k..]);
        client.hear(5 - whole);
    }
    let output = client.end();
    assert!(output.stderr.is_empty() && replies(&output.stdout) == 5 * (input.len() + 1), "{:?}", output.stderr);
    assert_eq!(place.held().len(), 2);
}

#[test]
fn one_byte_at_a_time() {
    let place = Place::in_memory("run-bytes-singly");
    place.fresh();
    let mut client = Client::new(place.keeper(&["locked"]));
    for byte in [writes(&records(1, 1)), looks()].concat() {
        client.send(&[byte]);
        thread::sleep(Duration::from_micros(200));
    }
    client.hear(3);
    assert_eq!(client.end().stderr, b"");
}

fn line(at: usize, length: u32) -> String {
    format!("standard input, after {at} bytes: no request has the length {length}; the rest of the input is not read\n")
}

/// A length below that of any request or above it, with its bytes or without: what stands before it is served, nothing after it.
#[test]
fn a_damaged_length_ends_the_input_at_its_place() {
    let place = Place::in_memory("run-damaged");
    let before = [writes(&records(1, 2)), looks()].concat();
    for length in [0, 2, 10, 1588, 2000, 65_536, u32::MAX] {
        let bytes = vec![1; (length as usize).min(3000)];
        for after in [Vec::new(), bytes, time_request().repeat(200)] {
            for (at, before) in [(0, Vec::new()), (before.len(), before.clone())] {
                place.fresh();
                let input = [before.clone(), length.to_be_bytes().to_vec(), after.clone()].concat();
                let output = match after.len() % 2 {
                    0 => fed(place.keeper(&["locked"]), &input),
                    _ => fed_at_once(place.keeper(&["locked"]), &input),
                };
                assert_eq!(String::from_utf8_lossy(&output.stderr), line(at, length));
                assert_eq!(replies(&output.stdout), replies(&before));
                assert_eq!(place.held().len(), if at > 0 { 2 } else { 0 });
            }
        }
    }
}

/// The place is counted over the runs before it, and the same however the bytes come.
#[test]
fn a_damaged_length_after_several_runs() {
    let place = Place::in_memory("run-damaged-later");
    place.fresh();
    let before = time_request().repeat(40_000);
    let input = [before.clone(), vec![0, 0, 0, 10], time_request()].concat();
    let output = fed_at_once(place.keeper(&["locked"]), &input);
    assert_eq!(String::from_utf8_lossy(&output.stderr), line(600_000, 10));
    assert_eq!(replies(&output.stdout), 40_000);

    // Its four bytes one at a time: it is told as soon as they are there, with the input open.
    let mut client = Client::new(place.keeper(&["locked"]));
    client.send(&looks());
    client.hear(2);
    for byte in [0, 0, 6] {
        client.send(&[byte]);
        thread::sleep(Duration::from_millis(1));
    }
    client.send(&[52]);
    assert!(!more_of(client.child.stdout.as_mut().expect("open"), &mut client.output), "a reply too many");
    let output = client.end();
    assert_eq!(String::from_utf8_lossy(&output.stderr), line(looks().len(), 1588));
}

/// A run is refused as a whole where the book is none any more: a line, no reply, and the end, with the input open.
#[test]
fn a_book_that_is_damaged_meanwhile() {
    for requests in [looks(), writes(&records(2, 2))] {
        let place = Place::in_memory("run-book");
        place.fresh();
        let mut client = Client::new(place.keeper(&["locked"]));
        client.send(&writes(&records(1, 1)));
        client.hear(1);
        let mut book = fs::read(place.file("BOOK")).expect("BOOK");
        book[0] ^= 1;
        fs::write(place.file("BOOK"), &book).expect("BOOK");
        client.send(&requests);
        assert!(!more_of(client.child.stdout.as_mut().expect("open"), &mut client.output), "a reply too many");
        assert_eq!(client.end().stderr, b"refused 3: book not of this shape, or not of this plan\n");
        assert_eq!(fs::read(place.file("BOOK")).expect("BOOK"), book);
        assert!(!place.file("BOOK.new").exists());
    }
}

/// An input that ends within a length, or within a request, after a run.
#[test]
fn an_input_that_ends_within_a_frame() {
    let place = Place::in_memory("run-ends");
    for rest in [&time_request()[..3], &time_request()[..4], &time_request()[..14]] {
        place.fresh();
        let output = fed_at_once(place.keeper(&["locked"]), &[&writes(&records(1, 2)), rest].concat());
        assert_eq!(output.stderr, b"the input ends within a frame, which is dropped\n");
        assert_eq!(acknowledged(&output.stdout).len(), 2);
    }
}
