//! All replies are those of the second program, on good, random and damaged requests.

use crate::node::{ask, hear, serve, singly, Node};
use keeper_trials::{fed_at_once, looks, plan, records, replies, writes, Place, NODE};
use second::craft;
use second::frame::{Body, HEADER};
use second::random::Random;
use second::record::{Record, Timestamp};
use std::fs;
use std::io::Write;
use std::thread;

/// Room for nine records: the tenth is refused.
const BOOK: usize = 2048;

/// A request as some client may send it: good ones, of another node or kind, of wrong hashes and times, and of bytes that make no sense.
fn request(random: &mut Random, known: &[Record]) -> Vec<u8> {
    let (ask, record) = (random.number(), random.pick(known));
    let bound = Timestamp::from_bytes(&random.pick(known).stamp.bytes());
    let mut frame = match random.below(8) {
        0 => craft::frame(NODE, ask, Body::TimeRequest),
        1 => craft::frame(NODE, ask, Body::ReadLatest),
        2 | 3 => craft::frame(NODE, ask, Body::ReadPrevious(bound)),
        4 => {
            let kind = random.within(0, 9) as u8;
            craft::senseless(random, &plan(), kind, NODE as u8, ask)
        }
        _ => craft::frame(NODE, ask, Body::WriteRequest(record)),
    };
    if random.chance(25) {
        // Anywhere but in its length, so that it still can be cut.
        let at = random.within(4, frame.len() - 1);
        frame[at] ^= random.pick(&[1, 2, 255]);
    }
    if random.chance(5) && frame.len() > HEADER + 8 {
        frame[HEADER..HEADER + 8].fill(0);
    }
    if frame.len() > plan().frame_room() {
        frame.truncate(plan().frame_room());
    }
    let rest = frame.len() as u32 - 4;
    frame[..4].copy_from_slice(&rest.to_be_bytes());
    frame
}

fn requests(seed: u64, count: usize) -> Vec<u8> {
    let (mut random, known) = (Random::new(seed), records(1, 14));
    (0..count).flat_map(|_| request(&mut random, &known)).collect()
}

/// A connection without the greeting, whose bytes come in parts of any length.
#[test]
fn random_requests_on_one_connection() {
    for seed in 1..=6 {
        let place = Place::new(&format!("serve-random-{seed}"));
        place.fresh_of(BOOK);
        let mut book = fs::read(place.file("BOOK")).expect("BOOK");
        let (input, mut random) = (requests(seed, 400), Random::new(seed));
        let (sent, refused) = singly(&mut book, &input);
        assert!(refused > 50 && replies(&sent) > 100, "{refused} refused of 400");
        let node = Node::start(&place, &[]);
        let mut stream = node.connect();
        let mut to = stream.try_clone().expect("a second end");
        let sending = thread::spawn(move || {
            let mut rest = input.as_slice();
            while !rest.is_empty() {
                let length = random.pick(&[1, 3, 15, 300, 5000]);
                let (part, after) = rest.split_at(rest.len().min(length));
                to.write_all(part).expect("sent");
                rest = after;
            }
        });
        assert_eq!(hear(&mut stream, replies(&sent)), sent);
        sending.join().expect("sent");
        assert_eq!(fs::read(place.file("BOOK")).expect("BOOK"), book);
        crate::node::until("a line for each that is refused", || {
            node.lines().iter().filter(|line| line.contains(": refused ")).count() == refused
        });
    }
}

/// The same on standard input, all waiting: the replies, and the lines with node, kind, ask number and answer.
#[test]
fn random_requests_on_standard_input() {
    let place = Place::new("serve-random-standard");
    place.fresh_of(BOOK);
    let mut book = fs::read(place.file("BOOK")).expect("BOOK");
    let input = [requests(9, 600), craft::frame(1, 4711, Body::TimeRequest)].concat();
    let output = fed_at_once(serve(&place, &[]), &input);
    let (sent, refused) = singly(&mut book, &input);
    assert_eq!((output.stdout, output.status.code()), (sent, Some(0)));
    assert_eq!(fs::read(place.file("BOOK")).expect("BOOK"), book);
    let lines = String::from_utf8(output.stderr).expect("a text");
    assert_eq!(lines.lines().filter(|line| line.contains(": refused ")).count(), refused);
    assert_eq!(lines.lines().count(), refused);
    let last = lines.lines().last().expect("a line");
    assert!(last.starts_with("sheet: node 3: standard input: time for node 1, ask 4711: refused 4: "), "{last}");
}

/// One of several clients at once: its own writes are acknowledged, what it reads is at least as new, and what is damaged gets no reply.
fn client(node: &Node, own: Vec<Record>) -> thread::JoinHandle<usize> {
    let mut stream = node.connect();
    thread::spawn(move || {
        let mut replied = 0;
        for record in own {
            let write = craft::frame(NODE, record.stamp.time, Body::WriteRequest(record.clone()));
            let mut damaged = write.clone();
            *damaged.last_mut().expect("a byte") ^= 1;
            let requests = [damaged, write.clone(), looks()].concat();
            stream.write_all(&requests).expect("sent");
            let told = hear(&mut stream, 3);
            let (own, time) = (record.stamp.time, told[55 + HEADER..].first_chunk().expect("8 bytes"));
            assert_eq!(told[..55], craft::frame(NODE, own, Body::WriteReply(record.stamp)));
            assert!(u64::from_be_bytes(*time) >= own, "a time before its own write");
            replied += replies(&told);
        }
        replied
    })
}

/// Sixteen clients, and the book is that of the second program with all their records.
#[test]
fn many_connections_at_once() {
    let place = Place::new("serve-many");
    place.fresh();
    let mut book = fs::read(place.file("BOOK")).expect("BOOK");
    let node = Node::start(&place, &["--quiet"]);
    let all = records(1, 240);
    let clients: Vec<_> = (0..16).map(|i| client(&node, all.iter().skip(i).step_by(16).cloned().collect())).collect();
    let replied: usize = clients.into_iter().map(|client| client.join().expect("its end")).sum();
    assert_eq!(replied, 3 * 240);
    singly(&mut book, &writes(&all));
    assert_eq!(fs::read(place.file("BOOK")).expect("BOOK"), book);
    assert_eq!(place.held().len(), 240);
}

/// A request that is held already is acknowledged again, on another connection too.
#[test]
fn a_record_that_is_held() {
    let place = Place::new("serve-held");
    place.fresh();
    let node = Node::start(&place, &[]);
    let write = writes(&records(1, 1));
    let first = ask(&mut node.connect(), &write);
    assert_eq!(ask(&mut node.connect(), &write.repeat(3)), first.repeat(3));
    assert_eq!(place.held().len(), 1);
}
