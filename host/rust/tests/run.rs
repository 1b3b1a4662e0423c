//! A run of frames: document 02, Q-3, through this crate, against the linked archive.

use pasis::{Plan, Ran, Refusal};
use pasis_raw as raw;

const NODE: u8 = 3;

fn small() -> Plan {
    Plan { f: 4, w: 3, ..Plan::default() }
}

fn fresh(plan: &Plan, records: usize) -> Vec<u8> {
    let mut book = vec![0xee; plan.book_size(records)];
    pasis::fresh_book(plan, NODE.into(), &mut book).expect("a fresh book");
    book
}

fn frame(kind: u8, ask: u64, body: &[u8]) -> Vec<u8> {
    let length = (11 + body.len() as u32).to_be_bytes();
    [&length[..], &[1, kind, NODE], &ask.to_be_bytes(), body].concat()
}

/// The write request that a save of this block owes to node 3 when its time round has heard this time.
fn write(plan: &Plan, above: u64, item: &[u8]) -> Vec<u8> {
    let mut desk = vec![0; plan.desk_size()];
    let mut session = pasis::open_write(plan, 50).expect("opened");
    for node in 0..plan.replies() as u8 {
        let mut reply = frame(2, 50, &above.to_be_bytes());
        reply[6] = node;
        let (next, answer) = pasis::write_reply(plan, session, &reply, &mut desk, item);
        answer.expect("a time");
        session = next;
    }
    let mut request = vec![0; plan.frame_size()];
    let length = pasis::owed(plan, &session, NODE.into(), &desk, &mut request).expect("a record");
    request.truncate(length);
    request
}

/// The frames one after another: the book, the replies end to end, the numbers.
fn singly(plan: &Plan, mut book: Vec<u8>, frames: &[Vec<u8>]) -> (Vec<u8>, Vec<u8>, Vec<u8>) {
    let (mut replies, mut numbers) = (Vec::new(), Vec::new());
    for request in frames {
        let mut reply = vec![0; plan.frame_size()];
        match pasis::node(plan, request, &mut book, &mut reply) {
            Ok(length) => {
                replies.extend(&reply[..length]);
                numbers.push(0);
            }
            Err(refusal) => numbers.push(refusal.number() as u8),
        }
    }
    (book, replies, numbers)
}

#[test]
fn a_run_is_as_its_frames_singly() {
    let plan = small();
    let (one, two, three) = (write(&plan, 6, b"one leaf"), write(&plan, 3, b"two leaf"), write(&plan, 8, b"six leaf"));
    let mut damaged = two.clone();
    *damaged.last_mut().expect("a fragment") ^= 1;
    let mut long = frame(5, 4, &[0; 9]);
    long[14] = 4;
    let ask = |kind| frame(kind, 9, &[]);
    let frames = [one.clone(), ask(1), damaged, long, two, ask(5), three, ask(5), one];
    let (mut book, run) = (fresh(&plan, 2), frames.concat());
    let (after, told, numbers) = singly(&plan, book.clone(), &frames);
    assert_eq!(numbers, [0, 0, 6, 4, 0, 0, 8, 0, 0]);
    let (mut replies, mut places) = (vec![0xaa; plan.replies_size(9)], [7; 12]);
    let ran = pasis::run(&plan, &run, &mut book, &mut replies, &mut places).expect("served");
    assert_eq!(ran, Ran { replies: &told, numbers: &numbers, place: run.len() });
    let kinds: Vec<Result<u8, Refusal>> = ran.outcomes().map(|outcome| outcome.map(|reply| reply[5])).collect();
    let (frame, hash, room) = (Err(Refusal::Frame), Err(Refusal::Hash), Err(Refusal::Room));
    assert_eq!(kinds, [Ok(4), Ok(2), hash, frame, Ok(4), Ok(7), room, Ok(7), Ok(4)]);
    assert_eq!((book, &places[9..], replies[told.len()]), (after, &[7; 3][..], 0xaa));
}

/// Where there is no whole frame the run ends, and what is not cut needs no room.
#[test]
fn where_a_run_ends() {
    let plan = small();
    let (mut book, time) = (fresh(&plan, 2), frame(1, 9, &[]));
    let mut ran = |run: &[u8], frames: usize| {
        let (mut replies, mut numbers) = (vec![0; plan.replies_size(frames)], vec![0; frames]);
        pasis::run(&plan, run, &mut book, &mut replies, &mut numbers).map(|ran| (ran.numbers.to_vec(), ran.place))
    };
    assert_eq!(ran(&[], 0), Ok((vec![], 0)));
    for length in 0..15 {
        assert_eq!(ran(&time[..length], 0), Ok((vec![], 0)));
        assert_eq!(ran(&[&time[..], &time[..length]].concat(), 1), Ok((vec![0], 15)));
    }
    assert_eq!(ran(&[&time[..], &[0, 0, 0, 10], &time[4..]].concat(), 1), Ok((vec![0], 15)));
    assert_eq!(ran(&[&time[..], &[0, 0, 0, 12], &time[4..]].concat(), 1), Ok((vec![0], 15)));
    assert_eq!(ran(&[&time[..], &[0, 0, 0, 12], &time[4..], &[0]].concat(), 2), Ok((vec![0, 4], 31)));
    assert_eq!(ran(&time, 0), Err(Refusal::Run));
}

/// 1, 2, 21, 3 in this order, and the bytes stay.
#[test]
fn refusals_of_a_run() {
    let plan = small();
    let run = [frame(1, 1, &[]), frame(5, 2, &[])].concat();
    let room = plan.replies_size(2);
    for (plan_len, book_len, replies_len, numbers_len, told_len, refusal) in [
        (10, 10, 0, 0, 0, 1),
        (11, 10, room - 1, 2, 24, 2),
        (11, 99, room - 1, 1, 23, 2),
        (11, 99, room - 1, 2, 24, 21),
        (11, 99, room, 1, 24, 21),
        (11, 99, room, 2, 24, 3),
    ] {
        let (mut book, mut replies, mut numbers, mut told) = ([9; 99], vec![8; room], [7; 2], [6; 25]);
        let answer = raw::run(
            &plan.bytes()[..plan_len],
            &run,
            &mut book[..book_len],
            &mut replies[..replies_len],
            &mut numbers[..numbers_len],
            &mut told[..told_len],
        );
        assert_eq!(answer, refusal);
        assert_eq!((book, replies, numbers, told), ([9; 99], vec![8; room], [7; 2], [6; 25]));
    }
}
