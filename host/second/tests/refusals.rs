//! Every refusal, from both sides of its edge where it has one, and the orders of document 01. Each refused call leaves all it was lent.

mod common;

use common::*;
use second::frame::Body;
use second::plan::Plan;
use second::record::{records, Timestamp};
use second::wire;

const FIRST: &str = "N5 t1 b1 Q3 m2 repairable Byzantine";

fn put(bytes: &mut [u8], at: usize, number: u64) {
    bytes[at..at + 8].copy_from_slice(&number.to_be_bytes());
}

/// One node call on copies; a refused one must leave them.
fn node(plan: &[u8], request: &[u8], book: &[u8], room: usize) -> u32 {
    let (mut after, mut reply) = (book.to_vec(), vec![1; room]);
    let number = wire::node(plan, request, &mut after, &mut reply);
    assert!(number == 0 || (after == book && reply == vec![1; room]));
    number
}

/// A house of the first plan whose node 2 holds the saves of times 3 and 5.
fn house() -> (Plan, House) {
    let plan = plan(FIRST);
    let mut house = House::new(&plan);
    for time in [5, 3] {
        house.hold(&saved(&plan, time, &item(&plan, 1)), &[2]);
    }
    (plan, house)
}

#[test]
fn plans() {
    let good = wire::plan_bytes(&plan(FIRST)).to_vec();
    let changes: [(usize, u8, u32); 16] = [
        (0, 17, 1),
        (0, 0, 1),
        (0, 16, 0),
        (1, 0, 1),
        (2, 2, 1),
        (3, 2, 1),
        (4, 0, 1),
        (5, 4, 1),
        (5, 3, 0),
        (6, 0, 1),
        (7, 2, 1),
        (8, 2, 1),
        (8, 0, 0),
        (10, 0, 1),
        (9, 255, 0),
        (3, 255, 1),
    ];
    for (at, byte, number) in changes {
        let mut other = good.clone();
        other[at] = byte;
        assert_eq!(wire::open_read(&other, 0, &mut [0; wire::SESSION]), number, "byte {at} is {byte}");
    }
    let mut longest = good.clone();
    longest[5..7].copy_from_slice(&1024u16.to_be_bytes());
    assert_eq!(wire::open_read(&longest, 0, &mut [0; wire::SESSION]), 0);
    longest[5..7].copy_from_slice(&1025u16.to_be_bytes());
    assert_eq!(wire::open_read(&longest, 0, &mut [0; wire::SESSION]), 1);
    assert_eq!(wire::open_read(&good[..10], 0, &mut [0; 3]), 1, "1 before 2");
    assert_eq!(wire::fresh_book(&[good.clone(), vec![0]].concat(), 9, &mut [0; 3]), 1);
}

#[test]
fn fresh_books() {
    let plan = wire::plan_bytes(&plan(FIRST));
    for (length, number) in [(10, 2), (11, 0), (65_536, 0), (65_537, 2)] {
        let mut book = vec![7; length];
        assert_eq!(wire::fresh_book(&plan, 4, &mut book), number);
        let fresh = [0, 0, 0, 7, 1, 5, 4, 0, 4, 0, 0];
        assert!(if number == 0 { book[..11] == fresh } else { book == vec![7; length] });
        assert!(book.iter().skip(11).all(|byte| *byte == 7));
    }
    for (node, number) in [(4, 0), (5, 4), (256, 4), (1 << 32, 4), (u64::MAX, 4)] {
        assert_eq!(wire::fresh_book(&plan, node, &mut [7; 11]), number);
    }
    assert_eq!(wire::fresh_book(&plan, 5, &mut [7; 10]), 2, "2 before 4");
}

#[test]
fn book_shapes() {
    let (plan, house) = house();
    let (bytes, room) = (wire::plan_bytes(&plan), plan.frame_room());
    let good = &house.books[2][..11 + 2 * plan.record_length()];
    let ask = frame(2, 1, Body::ReadLatest);
    assert_eq!(node(&bytes, &ask, good, room), 0);
    assert_eq!(node(&bytes, &ask, good, room - 1), 2);
    assert_eq!(node(&bytes, &ask, &good[..10], room), 2);
    assert_eq!(node(&bytes, &ask, &good[..good.len() - 1], room), 3, "not within the lent book");
    // length, version, N, node, F, count; the times of both records
    let second = 11 + plan.record_length();
    for (at, byte) in
        [(3, 0), (4, 2), (4, 0), (5, 4), (6, 5), (7, 1), (8, 3), (10, 1), (18, 0), (18, 6), (second + 7, 2)]
    {
        let mut book = good.to_vec();
        book[at] = byte;
        assert_eq!(node(&bytes, &ask, &book, room), 3, "byte {at} is {byte}");
    }
    let mut twice = good.to_vec();
    twice.copy_within(11..second, second);
    assert_eq!(node(&bytes, &ask, &twice, room), 3, "strictly rising");
    let mut equal_times = good.to_vec();
    equal_times[second..second + 40].copy_from_slice(&good[11..51]);
    equal_times[second + 39] = 255;
    equal_times[50] = 254;
    assert_eq!(node(&bytes, &ask, &equal_times, room), 0, "the verifier decides, and is not checked");
    let mut ill = good.to_vec();
    ill[4] = 9;
    assert_eq!(node(&bytes, &ask[..14], &ill, room), 3, "3 before 4");
}

#[test]
fn requests() {
    let (plan, mut house) = house();
    for body in [Body::TimeReply(1), Body::WriteReply(Timestamp::ZERO), Body::ReadReply(None)] {
        assert_eq!(house.ask(&frame(2, 1, body)), Err(4), "a kind for the other party");
    }
    let good = frame(2, 1, Body::TimeRequest);
    assert_eq!(house.ask(&good).unwrap(), frame(2, 1, Body::TimeReply(5)));
    for (at, byte) in [(0, 1), (3, 10), (3, 12), (4, 0), (4, 2), (5, 0), (5, 8), (5, 6)] {
        let mut request = good.clone();
        request[at] = byte;
        assert_eq!(house.ask(&request), Err(4), "byte {at} is {byte}");
    }
    let bytes = wire::plan_bytes(&plan);
    assert_eq!(node(&bytes, &frame(1, 1, Body::TimeRequest), &house.books[2], plan.frame_room()), 4);
    assert_eq!(node(&bytes, &[], &house.books[2], plan.frame_room()), 4);
    let longer = [&[0, 0, 0, 12], &good[4..], &[0]].concat();
    assert_eq!(house.ask(&longer), Err(4), "too long for its kind");
    let at = |time| frame(2, 1, Body::ReadPrevious(Timestamp { time, verifier: [9; 32] }));
    assert_eq!(house.ask(&at(0)), Err(5));
    assert_eq!(house.ask(&at(1)).unwrap(), frame(2, 1, Body::ReadReply(None)));
}

#[test]
fn previous_is_strict() {
    let (plan, mut house) = house();
    let (three, five) = (saved(&plan, 3, &item(&plan, 1)), saved(&plan, 5, &item(&plan, 1)));
    let below = |stamp: Timestamp| frame(2, 1, Body::ReadPrevious(stamp));
    let mut ask = |stamp| house.ask(&below(stamp)).unwrap();
    assert_eq!(ask(five[0].stamp), frame(2, 1, Body::ReadReply(Some(three[2].clone()))));
    assert_eq!(ask(three[0].stamp), frame(2, 1, Body::ReadReply(None)));
    let mut next = five[0].stamp;
    next.verifier[31] += 1; // its last byte is not 255, or this panics
    assert_eq!(ask(next), frame(2, 1, Body::ReadReply(Some(five[2].clone()))));
}

#[test]
fn write_requests() {
    let (plan, mut house) = house();
    let write = |record| frame(2, 1, Body::WriteRequest(record));
    let good = saved(&plan, 4, &item(&plan, 6))[2].clone();
    let mut zero = good.clone();
    zero.stamp.time = 0;
    zero.fragment[0] ^= 1;
    assert_eq!(house.ask(&write(zero)), Err(5), "5 before 6");
    let mut wrong = good.clone();
    wrong.fragment[3] ^= 1;
    assert_eq!(house.ask(&write(wrong)), Err(6), "the fragment's hash");
    let mut wrong = good.clone();
    wrong.stamp.verifier[31] ^= 1;
    assert_eq!(house.ask(&write(wrong)), Err(6), "the checksum's hash");
    assert_eq!(house.ask(&write(saved(&plan, 4, &item(&plan, 6))[3].clone())), Err(6), "the entry of its own node");
    let before = house.books[2].clone();
    assert!(house.ask(&write(good.clone())).is_ok());
    let size = plan.record_length();
    assert_eq!(house.books[2][..11], [0, 0, 2, 107, 1, 5, 2, 0, 4, 0, 3], "3 records: length 7 + 3 * 204 = 619");
    assert_eq!(house.books[2][11..11 + size], before[11..11 + size]);
    assert_eq!(house.books[2][11 + size..11 + 2 * size], good.bytes());
    assert_eq!(house.books[2][11 + 2 * size..11 + 3 * size], before[11 + size..11 + 2 * size]);
    assert_eq!(house.books[2][11 + 3 * size..], before[11 + 3 * size..]);
    let after = house.books[2].clone();
    assert_eq!(house.ask(&write(good.clone())).unwrap(), frame(2, 1, Body::WriteReply(good.stamp)));
    assert_eq!(house.books[2], after, "held: acknowledged, nothing stored");
    house.books[2][11 + size + 200] ^= 1;
    assert_eq!(house.ask(&write(good.clone())), Err(7), "damaged");
    house.books[2].truncate(11 + 3 * size);
    assert_eq!(house.ask(&write(good)), Err(7), "7 before 8");
    let more = saved(&plan, 9, &item(&plan, 6))[2].clone();
    for (spare, outcome) in [(0, false), (size - 1, false), (size, true)] {
        house.books[2].resize(11 + 3 * size + spare, 0);
        assert_eq!(house.ask(&write(more.clone())).map_err(|number| number == 8).err(), (!outcome).then_some(true));
    }
}

#[test]
fn openings() {
    for (w, ask, number) in
        [(3, u64::MAX - 3, 0), (3, u64::MAX - 2, 13), (65_535, u64::MAX - 65_535, 0), (1, u64::MAX, 13)]
    {
        let plan = wire::plan_bytes(&Plan { w, ..plan(FIRST) });
        for open in [wire::open_write, wire::open_read] {
            let mut session = [0x44; wire::SESSION];
            assert_eq!(open(&plan, ask, &mut session), number);
            assert!(number == 0 || session == [0x44; wire::SESSION]);
            assert_eq!(open(&plan, ask, &mut [0; wire::SESSION - 1]), 2, "2 before 13");
        }
    }
    let reader = Client::reader(&plan(FIRST), 0x0102);
    let mut fresh = [0; wire::SESSION];
    fresh[0] = 1;
    fresh[3] = 1;
    fresh[51..53].copy_from_slice(&[1, 2]);
    assert_eq!(reader.session, fresh);
}

/// A reader of the first plan in round 2, ask 31, under the bound (5, verifier of `saved`), that has heard node 0.
fn second_round() -> (Plan, Client) {
    let plan = plan(FIRST);
    let mut reader = Client::reader(&plan, 30);
    let lone = saved(&plan, 5, &item(&plan, 1));
    for node in 0..4 {
        let record = (node == 3).then(|| lone[3].clone());
        assert_eq!(reader.hear(&frame(node, 30, Body::ReadReply(record))), 0);
    }
    let old = saved(&plan, 4, &item(&plan, 2));
    assert_eq!(reader.hear(&frame(0, 31, Body::ReadReply(Some(old[0].clone())))), 0);
    assert_eq!(reader.marks()[..5], [2, 0, 0, 0, 0]);
    (plan, reader)
}

/// A reply on a copy of the client; a refused one must leave it.
fn hear(client: &Client, reply: &[u8]) -> u32 {
    let mut after = client.clone();
    let number = after.hear(reply);
    assert!(number == 0 || number > 100 || after == *client);
    number
}

#[test]
fn replies_to_a_reader() {
    let (plan, reader) = second_round();
    let reply = |record| frame(1, 31, Body::ReadReply(Some(record)));
    let old = saved(&plan, 4, &item(&plan, 2))[1].clone();
    assert_eq!(hear(&reader, &reply(old.clone())), 0);
    assert_eq!(hear(&reader, &frame(1, 31, Body::ReadReply(None))), 0, "the first triple is below every bound");
    assert_eq!(hear(&reader, &frame(1, 30, Body::ReadReply(None))), 10, "a late reply");
    assert_eq!(hear(&reader, &frame(1, 31, Body::TimeReply(3))), 10, "a kind of clients, not awaited");
    assert_eq!(hear(&reader, &frame(1, 31, Body::WriteReply(Timestamp::ZERO))), 10);
    assert_eq!(hear(&reader, &frame(1, 31, Body::ReadLatest)), 4, "a kind of nodes");
    assert_eq!(hear(&reader, &frame(5, 31, Body::ReadReply(None))), 4, "node N");
    let mut ill = frame(1, 31, Body::TimeReply(3));
    ill.pop();
    assert_eq!(hear(&reader, &ill), 4, "4 before 10");
    let mut bad = old.clone();
    bad.fragment[0] ^= 1;
    assert_eq!(hear(&reader, &frame(0, 31, Body::ReadReply(Some(bad.clone())))), 11, "11 before 6");
    assert_eq!(hear(&reader, &frame(0, 30, Body::ReadReply(None))), 10, "10 before 11");
    assert_eq!(hear(&reader, &reply(bad.clone())), 6);
    bad.stamp.time = 0;
    assert_eq!(hear(&reader, &reply(bad.clone())), 5, "5 before 6");
    bad.stamp.time = 9;
    assert_eq!(hear(&reader, &reply(bad)), 6, "6 before 12");
}

#[test]
fn replies_near_the_bound() {
    let (plan, reader) = second_round();
    let bound = saved(&plan, 5, &item(&plan, 1))[1].clone();
    let reply = |record| frame(1, 31, Body::ReadReply(Some(record)));
    assert_eq!(hear(&reader, &reply(bound.clone())), 12, "the bound itself");
    let (mut below, mut above) = (0, 0);
    for first in 2..40 {
        let other = saved(&plan, 5, &item(&plan, first))[1].clone();
        let expected = if other.stamp < bound.stamp { 0 } else { 12 };
        assert_eq!(hear(&reader, &reply(other)), expected, "the verifier decides at one time");
        *(if expected == 0 { &mut below } else { &mut above }) += 1;
    }
    assert!(below > 0 && above > 0);
    assert_eq!(hear(&reader, &reply(saved(&plan, 6, &item(&plan, 2))[1].clone())), 12);
}

#[test]
fn replies_to_a_writer() {
    let plan = plan(FIRST);
    let mut writer = Client::writer(&plan, 30, &item(&plan, 1));
    assert_eq!(hear(&writer, &frame(0, 31, Body::TimeReply(3))), 10);
    assert_eq!(hear(&writer, &frame(0, 30, Body::ReadReply(None))), 10);
    assert_eq!(hear(&writer, &frame(5, 30, Body::TimeReply(3))), 4);
    for node in 0..4 {
        assert_eq!(writer.hear(&frame(node, 30, Body::TimeReply(3))), 0);
    }
    let stamp = Timestamp::from_bytes(&writer.session[wire::STAMP..wire::MARKS]);
    assert_eq!((writer.stage(), stamp.time, writer.marks()), (1, 4, &[0; 16][..]));
    assert_eq!(wire::session_from(&writer.session).unwrap().times[..5], [3, 3, 3, 3, 0], "the times stay");
    let other = Timestamp { time: 5, ..stamp };
    assert_eq!(hear(&writer, &frame(0, 31, Body::WriteReply(other))), 10, "another timestamp");
    assert_eq!(hear(&writer, &frame(0, 31, Body::WriteReply(Timestamp::ZERO))), 10);
    assert_eq!(hear(&writer, &frame(4, 30, Body::TimeReply(3))), 10, "late");
    for node in [4, 3, 2] {
        assert_eq!(writer.hear(&frame(node, 31, Body::WriteReply(stamp))), 0);
        assert_eq!(hear(&writer, &frame(node, 31, Body::WriteReply(stamp))), 11);
    }
    assert_eq!(writer.owed(4), Err(11));
    assert_eq!(writer.hear(&frame(0, 31, Body::WriteReply(stamp))), 101);
    assert_eq!((writer.end(), writer.stage()), ((stamp, 0), 2));
    assert_eq!(writer.marks()[..5], [2, 0, 2, 2, 2]);
    assert_eq!(hear(&writer, &[]), 14, "14 before 4");
    assert_eq!(writer.owed(7), Err(14));
    let mut other = writer.clone();
    other.session[0] = 1;
    assert_eq!(hear(&other, &[]), 14, "it is a good ended read too");
    let Client { plan, session, desk, item, ending, .. } = &mut writer;
    assert_eq!(wire::read_reply(plan, session, &[], desk, item, ending), 9, "of the other operation: 9 before 14");
}

#[test]
fn lengths_at_the_client() {
    let (_, good) = second_round();
    let reply = frame(1, 31, Body::ReadReply(None));
    for longer in [false, true] {
        let change = |bytes: &mut Vec<u8>| bytes.resize(if longer { bytes.len() + 1 } else { bytes.len() - 1 }, 0);
        let cases: [fn(&mut Client) -> &mut Vec<u8>; 4] =
            [|c| &mut c.desk, |c| &mut c.item, |c| &mut c.ending, |c| &mut c.session];
        for (which, slice) in cases.iter().enumerate() {
            let mut client = good.clone();
            client.session[1] = 3; // no session either: 2 before 9
            change(slice(&mut client));
            assert_eq!(hear(&client, &reply), 2);
            assert_eq!(
                client.owed(1),
                Err(if which == 1 || which == 2 { 9 } else { 2 }),
                "owed lends desk and session"
            );
        }
    }
    let room = plan(FIRST).frame_room();
    for (length, number) in [(room - 1, 2), (room, 0), (room + 9, 0)] {
        let mut request = vec![0x31; length];
        assert_eq!(wire::owed(&good.plan, &good.session, 1, &good.desk, &mut request), number);
        let used = if number == 0 { 55 } else { 0 };
        assert!(request[used..].iter().all(|byte| *byte == 0x31), "bytes past the frame stay");
    }
}

/// One change of the session in round 2; whether it is then out of its ranges.
#[test]
fn sessions_out_of_range() {
    let (plan, good) = second_round();
    let reply = frame(1, 31, Body::ReadReply(None));
    let nine = |change: &dyn Fn(&mut Client)| {
        let mut client = good.clone();
        change(&mut client);
        let owed = client.owed(1).err();
        assert_eq!(owed == Some(9), hear(&client, &reply) == 9);
        owed == Some(9)
    };
    assert!(!nine(&|_| {}));
    for (at, byte) in [(0, 2), (1, 3), (2, 1), (3, 0), (3, 1), (3, 4), (4, 0), (4, 2), (221, 3), (226, 2), (236, 1)] {
        assert!(nine(&|client| client.session[at] = byte), "byte {at} is {byte}");
    }
    assert!(!nine(&|client| client.session[3] = 3), "round W");
    assert!(nine(&|client| client.session[4..45].fill(0)), "no bound in round 2");
    assert!(nine(&|client| put(&mut client.session, 5, 0)), "a bound of time 0");
    assert!(!nine(&|client| put(&mut client.session, 45, u64::MAX - 3)));
    assert!(nine(&|client| put(&mut client.session, 45, u64::MAX - 2)), "the opening ask");
    assert!(
        nine(&|client| client.session[wire::MARKS + 3] = 2),
        "the slot of node 3 holds the record of round 1: at the bound"
    );
    assert!(!nine(&|client| client.session[223..225].fill(1)), "three heard");
    assert!(nine(&|client| client.session[223..226].fill(1)), "four heard, N-t, and open");
    assert!(!nine(&|client| client.session[wire::TIMES..wire::MARKS].fill(9)), "fields not in use");
    assert!(nine(&|client| put(&mut client.desk, 0, 0)), "a slot of time 0");
    assert!(nine(&|client| put(&mut client.desk, 0, 6)), "a slot above the bound");
    let bound = good.session[5..45].to_vec();
    assert!(nine(&|client| client.desk[..40].copy_from_slice(&bound)), "a slot at the bound");
    assert!(!nine(&|client| client.desk[40..plan.record_length()].fill(0)), "hashes are not looked at");
    assert!(!nine(&|client| put(&mut client.desk, plan.record_length(), 0)), "an unheard slot");
}

#[test]
fn sessions_that_store_or_have_ended() {
    let (plan, good) = second_round();
    let mut storing = good.clone();
    storing.session[1] = 1;
    storing.session[wire::STAMP..wire::MARKS].copy_from_slice(&good.desk[..40]);
    storing.desk.fill(0);
    assert!(storing.owed(1).is_ok(), "no rule on slots in a repair round");
    let ack = |ask| frame(1, ask, Body::WriteReply(Timestamp::from_bytes(&storing.session[wire::STAMP..wire::MARKS])));
    assert_eq!((hear(&storing, &ack(32)), hear(&storing, &ack(31))), (0, 10), "opening 30, round 2: it asks 32");
    let mut other = storing.clone();
    put(&mut other.session, wire::STAMP, 0);
    assert_eq!(other.owed(1), Err(9), "a timestamp of time 0");
    let mut other = storing.clone();
    other.session[wire::MARKS + 1] = 1;
    assert_eq!(other.owed(1), Err(9), "a first triple mark in a repair round");
    let mut ended = storing.clone();
    ended.session[1] = 2;
    ended.session[wire::STAMP..wire::MARKS].fill(0);
    ended.session[221..226].fill(1);
    assert_eq!((ended.owed(9), hear(&ended, &[])), (Err(14), 14), "none of these rules for an ended session");
    for (at, byte) in [(3, 1), (3, 4), (45, 255), (226, 1)] {
        let mut other = ended.clone();
        let change = if at == 45 { vec![255; 8] } else { vec![byte] };
        other.session[at..at + change.len()].copy_from_slice(&change);
        assert_eq!((other.owed(1), hear(&other, &[])), (Err(9), 9), "byte {at}");
    }
    let mut writer = Client::writer(&plan, 30, &item(&plan, 1));
    writer.session[wire::MARKS] = 1;
    assert_eq!(writer.owed(1), Err(9), "a first triple mark in a time round");
    writer.session[wire::MARKS] = 2;
    assert!(writer.owed(1).is_ok());
    assert_eq!(writer.owed(0), Err(11));
    assert_eq!(writer.owed(5), Err(4));
    writer.session[2..45].copy_from_slice(&good.session[2..45]);
    assert_eq!(writer.owed(1), Err(9), "round 2 in a write");
}

/// Equal timestamps with different cross checksums: the lowest-numbered of them tells the set.
#[test]
fn the_set_has_one_cross_checksum() {
    let plan = plan("N5 t1 b1 Q3 m2 repairable crash");
    let good = saved(&plan, 4, &item(&plan, 2));
    let mut reader = Client::reader(&plan, 30);
    for (node, record) in good.iter().enumerate().take(4).skip(1) {
        assert_eq!(reader.hear(&frame(node, 30, Body::ReadReply(Some(record.clone())))), 0);
    }
    let size = plan.record_length();
    let last = frame(4, 30, Body::ReadReply(Some(good[4].clone())));
    assert_eq!(hear(&reader, &last), 101);
    let mut changed = reader.clone();
    changed.desk[3 * size + 40] ^= 1; // node 3 is left out: three remain
    assert_eq!((changed.hear(&last), changed.stage(), changed.round()), (0, 1, 1));
    let mut changed = reader.clone();
    changed.desk[size + 40] ^= 1; // node 1 is the lowest: it stands alone
    assert_eq!((changed.hear(&last), changed.stage(), changed.round()), (0, 0, 2));
}

/// The greatest timestamp, not the commonest: an incomplete one on top is walked past, and its bound includes the verifier.
#[test]
fn timestamps_of_one_time() {
    let plan = plan(FIRST);
    let (a, b) = (saved(&plan, 4, &item(&plan, 2)), saved(&plan, 4, &item(&plan, 3)));
    let (low, high) = if a[0].stamp < b[0].stamp { (a, b) } else { (b, a) };
    let mut house = House::new(&plan);
    house.hold(&low, &[0, 1, 2, 3, 4]);
    house.hold(&high, &[0]);
    let mut reader = Client::reader(&plan, 30);
    assert_eq!(reader.run(&mut house, &[0, 1, 2, 3]), 101);
    assert_eq!(reader.end(), (low[0].stamp, 2));
    assert_eq!(records(4, low.iter().map(|r| r.fragment.clone()).collect()), low);
}
