//! Document 01, "Both sides of each edge": every row.

mod common;

use common::*;
use second::book::Book;
use second::code::encode;
use second::field::product;
use second::frame::Body;
use second::plan::{Class, Plan};
use second::record::{Record, Timestamp};
use second::refusal::Refusal;
use second::wire;

const FIRST: &str = "N5 t1 b1 Q3 m2 repairable";
const SECOND: &str = "N7 t1 b1 Q3 m4 non-repair";

fn accepted(words: &str) -> Result<(), Refusal> {
    plan(words).accepted()
}

#[test]
fn first_plan() {
    assert_eq!(accepted(FIRST), Ok(()));
    for words in ["N5 t1 b1 Q3 m3 repairable", "N4 t1 b1 Q3 m2 repairable", "N5 t1 b1 Q4 m2 repairable"] {
        assert_eq!(accepted(words), Err(Refusal::Plan), "{words}");
    }
}

#[test]
fn second_plan() {
    assert_eq!(accepted(SECOND), Ok(()));
    for words in ["N7 t1 b1 Q3 m5 non-repair", "N6 t1 b1 Q3 m4 non-repair"] {
        assert_eq!(accepted(words), Err(Refusal::Plan), "{words}");
    }
}

#[test]
fn one_node() {
    for words in ["N1 t0 b0 Q1 m1 repairable", "N1 t0 b0 Q1 m1 non-repair"] {
        let plan = plan(words);
        assert_eq!(plan.accepted(), Ok(()));
        assert!((0..=1).all(|size| plan.class(size) != Class::Unclassifiable));
    }
}

#[test]
fn more_liars_than_faults() {
    for member in ["repairable", "non-repair"] {
        for (n, q) in [(16, 4), (16, 5), (10, 4)] {
            assert_eq!(accepted(&format!("N{n} t1 b2 Q{q} m1 {member}")), Err(Refusal::Plan));
        }
    }
}

/// A read round of N-t replies: `size` of them bear the candidate, the rest are first triples.
fn closed_with(plan: &Plan, size: usize) -> (Client, u32) {
    let mut house = House::new(plan);
    let nodes: Vec<usize> = (0..size).collect();
    house.hold(&saved(plan, 5, &item(plan, 1)), &nodes);
    let mut client = Client::reader(plan, 40);
    let mut last = 0;
    for node in 0..plan.n - plan.t {
        assert_eq!(last, 0);
        last = client.turn(&mut house, node);
    }
    (client, last)
}

#[test]
fn first_plan_sets() {
    for clients in ["crash", "Byzantine"] {
        let plan = plan(&format!("{FIRST} {clients}"));
        assert_eq!([4, 3, 2, 1].map(|size| plan.class(size)), {
            use Class::*;
            [Complete, Unclassifiable, Unclassifiable, Incomplete]
        });
        let (client, number) = closed_with(&plan, 4);
        assert_eq!((number, client.item, client.ending[7]), (101, item(&plan, 1), 5));
        for size in [3, 2] {
            let (client, number) = closed_with(&plan, size);
            assert_eq!((number, client.stage(), client.round()), (0, 1, 1));
        }
        let (client, number) = closed_with(&plan, 1);
        assert_eq!((number, client.stage(), client.round()), (0, 0, 2));
    }
}

#[test]
fn second_plan_set_of_3() {
    let plan = plan(SECOND);
    let (client, number) = closed_with(&plan, 3);
    assert_eq!((number, client.end()), (103, (Timestamp::ZERO, 1)));
}

#[test]
fn products() {
    assert_eq!(product(0x57, 0x83), 0xc1);
    assert_eq!(product(0x57, 0x13), 0xfe);
}

#[test]
fn columns() {
    let plan = plan("N5 t1 b1 Q3 m2 F1 repairable");
    let fragments = encode(&plan, &[0x00, 0x80]);
    assert_eq!(fragments[2..], [[0x1b], [0x9b], [0x36]]);
    assert_eq!(encode(&plan, &[0x57, 0x57]), vec![[0x57]; 5]);
}

#[test]
fn two_records() {
    let plan = plan(FIRST);
    let mut house = House::new(&plan);
    for time in [1, 2] {
        house.hold(&saved(&plan, time, &item(&plan, 9)), &[3]);
    }
    assert_eq!(plan.record_length(), 204);
    assert_eq!(house.books[3][..4], 415u32.to_be_bytes());
    assert_eq!(Book::read(&plan, &house.books[3]).unwrap().bytes(&plan).len(), 419);
    assert!(house.books[3][419..].iter().all(|byte| *byte == 0xee));
}

#[test]
fn the_fullest_book() {
    let plan = plan("N16 t0 b0 Q16 m1 F1024 repairable");
    let mut house = House::new(&plan);
    house.books[15].resize(65_536, 0);
    let write = |time: u64| frame(15, time, Body::WriteRequest(saved(&plan, time, &item(&plan, 0))[15].clone()));
    for time in 1..=41 {
        assert!(house.ask(&write(time)).is_ok());
    }
    assert_eq!(house.ask(&write(42)), Err(8));
    assert!(house.ask(&write(7)).is_ok(), "a full book still acknowledges a record that it holds");
    assert_eq!(house.books[15][9..11], [0, 41]);
}

#[test]
fn time_replies() {
    let plan = plan(FIRST);
    let mut client = Client::writer(&plan, 6, &item(&plan, 3));
    for (node, time) in [7, 9, 9, 4].into_iter().enumerate() {
        assert_eq!(client.hear(&frame(node, 6, Body::TimeReply(time))), 0);
    }
    let desk: Vec<Record> = client.desk.chunks(204).map(|slot| Record::from_bytes(&plan, slot)).collect();
    assert_eq!(desk, saved(&plan, 10, &item(&plan, 3)));
    assert_eq!(wire::session_from(&client.session).unwrap().stamp.time, 10);
}

#[test]
fn previous_to_the_least_timestamp() {
    let plan = plan(FIRST);
    let mut house = House::new(&plan);
    house.hold(&saved(&plan, 1, &item(&plan, 3)), &[2]);
    let bound = Timestamp { time: 1, verifier: [0; 32] };
    let reply = house.ask(&frame(2, 8, Body::ReadPrevious(bound))).unwrap();
    assert_eq!(reply, frame(2, 8, Body::ReadReply(None)));
}
