//! Whole operations: a save and an open with t nodes silent, a repair, a poisonous save walked past, every order of arrival.

mod common;

use common::*;
use second::code::{decode, encode, fragment};
use second::field::{inverse, product};
use second::frame::Body;
use second::plan::Plan;
use second::random::Random;
use second::record::{Record, Timestamp};
use second::{craft, wire};

const PLANS: [&str; 7] = [
    "N1 t0 b0 Q1 m1 repairable crash",
    "N3 t1 b0 Q2 m1 repairable crash",
    "N4 t1 b0 Q3 m2 repairable Byzantine",
    "N5 t1 b1 Q3 m2 repairable Byzantine",
    "N5 t1 b1 Q3 m1 repairable crash",
    "N4 t1 b0 Q2 m2 non-repair Byzantine",
    "N7 t1 b1 Q3 m4 non-repair crash",
];

/// By Gauss, apart from the Lagrange of the code: the coefficients of the polynomial with these values.
fn coefficients(points: &[u8], values: &[u8]) -> Vec<u8> {
    let m = points.len();
    let mut rows: Vec<Vec<u8>> = Vec::new();
    for (x, y) in points.iter().zip(values) {
        let powers = (0..m).map(|power| (0..power).fold(1, |p, _| product(p, *x)));
        rows.push(powers.chain([*y]).collect());
    }
    for column in 0..m {
        let pivot = (column..m).find(|row| rows[*row][column] != 0).unwrap();
        rows.swap(column, pivot);
        let scale = inverse(rows[column][column]);
        rows[column].iter_mut().for_each(|cell| *cell = product(*cell, scale));
        let lead = rows[column].clone();
        for (_, row) in rows.iter_mut().enumerate().filter(|(at, _)| *at != column) {
            let factor = row[column];
            row.iter_mut().zip(&lead).for_each(|(cell, by)| *cell ^= product(factor, *by));
        }
    }
    rows.iter().map(|row| row[m]).collect()
}

#[test]
fn fragments_are_the_values_of_one_polynomial() {
    let mut random = Random::new(11);
    for _ in 0..200 {
        let plan = Plan { f: 3, ..craft::plan(&mut random, craft::Size::Any) };
        let item = random.bytes(plan.item_length());
        let fragments = encode(&plan, &item);
        let points: Vec<u8> = (0..plan.m as u8).collect();
        for position in 0..plan.f {
            let column: Vec<u8> = (0..plan.m).map(|run| item[run * plan.f + position]).collect();
            let line = coefficients(&points, &column);
            for (x, fragment) in fragments.iter().enumerate() {
                let value = line.iter().rev().fold(0, |sum, c| product(sum, x as u8) ^ c);
                assert_eq!(fragment[position], value);
            }
        }
    }
}

#[test]
fn any_m_fragments_give_the_item() {
    let mut random = Random::new(12);
    for _ in 0..300 {
        let plan = Plan { f: 5, ..craft::plan(&mut random, craft::Size::Any) };
        let item = random.bytes(plan.item_length());
        let fragments = encode(&plan, &item);
        let mut numbers: Vec<usize> = (0..plan.n).collect();
        while numbers.len() > plan.m {
            numbers.remove(random.below(numbers.len()));
        }
        let shares: Vec<_> = numbers.iter().map(|number| (*number, &fragments[*number][..])).collect();
        assert_eq!(decode(&plan, &shares), item);
        assert!((0..plan.n).all(|number| fragment(&shares, number) == fragments[number]));
    }
}

/// The nodes without t of them, from `from` on.
fn without(plan: &Plan, from: usize) -> Vec<usize> {
    (0..plan.n).filter(|node| (node + plan.n - from) % plan.n >= plan.t).collect()
}

#[test]
fn save_and_open_with_t_nodes_silent() {
    for words in PLANS {
        let plan = plan(words);
        for silent in 0..plan.n {
            let mut house = House::new(&plan);
            let mut writer = Client::writer(&plan, 10, &item(&plan, 1));
            assert_eq!(writer.run(&mut house, &without(&plan, silent)), 101, "{words}");
            let (stamp, rounds) = writer.end();
            assert_eq!((stamp.time, rounds), (1, 0));
            let mut writer = Client::writer(&plan, 20, &item(&plan, 2));
            assert_eq!(writer.run(&mut house, &without(&plan, silent)), 101);
            assert_eq!(writer.end().0.time, 2);
            let mut reader = Client::reader(&plan, 30);
            assert_eq!(reader.run(&mut house, &without(&plan, silent)), 101);
            assert_eq!((reader.item.clone(), reader.end()), (item(&plan, 2), (writer.end().0, 1)));
        }
    }
}

#[test]
fn nothing_was_ever_written() {
    for words in PLANS {
        let plan = plan(words);
        let mut reader = Client::reader(&plan, 30);
        let nodes = without(&plan, 0);
        assert_eq!(reader.run(&mut House::new(&plan), &nodes), 102);
        assert_eq!(reader.end(), (Timestamp::ZERO, 1));
        assert_eq!(reader.item, vec![0xaa; plan.item_length()]);
        assert_eq!(reader.desk, vec![0xcc; plan.desk_length()]);
        assert!(nodes.iter().all(|node| reader.marks()[*node] == 1));
    }
}

#[test]
fn repair() {
    for words in ["N5 t1 b1 Q3 m2 repairable Byzantine", "N5 t1 b1 Q3 m2 repairable crash"] {
        let plan = plan(words);
        let mut house = House::new(&plan);
        let records = saved(&plan, 4, &item(&plan, 8));
        house.hold(&records, &[1, 3]);
        let mut reader = Client::reader(&plan, 30);
        for node in 0..4 {
            assert_eq!(kind(&reader.owed(node).unwrap()), 5);
            assert_eq!(reader.turn(&mut house, node), 0);
        }
        assert_eq!((reader.stage(), reader.round(), reader.marks()), (1, 1, &[0; 16][..]));
        let filled: Vec<u8> = records.iter().flat_map(Record::bytes).collect();
        assert_eq!(reader.desk, filled);
        assert_eq!(reader.item, vec![0xaa; plan.item_length()], "the item is written at the end only");
        let request = reader.owed(4).unwrap();
        assert_eq!(request, frame(4, 31, Body::WriteRequest(records[4].clone())));
        assert_eq!(reader.run(&mut house, &[4, 3, 2, 1]), 101);
        assert_eq!((reader.item.clone(), reader.end()), (item(&plan, 8), (records[0].stamp, 1)));
        let mut next = Client::reader(&plan, 50);
        assert_eq!(next.run(&mut house, &[1, 2, 3, 4]), 101, "complete now, without a repair");
        assert_eq!(next.end().1, 1);
    }
}

/// Under Byzantine clients a poisonous save is walked past, complete or not; the save before it is read in round 2.
#[test]
fn a_poisonous_save_is_walked_past() {
    let plan = plan("N5 t1 b1 Q3 m2 repairable Byzantine");
    let mut house = House::new(&plan);
    let good = saved(&plan, 1, &item(&plan, 8));
    for reached in [&[0, 1, 2, 3, 4][..], &[0, 1, 2]] {
        house.hold(&good, &[0, 1, 2, 3, 4]);
        house.hold(&poison(&plan, 2), reached);
        let mut reader = Client::reader(&plan, 30);
        for node in 0..4 {
            assert_eq!(reader.turn(&mut house, node), 0);
        }
        assert_eq!((reader.stage(), reader.round()), (0, 2));
        let bound = poison(&plan, 2)[0].stamp;
        assert_eq!(reader.owed(0).unwrap(), frame(0, 31, Body::ReadPrevious(bound)));
        assert_eq!(reader.run(&mut house, &[0, 1, 2, 3]), 101);
        assert_eq!((reader.item.clone(), reader.end()), (item(&plan, 8), (good[0].stamp, 2)));
        house = House::new(&plan);
    }
}

/// Crash clients trust: the m lowest-numbered of the set decide the item.
#[test]
fn a_poisonous_save_under_crash_clients() {
    let plan = plan("N5 t1 b1 Q3 m2 repairable crash");
    let mut house = House::new(&plan);
    let bad = poison(&plan, 2);
    house.hold(&bad, &[0, 1, 2, 3, 4]);
    let mut reader = Client::reader(&plan, 30);
    assert_eq!(reader.run(&mut house, &[4, 3, 2, 1]), 101);
    let shares = [(1, &bad[1].fragment[..]), (2, &bad[2].fragment[..])];
    assert_eq!(reader.item, decode(&plan, &shares));
}

#[test]
fn rounds_spent_and_clock_spent() {
    let plan = plan("N5 t1 b1 Q3 m2 repairable Byzantine W2");
    let mut house = House::new(&plan);
    for time in [1, 2, 3] {
        house.hold(&poison(&plan, time), &[0, 1, 2, 3, 4]);
    }
    let mut reader = Client::reader(&plan, u64::MAX - 2);
    assert_eq!(reader.run(&mut house, &[0, 1, 2, 3]), 104);
    assert_eq!((reader.end(), reader.stage(), reader.round()), ((Timestamp::ZERO, 2), 2, 2));
    house.hold(&saved(&plan, u64::MAX - 1, &item(&plan, 0)), &[0, 2]);
    let mut writer = Client::writer(&plan, 9, &item(&plan, 5));
    assert_eq!(writer.run(&mut house, &[0, 1, 2, 3]), 101);
    assert_eq!(writer.end().0.time, u64::MAX);
    let mut writer = Client::writer(&plan, 19, &item(&plan, 5));
    assert_eq!(writer.run(&mut house, &[0, 1, 2, 4]), 105);
    assert_eq!((writer.end(), writer.stage()), ((Timestamp::ZERO, 0), 2));
    assert_eq!(writer.desk, vec![0xcc; plan.desk_length()]);
    assert_eq!(wire::session_from(&writer.session).unwrap().times[..5], [u64::MAX, u64::MAX, u64::MAX, 0, 3]);
    assert_eq!(writer.marks()[..5], [2, 2, 2, 0, 2]);
}

fn permutations(length: usize) -> Vec<Vec<usize>> {
    if length == 0 {
        return vec![Vec::new()];
    }
    let shorter = permutations(length - 1);
    shorter.iter().flat_map(|order| (0..length).map(|at| inserted(order, at, length - 1))).collect()
}

fn inserted(order: &[usize], at: usize, number: usize) -> Vec<usize> {
    let mut order = order.to_vec();
    order.insert(at, number);
    order
}

/// Some saves, whole, partial or poisonous, of few times, so that timestamps meet.
fn some_saves(random: &mut Random, house: &mut House) {
    let plan = house.plan.clone();
    for _ in 0..random.within(0, 4) {
        let time = random.within(1, 3) as u64;
        let records = match random.chance(70) {
            true => craft::honest(random, &plan, time),
            false => craft::poisonous(random, &plan, time),
        };
        let nodes: Vec<usize> = (0..plan.n).filter(|_| random.chance(60)).collect();
        house.hold(&records, &nodes);
    }
}

/// All orders of the N-t replies of one read round, first or later, leave the same answer, session, desk, item and ending.
#[test]
fn every_order_of_arrival() {
    let mut random = Random::new(13);
    let mut ends = std::collections::BTreeMap::new();
    for round in 0..700 {
        let plan = plan(PLANS[round % 6]);
        let mut house = House::new(&plan);
        some_saves(&mut random, &mut house);
        let mut reader = Client::reader(&plan, 30);
        if random.chance(50) {
            for node in without(&plan, 0) {
                reader.turn(&mut house, node);
            }
        }
        if reader.stage() != 0 {
            continue;
        }
        let nodes = without(&plan, random.below(plan.n));
        let replies: Vec<Vec<u8>> = nodes.iter().map(|n| house.ask(&reader.owed(*n).unwrap()).unwrap()).collect();
        let mut met = permutations(replies.len()).into_iter().map(|order| {
            let mut client = reader.clone();
            let answers: Vec<u32> = order.iter().map(|at| client.hear(&replies[*at])).collect();
            (answers, client)
        });
        let (answers, client) = met.next().unwrap();
        *ends.entry((answers[answers.len() - 1], client.stage())).or_insert(0) += 1;
        assert!(met.all(|other| other == (answers.clone(), client.clone())), "{}", PLANS[round % 6]);
    }
    // next round, repair, done, never written, aborted: none of them went unmet
    assert!([(0, 0), (0, 1), (101, 2), (102, 2), (103, 2)].iter().all(|end| ends[end] > 5), "{ends:?}");
}

/// A late reply of an earlier round, and a repeated one, are not counted.
#[test]
fn late_and_repeated_replies() {
    let plan = plan("N4 t1 b0 Q3 m2 repairable Byzantine");
    let mut house = House::new(&plan);
    house.hold(&saved(&plan, 1, &item(&plan, 8)), &[0, 1, 2, 3]);
    house.hold(&poison(&plan, 2), &[0, 1, 2, 3]);
    let mut reader = Client::reader(&plan, 30);
    let replies: Vec<Vec<u8>> = (0..4).map(|n| house.ask(&reader.owed(n).unwrap()).unwrap()).collect();
    assert_eq!(reader.hear(&replies[0]), 0);
    let before = reader.clone();
    assert_eq!(reader.hear(&replies[0]), 11);
    assert_eq!(reader, before);
    assert_eq!((reader.hear(&replies[1]), reader.hear(&replies[2])), (0, 0));
    assert_eq!(reader.round(), 2);
    assert_eq!(reader.hear(&replies[3]), 10);
    assert_eq!(reader.run(&mut house, &[3, 2, 1]), 101);
    assert_eq!(reader.item, item(&plan, 8));
}

/// Any order of delivery, some requests twice, leaves the same bytes in the whole lent book.
#[test]
fn every_order_of_delivery() {
    let plan = plan("N4 t1 b0 Q3 m2 repairable Byzantine");
    let (nine, ten) = (item(&plan, 9), item(&plan, 10));
    let saves = [saved(&plan, 1, &nine), saved(&plan, 3, &nine), saved(&plan, 3, &ten), poison(&plan, 2)];
    let mut books = permutations(4).into_iter().map(|order| {
        let mut house = House::new(&plan);
        for at in order.iter().chain(&order[..2]) {
            house.hold(&saves[*at], &[0, 1, 2, 3]);
        }
        house.books
    });
    let first = books.next().unwrap();
    assert_eq!(first[0][9..11], [0, 4]);
    assert!(books.all(|other| other == first));
}

/// A session that the library made, with the desk that it handed back and the same plan, never meets refusal 9.
#[test]
fn sessions_of_the_library_are_in_range() {
    let mut random = Random::new(14);
    for round in 0..600 {
        let plan = Plan { w: random.pick(&[1, 2, 3, 65_535]), ..plan(PLANS[round % 7]) };
        let mut house = House::new(&plan);
        some_saves(&mut random, &mut house);
        let last = u64::MAX - plan.w as u64;
        let ask = random.pick(&[0, 7, last]);
        let mut client = match random.chance(50) {
            true => Client::reader(&plan, ask),
            false => Client::writer(&plan, ask, &item(&plan, 4)),
        };
        for _ in 0..8 * plan.n {
            let answers = match client.owed(random.below(plan.n)) {
                Ok(request) => house.ask(&request).map(|reply| client.hear(&reply)),
                refused => refused.map(|_| 0),
            };
            assert!(answers != Ok(9) && answers != Err(9));
        }
    }
}
