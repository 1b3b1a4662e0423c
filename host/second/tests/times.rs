//! Document 02, Q-2: the new time is the (b+1)-th greatest of the N-t time replies, equal values counted each, plus 1.

mod common;

use common::*;
use second::frame::Body;
use second::plan::Plan;
use second::wire;

const FIRST: &str = "N5 t1 b1 Q3 m2 repairable";
const LAST: u64 = u64::MAX;

/// A writer that has heard these times from these nodes, and its last answer.
fn told(plan: &Plan, replies: &[(usize, u64)]) -> (Client, u32) {
    let mut client = Client::writer(plan, 6, &item(plan, 3));
    let mut answer = 0;
    for (node, time) in replies {
        assert_eq!(answer, 0);
        answer = client.hear(&frame(*node, 6, Body::TimeReply(*time)));
    }
    (client, answer)
}

/// The time that these replies give; none where they spend the clock.
fn new_time(plan: &Plan, replies: &[(usize, u64)]) -> Option<u64> {
    let (client, answer) = told(plan, replies);
    match (answer, client.stage()) {
        (0, 1) => Some(wire::session_from(&client.session).unwrap().stamp.time),
        (105, 2) => None,
        other => panic!("{other:?}"),
    }
}

fn from_0<const K: usize>(times: [u64; K]) -> Vec<(usize, u64)> {
    times.into_iter().enumerate().collect()
}

#[test]
fn the_documents_rows() {
    let plan = plan(FIRST);
    for times in [[LAST, 9, 9, 4], [7, 9, 9, 4], [9, 9, 9, 4], [9, 9, 4, 4], [4, 9, 9, 4], [7, LAST, 9, 4]] {
        assert_eq!(new_time(&plan, &from_0(times)), Some(10), "{times:?}");
    }
    assert_eq!(new_time(&plan, &from_0([10, 4, 4, 4])), Some(5));
    assert_eq!(new_time(&plan, &from_0([LAST, 0, 0, 0])), Some(1));
}

/// "Clock spent" exactly when the (b+1)-th value is 2^64-1; the desk then stays, and the session keeps times and marks.
#[test]
fn clock_spent() {
    let plan = plan(FIRST);
    for times in [[LAST; 4], [LAST, LAST, 9, 4], [4, LAST, 9, LAST]] {
        let (client, answer) = told(&plan, &from_0(times));
        assert_eq!((answer, client.stage(), &client.marks()[..5]), (105, 2, &[2, 2, 2, 2, 0][..]), "{times:?}");
        assert_eq!(client.desk, vec![0xcc; plan.desk_length()]);
        assert_eq!(wire::session_from(&client.session).unwrap().times[..5], [&times[..], &[0]].concat());
    }
    assert_eq!(new_time(&plan, &from_0([LAST, LAST - 1, 9, 4])), Some(LAST), "the last time is still given");
    let plan = common::plan("N5 t1 b0 Q2 m2 non-repair");
    assert_eq!(new_time(&plan, &from_0([7, LAST - 1, 9, 4])), Some(LAST), "b 0: the greatest");
    assert_eq!(new_time(&plan, &from_0([7, LAST, 9, 4])), None);
}

/// All replies of `count` nodes with times 0 to `most`.
fn vectors(count: usize, most: u64) -> Vec<Vec<u64>> {
    let longer = |short: Vec<u64>| (0..=most).map(move |time| [&short[..], &[time]].concat());
    (0..count).fold(vec![Vec::new()], |all, _| all.into_iter().flat_map(longer).collect())
}

/// The choices of so many of these nodes.
fn choices(nodes: &[usize], many: usize) -> Vec<Vec<usize>> {
    match nodes {
        _ if many == 0 => vec![Vec::new()],
        [] => Vec::new(),
        [first, rest @ ..] => {
            let with = choices(rest, many - 1).into_iter().map(|choice| [&[*first][..], &choice].concat());
            with.chain(choices(rest, many)).collect()
        }
    }
}

const PLANS: [&str; 5] = [
    "N3 t1 b0 Q2 m1 F1 repairable",
    "N5 t1 b1 Q3 m2 F1 repairable",
    "N6 t1 b1 Q4 m3 F1 repairable",
    "N7 t1 b1 Q3 m4 F1 non-repair",
    "N9 t2 b2 Q5 m1 F1 repairable",
];

/// By counting, without an order: more than b replies reach the time below the new one, and at most b pass it. So with at most b lying
/// nodes, whoever they are, an honest one reaches it.
#[test]
fn one_above_some_honest_reply() {
    for words in PLANS {
        let plan = plan(words);
        let nodes: Vec<usize> = (plan.t..plan.n).rev().collect();
        let liars = choices(&nodes, plan.b);
        for times in vectors(nodes.len(), 2) {
            let replies: Vec<(usize, u64)> = nodes.iter().copied().zip(times).collect();
            let time = new_time(&plan, &replies).unwrap();
            let reach = |least: u64| replies.iter().filter(|(_, said)| *said >= least).count();
            assert!(reach(time - 1) > plan.b && reach(time) <= plan.b, "{words} {replies:?}");
            let honest =
                |lying: &Vec<usize>| replies.iter().any(|(node, said)| !lying.contains(node) && time <= said + 1);
            assert!(liars.iter().all(honest), "{words} {replies:?}");
        }
    }
}

/// A complete write is passed: Q honest nodes hold time 7, and whoever is heard, and whatever the others say, the new time is above 7.
#[test]
fn a_complete_write_is_passed() {
    for words in PLANS {
        let plan = plan(words);
        let nodes: Vec<usize> = (0..plan.n).collect();
        for holders in choices(&nodes, plan.q) {
            for heard in choices(&nodes, plan.replies()) {
                let said = |low: u64| {
                    let replies: Vec<(usize, u64)> =
                        heard.iter().map(|node| (*node, if holders.contains(node) { 7 } else { low })).collect();
                    new_time(&plan, &replies).unwrap()
                };
                assert!(said(0) > 7 && said(8) > 7, "{words} {holders:?} {heard:?}");
            }
        }
    }
}

/// Entries of unheard nodes count for nothing, and every call hands them back.
#[test]
fn entries_of_unheard_nodes() {
    let plan = plan(FIRST);
    let mut client = Client::writer(&plan, 6, &item(&plan, 3));
    assert!(client.session[wire::TIMES..wire::STAMP].iter().all(|byte| *byte == 0), "a fresh session");
    client.session[wire::TIMES..wire::STAMP].fill(255);
    for (node, time) in [(4, 9), (1, 9), (0, 3), (2, 4)] {
        assert!(client.owed(node).is_ok());
        assert_eq!(client.hear(&frame(node, 6, Body::TimeReply(time))), 0);
    }
    let session = wire::session_from(&client.session).unwrap();
    assert_eq!((session.stamp.time, session.times[..6].to_vec()), (10, vec![3, 9, 4, LAST, 9, LAST]));
    let kept = client.session[wire::TIMES..wire::STAMP].to_vec();
    let stamp = session.stamp;
    let acknowledged: Vec<u32> = (0..4).map(|node| client.hear(&frame(node, 7, Body::WriteReply(stamp)))).collect();
    assert_eq!(acknowledged, [0, 0, 0, 101]);
    assert_eq!(client.session[wire::TIMES..wire::STAMP], kept, "a write round and its end leave them");
    let mut reader = Client::reader(&plan, 30);
    reader.session[wire::TIMES..wire::STAMP].copy_from_slice(&kept);
    assert_eq!(reader.run(&mut House::new(&plan), &[0, 1, 2, 3]), 102);
    assert_eq!(reader.session[wire::TIMES..wire::STAMP], kept, "and so does a read");
}

/// A session of the interface before, 117 bytes, has a wrong length at every call.
#[test]
fn sessions_of_117_bytes() {
    let plan = plan(FIRST);
    let mut writer = Client::writer(&plan, 6, &item(&plan, 3));
    writer.session.truncate(117);
    assert_eq!((writer.owed(0), writer.hear(&frame(0, 6, Body::TimeReply(3)))), (Err(2), 2));
    assert_eq!(wire::open_write(&writer.plan, 6, &mut writer.session), 2);
    assert_eq!(wire::open_read(&writer.plan, 6, &mut writer.session), 2);
}
