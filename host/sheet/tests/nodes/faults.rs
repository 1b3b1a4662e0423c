//! Nodes that fail: within t every operation is done and the node is named; beyond it the operation ends at its deadline, and says so.

use crate::node::Way;
use crate::place::{until, Place, PLAN};
use std::thread;

/// One node that fails in each way, and what is said of it by a save.
const ONE: [(Way, &str); 9] = [
    (Way::Silent, "node 2: silent: no channel yet"),
    (Way::Closes, "node 2: silent: closed the channel at the greeting; if it is a keeper, its line begins with bare"),
    (Way::Bare, "node 2: silent: "),
    (Way::GreetsAs(3), "node 2: silent: says that it is node 3"),
    (Way::OtherPlan, "node 2: silent: has another plan: Q is 3 here and 4 there"),
    (Way::OtherWords, "node 2: silent: answers the greeting by something else"),
    (Way::Long, "node 2: silent: sent a length that no frame has (4294967295)"),
    (Way::Short, "node 2: silent: sent a length that no frame has (3)"),
    (Way::SilentToWrites, "node 2: silent at the write; a full or a damaged book does not answer"),
];

#[test]
fn one_node_that_fails() {
    for (way, line) in ONE {
        let place = Place::five(&format!("one-{way:?}").replace(['(', ')'], "-"));
        place.nodes[2].turn(way);
        let said = place.sheet_until("save one --nodes nodes", |said| {
            assert_eq!(said.code, 0, "{way:?}: {}{}", said.out, said.err);
            assert!(said.out.contains("stored at nodes 0 1 3 4\n"), "{way:?}: {}", said.out);
            said.line("node 2: ").starts_with(line)
        });
        said.within(0.0, 15.0);
        place.opens("one");
        assert_eq!(place.nodes[2].held(), 0, "{way:?}");
    }
}

#[test]
fn a_node_that_speaks_for_another() {
    let place = Place::five("speaks");
    place.nodes[2].turn(Way::SpeaksAs(4));
    place.nodes[4].turn(Way::Silent);
    // With node 4 silent, a frame under its number would be the fourth reply.
    let said = place.sheet("save one --nodes nodes --within 3");
    assert_eq!(said.code, 7, "{}{}", said.out, said.err);
    assert_eq!(said.err, "sheet: node 2: sent a frame of node 4, which is dropped\n");
    assert!(said
        .out
        .starts_with("no end: the time round heard nodes 0 1 3, and 4 replies end it; nothing was stored\n"));
    place.nodes[4].turn(Way::Serves);
    assert!(place.sheet("save one --nodes nodes").out.contains("stored at nodes 0 1 3 4\n"));
}

#[test]
fn more_than_may_fail() {
    let place = Place::five("beyond");
    place.save("one");
    place.nodes[0].turn(Way::Silent);
    place.nodes[3].turn(Way::Closes);
    for words in ["save two", "open out"] {
        let said = place.sheet(&format!("{words} --nodes nodes --within 0.5"));
        assert_eq!(said.code, 7, "{}", said.out);
        assert!(said.out.starts_with("no end: the "), "{}", said.out);
        said.within(0.5, 10.0);
    }
    assert!(!place.folder.join("out").exists());
    // No wait where waiting is of no use.
    place.nodes[0].turn(Way::OtherPlan);
    place.nodes[3].turn(Way::GreetsAs(1));
    let said = place.sheet("save two --nodes nodes --within 20");
    assert_eq!(said.code, 7, "{}", said.out);
    assert_eq!(said.line("node 0: "), "node 0: silent: has another plan: Q is 3 here and 4 there");
    said.within(0.0, 15.0);
    place.nodes[0].turn(Way::Serves);
    place.nodes[3].turn(Way::Serves);
    place.opens("one");
}

#[test]
fn nodes_that_come_late_or_again() {
    let place = Place::five("late");
    for node in &place.nodes {
        node.turn(Way::Slow(120));
    }
    place.save("one");
    place.all_hold(1);
    for (node, way) in [Way::Forgets, Way::Repeats, Way::Roomless, Way::Slow(30), Way::Forgets].into_iter().enumerate()
    {
        place.nodes[node].turn(way);
    }
    place.save("two");
    place.opens("two");
    // One of those that close is not waited for, if it has no channel when the others have stored.
    until("four hold it", || place.nodes.iter().filter(|node| node.held() == 2).count() >= 4);
}

/// A slow node is not waited for, and gets its record all the same.
#[test]
fn the_rest_gets_its_record() {
    let place = Place::five("rest");
    place.nodes[1].turn(Way::SlowToWrites(5000));
    let said = place.sheet("save one --nodes nodes");
    assert!(said.code == 0 && said.out.contains("stored at nodes 0 2 3 4\n"), "{}", said.out);
    assert_eq!(place.nodes[1].held(), 0);
    place.all_hold(1);
}

/// Nodes that are out of reach at first and come back within the deadline, as behind a tunnel whose far end is not up for five seconds.
#[test]
fn nodes_that_come_back() {
    let place = Place::five("back");
    for node in &place.nodes[..3] {
        node.turn(Way::Closes);
    }
    thread::scope(|scope| {
        let save = scope.spawn(|| place.sheet("save one --nodes nodes --within 30"));
        until("they are tried again", || place.nodes[..3].iter().all(|node| node.came() > 7));
        place.nodes.iter().for_each(|node| node.turn(Way::Serves));
        let said = save.join().expect("no panic");
        assert_eq!(said.code, 0, "{}{}", said.out, said.err);
    });
    place.opens("one");
}

#[test]
fn a_save_in_part_is_repaired_by_an_open() {
    let place = Place::five("part");
    place.save("one");
    for node in [0, 1, 2] {
        place.nodes[node].turn(Way::SilentToWrites);
    }
    let said = place.sheet("save two --nodes nodes --within 3");
    assert_eq!(said.code, 1, "{}", said.out);
    assert!(said.out.starts_with("no end: the write round heard nodes 3 4, and 4 replies end it; 2:"), "{}", said.out);
    assert!(said.out.contains(" is stored at nodes 3 4, and may be at others\n"), "{}", said.out);
    place.nodes[0].turn(Way::Silent);
    for node in [1, 2] {
        place.nodes[node].turn(Way::Serves);
    }
    let said = place.opens("two");
    assert!(said.out.contains(", after a repair at nodes 1 2 3 4\n"), "{}", said.out);
}

#[test]
fn full_books() {
    let place = Place::with("full", &PLAN, 1);
    place.save("one");
    place.all_hold(1);
    let said = place.sheet("save two --nodes nodes --within 3");
    assert_eq!(said.code, 1, "{}", said.out);
    assert!(said.out.contains(" is stored at no node, and may be at others\n"), "{}", said.out);
    assert_eq!(said.line("node 4: "), "node 4: silent at the write; a full or a damaged book does not answer");
    place.opens("one");
    let said = place.sheet("check --nodes nodes");
    assert_eq!(said.code, 0, "{}", said.out);
    assert_eq!(said.line("node 0: "), "node 0: good, 1 held, room for 0 more");
    assert_eq!(said.err, "sheet: short of room: 0 more saves fit, and --room-for is 3\n");
}

#[test]
fn a_damaged_record() {
    let place = Place::five("damaged");
    place.save("one");
    place.all_hold(1);
    let mut book = place.nodes[3].book();
    book[11 + PLAN.record_size() - 1] ^= 1;
    place.nodes[3].set_book(book);
    place.nodes[0].turn(Way::Slow(2000));
    let said = place.opens("one");
    assert_eq!(said.line("node 3: "), "node 3: its reply is refused (refusal 6: a hash check fails)");
}
