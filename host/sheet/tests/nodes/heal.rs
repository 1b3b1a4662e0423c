//! A lost machine is replaced: its node has a fresh book, and holds the last save afterwards, under that save's own timestamp.

use crate::node::Way;
use crate::place::{Place, PLAN};
use pasis::Plan;

#[test]
fn a_fresh_book_gets_the_last_save() {
    let place = Place::five("heal");
    place.save("one");
    place.save("two");
    place.nodes[3].lose_book();
    let said = place.sheet("heal --nodes nodes --node 3");
    assert_eq!((said.code, said.err.as_str()), (0, ""), "{}", said.out);
    let before =
        "before   node 3 holds nothing; it counts among the t 1 that may be lost: until it is healed no other may fail";
    assert_eq!(said.line("before "), before);
    assert!(said.line("open ").starts_with("open     done: 2:"), "{}", said.out);
    assert!(said.line("stored ").ends_with(" at node 3, under its own timestamp"), "{}", said.out);
    let after = said.line("after ");
    assert!(
        after.starts_with("after    node 3 holds 2:")
            && after.ends_with(" alone, and counts as good: 1 may fail, 1 of these lying (t 1, b 1)")
    );
    assert_eq!(place.nodes[3].held(), 1);
    assert!(place.nodes.iter().all(|node| node.held() <= 2), "heal saved anew");
    // Now any other may be lost.
    place.nodes[0].turn(Way::Closes);
    place.opens("two");
    let said = place.sheet("heal --nodes nodes --node 3 --json --within 3");
    assert_eq!(said.code, 7, "with node 0 lost too there are too few others: {}", said.out);
}

/// Machines that are lost and replaced one after another, a save in between: no save is lost, though another node is silent at each open.
#[test]
fn one_machine_after_another() {
    let place = Place::five("turns");
    place.save("one");
    for turn in 0..10 {
        let (lost, block) = (turn * 3 % 5, ["two", "one"][turn % 2]);
        if turn % 3 != 0 {
            place.save(block);
            place.put("last", place.get(block));
        } else if turn == 0 {
            place.put("last", place.get("one"));
        }
        place.nodes[lost].lose_book();
        let said = place.sheet(&format!("heal --nodes nodes --node {lost} --json"));
        assert_eq!(said.code, 0, "{}", said.out);
        assert!(
            said.out.contains(&format!("\"node\":{lost},\"before\":\"holds nothing\",\"may_fail_before\":0,")),
            "{}",
            said.out
        );
        assert!(said.out.contains("\"may_fail_after\":1,"), "{}", said.out);
        for silent in (0..5).filter(|node| *node != lost) {
            place.nodes[silent].turn(Way::Closes);
            place.opens("last");
            place.nodes[silent].turn(Way::Serves);
        }
    }
}

/// Without heal the block may be gone, where b is 0: this is what the command is for.
#[test]
fn with_heal_and_without() {
    for healed in [true, false] {
        let plan = Plan { n: 3, t: 1, b: 0, q: 2, m: 1, f: 8, ..PLAN };
        let place = Place::with(&format!("healed-{healed}"), &plan, 9);
        place.nodes[2].turn(Way::Closes);
        assert_eq!(place.sheet("save one --nodes nodes").code, 0);
        place.nodes[2].turn(Way::Serves);
        place.nodes[1].lose_book();
        if healed {
            assert_eq!(place.sheet("heal --nodes nodes --node 1").code, 0);
        }
        place.nodes[0].turn(Way::Closes);
        let code = place.sheet("open out --nodes nodes").code;
        assert_eq!(code, if healed { 0 } else { 3 }, "healed: {healed}");
    }
}

#[test]
fn what_heal_does_not_touch() {
    let place = Place::five("touch");
    let said = place.sheet("heal --nodes nodes --node 0");
    assert_eq!(said.code, 0, "{}", said.out);
    assert!(said
        .line("after ")
        .starts_with("after    node 0 lacks nothing, since nothing was saved yet, and counts as good"));
    place.save("one");
    place.all_hold(1);
    let before: Vec<Vec<u8>> = place.nodes.iter().map(|node| node.book()).collect();
    assert_eq!(place.sheet("heal --nodes nodes --node 0").code, 0);
    assert_eq!(
        place.nodes.iter().map(|node| node.book()).collect::<Vec<_>>(),
        before,
        "a node that held it was changed"
    );
}

#[test]
fn a_node_that_cannot_be_healed() {
    let place = Place::five("cannot");
    place.save("one");
    place.all_hold(1);
    place.nodes[2].turn(Way::Closes);
    let said = place.sheet("heal --nodes nodes --node 2");
    assert_eq!(said.code, 7, "{}", said.out);
    assert!(said.line("no end: ").contains("give it a fresh book (sheet serve PLAN BOOK --new 2)"), "{}", said.out);
    place.nodes[2].turn(Way::SilentToWrites);
    place.nodes[2].lose_book();
    let said = place.sheet("heal --nodes nodes --node 2 --within 4");
    assert_eq!(said.code, 7, "{}", said.out);
    assert!(said.line("not healed: ").starts_with("not healed: node 2 "), "{}", said.out);
    let mut book = place.nodes[1].book();
    book[11 + PLAN.record_size() - 1] ^= 1;
    place.nodes[1].set_book(book);
    place.nodes[2].turn(Way::Serves);
    let said = place.sheet("heal --nodes nodes --node 1");
    assert_eq!(said.code, 8, "{}", said.out);
    assert!(said.line("damaged: ").ends_with(" with other bytes; give it a fresh book, then heal"), "{}", said.out);
}

#[test]
fn the_plans_own_numbers() {
    let plan = Plan { n: 3, t: 1, b: 0, q: 2, m: 1, f: 8, ..PLAN };
    let place = Place::with("numbers", &plan, 9);
    place.save("one");
    place.nodes[1].lose_book();
    let said = place.sheet("heal --nodes nodes --node 1");
    assert_eq!(said.code, 0, "{}", said.out);
    let none = "         b is 0: until then no other client may hear node 1, since it forgot what it acknowledged";
    assert_eq!(said.line("         b is 0"), none);
    let plan = Plan { n: 10, t: 3, b: 1, q: 5, m: 2, ..PLAN };
    let place = Place::with("more", &plan, 9);
    place.save("one");
    place.nodes[7].lose_book();
    place.nodes[8].turn(Way::Closes);
    let said = place.sheet("heal --nodes nodes --node 7");
    assert_eq!(said.code, 0, "{}", said.out);
    assert!(said
        .line("before ")
        .ends_with("among the t 3 that may be lost: until it is healed 2 more may fail, 1 of these lying"));
    assert!(
        said.line("after ").ends_with("counts as good; node 8 silent: 2 may fail, 1 of these lying (t 3, b 1)"),
        "{}",
        said.out
    );
    let plan = Plan { n: 3, t: 0, b: 0, q: 2, m: 1, f: 8, ..PLAN };
    let place = Place::with("none", &plan, 9);
    assert_eq!(place.sheet("heal --nodes nodes --node 1").code, 2);
}
