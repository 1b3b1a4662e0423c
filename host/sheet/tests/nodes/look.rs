//! `show` and `check` over nodes: what each holds, what the rule decides, how much room there is; and that nothing is written.

use crate::node::Way;
use crate::place::{Place, PLAN};

#[test]
fn the_picture_of_live_nodes() {
    let place = Place::five("picture");
    place.save("one");
    place.all_hold(1);
    for node in [0, 1, 4] {
        place.nodes[node].turn(Way::SilentToWrites);
    }
    assert_eq!(place.sheet("save two --nodes nodes --within 3").code, 1);
    let mut book = place.nodes[3].book();
    book[11 + 2 * PLAN.record_size() - 1] ^= 1;
    place.nodes[3].set_book(book);
    place.nodes[4].turn(Way::GreetsAs(7));
    place.nodes[0].turn(Way::Serves);
    place.nodes[1].turn(Way::Serves);
    let before: Vec<Vec<u8>> = place.nodes.iter().map(|node| node.book()).collect();
    let said = place.sheet("show --nodes nodes");
    assert_eq!((said.code, said.err.as_str()), (0, ""), "{}", said.out);
    let cells = |node: usize| said.line(&format!("node {node} ")).split_whitespace().skip(2).collect::<String>();
    assert_eq!([0, 1, 2, 3].map(cells), ["x.", "x.", "xx", "x!"], "{}", said.out);
    assert_eq!(said.line("node 4 "), "node 4     silent: says that it is node 7");
    assert!(said.line("by eye ").ends_with("at nodes 2 3"), "{}", said.out);
    assert_eq!(said.line("verdict"), "verdict  no end: the read round heard nodes 0 1 2, and 4 replies end it");
    assert_eq!(said.line("silent "), "silent   node 4");
    assert_eq!(said.line("damaged "), "damaged  node 3");
    assert_eq!(said.line("room "), "room     0 more saves fit");
    assert_eq!(place.nodes.iter().map(|node| node.book()).collect::<Vec<_>>(), before, "show wrote");
}

#[test]
fn behind_and_repaired_on_copies_alone() {
    let place = Place::five("behind");
    place.save("one");
    place.all_hold(1);
    place.nodes[4].turn(Way::Closes);
    assert_eq!(place.sheet("save two --nodes nodes").code, 0);
    place.nodes[4].turn(Way::Serves);
    let said = place.sheet("show --nodes nodes --json");
    assert!(said.out.contains("{\"node\":4,\"cells\":[\"x\",\".\"]}"), "{}", said.out);
    assert!(
        said.out.contains("\"silent\":[],\"damaged\":[],\"behind\":[4],\"saves_fit\":{\"least\":18,\"most\":18}"),
        "{}",
        said.out
    );
    let said = place.sheet("check --nodes nodes");
    assert_eq!((said.code, said.err.as_str()), (0, ""));
    assert!(
        said.line("node 4: ").starts_with("node 4: good, 1 held, room for 19 more; behind, without 2:"),
        "{}",
        said.out
    );
    assert_eq!(said.line("room: "), "room: 18 more saves fit");
    assert!(said.out.ends_with("0 of 5 nodes not good, 0 of them serving: within what the plan allows (t 1, b 1)\n"));
    place.nodes[0].turn(Way::Silent);
    let said = place.sheet("show --nodes nodes --within 3");
    assert!(said.line("verdict").ends_with(", in 1 round, after a repair at nodes 1 2 3 4"), "{}", said.out);
    assert_eq!(place.nodes[4].held(), 1, "show wrote");
    said.within(3.0, 15.0);
}

#[test]
fn what_check_warns_of() {
    let place = Place::with("room", &PLAN, 4);
    place.save("one");
    let said = place.sheet("check --nodes nodes --room-for 4");
    assert_eq!((said.code, said.err.as_str()), (0, "sheet: short of room: 3 more saves fit, and --room-for is 4\n"));
    assert_eq!(place.sheet("check --nodes nodes").err, "");
    place.nodes[1].turn(Way::Roomless);
    let said = place.sheet("check --nodes nodes");
    assert_eq!(said.line("room: "), "room: 3 more saves fit");
    place.nodes[2].turn(Way::Roomless);
    let said = place.sheet("check --nodes nodes --json");
    assert!(said.out.contains("\"saves_fit\":{\"least\":0,\"most\":3},\"short\":false"), "{}", said.out);
    place.nodes[0].turn(Way::Closes);
    place.nodes[3].turn(Way::Closes);
    let said = place.sheet("check --nodes nodes");
    assert_eq!(said.code, 8, "{}", said.out);
    assert!(said
        .out
        .ends_with("2 of 5 nodes not good, 0 of them serving: MORE than what the plan allows (t 1, b 1)\n"));
    said.within(0.9, 15.0);
}

/// More saves than the picture has columns, each asked for by one request.
#[test]
fn all_that_a_node_holds() {
    let place = Place::five("all");
    for save in 1..=9 {
        place.save("one");
        place.all_hold(save);
    }
    let said = place.sheet("show --nodes nodes");
    assert!(said.out.contains("3 older saves are left out; --all shows them\n"), "{}", said.out);
    let said = place.sheet("show --nodes nodes --all");
    assert_eq!(said.line("node 2 ").matches('x').count(), 9, "{}", said.out);
    let kinds: Vec<u8> = place.nodes[2].asked().iter().map(|(kind, _)| *kind).collect();
    assert_eq!(kinds[kinds.len() - 10..], [5, 6, 6, 6, 6, 6, 6, 6, 6, 6]);
}
