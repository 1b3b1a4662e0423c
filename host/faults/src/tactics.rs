//! Whom an operation hears first: the choice of an adversary who knows what every node holds.

use crate::nodes::Nodes;
use crate::plan::{Plan, STAMP};
use second::random::Random;

#[derive(Clone, Copy, PartialEq)]
pub enum First {
    Any,
    /// The nodes that hold the newest record.
    Holders,
    /// The nodes that do not.
    Others,
}

/// A call with nothing beside it: whether it is a save, whom it hears first, and which client makes it, where that matters.
#[derive(Clone, Copy)]
pub struct Probe {
    pub save: bool,
    pub first: First,
    pub client: Option<usize>,
}

impl Probe {
    const fn save(first: First) -> Probe {
        Probe { save: true, first, client: None }
    }

    const fn open(first: First) -> Probe {
        Probe { save: false, first, client: None }
    }
}

/// What comes after a record was left with some of the nodes, the last one first: an open by way of those that hold it, and two by way of the
/// others.
pub const AFTER_A_CUT: [Probe; 3] =
    [Probe::open(First::Others), Probe::open(First::Others), Probe::open(First::Holders)];
/// What may come after a save that is done: a save that hears first those that do not know of it, and an open that does.
pub const AFTER_A_SAVE: [Probe; 2] = [Probe::open(First::Others), Probe::save(First::Others)];

/// What comes after a client has given up with its replies under way: another saves, and then it does the same again.
pub fn after_held_replies(client: usize, other: usize, save: bool) -> [Probe; 2] {
    let again = Probe { save, first: First::Any, client: Some(client) };
    [again, Probe { client: Some(other), ..Probe::save(First::Any) }]
}

/// How late the messages between an operation and each node are. As many nodes as may be missed are heard last, a liar at once. Where any
/// node will do, the nodes from `slow` on are missed, so that they fall behind.
pub fn lateness(plan: &Plan, nodes: &Nodes, first: First, slow: usize, random: &mut Random) -> Vec<u8> {
    let newest = nodes.newest();
    let holds = |i: usize| newest != [0; STAMP] && nodes.holds(i) == newest;
    let wanted = |i: usize| match first {
        First::Any => true,
        First::Holders => holds(i),
        First::Others => !holds(i),
    };
    let mut late: Vec<u8> = (0..plan.n).map(|i| if nodes.lies(i) || wanted(i) { 0 } else { 1 }).collect();
    let avoided = |i: &usize| !nodes.lies(*i) && (first == First::Any || !wanted(*i));
    let mut last: Vec<usize> = (slow..slow + plan.n).map(|i| i % plan.n).filter(avoided).collect();
    for _ in 0..plan.t.saturating_sub(nodes.silent().len()).min(last.len()) {
        let at = if first == First::Any { 0 } else { random.below(last.len()) };
        late[last.remove(at)] = 2;
    }
    late
}

/// Whom a round hears first: a time round those that know of nothing new, a repair those that have the record already. An open that comes
/// after a record was left with some of the nodes has its own.
pub fn first(save: bool, storing: bool, probe: Option<First>, random: &mut Random) -> First {
    let usual = match (save, storing) {
        (true, false) => [First::Others, First::Others, First::Others, First::Any],
        (true, true) => [First::Any, First::Any, First::Any, First::Holders],
        (false, true) => [First::Holders, First::Holders, First::Holders, First::Any],
        (false, false) => [First::Any, First::Holders, First::Others, First::Others],
    };
    match probe {
        Some(first) if !storing && random.chance(90) => first,
        _ => random.pick(&usual),
    }
}

/// With how many good nodes a record is left: as a rule with so many that one reader may have to repair it and the next may not see it.
pub fn cut(plan: &Plan, random: &mut Random) -> usize {
    match random.within(0, 9) {
        0..=4 => plan.q - 1,
        5..=7 => random.within(plan.q - plan.t, plan.q + plan.b - 1),
        _ => random.within(1, plan.n),
    }
}
