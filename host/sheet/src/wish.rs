//! `plan`: from a wish to a plan file, with what the plan survives, what it costs and what one more node would buy; and of a wish that no
//! plan serves, what to lower. Which N and Q a wish needs the library says: all that is told here comes of asking it.

use crate::code::{fault, Code, Fault, Report};
use crate::json::Json;
use crate::plan_text;
use crate::verbs::plan_json;
use pasis::{Member, Plan, Refusal, Wish};

/// The options of a wish: t, b and m.
pub const OPTIONS: [&str; 3] = ["--lost", "--lying", "--pieces"];

/// The most nodes of a plan. None of the three values of an accepted wish is above it.
const MOST: u64 = 16;

/// A number for each of the three values, or none.
type Each = [Option<u64>; 3];

fn values(wish: &Wish) -> [u64; 3] {
    [wish.t, wish.b, wish.m]
}

/// The wish with another value in one place.
fn with(wish: &Wish, place: usize, value: u64) -> Wish {
    let mut values = values(wish);
    values[place] = value;
    let [t, b, m] = values;
    Wish { member: wish.member, t, b, m }
}

/// Whether so many nodes serve it.
fn serve(nodes: u64, wish: &Wish) -> bool {
    wish.smallest().is_ok_and(|counts| u64::from(counts.n) <= nodes)
}

/// The greatest of these values, in this place, with which so many nodes serve the wish.
fn greatest(nodes: u64, wish: &Wish, place: usize, values: std::ops::RangeInclusive<u64>) -> Option<u64> {
    values.rev().find(|value| serve(nodes, &with(wish, place, *value)))
}

/// The greatest value above the wish's own, each alone, with which so many nodes serve it.
fn more(nodes: u64, wish: &Wish) -> Each {
    std::array::from_fn(|place| greatest(nodes, wish, place, values(wish)[place] + 1..=MOST))
}

/// What one more node buys, each alone, and the nodes that there are do not allow.
fn bought(nodes: u64, wish: &Wish) -> Option<Each> {
    let (now, then) = (more(nodes, wish), more(nodes + 1, wish));
    (nodes < MOST).then(|| std::array::from_fn(|place| then[place].filter(|_| then[place] > now[place])))
}

/// Values by their options, for people.
fn named(values: Each) -> String {
    let named = OPTIONS.iter().zip(values).filter_map(|(name, value)| value.map(|value| format!("{name} {value}")));
    match named.collect::<Vec<_>>() {
        none if none.is_empty() => "nothing more".to_string(),
        some => some.join(" or "),
    }
}

fn named_json(values: Each) -> Json {
    let value = |place: usize| Json::or_null(values[place].map(Json::Number));
    Json::Object(vec![("lost", value(0)), ("lying", value(1)), ("pieces", value(2))])
}

/// The wish as it is typed.
fn typed(wish: &Wish) -> String {
    let named = OPTIONS.iter().zip(values(wish)).map(|(name, value)| format!("{name} {value}"));
    let member = (wish.member == Member::NonRepair).then(|| "--non-repair".to_string());
    named.chain(member).collect::<Vec<_>>().join(" ")
}

// ---- a wish that no plan serves

/// The wish with one value lowered as little as is needed.
fn lowered(wish: &Wish, place: usize) -> Option<Wish> {
    let own = values(wish)[place];
    let value = greatest(MOST, wish, place, 0..=own.saturating_sub(1).min(MOST))?;
    (value < own).then(|| with(wish, place, value))
}

/// The wish with t and b lowered together, and m too where that is not enough.
fn lowered_together(wish: &Wish) -> Wish {
    let down_to = |most: u64, m: u64| Wish { t: wish.t.min(most), b: wish.b.min(most), m, ..*wish };
    let first = |m: u64| (0..=MOST).rev().map(|most| down_to(most, m)).find(|wish| serve(MOST, wish));
    if let Some(wish) = first(wish.m) {
        return wish;
    }
    let wish = with(&first(1).unwrap_or(down_to(0, 1)), 2, wish.m);
    lowered(&wish, 2).unwrap_or(wish)
}

/// The wish without a b above t and an m of 0.
fn set_right(wish: &Wish) -> Wish {
    Wish { b: wish.b.min(wish.t), m: wish.m.max(1), ..*wish }
}

/// What to wish for instead: one value lowered, where that is enough, each that will do; else more of them.
fn instead(wish: &Wish) -> Vec<Wish> {
    let near = set_right(wish);
    if serve(MOST, &near) {
        return vec![near];
    }
    let one: Vec<Wish> = (0..3).filter_map(|place| lowered(&near, place)).collect();
    if one.is_empty() {
        vec![lowered_together(&near)]
    } else {
        one
    }
}

/// What has to change for another wish.
fn change(from: &Wish, to: &Wish) -> String {
    let change = |((name, from), to): ((&str, u64), u64)| match from.cmp(&to) {
        std::cmp::Ordering::Equal => None,
        std::cmp::Ordering::Greater => Some(format!("lower {name} to {to}")),
        std::cmp::Ordering::Less => Some(format!("raise {name} to {to}")),
    };
    let changes = OPTIONS.into_iter().zip(values(from)).zip(values(to)).filter_map(change);
    changes.collect::<Vec<_>>().join(" and ")
}

/// Why no plan serves it.
fn reason(wish: &Wish, refusal: Refusal) -> String {
    let (t, b) = (wish.t, wish.b);
    let above = (b > t).then(|| format!("--lying {b} is above --lost {t}, of which they are a part"));
    let none = (wish.m == 0).then(|| "--pieces 0 gives no block back".to_string());
    let few = (!serve(MOST, &set_right(wish))).then(|| format!("{MOST} nodes are too few for the rest"));
    let words = match refusal {
        Refusal::Plan => [above, none, few].into_iter().flatten().collect::<Vec<_>>().join(", and "),
        _ => format!("no plan of up to {MOST} nodes serves {}", typed(wish)),
    };
    format!("{words} (refusal {})", refusal.number())
}

// ---- one that a plan serves

/// The smallest plan for a wish; F, clients and W are those of the plan that a sheet has without one.
pub fn smallest(wish: &Wish) -> Result<Plan, Fault> {
    let Plan { f, clients, w, .. } = Plan::default();
    wish.plan(f, clients, w).or_else(|refusal| {
        let ways: Vec<String> = instead(wish).iter().map(|other| change(wish, other)).collect();
        fault(Code::WrongUse, format!("{}: {}", reason(wish, refusal), ways.join(", or ")))
    })
}

/// N/m, to two places.
fn times(plan: &Plan) -> String {
    let (n, m) = (u32::from(plan.n), u32::from(plan.m));
    let text = format!("{:.2}", f64::from(n) / f64::from(m));
    let about = if 100 * n % m == 0 { "" } else { "about " };
    format!("{about}{} times", text.trim_end_matches('0').trim_end_matches('.'))
}

fn survives(plan: &Plan) -> String {
    let Plan { n, t, b, m, .. } = plan;
    let lost = match (t, b) {
        (0, _) if *n == 1 => "nothing, its one node must answer".to_string(),
        (0, _) => format!("no node lost or silent, all {n} must answer"),
        (_, 0) => format!("any {t} of the {n} nodes lost or silent, if none lies"),
        (_, 1) => format!("any {t} of the {n} nodes lost or silent, even if 1 of these lies"),
        _ => format!("any {t} of the {n} nodes lost or silent, even if {b} of these lie"),
    };
    match m {
        1 => format!("{lost}; any good piece of a save gives its block back"),
        _ => format!("{lost}; any {m} good pieces of a save give its block back"),
    }
}

/// The bytes of a save on all nodes: the pieces, and the heads of their records, timestamp and cross checksum.
struct Cost {
    pieces: usize,
    heads: usize,
}

fn cost(plan: &Plan) -> Cost {
    let pieces = usize::from(plan.n) * usize::from(plan.f);
    Cost { pieces, heads: plan.desk_size() - pieces }
}

fn costs(plan: &Plan) -> String {
    let Cost { pieces, heads } = cost(plan);
    let (block, head, all, times) = (plan.item_size(), heads / usize::from(plan.n), pieces + heads, times(plan));
    format!(
        "a save of a block of {block} bytes takes {pieces} bytes of pieces on all nodes, {times} its size; \
         with the heads of the records, {head} bytes a node, {all} in all"
    )
}

/// What the same nodes allow beside the wish, and what one more would buy.
fn further(wish: &Wish, nodes: u64) -> String {
    let same = named(more(nodes, wish));
    match bought(nodes, wish) {
        Some(values) => format!("the same nodes allow {same}; one more node would buy {}", named(values)),
        None => format!("the same nodes allow {same}; there is no further node, since N is at most {MOST}"),
    }
}

/// The sentences, each to be a comment of the plan file.
fn sentences(wish: &Wish, plan: &Plan) -> Vec<String> {
    let mut all = vec![
        format!("The smallest plan for {}.", typed(wish)),
        format!("Survives: {}.", survives(plan)),
        format!("Costs: {}.", costs(plan)),
        format!("More: {}.", further(wish, plan.n.into())),
        "F, clients and W have no part in N and Q and may be changed; clients is byzantine where one may lie."
            .to_string(),
    ];
    if plan.member == Member::NonRepair {
        let aborted = "Without repair: after a save that was cut off, opens may end aborted until the next save.";
        all.insert(2, aborted.to_string());
    }
    all
}

/// The verb: the plan file, its sentences before the nine values.
pub fn tell(wish: &Wish) -> Result<Report, Fault> {
    let plan = smallest(wish)?;
    let (nodes, Cost { pieces, heads }) = (u64::from(plan.n), cost(&plan));
    let mut report = Report::new(Code::Done);
    for sentence in sentences(wish, &plan) {
        report.line(format!("# {sentence}"));
    }
    report.lines.push(plan_text::write(&plan));
    let number = |number: usize| Json::Number(number as u64);
    let bytes = vec![("pieces", number(pieces)), ("heads", number(heads)), ("all", number(pieces + heads))];
    report.say("plan", plan_json(&plan));
    report.say("survives", named_json(values(wish).map(Some)));
    report.say("block", number(plan.item_size()));
    report.say("bytes", Json::Object(bytes));
    report.say("times", Json::Decimal(f64::from(plan.n) / f64::from(plan.m)));
    report.say("same_nodes", named_json(more(nodes, wish)));
    report.say("one_more_node", Json::or_null(bought(nodes, wish).map(named_json)));
    Ok(report)
}
