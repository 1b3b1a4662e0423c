//! `sheet plan`, as people meet it, for every wish that 16 nodes serve and for those around: what it prints is held against all plans that
//! the library accepts, one by one, and what it advises is done and asked again.

use pasis::{Member, Plan, Wish};
use std::process::Command;

const OPTIONS: [&str; 3] = ["--lost", "--lying", "--pieces"];

/// No value of an accepted wish is above the nodes of a plan.
const MOST: u64 = 16;

type Each = [Option<u64>; 3];

fn values(wish: &Wish) -> [u64; 3] {
    [wish.t, wish.b, wish.m]
}

fn with(wish: &Wish, place: usize, value: u64) -> Wish {
    let mut values = values(wish);
    values[place] = value;
    Wish { member: wish.member, t: values[0], b: values[1], m: values[2] }
}

/// The wish as it is typed.
fn typed(wish: &Wish) -> Vec<String> {
    let mut words: Vec<String> =
        OPTIONS.iter().zip(values(wish)).flat_map(|(name, value)| [name.to_string(), value.to_string()]).collect();
    if wish.member == Member::NonRepair {
        words.push("--non-repair".to_string());
    }
    words
}

/// `sheet plan` of a wish: exit code, standard output, standard error.
fn told(wish: &Wish, more: &[&str]) -> (i32, String, String) {
    let mut command = Command::new(env!("CARGO_BIN_EXE_sheet"));
    let output = command.arg("plan").args(typed(wish)).args(more).output().expect("it ends");
    let text = |bytes: Vec<u8>| String::from_utf8(bytes).expect("a text");
    (output.status.code().expect("a code"), text(output.stdout), text(output.stderr))
}

/// The first Q with which the library accepts a plan of exactly so many nodes.
fn first_q(nodes: u64, wish: &Wish) -> Option<u8> {
    let [n, t, b, m] = [nodes, wish.t, wish.b, wish.m].map(|value| u8::try_from(value).unwrap_or(u8::MAX));
    (0..=16).find(|q| Plan { n, t, b, q: *q, m, member: wish.member, ..Plan::default() }.check().is_ok())
}

fn accepted(wish: &Wish) -> bool {
    (1..=MOST).any(|nodes| first_q(nodes, wish).is_some())
}

/// The greatest value above the wish's own, each alone, for which there is a plan of exactly so many nodes.
fn greater(nodes: u64, wish: &Wish) -> Each {
    std::array::from_fn(|place| {
        let served = |value: &u64| first_q(nodes, &with(wish, place, *value)).is_some();
        (values(wish)[place] + 1..=MOST + 1).rfind(served)
    })
}

/// Every wish up to one more than 16 nodes serve in any value: t is at most 7, b at most 3, m at most 16.
fn wishes() -> Vec<Wish> {
    let mut all = Vec::new();
    for member in [Member::Repairable, Member::NonRepair] {
        for (t, b) in (0..=8).flat_map(|t| (0..=4).map(move |b| (t, b))) {
            all.extend((0..=17).map(|m| Wish { member, t, b, m }));
        }
    }
    all
}

fn object(values: Each) -> String {
    let [lost, lying, pieces] = values.map(|value| value.map_or("null".to_string(), |value| value.to_string()));
    format!("{{\"lost\":{lost},\"lying\":{lying},\"pieces\":{pieces}}}")
}

fn words(values: Each) -> String {
    let words = OPTIONS.iter().zip(values).filter_map(|(name, value)| value.map(|value| format!("{name} {value}")));
    let words: Vec<String> = words.collect();
    if words.is_empty() {
        "nothing more".to_string()
    } else {
        words.join(" or ")
    }
}

/// The smallest plan by trial, what the same nodes allow, and what one more node buys that they do not.
fn found(wish: &Wish) -> Option<(u64, u8, Each, Option<Each>)> {
    let (nodes, q) = (1..=MOST).find_map(|nodes| first_q(nodes, wish).map(|q| (nodes, q)))?;
    let (same, then) = (greater(nodes, wish), greater(nodes + 1, wish));
    let bought = std::array::from_fn(|place| then[place].filter(|_| then[place] != same[place]));
    Some((nodes, q, same, (nodes < MOST).then_some(bought)))
}

#[test]
fn every_plan_is_the_smallest_and_told_truly() {
    let mut plans = 0;
    for wish in wishes() {
        let Some((n, q, same, bought)) = found(&wish) else { continue };
        let Wish { member, t, b, m } = wish;
        let member = if member == Member::NonRepair { "non-repair" } else { "repairable" };
        let (code, out, err) = told(&wish, &["--json"]);
        assert_eq!((code, err.as_str()), (0, ""), "{wish:?}");
        let (block, pieces, heads, times) = (m * 1024, n * 1024, n * (40 + 32 * n), n as f64 / m as f64);
        let one_more = bought.map_or("null".to_string(), object);
        assert_eq!(
            out,
            format!(
                "{{\"code\":0,\"outcome\":\"done\",\"plan\":{{\"N\":{n},\"t\":{t},\"b\":{b},\"Q\":{q},\"m\":{m},\"F\":1024,\
                 \"member\":\"{member}\",\"clients\":\"crash\",\"W\":16}},\"survives\":{},\"block\":{block},\
                 \"bytes\":{{\"pieces\":{pieces},\"heads\":{heads},\"all\":{}}},\"times\":{times},\"same_nodes\":{},\
                 \"one_more_node\":{one_more},\"notes\":[]}}\n",
                object(values(&wish).map(Some)),
                pieces + heads,
                object(same),
            )
        );
        let (code, out, err) = told(&wish, &[]);
        assert_eq!((code, err.as_str()), (0, ""), "{wish:?}");
        let one_more = bought.map_or("there is no further node, since N is at most 16".to_string(), |bought| {
            format!("one more node would buy {}", words(bought))
        });
        let more = format!("\n# More: the same nodes allow {}; {one_more}.\n", words(same));
        let nine = format!("\nN {n}\nt {t}\nb {b}\nQ {q}\nm {m}\nF 1024\nmember {member}\nclients crash\nW 16\n");
        assert!(out.contains(&more) && out.ends_with(&nine), "{wish:?}: {out}");
        plans += 1;
    }
    assert_ne!(plans, 0);
}

/// The changes that a line advises, each way a list of them: an option and the value that it is to have.
fn advised(line: &str) -> Vec<Vec<(usize, u64)>> {
    let change = |text: &str| match text.split(' ').collect::<Vec<_>>().as_slice() {
        [verb, name, "to", value] if ["lower", "raise"].contains(verb) => {
            let place = OPTIONS.iter().position(|option| option == name).expect("an option");
            (place, value.parse().expect("a value"))
        }
        _ => panic!("no change: {text} in {line}"),
    };
    let advice = line.trim_end().split("): ").nth(1).expect("an advice");
    advice.split(", or ").map(|way| way.split(" and ").map(change).collect()).collect()
}

/// That each way that is told ends with an accepted wish, and that no lesser change of one value does.
fn advises_well(wish: &Wish) {
    let (code, out, err) = told(wish, &[]);
    assert_eq!((code, out.as_str()), (2, ""), "{wish:?}");
    assert!(err.starts_with("sheet: ") && err.ends_with('\n') && err.lines().count() == 1, "{err}");
    let ways = advised(&err);
    for way in &ways {
        let then = way.iter().fold(*wish, |wish, (place, value)| with(&wish, *place, *value));
        assert!(accepted(&then) && then.smallest().is_ok(), "{err}");
        for (place, value) in way {
            assert_eq!(
                err.contains(&format!("raise {} to {value}", OPTIONS[*place])),
                values(wish)[*place] < *value,
                "{err}"
            );
        }
    }
    // One value alone that will do, and how far: each is told. More of them are changed only where none will do, or b is above t, or m is 0.
    let ones: Vec<_> = ways.iter().filter(|way| way.len() == 1).cloned().collect();
    assert_eq!(ones, alone(wish), "{err}");
    assert!(ones.len() == ways.len() || ones.is_empty() || wish.b > wish.t || wish.m == 0, "{err}");
}

/// Each value that alone, lowered as little as is needed, makes a wish accepted; an m of 0 is raised.
fn alone(wish: &Wish) -> Vec<Vec<(usize, u64)>> {
    let other = |place: usize| {
        let own = values(wish)[place];
        let mut tried = if place == 2 && own == 0 { 1..2 } else { 0..own.min(MOST + 2) };
        tried.rfind(|value| accepted(&with(wish, place, *value))).map(|value| vec![(place, value)])
    };
    (0..3).filter_map(other).collect()
}

#[test]
fn every_bad_wish_gets_an_advice_that_helps() {
    let bad: Vec<Wish> = wishes().into_iter().filter(|wish| !accepted(wish)).collect();
    assert!(bad.iter().any(|wish| wish.b > wish.t) && bad.iter().any(|wish| wish.m == 0));
    bad.iter().for_each(advises_well);
}

#[test]
fn so_do_the_greatest_numbers() {
    for member in [Member::Repairable, Member::NonRepair] {
        for value in [18, 255, 256, 257, 1 << 32, u64::MAX - 1, u64::MAX] {
            for (t, b, m) in [(value, 0, 1), (value, value, 1), (1, value, 1), (1, 1, value), (value, 1, value)] {
                advises_well(&Wish { member, t, b, m });
            }
            advises_well(&Wish { member, t: value, b: value, m: 0 });
            advises_well(&Wish { member, t: value, b: value, m: value });
        }
        advises_well(&Wish { member, t: u64::MAX - 1, b: u64::MAX, m: 0 });
    }
}
