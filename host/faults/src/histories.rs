//! The checker's own tests: histories that a register gives and some that it does not, by hand and drawn, and one that is too much for it.

use crate::register::Outcome::{GivenUp, Nothing, Opened, Saved};
use crate::register::{judged, judged_within, stale_copies, Call, Outcome, Verdict};
use second::random::Random;

/// A name, whether it is a register's, and its calls.
type Case = (&'static str, bool, &'static [(usize, usize, Outcome)]);

/// Hand-made histories.
const CASES: &[Case] = &[
    ("nothing at all", true, &[]),
    ("never written", true, &[(0, 1, Opened(None))]),
    ("a save, then an open", true, &[(0, 1, Saved(1)), (2, 3, Opened(Some(1)))]),
    ("an open during a save, old", true, &[(0, 5, Saved(1)), (1, 2, Opened(None))]),
    ("an open during a save, new", true, &[(0, 5, Saved(1)), (1, 2, Opened(Some(1)))]),
    ("two saves at once, either order", true, &[(0, 5, Saved(1)), (1, 6, Saved(2)), (7, 8, Opened(Some(1)))]),
    ("a save given up, never seen", true, &[(0, 1, Saved(1)), (2, 3, GivenUp(2)), (4, 5, Opened(Some(1)))]),
    ("a save given up, seen late", true, &[(0, 1, GivenUp(1)), (2, 3, Opened(None)), (4, 5, Opened(Some(1)))]),
    ("an aborted open has no effect", true, &[(0, 1, Saved(1)), (2, 3, Nothing), (4, 5, Opened(Some(1)))]),
    (
        "an item that is written again",
        true,
        &[(0, 1, Saved(1)), (2, 3, Saved(2)), (0, 9, GivenUp(1)), (4, 5, Opened(Some(2))), (6, 7, Opened(Some(1)))],
    ),
    (
        "an item that is written again, and then the one before",
        false,
        &[(0, 1, Saved(1)), (2, 3, Saved(2)), (0, 9, GivenUp(1)), (4, 5, Opened(Some(1))), (6, 7, Opened(Some(2)))],
    ),
    ("a stale read", false, &[(0, 1, Saved(1)), (2, 3, Saved(2)), (4, 5, Opened(Some(1)))]),
    ("a lost write", false, &[(0, 1, Saved(1)), (2, 3, Opened(None))]),
    ("a value nobody wrote", false, &[(0, 1, Saved(1)), (2, 3, Opened(Some(9)))]),
    ("a value before its save", false, &[(0, 1, Opened(Some(1))), (2, 3, Saved(1))]),
    ("new, then old", false, &[(0, 9, Saved(1)), (1, 2, Opened(Some(1))), (3, 4, Opened(None))]),
    (
        "a save given up, seen and unseen again",
        false,
        &[(0, 1, Saved(1)), (2, 3, GivenUp(2)), (4, 5, Opened(Some(2))), (6, 7, Opened(Some(1)))],
    ),
    (
        "two opens that disagree on the order of two saves",
        false,
        &[(0, 5, Saved(1)), (1, 6, Saved(2)), (7, 8, Opened(Some(1))), (9, 10, Opened(Some(2)))],
    ),
];

/// The checker's own test: hand-made histories, good and broken, and good ones from a register with random times.
pub fn test_of_the_checker() -> Result<usize, String> {
    for (name, good, calls) in CASES {
        let history: Vec<Call> =
            calls.iter().map(|&(called, returned, outcome)| Call { called, returned, outcome }).collect();
        if judged(&history) != if *good { Verdict::Register } else { Verdict::None } {
            return Err(format!("the checker {} this history: {name}", if *good { "refuses" } else { "accepts" }));
        }
    }
    let (limited, plain) = (gives_up()?, same_as_plain()?);
    let made = 200;
    let broken = (0..made).map(drawn).sum::<Result<usize, String>>()?;
    if broken < made as usize {
        return Err("too few broken histories were drawn".into());
    }
    Ok(CASES.len() + limited + plain + made as usize + broken)
}

/// A history of a register whose calls overlap at random is accepted, each of its stale copies refused. Gives their number.
fn drawn(seed: u64) -> Result<usize, String> {
    let mut random = Random::new(seed);
    let (mut value, mut history) = (None, Vec::new());
    for i in 0..40 {
        let at = 100 * (i + 1);
        let (called, returned) = (at - random.within(1, 250.min(at)), at + random.within(1, 250));
        let outcome = match random.within(0, 9) {
            0 => Nothing,
            1..=4 => {
                value = Some(i);
                [Saved(i), GivenUp(i)][random.within(0, 4) / 4]
            }
            _ => Opened(value),
        };
        history.push(Call { called, returned, outcome });
    }
    if judged(&history) != Verdict::Register {
        return Err(format!("the checker refuses a register's history, seed {seed}"));
    }
    let copies = stale_copies(&history);
    match copies.iter().find(|copy| judged(copy) != Verdict::None) {
        Some(_) => Err(format!("the checker accepts a stale read, seed {seed}")),
        None => Ok(copies.len()),
    }
}

/// So many saves at once and then an open that found nothing: no register's, and the search has to try every order.
fn hard(saves: usize) -> Vec<Call> {
    let save = |i| Call { called: i, returned: 1000 + i, outcome: Saved(i) };
    let open = Call { called: 3000, returned: 3001, outcome: Opened(None) };
    (0..saves).map(save).chain([open]).collect()
}

/// The search says that it gave up, and neither verdict, as long as its limit is too low; from some limit on it has the verdict. Four histories.
fn gives_up() -> Result<usize, String> {
    if judged(&hard(6)) != Verdict::None || judged(&hard(20)) != Verdict::GaveUp {
        return Err("the checker does not give up where it should, or where it should not".into());
    }
    let good = [(0, 9, Saved(1)), (0, 9, Saved(2)), (10, 11, Opened(Some(1)))]
        .map(|(called, returned, outcome)| Call { called, returned, outcome });
    for (history, verdict) in [(&hard(4)[..], Verdict::None), (&good[..], Verdict::Register)] {
        let told: Vec<Verdict> = (0..200).map(|limit| judged_within(history, limit)).collect();
        let given_up = told.iter().take_while(|told| **told == Verdict::GaveUp).count();
        if given_up == 0 || given_up == 200 || told[given_up..].iter().any(|told| *told != verdict) {
            return Err(format!("the checker's verdict changes with its limit: {told:?}"));
        }
    }
    Ok(4)
}

/// Whether a register gives these calls when it holds `value`: every order is tried, a save that was given up with it and without it.
fn plain(left: &[Call], value: Option<usize>) -> bool {
    let must = |call: &&Call| matches!(call.outcome, Saved(_) | Opened(_));
    let Some(first) = left.iter().filter(must).map(|call| call.returned).min() else { return true };
    (0..left.len()).filter(|i| left[*i].called < first).any(|i| {
        let mut rest = left.to_vec();
        match rest.remove(i).outcome {
            Saved(written) | GivenUp(written) => plain(&rest, Some(written)),
            Opened(found) => found == value && plain(&rest, value),
            Nothing => false,
        }
    })
}

/// The search agrees with the plain one on small histories, with whatever an open may have returned.
fn same_as_plain() -> Result<usize, String> {
    let mut random = Random::new(7);
    let mut good = 0;
    let made = 1000;
    for number in 0..made {
        let mut history = Vec::new();
        for i in 0..random.within(2, 7) {
            let called = random.within(0, 20);
            let outcome = match random.within(0, 5) {
                0 => Nothing,
                1 | 2 => [Saved(i), GivenUp(i), GivenUp(random.below(i + 1))][random.below(3)],
                _ => Opened([None, Some(random.below(i + 1)), Some(random.below(7))][random.below(3)]),
            };
            history.push(Call { called, returned: called + random.within(1, 12), outcome });
        }
        let right = plain(&history, None);
        good += right as usize;
        if judged(&history) != if right { Verdict::Register } else { Verdict::None } {
            return Err(format!("the checker and the plain search differ on history {number}: {history:?}"));
        }
    }
    if good < made / 10 || good > made - made / 10 {
        return Err(format!("of {made} drawn histories {good} are a register's: too much of one kind"));
    }
    Ok(made)
}
