//! Histories of calls and returns, and whether a register could have given them: the search of Wing and Gong with a memory of the states
//! it has been in. Its own tests are in histories.rs; every run begins with them.

use std::collections::HashSet;
use Outcome::{GivenUp, Nothing, Opened, Saved};

/// What came of a call.
#[derive(Clone, Copy, Debug, PartialEq)]
pub enum Outcome {
    /// A save of this value, acknowledged.
    Saved(usize),
    /// A save of this value that never returned: it may take effect at any moment from its call on, or never.
    GivenUp(usize),
    /// An open that returned this value; none: never written.
    Opened(Option<usize>),
    /// An open that was aborted, spent its rounds or was given up; a save that spent the clock: no effect.
    Nothing,
}

#[derive(Clone, Copy, Debug)]
pub struct Call {
    pub called: usize,
    /// The moment of the return, or of being given up.
    pub returned: usize,
    pub outcome: Outcome,
}

/// A step of the register: when it may be, what it writes or what it must find.
#[derive(Clone, Copy)]
struct Step {
    called: usize,
    returned: usize,
    does: Does,
    value: Option<usize>,
}

#[derive(Clone, Copy, PartialEq)]
enum Does {
    Write,
    /// A save that was given up: it may be left out.
    PerhapsWrite,
    Read,
}

fn steps(history: &[Call]) -> Vec<Step> {
    let step = |call: &Call| {
        let Call { called, returned, outcome } = *call;
        match outcome {
            Saved(value) => Some(Step { called, returned, does: Does::Write, value: Some(value) }),
            GivenUp(value) => Some(Step { called, returned: usize::MAX, does: Does::PerhapsWrite, value: Some(value) }),
            Opened(value) => Some(Step { called, returned, does: Does::Read, value }),
            Nothing => None,
        }
    };
    history.iter().filter_map(step).collect()
}

/// The states that the search may be in, so that it ends in a second and in little memory.
const LIMIT: usize = 200_000;

/// What the search has found.
#[derive(Clone, Copy, Debug, PartialEq)]
pub enum Verdict {
    /// One order of the calls, which keeps each that returned before another was called before it, is a register's.
    Register,
    /// No such order is.
    None,
    /// It was in as many states as it may be, and has found neither.
    GaveUp,
}

pub fn judged(history: &[Call]) -> Verdict {
    judged_within(history, LIMIT)
}

/// The same with another limit.
pub fn judged_within(history: &[Call], limit: usize) -> Verdict {
    let steps = steps(history);
    assert!(steps.len() <= 128, "a window of at most 128 calls");
    let must = |i: &usize| steps[*i].does != Does::PerhapsWrite;
    let all = (0..steps.len()).filter(must).fold(0u128, |all, i| all | 1 << i);
    let mut seen = HashSet::new();
    let mut open = vec![(0u128, None)];
    while let Some((taken, value)) = open.pop() {
        if taken & all == all {
            return Verdict::Register;
        }
        if seen.contains(&(taken, value)) {
            continue;
        }
        if seen.len() == limit {
            return Verdict::GaveUp;
        }
        seen.insert((taken, value));
        open.extend(next(&steps, taken, value));
    }
    Verdict::None
}

/// The states after this one. An open that finds its value is taken at once: no order needs it later. A save that was given up is taken only
/// with an open that returns it right after: where none does, it is a register's history without that save too.
fn next(steps: &[Step], taken: u128, value: Option<usize>) -> Vec<(u128, Option<usize>)> {
    let left: Vec<usize> = (0..steps.len()).filter(|i| taken >> i & 1 == 0).collect();
    let first = left.iter().map(|i| steps[*i].returned).min().expect("one is left");
    let can: Vec<usize> = left.into_iter().filter(|i| steps[*i].called < first).collect();
    let read = |value| can.iter().find(|i| steps[**i].does == Does::Read && steps[**i].value == value);
    if let Some(i) = read(value) {
        return vec![(taken | 1 << i, value)];
    }
    let after = |i: &usize| {
        let Step { does, value, .. } = steps[*i];
        match does {
            Does::Write => Some((taken | 1 << i, value)),
            Does::PerhapsWrite => read(value).map(|open| (taken | 1 << i | 1 << open, value)),
            Does::Read => None,
        }
    };
    can.iter().filter_map(after).collect()
}

/// The value that a call writes, or may write.
fn writes(call: &Call) -> Option<usize> {
    match call.outcome {
        Saved(value) | GivenUp(value) => Some(value),
        Opened(_) | Nothing => None,
    }
}

/// The history with one open made stale, for each open after which that can be said for certain: it returns what was there before a save
/// that had returned when it was called, and that overwrote it for certain, since no other call writes it.
pub fn stale_copies(history: &[Call]) -> Vec<Vec<Call>> {
    let mut copies = Vec::new();
    for (i, open) in history.iter().enumerate() {
        let Opened(Some(_)) = open.outcome else { continue };
        let saves = || history.iter().filter(|call| matches!(call.outcome, Saved(_)));
        let newer = saves().filter(|call| call.returned < open.called).max_by_key(|call| call.called);
        let written = |call: &Call| history.iter().filter(|other| writes(other) == writes(call)).count();
        let once = |call: &&Call| written(call) == 1;
        let older = newer.and_then(|newer| saves().filter(once).find(|call| call.returned < newer.called));
        if let Some(Call { outcome: Saved(value), .. }) = older {
            let mut copy = history.to_vec();
            copy[i].outcome = Opened(Some(*value));
            copies.push(copy);
        }
    }
    copies
}
