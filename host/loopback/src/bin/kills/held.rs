//! What is held against a run, and what came of all of them.

use crate::clients::Taken;
use faults::register::{judged, stale_copies, Call, Outcome as Came, Verdict};
use loopback::{holders, Outcome, Site};

/// What came of all runs.
#[derive(Default)]
pub struct Counts {
    pub runs: usize,
    pub saved: usize,
    pub given_up: usize,
    pub opened: usize,
    pub never: usize,
    pub without: usize,
    pub kills: usize,
    pub good: usize,
    pub stale: usize,
    pub unjudged: usize,
}

/// The history is a register's; no copy of it with an open made stale is.
pub fn register(taken: &[Taken], counts: &mut Counts) -> Outcome<()> {
    let history: Vec<Call> = taken.iter().map(|taken| taken.call).collect();
    match judged(&history) {
        Verdict::Register => counts.good += 1,
        Verdict::GaveUp => counts.unjudged += 1,
        Verdict::None => {
            let calls: Vec<String> = history.iter().map(|call| format!("{call:?}")).collect();
            return Err(format!("the history is not a register's:\n{}", calls.join("\n")));
        }
    }
    for copy in stale_copies(&history) {
        match judged(&copy) {
            Verdict::None => counts.stale += 1,
            Verdict::GaveUp => counts.unjudged += 1,
            Verdict::Register => return Err("the checker accepts this history with an open made stale".to_string()),
        }
    }
    Ok(())
}

/// Nothing that was acknowledged is lost: it lies in N-t books, and no open that began after it is older.
pub fn kept(taken: &[Taken], site: &Site, t: usize) -> Outcome<()> {
    let held = holders(site)?;
    for Taken { call, stamp } in taken {
        let Some(stamp) = stamp else { continue };
        let books = held.get(&stamp[..]).copied().unwrap_or(0);
        if matches!(call.outcome, Came::Saved(_)) && books < site.nodes() - t {
            return Err(format!("{call:?} was acknowledged, and lies in {books} of {} books", site.nodes()));
        }
        let before = taken.iter().filter(|other| other.call.returned < call.called).filter_map(|other| other.stamp);
        let saved = matches!(call.outcome, Came::Saved(_));
        if before.max().is_some_and(|before| before > *stamp || saved && before == *stamp) {
            return Err(format!("{call:?} is older than what was done before it began"));
        }
    }
    Ok(())
}

/// Takes a run down.
pub fn count(taken: &[Taken], counts: &mut Counts) {
    for Taken { call, .. } in taken {
        *match call.outcome {
            Came::Saved(_) => &mut counts.saved,
            Came::GivenUp(_) => &mut counts.given_up,
            Came::Opened(Some(_)) => &mut counts.opened,
            Came::Opened(None) => &mut counts.never,
            Came::Nothing => &mut counts.without,
        } += 1;
    }
}
