//! What is held against a run: at each ending, in calm at its end, and of its history.

use crate::client::{Ending, Operation};
use crate::counts::Counts;
use crate::library::{ABORTED, CLOCK_SPENT, DONE, NEVER_WRITTEN, ROUNDS_SPENT};
use crate::nodes::Nodes;
use crate::plan::{Plan, Stamp, STAMP};
use crate::register::{judged, stale_copies, Call, Outcome, Verdict};
use second::random::Random;
use std::cmp::Ordering;
use std::collections::BTreeMap;

pub struct Judge<'a> {
    plan: Plan,
    pub counts: &'a mut Counts,
    pub now: usize,
    history: Vec<Call>,
    /// The item that each call saves; empty for an open, and where the Byzantine client writes what another call saved.
    items: Vec<Vec<u8>>,
    /// The timestamp that each call ended with.
    stamps: Vec<Stamp>,
    /// Calls of the Byzantine client.
    strays: Vec<usize>,
    /// The greatest timestamp of a completed save or open.
    top: Stamp,
    /// The item of each timestamp of a completed save or open.
    sheets: BTreeMap<Stamp, Vec<u8>>,
}

impl Judge<'_> {
    pub fn new(plan: Plan, counts: &mut Counts) -> Judge<'_> {
        let (history, items, stamps, strays) = (Vec::new(), Vec::new(), Vec::new(), Vec::new());
        let sheets = BTreeMap::new();
        Judge { plan, counts, now: 0, history, items, stamps, strays, top: [0; STAMP], sheets }
    }

    pub fn calls(&self) -> usize {
        self.history.len()
    }

    pub fn outcome(&self, call: usize) -> Outcome {
        self.history[call].outcome
    }

    /// A call begins: a save of this item, or an open. Gives its number and the greatest timestamp that was completed before.
    pub fn call(&mut self, item: Option<Vec<u8>>) -> (usize, Stamp) {
        let call = self.calls();
        let outcome = if item.is_some() { Outcome::GivenUp(call) } else { Outcome::Nothing };
        self.push(outcome, item.unwrap_or_default());
        (call, self.top)
    }

    /// The Byzantine client sends records that are sound: a save that may take effect at any moment of the run or never. It has begun with
    /// the run, since its timestamp may be dated back, below a save that was done before a record of it was sent. An item that another call
    /// saved keeps its number.
    pub fn stray(&mut self, item: Vec<u8>) -> usize {
        let call = self.calls();
        self.strays.push(call);
        match self.items.iter().position(|known| *known == item) {
            Some(known) => self.push(Outcome::GivenUp(known), Vec::new()),
            None => self.push(Outcome::GivenUp(call), item),
        }
        self.history[call].called = 0;
        call
    }

    fn push(&mut self, outcome: Outcome, item: Vec<u8>) {
        self.counts.calls += 1;
        self.history.push(Call { called: self.now, returned: usize::MAX, outcome });
        self.items.push(item);
        self.stamps.push([0; STAMP]);
    }

    /// An item that some call saves.
    pub fn some_item(&self, random: &mut Random) -> Option<Vec<u8>> {
        let saved: Vec<&Vec<u8>> = self.items.iter().filter(|item| !item.is_empty()).collect();
        (!saved.is_empty()).then(|| saved[random.below(saved.len())].clone())
    }

    pub fn given_up(&mut self, operation: &Operation) {
        self.history[operation.call].returned = self.now;
        if operation.save() {
            self.counts.given_up += 1;
        } else {
            self.counts.opens_given_up += 1;
        }
    }

    /// An operation has ended: the sentences are held against it, and the history takes it.
    pub fn returned(&mut self, operation: &Operation, ending: &Ending, nodes: &mut Nodes) -> Result<(), String> {
        let call = operation.call;
        let outcome = if operation.save() {
            self.saved(operation, ending)?
        } else {
            self.not_older(operation, ending, nodes)?;
            self.opened(operation, ending)?
        };
        if ending.said == DONE {
            self.executed(operation, ending, nodes)?;
        }
        self.top = self.top.max(ending.stamp);
        self.stamps[call] = ending.stamp;
        self.history[call] = Call { called: self.history[call].called, returned: self.now, outcome };
        self.count(ending.said, outcome);
        self.counts.told_last += (ending.said == DONE && operation.told_last() > 0) as usize;
        Ok(())
    }

    /// The write round of a save has opened: its time is at most one above what some good node told it.
    pub fn timed(&self, operation: &Operation) -> Result<(), String> {
        match operation.told_by_good() {
            Some(told) if operation.time() - 1 <= told => Ok(()),
            _ => Err(format!("save {} has a time more than one above all that good nodes told it", operation.call)),
        }
    }

    /// A save is above all that was completed before it began. It spends the clock exactly where more than b of its time replies said the
    /// last time, one of them of a good node.
    fn saved(&self, operation: &Operation, ending: &Ending) -> Result<Outcome, String> {
        let call = operation.call;
        let spent = operation.told_last() > self.plan.b;
        match ending.said {
            DONE if spent => Err(format!("save {call} went past the last time")),
            DONE if ending.stamp > operation.floor => Ok(Outcome::Saved(call)),
            DONE => Err(format!("save {call} is not above one completed before it began")),
            CLOCK_SPENT if operation.told_by_good() != Some(u64::MAX) => {
                Err(format!("bad nodes alone spent the clock of save {call}"))
            }
            CLOCK_SPENT if spent => Ok(Outcome::Nothing),
            said => Err(format!("save {call} ended with {said}")),
        }
    }

    /// Document 02, Q-5: an open does not pass over what Q good nodes had executed before one of them answered it.
    fn not_older(&mut self, operation: &Operation, ending: &Ending, nodes: &mut Nodes) -> Result<(), String> {
        let call = operation.call;
        let moment = operation.answered.unwrap_or(nodes.moment());
        let ended = matches!(ending.said, DONE | NEVER_WRITTEN);
        let Some((stamp, item)) = ended.then(|| nodes.sheet(moment)).flatten() else { return Ok(()) };
        self.counts.held += 1;
        self.counts.unfinished += !self.sheets.contains_key(&stamp) as usize;
        match ending.stamp.cmp(&stamp) {
            _ if ending.said == NEVER_WRITTEN => {
                Err(format!("open {call} found nothing, and Q good nodes had executed a save"))
            }
            Ordering::Less => {
                Err(format!("open {call} returned an older sheet than one that Q good nodes had executed"))
            }
            Ordering::Equal if ending.item != item => {
                Err(format!("open {call} returned other bytes than Q good nodes had executed"))
            }
            _ => Ok(()),
        }
    }

    /// What a call is done with was executed by good nodes: by all but b of those whose replies ended its write or repair round, or by Q where an
    /// open found it complete. And a timestamp has one sheet.
    fn executed(&mut self, operation: &Operation, ending: &Ending, nodes: &Nodes) -> Result<(), String> {
        let (call, Plan { n, t, b, q, .. }) = (operation.call, self.plan);
        let least = if operation.wrote(&ending.stamp) { n - t - b } else { q };
        if nodes.executed_by(&ending.stamp) < least {
            return Err(format!("call {call} is done, and fewer than {least} good nodes have executed its sheet"));
        }
        match self.sheets.insert(ending.stamp, ending.item.clone()) {
            Some(before) if before != ending.item => {
                Err(format!("call {call} is done at a timestamp that has had other bytes"))
            }
            _ => Ok(()),
        }
    }

    fn opened(&self, operation: &Operation, ending: &Ending) -> Result<Outcome, String> {
        let (call, floor) = (operation.call, operation.floor);
        match ending.said {
            DONE => {
                let from = self.items.iter().position(|item| *item == ending.item);
                let from = from.ok_or(format!("open {call} returned bytes that nobody saved"))?;
                if ending.stamp < floor {
                    return Err(format!("open {call} returned an older sheet than one completed before it began"));
                }
                Ok(Outcome::Opened(Some(from)))
            }
            NEVER_WRITTEN if floor == [0; STAMP] => Ok(Outcome::Opened(None)),
            NEVER_WRITTEN => Err(format!("open {call} found nothing, and a save had been completed")),
            ABORTED if !self.plan.repairable => Ok(Outcome::Nothing),
            ROUNDS_SPENT => Ok(Outcome::Nothing),
            said => Err(format!("open {call} ended with {said}")),
        }
    }

    fn count(&mut self, said: u32, outcome: Outcome) {
        let counts = &mut *self.counts;
        if let Outcome::Opened(Some(from)) = outcome {
            counts.strays += self.strays.contains(&from) as usize;
        }
        *match (said, outcome) {
            (_, Outcome::Saved(_)) => &mut counts.saved,
            (_, Outcome::Opened(Some(_))) => &mut counts.opened,
            (NEVER_WRITTEN, _) => &mut counts.never,
            (ABORTED, _) => &mut counts.aborted,
            (ROUNDS_SPENT, _) => &mut counts.spent,
            _ => &mut counts.clock,
        } += 1;
    }

    /// The timestamp of the last call but one: the save in calm.
    pub fn stamp_before_last(&self) -> Stamp {
        self.stamps[self.calls() - 2]
    }

    /// In calm a save is done, unless the clock is spent, and the open after it, the last call, returns it; or, since a time round may miss t
    /// nodes, it meets what lies above, so many timestamps: it returns a save that was given up, or cannot judge it.
    pub fn calm(&self, saved: Outcome, opened: Outcome, above: usize) -> Result<(), String> {
        let last = self.calls() - 1;
        let fine = match (saved, opened) {
            (Outcome::Saved(call), Outcome::Opened(Some(from))) if call == from => true,
            (Outcome::Saved(_), Outcome::Opened(Some(from))) => {
                let given_up = |call: &Call| call.outcome == Outcome::GivenUp(from);
                self.stamps[last] > self.stamps[last - 1] && self.history.iter().any(given_up)
            }
            (Outcome::Saved(_), Outcome::Nothing) if self.plan.repairable => above >= self.plan.w as usize,
            (Outcome::Saved(_), Outcome::Nothing) => above > 0,
            (Outcome::Nothing, _) => true,
            _ => false,
        };
        let said = || format!("in calm, a save gave {saved:?} and the open after it {opened:?}");
        fine.then_some(()).ok_or_else(said)
    }

    /// The history is a register's, and no copy of it with an open made stale is.
    pub fn history(&mut self) -> Result<(), String> {
        match judged(&self.history) {
            Verdict::Register => self.counts.good += 1,
            Verdict::None => {
                let calls: Vec<String> = self.history.iter().map(|call| format!("{call:?}")).collect();
                return Err(format!("the history is not a register's:\n{}", calls.join("\n")));
            }
            Verdict::GaveUp => self.counts.unjudged += 1,
        }
        for copy in stale_copies(&self.history) {
            match judged(&copy) {
                Verdict::Register => return Err("the checker accepts this history with an open made stale".into()),
                Verdict::None => self.counts.stale += 1,
                Verdict::GaveUp => self.counts.unjudged += 1,
            }
        }
        let text = format!("{:?}", self.history);
        let fold = |hash: u64, byte: u8| (hash ^ byte as u64).wrapping_mul(0x100_0000_01b3);
        self.counts.digest = text.bytes().fold(self.counts.digest ^ 0xcbf2_9ce4_8422_2325, fold);
        Ok(())
    }
}
