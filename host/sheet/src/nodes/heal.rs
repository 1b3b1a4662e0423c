//! `heal`: a lost machine was replaced, and its node has a fresh book. The last save is opened from the other nodes and stored at this one under its own
//! timestamp, as if the request of its writer came late; then the node is asked whether it holds it. A save under a new timestamp would put the old
//! block above what another client saves meanwhile.

use super::carry::{acknowledges, carry};
use super::scrub::{scrub, Found};
use super::verbs::{ask, deeds};
use super::{Happened, Links, Roster, Standing};
use crate::book;
use crate::code::{fault, Code, Fault, Report};
use crate::json::Json;
use crate::operation::{Block, Operation, Run};
use crate::verbs::{ending, list};
use crate::words::Net;
use pasis::{Answer, Plan, Refusal, Timestamp};
use std::time::{Duration, Instant};

/// How long nodes that have no channel yet are waited for, before it is said how many are lost.
const PATIENCE: Duration = Duration::from_secs(1);

/// The request by which a node stores its record of this block under this timestamp. The library makes the record: a write of the block, whose time round is
/// told the time before, gets that time, and the same verifier if the block is the one that was saved.
fn request(plan: &Plan, ask: u64, item: &[u8], stamp: Timestamp, node: usize) -> Result<Option<Vec<u8>>, Refusal> {
    let mut session = pasis::open_write(plan, ask)?;
    let mut desk = vec![0; plan.desk_size()];
    let before = stamp.time().saturating_sub(1).to_be_bytes();
    for heard in 0..plan.replies() {
        let (next, answer) = pasis::write_reply(plan, session, &book::frame(2, heard, ask, &before), &mut desk, item);
        session = next;
        answer?;
    }
    if session.writing() != stamp {
        return Ok(None);
    }
    let mut request = vec![0; plan.frame_size()];
    let length = pasis::owed(plan, &session, node as u64, &desk, &mut request)?;
    request.truncate(length);
    Ok(Some(request))
}

/// Has a node store this; whether it says that it did.
fn stored(links: &mut Links, node: usize, request: Vec<u8>, stamp: Timestamp, deadline: Instant) -> bool {
    let ask = request[7..15].try_into().expect("a request has 15 bytes or more");
    links.ask(node, request);
    loop {
        match links.next(deadline) {
            Happened::Frame(from, frame) if from == node && acknowledges(&frame, ask, Some(stamp)) => {
                links.rest(node);
                return true;
            }
            Happened::Late => return false,
            Happened::Frame(..) | Happened::Change => {}
        }
    }
}

/// What a node holds, for people; and whether it holds this save, with the right hashes.
fn holds(plan: &Plan, node: usize, found: &Found, stamp: Option<Timestamp>) -> (String, bool) {
    match found {
        Found::Silent(why) => (format!("is silent: {why}"), false),
        Found::Lies(why) => (format!("does not answer as a node: {why}"), false),
        Found::Holds(records) => {
            let stamp_of = |record: &Vec<u8>| record.first_chunk().copied().map(Timestamp);
            let good = |record: &&Vec<u8>| stamp_of(record) == stamp && book::good(plan, node, record);
            let words = match records.last().and_then(stamp_of) {
                None => "holds nothing".to_string(),
                Some(newest) if records.len() == 1 => format!("holds {newest} alone"),
                Some(newest) => format!("holds {} saves, the newest {newest}", records.len()),
            };
            (words, records.iter().any(|record| good(&record)))
        }
    }
}

/// Whether a node holds other bytes under this timestamp: it would refuse the record.
fn damaged(plan: &Plan, node: usize, found: &Found, stamp: Timestamp) -> bool {
    let Found::Holds(records) = found else { return false };
    records.iter().any(|record| record[..40] == stamp.0 && !book::good(plan, node, record))
}

/// So many of the t that may be lost are left.
fn left(plan: &Plan, lost: usize) -> usize {
    usize::from(plan.t).saturating_sub(lost)
}

/// The same in words, with how many of these may lie.
fn may_fail(plan: &Plan, lost: usize) -> String {
    let (left, lie) = (left(plan, lost), left(plan, lost).min(plan.b.into()));
    match left {
        0 => "no other may fail".to_string(),
        left => format!("{left} more may fail, {lie} of these lying"),
    }
}

/// A heal on its way.
struct Heal<'a> {
    roster: &'a Roster,
    node: usize,
    deadline: Instant,
    links: Links,
    report: Report,
    /// What the node held at first.
    found: Found,
}

impl Heal<'_> {
    fn look(&mut self) -> Result<Found, Fault> {
        let found = scrub(&mut self.links, self.roster, &[self.node], self.deadline)?;
        Ok(found.into_iter().next().unwrap_or(Found::Silent("no answer".to_string())))
    }

    /// The other nodes that are out of reach.
    fn lost(&self) -> Vec<usize> {
        let ways = self.links.ways.iter().enumerate();
        let lost = ways.filter(|(_, way)| way.standing != Standing::Ready);
        lost.map(|(node, _)| node).filter(|node| *node != self.node).collect()
    }

    /// What stands before: the node counts among the t, and for who hears it among the b.
    fn before(&mut self) -> Result<bool, Fault> {
        let (plan, node, found) = (&self.roster.plan, self.node, self.look()?);
        let (words, _) = holds(plan, node, &found, None);
        let (t, b, rest) = (plan.t, plan.b, may_fail(plan, 1));
        self.report.say("node", Json::Number(node as u64));
        self.report.say("before", Json::text(&words));
        self.report.say("may_fail_before", Json::Number(left(plan, 1) as u64));
        self.report.line(format!(
            "before   node {node} {words}; it counts among the t {t} that may be lost: until it is healed {rest}"
        ));
        self.report.line(match b {
            0 => format!("         b is 0: until then no other client may hear node {node}, since it forgot what it acknowledged"),
            b => format!("         to a client that hears it until then it counts among the b {b} that may lie"),
        });
        self.found = found;
        if let Found::Silent(_) | Found::Lies(_) = self.found {
            let advice = format!("give it a fresh book (sheet serve PLAN BOOK --new {node}) and serve that");
            self.report.code = Code::NoEnd;
            self.report.line(format!("no end: node {node} {words}; {advice}"));
            return Ok(false);
        }
        Ok(true)
    }

    /// The last save and its block, from the other nodes.
    fn open(&mut self) -> Result<(Run, Vec<u8>), Fault> {
        let plan = &self.roster.plan;
        let ask = ask(self.roster, self.deadline)?;
        let session = pasis::open_read(plan, ask).or_else(|refusal| fault(Code::Damaged, refusal))?;
        let mut item = vec![0; plan.item_size()];
        let operation = Operation::new(plan, session, Block::Open(&mut item));
        let carried = carry(&mut self.links, operation, &[self.node], self.deadline);
        let (code, words) = ending(plan, &carried.run);
        self.report.code = code;
        self.report.line(format!("open     {words}"));
        let nodes = deeds(&mut self.report, carried.told, "         ");
        self.report.say("nodes", nodes);
        Ok((carried.run, item))
    }

    /// Stores the save at the node, and asks whether it is held.
    fn store(&mut self, stamp: Timestamp, item: &[u8]) -> Result<(), Fault> {
        let (plan, node) = (&self.roster.plan, self.node);
        let ask = ask(self.roster, self.deadline)?;
        let made = request(plan, ask, item, stamp, node).or_else(|refusal| fault(Code::Damaged, refusal))?;
        let Some(request) = made else {
            let why = "its records are not those of its block; save the block again, then heal";
            self.report.code = Code::Damaged;
            self.report.line(format!("damaged: {stamp} was written by a client that lies: {why}"));
            return Ok(());
        };
        if damaged(plan, node, &self.found, stamp) {
            self.report.code = Code::Damaged;
            self.report
                .line(format!("damaged: node {node} holds {stamp} with other bytes; give it a fresh book, then heal"));
            return Ok(());
        }
        let said = stored(&mut self.links, node, request, stamp, self.deadline);
        let found = self.look()?;
        let (words, held) = holds(plan, node, &found, Some(stamp));
        if !(said && held) {
            let silent = !said || matches!(found, Found::Silent(_));
            self.report.code = if silent { Code::NoEnd } else { Code::Damaged };
            let why = "a full or a damaged book does not store it";
            self.report.line(format!("not healed: node {node} {words}, and does not hold {stamp}; {why}"));
            return Ok(());
        }
        self.report.line(format!("stored   {stamp} at node {node}, under its own timestamp"));
        self.after(&words);
        Ok(())
    }

    fn after(&mut self, words: &str) {
        self.links.settle(self.deadline.min(Instant::now() + PATIENCE));
        let (plan, node, lost) = (&self.roster.plan, self.node, self.lost());
        let silent = if lost.is_empty() { String::new() } else { format!("; {} silent", list(&lost)) };
        let rest = may_fail(plan, lost.len()).replace("no other", "none").replace(" more", "");
        self.report.code = Code::Done;
        self.report.say("after", Json::text(words));
        self.report.say("may_fail_after", Json::Number(left(plan, lost.len()) as u64));
        self.report.line(format!(
            "after    node {node} {words}, and counts as good{silent}: {rest} (t {}, b {})",
            plan.t, plan.b
        ));
    }

    fn run(&mut self) -> Result<(), Fault> {
        if !self.before()? {
            return Ok(());
        }
        let (run, item) = self.open()?;
        match run.answer {
            Answer::Done { timestamp, .. } => {
                self.report.say("timestamp", Json::stamp(timestamp));
                self.store(timestamp, &item)
            }
            Answer::NeverWritten { .. } => {
                self.after("lacks nothing, since nothing was saved yet");
                Ok(())
            }
            _ => Ok(()),
        }
    }
}

pub fn heal(net: &Net, node: usize) -> Result<Report, Fault> {
    let roster = Roster::read(&net.file)?;
    let plan = &roster.plan;
    if node >= usize::from(plan.n) {
        return fault(Code::WrongUse, format!("--node: there is no node {node}, the plan has 0 to {}", plan.n - 1));
    }
    if plan.t == 0 {
        return fault(
            Code::WrongUse,
            "the plan allows no node to be lost (t 0), so that none can be healed from the others",
        );
    }
    let (deadline, links) = (Instant::now() + net.within, Links::start(&roster));
    let (report, found) = (Report::new(Code::Done), Found::Silent(String::new()));
    let mut heal = Heal { roster: &roster, node, deadline, links, report, found };
    let done = heal.run();
    let Heal { links, mut report, .. } = heal;
    report.notes.extend(links.end());
    done.map(|()| report)
}
