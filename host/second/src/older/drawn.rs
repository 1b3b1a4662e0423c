//! Runs of Q-5 by a seed: fresh books; earlier writes, cut off or not, sound or poisonous; the write of the sentence; newer ones; and a read of
//! ours that meets all of it in an order that an adversary chooses, beside nodes that lie. The sentence is held against every call of the read.

use super::{Client, House, Written, ABORTED, DONE, ROUNDS_SPENT};
use crate::book::Book;
use crate::code::encode;
use crate::craft::{self, Size};
use crate::driver::{hex, Maker, Stop};
use crate::frame::Body;
use crate::plan::{Clients, Plan};
use crate::random::Random;
use crate::record::{records, Record, Timestamp};
use crate::session::{Mark, Session, Stage};

/// The greatest N.
const NODES: usize = 9;
/// Writes of others in one run, at most; books have room for all of them, for the write and for a repair.
const OTHERS: usize = 9;
/// A read that has not ended after so many steps never does.
const STEPS: usize = 400;
/// The read's opening ask number; those of other operations are below.
const ASK: u64 = 1 << 32;
/// In one of so many runs at least, each thing that a run may meet.
const OFTEN: u64 = 100;

/// What a run may meet.
pub const MET: [&str; 18] = [
    "every condition kept",
    "done at the write",
    "done above it",
    "aborted",
    "rounds spent",
    "a repair begun",
    "the write repaired",
    "two rounds or more",
    "the write found in a later round than the first",
    "a liar's reply taken",
    "a record that liars made up taken for the candidate",
    "a liar's reply taken before the write was executed",
    "a record executed by an honest node during the read",
    "a late or repeated reply refused",
    "a reply at or above the bound refused",
    "the write by a session of ours",
    "more liars than b",
    "another t or b at the reader",
];

/// Which of these it has met.
#[derive(Default)]
struct Met([bool; MET.len()]);

impl Met {
    fn mark(&mut self, name: &str, met: bool) {
        self.0[MET.iter().position(|known| *known == name).expect("one of the list")] |= met;
    }
}

/// What is under way, and what liars know.
#[derive(Default)]
struct Known {
    /// The N records of each write, and of each that liars have made up.
    writes: Vec<Vec<Record>>,
    made_up: Vec<Vec<Record>>,
    /// The timestamps of poisonous writes.
    poisonous: Vec<Timestamp>,
    /// Write requests of others.
    waiting: Vec<Vec<u8>>,
    /// Replies that come late or again, of this read and of other operations.
    late: Vec<Vec<u8>>,
}

/// Whom the open round of the read hears first, and which round that is: its stage and number.
#[derive(Default)]
struct Order {
    nodes: Vec<usize>,
    round: Vec<u8>,
}

struct Run<'a> {
    random: Random,
    house: House<'a>,
    liars: Vec<usize>,
    known: Known,
    /// The time about which the writes are.
    near: u64,
    /// The last ask number of another operation.
    ask: u64,
    read: Client,
    order: Order,
    written: Option<Written>,
    executors: Vec<usize>,
    met: Met,
}

/// A plan of few nodes, short fragments and few rounds; in most of them nodes may lie.
fn plan(random: &mut Random) -> Plan {
    let liars = random.chance(80);
    loop {
        let plan = craft::plan(random, Size::Any);
        if plan.n <= NODES && (plan.b > 0 || !liars) {
            return Plan { f: random.within(1, 4), w: random.within(1, 5), ..plan };
        }
    }
}

/// The reader's plan: mostly that of the nodes. The sentence holds too where another t and b go with the same N, Q and m, since as many nodes as
/// that plan needs have executed the write.
fn readers(random: &mut Random, plan: &Plan) -> Plan {
    let t = random.within(0, plan.n);
    let other = Plan { t, b: random.within(0, t), ..plan.clone() };
    if random.chance(25) && other.accepted().is_ok() {
        other
    } else {
        plan.clone()
    }
}

/// So many runs, and a line of what they met.
pub fn all(random: &mut Random, runs: u64, maker: &mut dyn Maker) -> Result<String, Stop> {
    let (mut counts, mut never_ended) = ([0; MET.len()], 0);
    for run in 1..=runs {
        let place = |stop| match stop {
            Stop::Wrong(why) => Stop::Wrong(format!("run {run} of {runs}: {why}")),
            stop => stop,
        };
        let (met, answer) = one(Random::new(random.number()), maker).map_err(place)?;
        counts.iter_mut().zip(met.0).for_each(|(count, met)| *count += u64::from(met));
        never_ended += u64::from(answer < DONE);
    }
    if let Some((name, count)) = MET.iter().zip(counts).find(|(_, count)| count * OFTEN < runs) {
        return Err(Stop::Wrong(format!("{name}: {count} of {runs} runs, fewer than one of {OFTEN}")));
    }
    let told: Vec<String> = MET.iter().zip(counts).map(|(name, count)| format!("{name} {count}")).collect();
    Ok(format!("{runs} runs: {}, a repair that never ended {never_ended}", told.join(", ")))
}

/// One run: what it met, and the answer that its read ended with, or 0.
fn one(mut random: Random, maker: &mut dyn Maker) -> Result<(Met, u32), Stop> {
    let plan = plan(&mut random);
    let mut run = Run::new(random, plan, maker)?;
    for _ in 0..run.random.within(0, 3) {
        run.other()?;
    }
    for _ in 0..run.random.within(0, 1) {
        run.earlier_read()?;
    }
    for _ in 0..run.random.pick(&[0, 0, 0, 3]) {
        run.unasked()?;
    }
    run.write()?;
    for _ in 0..run.random.within(0, 2) {
        run.other()?;
    }
    let answer = run.read()?;
    run.end(answer)?;
    Ok((run.met, answer))
}

impl Run<'_> {
    /// Fresh books, the nodes that lie, and the read, opened.
    fn new(mut random: Random, plan: Plan, maker: &mut dyn Maker) -> Result<Run<'_>, Stop> {
        let mut liars = shuffled(&mut random, plan.n);
        // at most b; in a few runs as many as leave Q honest nodes: that there are no more is not needed
        let many = if random.chance(60) { plan.b } else { random.within(0, plan.b) };
        liars.truncate(if random.chance(10) { plan.n - plan.q } else { many });
        let readers = readers(&mut random, &plan);
        let mut met = Met::default();
        let (many, other) = (liars.len() > plan.b, readers != plan);
        met.mark("every condition kept", !many && !other);
        met.mark("more liars than b", many);
        met.mark("another t or b at the reader", other);
        let mut house = House::new(maker, plan, OTHERS + 4)?;
        let read = house.open_read(&readers, ASK)?;
        let near = random.pick(&[5, 5, 5, 5, 1, u64::MAX - 2]);
        let (known, order, executors) = Default::default();
        Ok(Run { random, house, liars, known, near, ask: 0, read, order, written: None, executors, met })
    }

    fn lies(&self, node: usize) -> bool {
        self.liars.contains(&node)
    }

    /// The honest nodes whose books hold this timestamp.
    fn holders(&self, stamp: Timestamp) -> Vec<usize> {
        let holds = |node: &usize| {
            Book::read(&self.house.plan, &self.house.books[*node]).is_some_and(|book| book.held(stamp).is_some())
        };
        (0..self.house.plan.n).filter(|node| !self.lies(*node)).filter(holds).collect()
    }

    /// About the time of the write, or that.
    fn time(&mut self) -> u64 {
        let below = self.random.within(0, 3) as u64;
        let above = self.random.within(0, 2) as u64;
        self.near.saturating_sub(below).max(1).saturating_add(above)
    }

    /// A write of another client, sound or poisonous: left with some of the nodes, the rest of its requests under way or lost.
    fn other(&mut self) -> Result<(), Stop> {
        if self.known.writes.len() >= OTHERS {
            return Ok(());
        }
        let nodes = self.some_nodes();
        if self.random.chance(40) {
            return self.save(&nodes).map(|_| ());
        }
        let time = self.time();
        let often = if self.house.plan.clients == Clients::Byzantine { 35 } else { 8 };
        let records = if self.random.chance(often) {
            let records = craft::poisonous(&mut self.random, &self.house.plan, time);
            self.known.poisonous.push(records[0].stamp);
            records
        } else {
            craft::honest(&mut self.random, &self.house.plan, time)
        };
        self.spread(records, &nodes).map(|_| ())
    }

    /// As a rule about as many as decide between incomplete and complete.
    fn some_nodes(&mut self) -> Vec<usize> {
        let Plan { n, t, b, q, .. } = self.house.plan;
        let mut nodes = shuffled(&mut self.random, n);
        let many = if self.random.chance(80) { self.random.within(q - t - 1, q + b) } else { n };
        nodes.truncate(many);
        nodes
    }

    /// Hands these nodes their records; of the other requests some are under way. Gives the replies of honest nodes.
    fn spread(&mut self, records: Vec<Record>, nodes: &[usize]) -> Result<Vec<Vec<u8>>, Stop> {
        let mut replies = Vec::new();
        self.ask += 1;
        for (node, record) in records.iter().enumerate() {
            let request = craft::frame(node, self.ask, Body::WriteRequest(record.clone()));
            if nodes.contains(&node) && !self.lies(node) {
                replies.extend(self.house.serve(&request)?);
            } else if self.random.chance(30) {
                self.known.waiting.push(request);
            }
        }
        self.known.late.extend(replies.iter().take(1).cloned());
        self.known.writes.push(records);
        Ok(replies)
    }

    /// A save by a session of ours, whose records reach these nodes: its timestamp and item, or none where its clock is spent. It is done if its
    /// replies are enough, and cut off if not.
    fn save(&mut self, nodes: &[usize]) -> Result<Option<Written>, Stop> {
        let item = self.random.bytes(self.house.plan.item_length());
        self.ask += 1;
        let mut save = self.house.open_write(self.ask, item.clone())?;
        for node in shuffled(&mut self.random, self.house.plan.n) {
            let Some(request) = self.house.owed(&save, node)?.filter(|request| request[5] == 1) else { continue };
            let reply = match self.lies(node) {
                true => Some(craft::frame(node, self.ask, Body::TimeReply(craft::time(&mut self.random)))),
                false => self.house.serve(&request)?,
            };
            let reply = reply.ok_or_else(|| Stop::Wrong(format!("node {node} refused a time request")))?;
            self.house.hear(&mut save, &reply)?;
            self.known.late.push(reply);
        }
        if save.session().stage != Stage::Storing {
            return Ok(None);
        }
        // the write round has the next ask number, and so have the requests that are spread
        for reply in self.spread(save.records(), nodes)? {
            self.house.hear(&mut save, &reply)?;
        }
        Ok(Some(Written { stamp: save.session().stamp, item }))
    }

    /// Another read of ours, which no reply reaches in time.
    fn earlier_read(&mut self) -> Result<(), Stop> {
        let plan = self.house.plan.clone();
        let earlier = self.house.open_read(&plan, self.ask + 1)?;
        self.ask += 1 + plan.w as u64;
        for node in (0..plan.n).filter(|node| !self.liars.contains(node)) {
            if let Some(request) = self.house.owed(&earlier, node)? {
                self.known.late.extend(self.house.serve(&request)?);
            }
        }
        Ok(())
    }

    /// The write of the sentence, executed by Q honest nodes or more.
    fn write(&mut self) -> Result<(), Stop> {
        let mut executors = shuffled(&mut self.random, self.house.plan.n);
        executors.retain(|node| !self.lies(*node));
        let (least, most) = (self.house.plan.q, executors.len());
        let more = self.random.within(least, most);
        executors.truncate(self.random.pick(&[least, least, more]));
        let saved = if self.random.chance(50) { self.save(&executors)? } else { None };
        self.met.mark("the write by a session of ours", saved.is_some());
        let written = match saved {
            Some(written) => written,
            None => {
                let (item, time) = (self.random.bytes(self.house.plan.item_length()), self.near);
                let records = records(time, encode(&self.house.plan, &item));
                let stamp = records[0].stamp;
                self.spread(records, &executors)?;
                Written { stamp, item }
            }
        };
        self.executors = executors;
        self.near = written.stamp.time;
        self.written = Some(written);
        self.kept()
    }

    /// Every executor's book holds the write.
    fn kept(&self) -> Result<(), Stop> {
        let holders = self.holders(self.written.as_ref().expect("it is written").stamp);
        match self.executors.iter().find(|node| !holders.contains(node)) {
            Some(node) => Err(Stop::Wrong(format!("the book of node {node} does not hold what it executed"))),
            None => Ok(()),
        }
    }

    /// The read until it ends; 0 where it never does.
    fn read(&mut self) -> Result<u32, Stop> {
        for _ in 0..STEPS {
            let answer = match self.random.below(16) {
                0 => self.other().map(|()| 0)?,
                1 | 2 => self.arrival().map(|()| 0)?,
                3 | 4 => self.late_reply()?,
                5 => self.unasked()?,
                _ => self.turn()?,
            };
            if answer >= DONE {
                return Ok(answer);
            }
        }
        Ok(0)
    }

    /// A request of another client arrives, and may arrive again.
    fn arrival(&mut self) -> Result<(), Stop> {
        if self.known.waiting.is_empty() {
            return Ok(());
        }
        let at = self.random.below(self.known.waiting.len());
        let again = self.random.chance(20);
        let request = if again { self.known.waiting[at].clone() } else { self.known.waiting.swap_remove(at) };
        if !self.lies(usize::from(request[6])) {
            let reply = self.house.serve(&request)?;
            self.met.mark("a record executed by an honest node during the read", reply.is_some());
            self.known.late.extend(reply);
        }
        Ok(())
    }

    /// A reply that is late: of another operation, of an earlier round, or one heard before.
    fn late_reply(&mut self) -> Result<u32, Stop> {
        if self.known.late.is_empty() {
            return Ok(0);
        }
        let reply = self.random.pick(&self.known.late);
        self.hear(&reply)
    }

    /// A liar speaks, asked or not.
    fn unasked(&mut self) -> Result<u32, Stop> {
        if self.liars.is_empty() {
            return Ok(0);
        }
        let node = self.random.pick(&self.liars);
        self.lie(node).map_or(Ok(0), |reply| self.hear(&reply))
    }

    /// The read asks a node, and mostly hears its reply.
    fn turn(&mut self) -> Result<u32, Stop> {
        let node = self.next_node();
        let Some(request) = self.house.owed(&self.read, node)? else { return Ok(0) };
        let reply = if self.lies(node) { self.lie(node) } else { self.house.serve(&request)? };
        let Some(reply) = reply else { return Ok(0) };
        let (lost, again) = (self.random.chance(10), self.random.chance(20));
        if lost || again {
            self.known.late.push(reply.clone());
        }
        if lost {
            return Ok(0);
        }
        self.hear(&reply)
    }

    /// Hands the read a reply, and holds the sentence against its answer.
    fn hear(&mut self, reply: &[u8]) -> Result<u32, Stop> {
        let before = self.read.session();
        let answer = self.house.hear(&mut self.read, reply)?;
        let taken = answer == 0 || answer >= DONE;
        let lied = taken && self.lies(usize::from(reply[6]));
        self.met.mark("a liar's reply taken", lied);
        self.met.mark("a late or repeated reply refused", answer == 10 || answer == 11);
        self.met.mark("a reply at or above the bound refused", answer == 12);
        let Some(written) = &self.written else {
            self.met.mark("a liar's reply taken before the write was executed", lied);
            return Ok(answer);
        };
        if let Some(how) = written.broken(answer, &self.read) {
            return Err(self.wrong(&format!("the sentence is broken: {how}")));
        }
        self.closed(&before);
        Ok(answer)
    }

    /// Where this call closed a round, what it came to.
    fn closed(&mut self, before: &Session) {
        let after = self.read.session();
        self.met.mark("a repair begun", after.stage == Stage::Storing);
        if after.round > before.round {
            let bound = after.bound.expect("a round after the first has one");
            let by_liar = self.known.made_up.iter().any(|records| records[0].stamp == bound);
            self.met.mark("a record that liars made up taken for the candidate", by_liar);
            self.met.mark("two rounds or more", true);
        }
    }

    /// Mostly the first in the adversary's order that the read has not heard.
    fn next_node(&mut self) -> usize {
        if self.order.round != self.read.session[1..4] {
            self.order = Order { nodes: self.ordered(), round: self.read.session[1..4].to_vec() };
        }
        let marks = self.read.session().marks;
        match self.order.nodes.iter().find(|node| marks[**node] == Mark::Unheard) {
            Some(node) if self.random.chance(85) => *node,
            _ => self.random.below(self.house.plan.n),
        }
    }

    /// Liars first or last, then those that do not hold the write, or those that hold it, or any.
    fn ordered(&mut self) -> Vec<usize> {
        let mut order = shuffled(&mut self.random, self.house.plan.n);
        let (first, late) = (self.random.below(4), self.random.chance(20));
        let holders = self.written.as_ref().map_or(Vec::new(), |written| self.holders(written.stamp));
        order.sort_by_key(|node| match first {
            _ if self.lies(*node) => 4 * usize::from(late),
            0 | 1 => 1 + usize::from(holders.contains(node)),
            2 => 2 - usize::from(holders.contains(node)),
            _ => 1,
        });
        order
    }

    /// What a liar answers; none is silence. It speaks under its own number: the channels are authentic.
    fn lie(&mut self, node: usize) -> Option<Vec<u8>> {
        let session = self.read.session();
        let ask = session.ask().0 - u64::from(self.random.chance(5));
        if self.random.chance(5) || session.stage == Stage::Ended {
            return None;
        }
        if session.stage == Stage::Storing {
            let other = self.written.as_ref().map_or(session.stamp, |written| written.stamp);
            let stamp = if self.random.chance(95) { session.stamp } else { other };
            return Some(craft::frame(node, ask, Body::WriteReply(stamp)));
        }
        let record = match self.random.below(12) {
            0 => None,
            1..=4 => self.known(node, session.bound),
            5 => self.known(node, session.bound).map(|record| damaged(&mut self.random, record)),
            _ => Some(self.forged(node, session.bound)),
        };
        Some(craft::frame(node, ask, Body::ReadReply(record)))
    }

    /// Its record of some write, executed or not, mostly one below the bound.
    fn known(&mut self, node: usize, bound: Option<Timestamp>) -> Option<Record> {
        let mut writes: Vec<&Vec<Record>> = self.known.writes.iter().collect();
        if self.random.chance(90) {
            writes.retain(|records| bound.is_none_or(|bound| records[0].stamp < bound));
        }
        (!writes.is_empty()).then(|| writes[self.random.below(writes.len())][node].clone())
    }

    /// A record of an item that nobody wrote, just below the bound, about the write or above all; mostly the one that the other liars tell.
    fn forged(&mut self, node: usize, bound: Option<Timestamp>) -> Record {
        let last = self.known.made_up.last().filter(|records| bound.is_none_or(|bound| records[0].stamp < bound));
        if let Some(records) = last.filter(|_| self.random.chance(60)) {
            return records[node].clone();
        }
        let below = bound.map_or(u64::MAX, |bound| bound.time);
        let near = self.time();
        let time = self.random.pick(&[below, below.saturating_sub(1), self.near.saturating_add(1), near]);
        let records = craft::honest(&mut self.random, &self.house.plan, time.max(1));
        self.known.made_up.push(records.clone());
        records[node].clone()
    }

    /// The end of the read: every executor still holds the write, and as many honest nodes as its replies leave have executed what it is done
    /// with. It may never end where it repairs what no item has, since nodes refuse that: a poisonous write, under crash clients.
    fn end(&mut self, answer: u32) -> Result<(), Stop> {
        self.kept()?;
        let (stamp, session, plan) = (self.read.stamp(), self.read.session(), &self.read.plan);
        let (repaired, done) = (session.stamp == stamp, answer == DONE);
        let least = (if repaired { plan.n - plan.t } else { plan.q + plan.b }).saturating_sub(self.liars.len());
        if done && self.holders(stamp).len() < least {
            return Err(self.wrong(&format!("fewer than {least} honest nodes have executed what it is done with")));
        }
        let refused = session.stage == Stage::Storing && self.known.poisonous.contains(&session.stamp);
        if answer < DONE && (!refused || plan.clients == Clients::Byzantine) {
            return Err(self.wrong("the read does not end"));
        }
        let at = done && stamp == self.written.as_ref().expect("it is written").stamp;
        for (name, met) in [
            ("done at the write", at),
            ("done above it", done && !at),
            ("aborted", answer == ABORTED),
            ("rounds spent", answer == ROUNDS_SPENT),
            ("the write repaired", at && repaired),
            ("the write found in a later round than the first", at && session.round > 1),
        ] {
            self.met.mark(name, met);
        }
        Ok(())
    }

    fn wrong(&self, why: &str) -> Stop {
        let Client { plan, session, ending, .. } = &self.read;
        let nodes = format!("{plan:?}, liars {:?}, executors {:?}", self.liars, self.executors);
        let written = self.written.as_ref().map(|written| hex(&written.stamp.bytes()));
        Stop::Wrong(format!("{why}; {nodes}, {written:?}, session {}, ending {}", hex(session), hex(ending)))
    }
}

/// One bit of its time, verifier, cross checksum or fragment.
fn damaged(random: &mut Random, mut record: Record) -> Record {
    match random.below(4) {
        0 => record.stamp.time ^= 1,
        1 => record.stamp.verifier[31] ^= 1,
        2 => record.checksum[0] ^= 1,
        _ => record.fragment[0] ^= 1,
    }
    record
}

/// The numbers below `n` in any order.
fn shuffled(random: &mut Random, n: usize) -> Vec<usize> {
    let mut rest: Vec<usize> = (0..n).collect();
    (0..n).map(|_| rest.swap_remove(random.below(rest.len()))).collect()
}
