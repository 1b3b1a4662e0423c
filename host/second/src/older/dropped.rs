//! The conditions of Q-5, each with a run that has it, in which the read ends with the written bytes, and the same run without it, in which the
//! sentence is broken: a test of the test. That no two byte strings share a hash cannot be dropped here: it would take two of one SHA-256. That at
//! most b others answer, that books are fresh and that none is full has no such run, since the sentence does not need it: it counts honest nodes
//! that have executed the write, whatever the others do (`drawn` has runs with more liars than b).

use super::{Client, House, Written, DONE};
use crate::code::encode;
use crate::craft;
use crate::driver::{Maker, Stop};
use crate::frame::Body;
use crate::plan::{Clients, Member, Plan};
use crate::record::{records, Record, Timestamp};
use crate::wire;

/// The first plan of document 01's table: 4 replies a round, COMPLETE 4, INCOMPLETE 2.
const PLAN: Plan =
    Plan { n: 5, t: 1, b: 1, q: 3, m: 2, f: 4, member: Member::Repairable, clients: Clients::Crash, w: 3 };
const ALL: [usize; 5] = [0, 1, 2, 3, 4];
/// As many nodes as the sentence needs.
const QUORUM: [usize; 3] = [0, 1, 2];
/// The read's opening ask number.
const ASK: u64 = 100;

/// Fresh books, an old sheet, and a later one, the write of the sentence.
struct Scene<'a> {
    house: House<'a>,
    old: Vec<Record>,
    new: Vec<Record>,
    item: Vec<u8>,
}

/// What the read ended with, and the write that it is held against.
struct End {
    answer: u32,
    read: Client,
    written: Written,
}

/// A run, with its condition or without it.
type Run = fn(Scene, bool) -> Result<End, Stop>;

/// Each condition, what is done in the run without it, and the run.
const CONDITIONS: [(&str, &str, Clients, Run); 11] = [
    ("executed by at least Q honest nodes", "Q-1 executed it", Clients::Crash, quorum),
    ("well-formed, Byzantine clients", "fragments of no item", Clients::Byzantine, poisoned),
    ("well-formed, crash clients", "an item's fragments but for one", Clients::Crash, odd_fragment),
    ("before any honest node answers", "three had answered", Clients::Crash, moment),
    ("never set back", "an honest node's book as it was before the write", Clients::Crash, set_back),
    ("one plan", "t 0 and Q 5 at the reader, for t 1 and Q 3", Clients::Crash, another_quorum),
    ("one plan, of m", "m 1 at the reader, for m 2", Clients::Crash, another_m),
    ("the desk, our calls for this read only", "a write session of ours on the same desk", Clients::Crash, shared_desk),
    ("the session, our calls only", "a bound put in by hand", Clients::Crash, changed_session),
    ("ask numbers in no other request", "those of an earlier read", Clients::Crash, asks_again),
    ("each under its own number", "a liar speaks under three others'", Clients::Crash, other_numbers),
];

fn item(first: u8) -> Vec<u8> {
    (first..).take(PLAN.item_length()).collect()
}

impl<'a> Scene<'a> {
    fn new(maker: &'a mut dyn Maker, clients: Clients) -> Result<Scene<'a>, Stop> {
        let plan = Plan { clients, ..PLAN };
        let (old, new) = (records(1, encode(&plan, &item(10))), records(5, encode(&plan, &item(50))));
        Ok(Scene { house: House::new(maker, plan, 4)?, old, new, item: item(50) })
    }

    /// All nodes execute the old sheet.
    fn with_old(mut self) -> Result<Scene<'a>, Stop> {
        self.house.execute(&self.old, &ALL)?;
        Ok(self)
    }

    fn read(&mut self) -> Result<Client, Stop> {
        let plan = self.house.plan.clone();
        self.house.open_read(&plan, ASK)
    }

    fn executed(&mut self, nodes: &[usize]) -> Result<(), Stop> {
        self.house.execute(&self.new, nodes)
    }

    /// The read hears these nodes, in this order in each round, until it ends.
    fn end(mut self, mut read: Client, nodes: &[usize]) -> Result<End, Stop> {
        let answer = self.house.until_end(&mut read, nodes)?;
        Ok(self.ended(answer, read))
    }

    fn ended(self, answer: u32, read: Client) -> End {
        End { answer, read, written: Written { stamp: self.new[0].stamp, item: self.item } }
    }
}

fn quorum(scene: Scene, kept: bool) -> Result<End, Stop> {
    let mut scene = scene.with_old()?;
    scene.executed(if kept { &QUORUM } else { &QUORUM[..2] })?;
    let read = scene.read()?;
    scene.end(read, &[1, 2, 3, 4])
}

/// The hashes are right, and all nodes execute it.
fn poisoned(scene: Scene, kept: bool) -> Result<End, Stop> {
    let mut scene = scene.with_old()?;
    if !kept {
        scene.new = records(5, (0..5).map(|i| vec![i * i + 1; PLAN.f]).collect());
    }
    scene.executed(&ALL)?;
    let read = scene.read()?;
    scene.end(read, &[0, 1, 2, 3])
}

/// Four of the five are the item's: which bytes a read takes for it depends on whom it hears.
fn odd_fragment(scene: Scene, kept: bool) -> Result<End, Stop> {
    let mut scene = scene.with_old()?;
    if !kept {
        let mut fragments = encode(&PLAN, &scene.item);
        fragments[0][0] ^= 1;
        scene.new = records(5, fragments);
    }
    scene.executed(&ALL)?;
    let read = scene.read()?;
    scene.end(read, &[0, 1, 2, 3])
}

fn moment(scene: Scene, kept: bool) -> Result<End, Stop> {
    let mut scene = scene.with_old()?;
    let mut read = scene.read()?;
    if kept {
        scene.executed(&ALL)?;
    }
    for node in QUORUM {
        scene.house.turn(&mut read, node)?;
    }
    scene.executed(&ALL)?;
    scene.end(read, &[3, 0, 1, 2])
}

fn set_back(scene: Scene, kept: bool) -> Result<End, Stop> {
    let mut scene = scene.with_old()?;
    let before = scene.house.books[0].clone();
    scene.executed(&QUORUM)?;
    if !kept {
        scene.house.books[0] = before;
    }
    let read = scene.read()?;
    scene.end(read, &[0, 1, 3, 4])
}

/// Another t alone does no harm: by the reader's own plan Q nodes have executed the write. Where Q goes with it they have not.
fn another_quorum(scene: Scene, kept: bool) -> Result<End, Stop> {
    let mut scene = scene.with_old()?;
    scene.executed(&QUORUM)?;
    let plan = if kept { PLAN } else { Plan { t: 0, b: 0, q: 5, ..PLAN } };
    let read = scene.house.open_read(&plan, ASK)?;
    scene.end(read, &ALL)
}

fn another_m(scene: Scene, kept: bool) -> Result<End, Stop> {
    let mut scene = scene.with_old()?;
    scene.executed(&ALL)?;
    let plan = if kept { PLAN } else { Plan { m: 1, ..PLAN } };
    let read = scene.house.open_read(&plan, ASK)?;
    scene.end(read, &ALL)
}

/// A save of the old bytes has heard three times of 0, and a copy of it is done. The read hears the write from three nodes; the save hears its
/// fourth time of 0, and its records fill the desk; the read hears a fourth node, which has not executed the write.
fn shared_desk(mut scene: Scene, kept: bool) -> Result<End, Stop> {
    let mut save = scene.house.open_write(1, item(10))?;
    for node in QUORUM {
        scene.house.turn(&mut save, node)?;
    }
    let request = scene.house.owed(&save, 3)?.expect("it has heard three");
    let last = scene.house.serve(&request)?.expect("a time reply");
    let mut scene = scene.with_old()?;
    scene.executed(&QUORUM)?;
    let mut read = scene.read()?;
    for node in QUORUM {
        scene.house.turn(&mut read, node)?;
    }
    if !kept {
        save.desk = read.desk.clone();
    }
    scene.house.hear(&mut save, &last)?;
    if !kept {
        read.desk = save.desk.clone();
    }
    scene.end(read, &[3, 0, 1, 2])
}

/// The second round, below the write's timestamp, before the first.
fn changed_session(scene: Scene, kept: bool) -> Result<End, Stop> {
    let mut scene = scene.with_old()?;
    scene.executed(&QUORUM)?;
    let mut read = scene.read()?;
    if !kept {
        read.session = wire::session_bytes(&read.session().below(scene.new[0].stamp)).to_vec();
    }
    scene.end(read, &ALL)
}

/// An earlier read found nothing, and its replies are late: the read hears them before all others.
fn asks_again(mut scene: Scene, kept: bool) -> Result<End, Stop> {
    let plan = scene.house.plan.clone();
    let earlier = scene.house.open_read(&plan, if kept { ASK - 50 } else { ASK })?;
    let mut late = Vec::new();
    for node in 0..4 {
        let request = scene.house.owed(&earlier, node)?.expect("it has heard none");
        late.extend(scene.house.serve(&request)?);
    }
    scene.executed(&ALL)?;
    let mut read = scene.read()?;
    said(scene, &mut read, &late)
}

/// Node 4 lies: it says that nothing was ever written. Where channels are not authentic it says so for three others too.
fn other_numbers(scene: Scene, kept: bool) -> Result<End, Stop> {
    let mut scene = scene.with_old()?;
    scene.executed(&ALL)?;
    let mut read = scene.read()?;
    let numbers = if kept { &[4][..] } else { &[4, 0, 1, 2] };
    let lies: Vec<Vec<u8>> = numbers.iter().map(|i| craft::frame(*i, ASK, Body::ReadReply(None))).collect();
    said(scene, &mut read, &lies)
}

/// The read is handed these replies, and then, unless it has ended, hears nodes 0 to 3.
fn said(mut scene: Scene, read: &mut Client, replies: &[Vec<u8>]) -> Result<End, Stop> {
    for reply in replies {
        let answer = scene.house.hear(read, reply)?;
        if answer >= DONE {
            return Ok(scene.ended(answer, read.clone()));
        }
    }
    scene.end(read.clone(), &[0, 1, 2, 3])
}

impl End {
    fn told(&self) -> String {
        let Timestamp { time, .. } = self.read.stamp();
        match self.written.broken(self.answer, &self.read) {
            Some(how) if self.answer == DONE => format!("done at time {time}, {how}"),
            Some(how) => how.into(),
            None => format!("ending {} at time {time}", self.answer),
        }
    }

    /// At the write itself, and with its bytes.
    fn at_the_write(&self) -> bool {
        (self.answer, self.read.stamp()) == (DONE, self.written.stamp) && self.read.item == self.written.item
    }
}

/// All of them, a line each. The error is one that ends otherwise than it should.
pub fn all(maker: &mut dyn Maker) -> Result<String, Stop> {
    let mut lines = Vec::new();
    for (condition, instead, clients, run) in CONDITIONS {
        let with = run(Scene::new(maker, clients)?, true)?;
        if !with.at_the_write() {
            return Err(Stop::Wrong(format!("with '{condition}' the read ended otherwise: {}", with.told())));
        }
        let without = run(Scene::new(maker, clients)?, false)?;
        if without.written.broken(without.answer, &without.read).is_none() {
            return Err(Stop::Wrong(format!("without '{condition}' the sentence holds: {}", without.told())));
        }
        let time = without.written.stamp.time;
        let should = format!("should be the sheet of time {time}, as it is with it");
        lines.push(format!("  without '{condition}' ({instead}): {}; {should}", without.told()));
    }
    Ok(lines.join("\n"))
}
