//! The nodes of one run: what serves them, their books, and the faults done to them, within the plan's limits.

use crate::damage::damaged;
use crate::executed::Executed;
use crate::keeper::Answer;
use crate::liar::{Asked, Liar};
use crate::library::fresh_book;
use crate::network::Message;
use crate::plan::{frame_kind, records, reply_to, stamp_of, Plan, Stamp, BOOK_HEAD, FRAME_HEAD, STAMP};
use crate::server::{Command, Server, Way};
use crate::trouble::Trouble;
use crate::wrong::Wrong;
use second::random::Random;
use std::collections::BTreeSet;
use std::io;
use std::time::Duration;

/// Faults so far, for the summary.
#[derive(Default)]
pub struct Faults {
    pub kills: usize,
    pub midway: usize,
    pub restarts: usize,
    pub damages: usize,
    pub setbacks: usize,
    pub liars: usize,
    /// Nodes that answer every time request of their run by 2^64-1.
    pub stuck: usize,
    pub lies: usize,
    /// Requests that two keepers of one book served at the same moment.
    pub beside: usize,
    /// Keepers that ended, by the end of their input or killed, while another waited for their lock.
    pub handed: usize,
    /// Requests that waited and were taken together, and in how many runs.
    pub together: usize,
    pub runs: usize,
    /// New files that killed keepers without the lock left, and that were removed.
    pub cleared: usize,
}

struct Node {
    server: Server,
    /// Damaged, set back or lying: counted to the end of the run.
    bad: bool,
    lying: bool,
    /// It answers every time request by 2^64-1, in calm too, and else as its book and its lies have it.
    stuck: bool,
    liar: Liar,
    /// Earlier states of the book.
    copies: Vec<Vec<u8>>,
    /// The records that this node has acknowledged.
    acknowledged: Vec<Vec<u8>>,
    top: Stamp,
    /// What a wrong keeper has acknowledged and not stored yet.
    owed: Option<Vec<u8>>,
}

pub struct Nodes {
    plan: Plan,
    nodes: Vec<Node>,
    /// No kill while a request is being served, so that a seed gives the same run again.
    still: bool,
    wrong: Option<Wrong>,
    way: Way,
    /// Liars may tell of records with times near 2^64-1.
    pub late: bool,
    pub faults: Faults,
    executed: Executed,
}

impl Nodes {
    pub fn start(
        plan: Plan,
        command: Option<&Command>,
        way: Way,
        still: bool,
        wrong: Option<Wrong>,
    ) -> io::Result<Nodes> {
        let mut nodes = Vec::new();
        for i in 0..plan.n {
            let fresh = fresh_book(&plan, i);
            let server = Server::new(plan, command, i, way, fresh.clone())?;
            nodes.push(Node {
                server,
                bad: false,
                lying: false,
                stuck: false,
                liar: Liar::default(),
                copies: vec![fresh],
                acknowledged: Vec::new(),
                top: [0; STAMP],
                owed: None,
            });
        }
        let still = still || command.is_none();
        let (faults, executed) = Default::default();
        Ok(Nodes { plan, nodes, still, wrong, way, late: false, faults, executed })
    }

    /// Starts a silent node again. What a killed keeper left beside its book is written over by one that has the lock; without the lock it
    /// is removed, as no keeper of this book runs.
    pub fn restart(&mut self, i: usize) -> io::Result<()> {
        if self.nodes[i].server.up() {
            return Ok(());
        }
        self.faults.restarts += 1;
        self.faults.cleared += self.nodes[i].server.clear() as usize;
        self.nodes[i].server.start()
    }

    pub fn silent(&self) -> Vec<usize> {
        (0..self.plan.n).filter(|i| !self.nodes[*i].server.up()).collect()
    }

    /// At most t nodes are faulty in all, at most b of them damaged, set back or lying.
    pub fn limits_kept(&self) -> bool {
        let count = |fault: fn(&&Node) -> bool| self.nodes.iter().filter(fault).count();
        count(|node| node.bad || !node.server.up()) <= self.plan.t && count(|node| node.bad) <= self.plan.b
    }

    /// Whether node i may be silent as well: it is faulty already, or fewer than t are.
    fn may_fail(&self, i: usize) -> bool {
        let faulty = |node: &&Node| node.bad || !node.server.up();
        faulty(&&self.nodes[i]) || self.nodes.iter().filter(faulty).count() < self.plan.t
    }

    /// Whether node i may be damaged, set back or lie as well: it has been, or fewer than b have.
    fn may_lie(&self, i: usize) -> bool {
        let bad = self.nodes.iter().filter(|node| node.bad).count();
        self.nodes[i].bad || bad < self.plan.b && self.may_fail(i)
    }

    /// Whether two keepers of a book serve side by side.
    pub fn side_by_side(&self) -> bool {
        self.way == Way::Unlocked
    }

    pub fn lies(&self, i: usize) -> bool {
        self.nodes[i].lying || self.nodes[i].stuck
    }

    /// Whether this reply of node i was made up: of a node that is stuck and does not lie else, its times are.
    pub fn made_up(&self, i: usize, reply: &[u8]) -> bool {
        self.nodes[i].lying || (self.nodes[i].stuck && frame_kind(reply) == 2)
    }

    /// Neither damaged nor set back, and never a liar.
    pub fn good(&self, i: usize) -> bool {
        !self.nodes[i].bad
    }

    /// The greatest timestamp that node i acknowledged while it was good.
    pub fn holds(&self, i: usize) -> Stamp {
        self.nodes[i].top
    }

    /// The greatest timestamp that any node acknowledged while it was good.
    pub fn newest(&self) -> Stamp {
        self.nodes.iter().map(|node| node.top).max().expect("N is 1 or more")
    }

    pub fn overhear(&mut self, i: usize, request: &[u8]) {
        self.nodes[i].liar.overhear(request);
        self.executed.overhear(i, request);
    }

    /// How much good nodes have executed by now.
    pub fn moment(&self) -> usize {
        self.executed.moment()
    }

    /// How many nodes that have been good until now have executed this timestamp.
    pub fn executed_by(&self, stamp: &Stamp) -> usize {
        self.executed.by(stamp, |i| self.good(i))
    }

    /// The greatest write of an item that Q nodes had executed at this moment, of those that have been good until now.
    pub fn sheet(&mut self, moment: usize) -> Option<(Stamp, Vec<u8>)> {
        self.executed.sheet(&self.plan, moment, |i| !self.nodes[i].bad)
    }

    /// Whether a request to node i is answered as its book has it.
    pub fn answers(&self, i: usize) -> bool {
        self.good(i) && self.nodes[i].server.up()
    }

    /// From now on node i lies, if it may.
    pub fn turn(&mut self, i: usize) {
        if self.may_lie(i) && !self.nodes[i].lying {
            self.nodes[i].bad = true;
            self.nodes[i].lying = true;
            self.faults.liars += 1;
        }
    }

    /// From now on node i answers every time request by 2^64-1, if it may.
    pub fn stick(&mut self, i: usize) {
        if self.may_lie(i) {
            self.nodes[i].bad = true;
            self.nodes[i].stuck = true;
            self.faults.stuck += 1;
        }
    }

    /// In calm the liars serve what their books hold.
    pub fn end_lies(&mut self) {
        self.nodes.iter_mut().for_each(|node| node.lying = false);
    }

    /// Hands a request to its node and gives the reply, if there is one.
    pub fn serve(&mut self, message: &Message, random: &mut Random) -> Result<Option<Vec<u8>>, Trouble> {
        let (i, request) = (message.node, &message.frame);
        if self.nodes[i].stuck && frame_kind(request) == 1 {
            self.faults.lies += 1;
            return Ok(Some(reply_to(request, 2, &u64::MAX.to_be_bytes())));
        }
        if self.nodes[i].lying {
            return self.lie(message, random);
        }
        if self.nodes[i].server.up() {
            self.pay(i)?;
        }
        if !self.nodes[i].server.up() {
            return Ok(None);
        }
        if let Some(reply) = self.wrongly(i, request) {
            self.note(i, request, &reply);
            return Ok(Some(reply));
        }
        let answer = self.nodes[i].server.serve(message.client, request)?;
        let reply = self.answered(message, answer)?;
        if self.way == Way::Waiting && self.nodes[i].server.up() && random.chance(4) {
            self.faults.handed += self.nodes[i].server.hand_over(random.chance(50)) as usize;
        }
        Ok(reply)
    }

    /// Two requests of two clients to one node: at the same moment if two keepers serve it.
    pub fn serve_two(&mut self, two: [&Message; 2], random: &mut Random) -> Result<[Option<Vec<u8>>; 2], Trouble> {
        let node = &mut self.nodes[two[0].node];
        let alike = node.lying || !node.server.up() || self.wrong.is_some();
        if alike || !node.server.serves_two(two[0].client, two[1].client) {
            return Ok([self.serve(two[0], random)?, self.serve(two[1], random)?]);
        }
        self.faults.beside += 2;
        let [one, other] = node.server.serve_two(two.map(|message| (message.client, &message.frame[..])))?;
        Ok([self.answered(two[0], one)?, self.answered(two[1], other)?])
    }

    /// Requests that wait for one node, taken in their order: together, where one keeper serves all of them and nothing is wrong with it.
    pub fn serve_run(&mut self, all: &[Message], random: &mut Random) -> Result<Vec<Option<Vec<u8>>>, Trouble> {
        let i = all[0].node;
        if self.lies(i) || !self.nodes[i].server.up() || self.wrong.is_some() || self.side_by_side() {
            return all.iter().map(|message| self.serve(message, random)).collect();
        }
        self.faults.together += all.len();
        self.faults.runs += 1;
        let requests: Vec<&[u8]> = all.iter().map(|message| &message.frame[..]).collect();
        let answers = self.nodes[i].server.serve_run(&requests)?;
        all.iter().zip(answers).map(|(message, answer)| self.answered(message, answer)).collect()
    }

    /// A lying node stores a record or does not, and says what it likes.
    fn lie(&mut self, message: &Message, random: &mut Random) -> Result<Option<Vec<u8>>, Trouble> {
        let node = &mut self.nodes[message.node];
        if frame_kind(&message.frame) == 3 && random.chance(50) && node.server.up() {
            let answer = node.server.serve(message.client, &message.frame)?;
            self.answered(message, answer)?;
        }
        self.faults.lies += 1;
        let (plan, late) = (&self.plan, self.late);
        let asked = Asked { plan, node: message.node, call: message.call, request: &message.frame, late };
        Ok(self.nodes[message.node].liar.answer(&asked, random))
    }

    /// A good node refuses nothing but what a Byzantine client sends, and does not end.
    fn answered(&mut self, message: &Message, answer: Answer) -> Result<Option<Vec<u8>>, Trouble> {
        let i = message.node;
        match answer {
            Answer::Reply(reply) => {
                self.note(i, &message.frame, &reply);
                Ok(Some(reply))
            }
            Answer::Refused if self.nodes[i].bad || message.lying => Ok(None),
            Answer::Refused => Err(Trouble::Broken(format!("node {i}, whose book is good, refused a request"))),
            Answer::Gone(line) => {
                self.nodes[i].server.kill();
                if self.nodes[i].bad {
                    Ok(None)
                } else {
                    Err(Trouble::Broken(format!("the keeper of node {i}, whose book is good, ended: {line}")))
                }
            }
        }
    }

    /// A wrong keeper's acknowledgement of a record that it does not store, or not yet.
    fn wrongly(&mut self, i: usize, request: &[u8]) -> Option<Vec<u8>> {
        let node = &mut self.nodes[i];
        let new = frame_kind(request) == 3 && !node.acknowledged.iter().any(|held| held == &request[FRAME_HEAD..]);
        match self.wrong {
            Some(Wrong::KeeperDrops) if new && node.acknowledged.len() % 3 == 2 => {}
            Some(Wrong::KeeperEarly) if new => node.owed = Some(request.to_vec()),
            _ => return None,
        }
        Some(reply_to(request, 4, &request[FRAME_HEAD..FRAME_HEAD + STAMP]))
    }

    /// A wrong keeper stores what it has acknowledged.
    fn pay(&mut self, i: usize) -> Result<(), Trouble> {
        let node = &mut self.nodes[i];
        if let Some(request) = node.owed.take() {
            if let Answer::Gone(_) = node.server.serve(0, &request)? {
                node.server.kill();
            }
        }
        Ok(())
    }

    /// A request during which its node is killed, if it may be: before it, after it, or at some moment in between. Gives the reply that
    /// had been sent by then.
    pub fn serve_and_kill(&mut self, message: &Message, random: &mut Random) -> Result<Option<Vec<u8>>, Trouble> {
        let i = message.node;
        let (way, pause) = (random.within(0, 5), random.within(0, 4000));
        if !self.may_fail(i) || !self.nodes[i].server.up() || self.lies(i) {
            return self.serve(message, random);
        }
        if way < 2 || self.still || self.wrong.is_some() {
            let reply = if way % 2 == 0 { None } else { self.serve(message, random)? };
            self.kill(i);
            return Ok(reply.filter(|_| way > 2));
        }
        let pause = Duration::from_micros(pause as u64);
        let reply = self.nodes[i].server.serve_and_kill(message.client, &message.frame, pause);
        self.faults.kills += 1;
        self.faults.midway += 1;
        if let Some(reply) = &reply {
            self.note(i, &message.frame, reply);
        }
        Ok(reply)
    }

    /// Keeps what an undamaged node acknowledges, and what it tells that it has executed.
    fn note(&mut self, i: usize, request: &[u8], reply: &[u8]) {
        let node = &mut self.nodes[i];
        match (frame_kind(request), frame_kind(reply)) {
            _ if node.bad => {}
            (3, 4) => {
                let stamp = stamp_of(&request[FRAME_HEAD..]);
                node.acknowledged.push(request[FRAME_HEAD..].to_vec());
                node.top = node.top.max(stamp);
                self.executed.note(i, stamp);
            }
            (_, 7) if reply.len() > FRAME_HEAD => self.executed.note(i, stamp_of(&reply[FRAME_HEAD..])),
            _ => {}
        }
    }

    /// SIGKILL.
    fn kill(&mut self, i: usize) {
        if self.nodes[i].server.up() {
            self.nodes[i].server.kill();
            self.nodes[i].owed = None;
            self.faults.kills += 1;
        }
    }

    /// Keeps a copy of a book, kills a keeper, damages a book or sets it back, or has a node lie, as the seed has it and the limits allow.
    pub fn fault(&mut self, random: &mut Random) -> io::Result<()> {
        let (i, what) = (random.below(self.plan.n), random.within(0, 21));
        match what {
            0..=8 if self.may_fail(i) => self.kill(i),
            9..=12 => {
                let copy = self.nodes[i].server.book()?;
                self.nodes[i].copies.push(copy);
            }
            13..=15 if self.may_lie(i) => {
                let copy = random.pick(&self.nodes[i].copies);
                if copy != self.nodes[i].server.book()? {
                    self.replace(i, &copy)?;
                    self.faults.setbacks += 1;
                }
            }
            16..=19 if self.may_lie(i) => {
                let damaged = damaged(&self.plan, i, self.nodes[i].server.book()?, random);
                self.replace(i, &damaged)?;
                self.faults.damages += 1;
            }
            20 | 21 => self.turn(i),
            _ => {}
        }
        Ok(())
    }

    /// Kills the keepers, puts another book in the place of their book and starts them again.
    fn replace(&mut self, i: usize, book: &[u8]) -> io::Result<()> {
        self.kill(i);
        self.nodes[i].bad = true;
        self.nodes[i].server.replace(book)?;
        self.restart(i)
    }

    /// How many timestamps above this one the books hold, good and bad.
    pub fn above(&self, stamp: &Stamp) -> io::Result<usize> {
        let mut stamps = BTreeSet::new();
        for node in &self.nodes {
            let book = node.server.book()?;
            if book.len() >= BOOK_HEAD {
                let whole = |record: &&&[u8]| record.len() == self.plan.record();
                stamps.extend(records(&self.plan, &book).iter().filter(whole).map(|record| stamp_of(record)));
            }
        }
        Ok(stamps.iter().filter(|held| *held > stamp).count())
    }

    /// No record is lost: every one that a node acknowledged is in its book, unless the book was damaged or set back, or the node lied.
    pub fn none_lost(&mut self) -> Result<(), Trouble> {
        for i in 0..self.plan.n {
            self.pay(i)?;
            let node = &self.nodes[i];
            if node.bad {
                continue;
            }
            let book = node.server.book()?;
            let held = records(&self.plan, &book);
            if node.acknowledged.iter().any(|record| !held.contains(&&record[..])) {
                return Err(Trouble::Broken(format!("node {i} acknowledged a record that its book does not hold")));
            }
        }
        Ok(())
    }
}

impl Drop for Nodes {
    fn drop(&mut self) {
        self.nodes.iter_mut().for_each(|node| node.server.kill());
    }
}
