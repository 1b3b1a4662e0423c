//! Whole histories of calls from a seed: saves, opens, partial and poisonous saves, silent nodes, liars, damaged books, repeated and late
//! frames. Before a call of the history is made, changed copies of it are made too, and their outcomes dropped. After each come some wishes
//! and runs of frames.

use crate::book::Book;
use crate::craft::{self, Size};
use crate::driver::{Maker, Outcome, Stop};
use crate::frame::Body;
use crate::library::{Call, Kind};
use crate::mutate::{self, View};
use crate::plan::Plan;
use crate::random::Random;
use crate::record::{Record, Timestamp};
use crate::session::{Operation, Session, Stage};
use crate::{runs, wire, wishes};

/// Makes histories until the maker stops them. The wishes and the runs between them have a generator of their own each, so that no history
/// depends on them.
pub fn histories(seed: u64, size: Size, maker: &mut dyn Maker) -> Stop {
    let (mut random, mut wishing, mut running) = (Random::new(seed), Random::new(!seed), Random::new(seed ^ 3 << 62));
    loop {
        let plan = craft::plan(&mut random, size);
        let mut world = World::new(&mut random, plan, size);
        let history = world.history(maker).and_then(|()| wishes::some(&mut wishing, maker));
        if let Err(stop) = history.and_then(|()| runs::some(&mut running, size, maker)) {
            return stop;
        }
    }
}

/// How a node behaves towards clients.
#[derive(Clone, Copy, Debug, PartialEq, Eq)]
enum Habit {
    Honest,
    Silent,
    Liar,
}

struct Client {
    session: Vec<u8>,
    desk: Vec<u8>,
    item: Vec<u8>,
    /// What its time round is told by each node, whatever the books hold.
    told: Option<Vec<u64>>,
}

/// One item on N nodes, and the clients at work on it.
struct World<'a> {
    random: &'a mut Random,
    plan: Plan,
    size: Size,
    /// Books have room for few records.
    tight: bool,
    habits: Vec<Habit>,
    books: Vec<Vec<u8>>,
    clients: Vec<Client>,
    requests: Vec<Vec<u8>>,
    replies: Vec<Vec<u8>>,
    ask: u64,
}

/// Old frames kept for repeats.
const KEPT: usize = 40;

impl World<'_> {
    fn new(random: &mut Random, plan: Plan, size: Size) -> World<'_> {
        let mut habits = vec![Habit::Honest; plan.n];
        let (silent, liars) = (random.within(0, plan.t), random.within(0, plan.b + 1));
        for _ in 0..silent {
            habits[random.below(plan.n)] = Habit::Silent;
        }
        for _ in 0..liars {
            habits[random.below(plan.n)] = Habit::Liar;
        }
        let last = u64::MAX - plan.w as u64;
        let any = random.number() % last;
        let ask = random.pick(&[0, 1, 1000, any, last, last - 1]);
        let (books, clients, requests, replies) = Default::default();
        let tight = random.chance(25);
        World { random, plan, size, tight, habits, books, clients, requests, replies, ask }
    }

    fn history(&mut self, maker: &mut dyn Maker) -> Result<(), Stop> {
        for node in 0..self.plan.n {
            self.fresh_book(maker, node)?;
        }
        for _ in 0..self.random.pick(&[0, 0, 1, 3]) {
            self.foreign_save(maker)?;
        }
        let steps = self.random.within(30, 100 + 40 * self.plan.n);
        for _ in 0..steps {
            self.step(maker)?;
        }
        Ok(())
    }

    fn step(&mut self, maker: &mut dyn Maker) -> Result<(), Stop> {
        match self.random.below(50) {
            0 | 1 if self.clients.len() < 3 => self.open(maker),
            _ if self.clients.is_empty() => self.open(maker),
            2 | 3 => self.foreign_save(maker),
            4 => self.repeat_request(maker),
            5 => self.late_reply(maker),
            6 => {
                self.mishap();
                Ok(())
            }
            _ => self.turn(maker),
        }
    }

    /// One call of the history, after some changed copies of it.
    fn call(&mut self, maker: &mut dyn Maker, kind: Kind, number: u64, lent: Vec<Vec<u8>>) -> Result<Outcome, Stop> {
        let call = Call { kind, plan: wire::plan_bytes(&self.plan).to_vec(), number, lent };
        let often = match kind {
            Kind::Node | Kind::Owed => 40,
            Kind::WriteReply | Kind::ReadReply => 65,
            _ => 75,
        };
        while self.random.chance(often) {
            let mut other = call.clone();
            let view = View { plan: &self.plan, requests: &self.requests, replies: &self.replies };
            for _ in 0..self.random.pick(&[1, 1, 1, 2, 2, 3]) {
                mutate::change(self.random, &view, &mut other);
            }
            maker.make(other)?;
        }
        maker.make(call)
    }

    /// A book with room for a few records, for none, or for as many as a book can hold.
    fn fresh_book(&mut self, maker: &mut dyn Maker, node: usize) -> Result<(), Stop> {
        let size = self.plan.record_length();
        let records = match self.size {
            Size::Small => self.random.within(0, 3),
            Size::Any if self.tight => self.random.pick(&[0, 1, 2, 3, 5, 8]),
            Size::Any => self.random.pick(&[15, 20, 30, 40]),
        };
        let spare = self.random.pick(&[0, 0, 1, size - 1]);
        let length = (11 + records * size + spare).min(65_536);
        let length = if self.size == Size::Any && self.random.chance(2) { 65_536 } else { length };
        let book = self.random.bytes(length);
        let outcome = self.call(maker, Kind::FreshBook, node as u64, vec![book])?;
        let mut book = only(outcome.lent);
        if length == 65_536 && self.random.chance(70) {
            craft::long_book(self.random, &self.plan, node).write(&self.plan, &mut book);
        }
        self.books.push(book);
        Ok(())
    }

    fn open(&mut self, maker: &mut dyn Maker) -> Result<(), Stop> {
        let kind = self.random.pick(&[Kind::OpenWrite, Kind::OpenRead, Kind::OpenRead]);
        let session = self.random.bytes(wire::SESSION);
        let outcome = self.call(maker, kind, self.ask, vec![session])?;
        if outcome.number == 0 {
            self.ask = self.ask.wrapping_add(self.plan.w as u64 + 1);
            let (desk, item) = (self.random.bytes(self.plan.desk_length()), self.random.bytes(self.plan.item_length()));
            let mut session = only(outcome.lent);
            if kind == Kind::OpenRead && self.random.chance(15) {
                // rounds that no history is long enough for
                mutate::client::later_round(self.random, &self.plan, &mut session);
            }
            let told = self.random.chance(60).then(|| craft::times(self.random, &self.plan));
            self.clients.push(Client { session, desk, item, told });
        } else {
            self.ask = self.random.within(0, 1 << 20) as u64;
        }
        Ok(())
    }

    /// A client asks a node and hears its reply, if it sends one and it is not lost.
    fn turn(&mut self, maker: &mut dyn Maker) -> Result<(), Stop> {
        let storing = self.clients.iter().position(|client| client.session[1] == 1).filter(|_| self.random.chance(30));
        let client = storing.unwrap_or_else(|| self.random.below(self.clients.len()));
        let node = self.node_for(client);
        let Some(request) = self.owed(maker, client, node)? else { return Ok(()) };
        keep(&mut self.requests, &request);
        if self.habits[node] == Habit::Silent {
            return Ok(());
        }
        let reply = if let Some(reply) = self.told(client, node, &request) {
            Some(reply)
        } else if self.habits[node] == Habit::Liar && self.random.chance(60) {
            Some(self.lie(client, node))
        } else {
            self.node(maker, node, request)?
        };
        match reply {
            Some(reply) if self.random.chance(95) => self.reply(maker, client, reply),
            _ => Ok(()),
        }
    }

    /// Mostly a node that this client has not heard.
    fn node_for(&mut self, client: usize) -> usize {
        let marks = &self.clients[client].session[wire::MARKS..][..self.plan.n];
        let unheard: Vec<usize> = (0..self.plan.n).filter(|node| marks[*node] == 0).collect();
        if unheard.is_empty() || self.random.chance(10) {
            return self.random.below(self.plan.n);
        }
        self.random.pick(&unheard)
    }

    fn owed(&mut self, maker: &mut dyn Maker, client: usize, node: usize) -> Result<Option<Vec<u8>>, Stop> {
        let Client { session, desk, .. } = &self.clients[client];
        let lent = vec![session.clone(), desk.clone(), self.random.bytes(self.plan.frame_room())];
        let outcome = self.call(maker, Kind::Owed, node as u64, lent)?;
        if matches!(outcome.number, 9 | 14) && self.random.chance(60) {
            // it will come to nothing any more
            self.clients.remove(client);
        }
        Ok((outcome.number == 0).then(|| cut(&outcome.lent[2])))
    }

    fn node(&mut self, maker: &mut dyn Maker, node: usize, request: Vec<u8>) -> Result<Option<Vec<u8>>, Stop> {
        let spare = self.random.pick(&[0, 0, 1, 40]);
        let buffer = self.random.bytes(self.plan.frame_room() + spare);
        let outcome = self.call(maker, Kind::Node, 0, vec![request, self.books[node].clone(), buffer])?;
        let number = outcome.number;
        let [request, book, reply] = <[Vec<u8>; 3]>::try_from(outcome.lent).expect("three slices");
        self.books[node] = book;
        if number == 0 && request[5] == 3 && self.random.chance(15) {
            return self.node(maker, node, request);
        }
        Ok((number == 0).then(|| cut(&reply)))
    }

    /// Hands a frame to a client, by the call of its operation.
    fn reply(&mut self, maker: &mut dyn Maker, client: usize, frame: Vec<u8>) -> Result<(), Stop> {
        keep(&mut self.replies, &frame);
        let Client { session, desk, item, .. } = &self.clients[client];
        let kind = if session[0] == 0 { Kind::WriteReply } else { Kind::ReadReply };
        let ending = self.random.bytes(wire::ENDING);
        let lent = vec![session.clone(), frame, desk.clone(), item.clone(), ending];
        self.time_rounds(maker, &lent)?;
        let outcome = self.call(maker, kind, 0, lent)?;
        let [session, _, desk, item, _] = <[Vec<u8>; 5]>::try_from(outcome.lent).expect("five slices");
        let told = self.clients[client].told.take();
        self.clients[client] = Client { session, desk, item, told };
        Ok(())
    }

    /// Where this reply ends a time round, copies of it after other times, and with another time itself.
    fn time_rounds(&mut self, maker: &mut dyn Maker, lent: &[Vec<u8>]) -> Result<(), Stop> {
        let last = wire::session_from(&lent[0]).is_some_and(|session| session.heard() + 1 == self.plan.replies());
        if !last || lent[0][..2] != [0, 0] {
            return Ok(());
        }
        let copies = if self.plan.b > 0 { 24 } else { 2 };
        for _ in 0..copies {
            let mut lent = lent.to_vec();
            mutate::client::times(self.random, &self.plan, &mut lent[0]);
            if self.random.chance(50) {
                let session = lent[0].clone();
                mutate::frame::tied(self.random, &session, &mut lent[1]);
            }
            let plan = wire::plan_bytes(&self.plan).to_vec();
            maker.make(Call { kind: Kind::WriteReply, plan, number: 0, lent })?;
        }
        Ok(())
    }

    /// The time reply that was settled for this client and node, to a time request.
    fn told(&self, client: usize, node: usize, request: &[u8]) -> Option<Vec<u8>> {
        let session = wire::session_from(&self.clients[client].session).filter(|_| request[5] == 1)?;
        let told = self.clients[client].told.as_ref()?;
        Some(craft::frame(node, session.ask().0, Body::TimeReply(told[node])))
    }

    /// A frame that this session awaits, with a body that its node made up.
    fn lie(&mut self, client: usize, node: usize) -> Vec<u8> {
        let session = wire::session_from(&self.clients[client].session).expect("a session of the library");
        let ask = session.ask().0;
        let body = match (session.stage, session.operation) {
            (Stage::Storing, _) => Body::WriteReply(session.stamp),
            (_, Operation::Write) => Body::TimeReply(craft::time(self.random)),
            (_, Operation::Read) if self.random.chance(20) => Body::ReadReply(None),
            (_, Operation::Read) if self.random.chance(40) => {
                // the latest, whatever was asked
                let book = Book::read(&self.plan, &self.books[node]);
                Body::ReadReply(book.and_then(|book| book.last().cloned()))
            }
            (_, Operation::Read) => Body::ReadReply(Some(self.forged(&session, node))),
        };
        craft::frame(node, ask, body)
    }

    /// A record of right hashes that nobody saved, near the bound or not.
    fn forged(&mut self, session: &Session, node: usize) -> Record {
        let near = session.bound.map_or(4, |bound: Timestamp| bound.time);
        let time = match self.random.below(4) {
            0 => craft::record_time(self.random),
            1 => near.saturating_add(self.random.below(2) as u64),
            _ => near.saturating_sub(1).max(1),
        };
        craft::poisonous(self.random, &self.plan, time).swap_remove(node)
    }

    /// A save by a client of no known kind: an item or poison, at any time, at some of the nodes.
    fn foreign_save(&mut self, maker: &mut dyn Maker) -> Result<(), Stop> {
        let time = craft::record_time(self.random);
        let records = match self.random.chance(75) {
            true => craft::honest(self.random, &self.plan, time),
            false => craft::poisonous(self.random, &self.plan, time),
        };
        for node in self.some_nodes() {
            let request = craft::frame(node, self.random.number(), Body::WriteRequest(records[node].clone()));
            keep(&mut self.requests, &request);
            self.node(maker, node, request)?;
        }
        Ok(())
    }

    /// All nodes, or about as many as decide between incomplete and complete.
    fn some_nodes(&mut self) -> Vec<usize> {
        let mut nodes: Vec<usize> = (0..self.plan.n).collect();
        if self.random.chance(80) {
            let few = self.random.within(self.plan.q - self.plan.t - 1, self.plan.q + self.plan.b);
            while nodes.len() > few {
                nodes.remove(self.random.below(nodes.len()));
            }
        }
        nodes
    }

    /// A request sent before, again, mostly to its own node.
    fn repeat_request(&mut self, maker: &mut dyn Maker) -> Result<(), Stop> {
        if self.requests.is_empty() {
            return Ok(());
        }
        let request = self.random.pick(&self.requests);
        let own = usize::from(request[6]) % self.plan.n;
        let node = if self.random.chance(80) { own } else { self.random.below(self.plan.n) };
        self.node(maker, node, request).map(|_| ())
    }

    /// A reply heard before, again, to any client.
    fn late_reply(&mut self, maker: &mut dyn Maker) -> Result<(), Stop> {
        if self.replies.is_empty() {
            return Ok(());
        }
        let (client, reply) = (self.random.below(self.clients.len()), self.random.pick(&self.replies));
        self.reply(maker, client, reply)
    }

    /// What no call does: a client crashes, a disk changes a byte, a caller meddles with what the library gave it.
    fn mishap(&mut self) {
        let client = self.random.below(self.clients.len());
        match self.random.below(5) {
            0 => self.damage(),
            1 | 2 => {
                let Client { session, desk, .. } = &mut self.clients[client];
                mutate::client::keepsake(self.random, &self.plan, session, desk);
            }
            _ => {
                // its save or repair stays as far as it came
                self.clients.remove(client);
            }
        }
    }

    /// A byte of a held record.
    fn damage(&mut self) {
        let (node, size) = (self.random.below(self.plan.n), self.plan.record_length());
        let count = usize::from(u16::from_be_bytes([self.books[node][9], self.books[node][10]]));
        if count > 0 {
            let at = self.random.below(count);
            mutate::book::damage(self.random, size, at, &mut self.books[node]);
        }
    }
}

fn only(lent: Vec<Vec<u8>>) -> Vec<u8> {
    lent.into_iter().next().expect("one slice")
}

/// The frame at the start of a buffer: its length field, and 4.
fn cut(buffer: &[u8]) -> Vec<u8> {
    let length = u32::from_be_bytes(buffer[..4].try_into().expect("4 bytes")) as usize;
    buffer[..4 + length].to_vec()
}

fn keep(frames: &mut Vec<Vec<u8>>, frame: &[u8]) {
    if frames.len() == KEPT {
        frames.remove(0);
    }
    frames.push(frame.to_vec());
}
