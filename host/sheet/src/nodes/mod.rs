//! The nodes of a file, over the network: `roster` reads the file, `asks` keeps the ask numbers, `channel` is a way to a node, `link` and `reader` the threads of one,
//! `carry` takes an operation to its end over all of them at once, `scrub` asks each what it holds. The commands are in `verbs`, `look` and `heal`; `client` is one that stays.

mod asks;
mod carry;
mod channel;
pub mod client;
pub mod heal;
mod link;
pub mod look;
mod reader;
mod roster;
mod scrub;
pub mod verbs;

use channel::words;
use link::{Event, Link, Order, Post};
use roster::{Reach, Roster};
use std::sync::mpsc::{self, sync_channel, Receiver, RecvTimeoutError, Sender};
use std::thread;
use std::time::{Duration, Instant};

/// So many events may wait; a node that sends more than is taken has to wait itself.
const WAITING: usize = 64;

/// How long links have to end. A command has half a second of its own.
const LEAVE: Duration = Duration::from_millis(1500);

/// The most notes of one node.
const NOTES: usize = 24;

/// How a node's channel stands.
#[derive(Clone, Debug, PartialEq)]
pub enum Standing {
    /// It is being opened for the first time.
    Opening,
    Ready,
    Lost(String),
    /// It is not tried again.
    Over(String),
}

/// One node, as it is known here.
pub struct Way {
    orders: Sender<Order>,
    /// It is a command, which must have ended before this program does.
    command: bool,
    pub standing: Standing,
    /// The bytes of its book, where it told them.
    pub room: Option<usize>,
    notes: Vec<String>,
}

/// All nodes: a thread each, and what they tell.
pub struct Links {
    pub ways: Vec<Way>,
    events: Receiver<(usize, Event)>,
}

/// What has happened.
pub enum Happened {
    /// A frame of a node came by its own channel.
    Frame(usize, Vec<u8>),
    /// A channel was opened or lost.
    Change,
    /// The time is over.
    Late,
}

impl Links {
    /// Starts a thread for each node of the file.
    pub fn start(roster: &Roster) -> Links {
        let (tell, events) = sync_channel(WAITING);
        let start = |(node, place): (usize, &roster::Place)| {
            let (orders, obeyed) = mpsc::channel();
            let post = Post {
                node,
                plan: roster.plan,
                place: place.clone(),
                folder: roster.folder.clone(),
                events: tell.clone(),
                orders: orders.clone(),
            };
            let begun = thread::Builder::new().spawn(move || Link::new(post, obeyed).live());
            let command = begun.is_ok() && matches!(place.reach, Reach::Exec(_));
            let standing = begun.map_or_else(|error| Standing::Over(words(&error)), |_| Standing::Opening);
            Way { orders, command, standing, room: None, notes: Vec::new() }
        };
        Links { ways: roster.nodes.iter().enumerate().map(start).collect(), events }
    }

    fn order(&self, node: usize, order: Order) {
        let _ = self.ways[node].orders.send(order);
    }

    /// Has this request sent to a node, again and again until it rests.
    pub fn ask(&self, node: usize, request: Vec<u8>) {
        self.order(node, Order::Ask(request));
    }

    /// The node was heard.
    pub fn rest(&self, node: usize) {
        self.order(node, Order::Rest);
    }

    /// What came from it was too late.
    pub fn alive(&self, node: usize) {
        self.order(node, Order::Alive);
    }

    /// Takes an event down; a frame is handed on.
    fn take(&mut self, node: usize, event: Event) -> Option<Happened> {
        let way = &mut self.ways[node];
        match event {
            Event::Frame(frame) => return Some(Happened::Frame(node, frame)),
            Event::Ready(room) => {
                way.standing = Standing::Ready;
                way.room = room.or(way.room);
            }
            Event::Lost { why, for_good: true } => way.standing = Standing::Over(why),
            Event::Lost { why, for_good: false } => way.standing = Standing::Lost(why),
            Event::Said(line) => {
                let note = format!("node {node}: {line}");
                if way.notes.len() < NOTES && !way.notes.contains(&note) {
                    way.notes.push(note);
                }
                return None;
            }
            Event::Ended => return None,
        }
        Some(Happened::Change)
    }

    /// What happens next, up to a moment. A flood of frames does not move that moment.
    pub fn next(&mut self, until: Instant) -> Happened {
        loop {
            let left = until.saturating_duration_since(Instant::now());
            if left.is_zero() {
                return Happened::Late;
            }
            match self.events.recv_timeout(left) {
                Ok((node, event)) => {
                    if let Some(happened) = self.take(node, event) {
                        return happened;
                    }
                }
                Err(RecvTimeoutError::Timeout | RecvTimeoutError::Disconnected) => return Happened::Late,
            }
        }
    }

    /// Whether a node will not be heard, however long one waits.
    pub fn is_over(&self, node: usize) -> bool {
        matches!(self.ways[node].standing, Standing::Over(_))
    }

    /// Waits until every channel was opened or could not be, up to a moment. Frames that come meanwhile are late ones.
    pub fn settle(&mut self, until: Instant) {
        while self.ways.iter().any(|way| way.standing == Standing::Opening) {
            if let Happened::Late = self.next(until) {
                return;
            }
        }
    }

    /// Ends all links: channels are closed, commands have a moment to end, and none is left behind. What was said meanwhile.
    pub fn end(mut self) -> Vec<String> {
        for node in 0..self.ways.len() {
            self.order(node, Order::End);
        }
        let until = Instant::now() + LEAVE;
        while self.ways.iter().any(|way| way.command) {
            match self.events.recv_timeout(until.saturating_duration_since(Instant::now())) {
                Ok((node, Event::Ended)) => self.ways[node].command = false,
                Ok((node, event @ Event::Said(_))) => drop(self.take(node, event)),
                Ok(_) => {}
                Err(_) => break,
            }
        }
        self.ways.into_iter().flat_map(|way| way.notes).collect()
    }
}
