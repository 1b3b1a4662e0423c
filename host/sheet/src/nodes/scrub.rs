//! What each node holds, by the protocol's own requests: the latest record, then the one below it, down to the first triple. All nodes at once; a
//! node is asked for its next record when the last one has come.

use super::{asks, Happened, Links, Roster, Standing};
use crate::book;
use crate::code::Fault;
use pasis::{Plan, Refusal};
use std::time::{Duration, Instant};

/// How long nodes without a channel are waited for, once the others have told all.
const PATIENCE: Duration = Duration::from_secs(1);

/// What was found out of a node.
pub enum Found {
    /// All its records, rising.
    Holds(Vec<Vec<u8>>),
    Silent(String),
    /// It answers, and not as a node does.
    Lies(String),
}

/// One node on the way: its records so far, falling.
struct Asked {
    node: usize,
    records: Vec<Vec<u8>>,
    found: Option<Found>,
}

/// What a reply says: a record, or none where there is no more. Nothing where it is of an earlier step.
fn read(plan: &Plan, frame: &[u8], ask: u64, bound: Option<&Vec<u8>>) -> Option<Result<Option<Vec<u8>>, Refusal>> {
    let (head, record) = frame.split_at_checked(15)?;
    if head[7..15] != ask.to_be_bytes() {
        return None;
    }
    let below = bound.is_none_or(|bound| record.get(..40) < bound.get(..40));
    Some(match record.len() {
        _ if head[4..6] != [1, 7] => Err(Refusal::Frame),
        0 => Ok(None),
        length if length != plan.record_size() => Err(Refusal::Frame),
        _ if record[..8] == [0; 8] => Err(Refusal::Time),
        _ if !below => Err(Refusal::Bound),
        _ => Ok(Some(record.to_vec())),
    })
}

struct Scrub<'a> {
    plan: &'a Plan,
    links: &'a mut Links,
    /// The ask number of the first step; each step has the next.
    first: u64,
    nodes: Vec<Asked>,
}

impl Scrub<'_> {
    fn ask(&self, asked: &Asked) {
        let (node, ask) = (asked.node, self.first + asked.records.len() as u64);
        let request = match asked.records.last() {
            None => book::frame(5, node, ask, &[]),
            Some(record) => book::frame(6, node, ask, &record[..40]),
        };
        self.links.ask(node, request);
    }

    fn hear(&mut self, node: usize, frame: &[u8]) {
        let Some(place) = self.nodes.iter().position(|asked| asked.node == node && asked.found.is_none()) else {
            return;
        };
        let asked = &mut self.nodes[place];
        let ask = self.first + asked.records.len() as u64;
        let Some(said) = read(self.plan, frame, ask, asked.records.last()) else { return };
        self.links.rest(node);
        match said {
            Ok(Some(_)) if asked.records.len() == book::most(self.plan) => {
                asked.found = Some(Found::Lies("tells of more records than a book can have".to_string()));
            }
            Ok(Some(record)) => asked.records.push(record),
            Ok(None) => {
                asked.records.reverse();
                asked.found = Some(Found::Holds(std::mem::take(&mut asked.records)));
            }
            Err(refusal) => asked.found = Some(Found::Lies(format!("its reply is refused ({refusal})"))),
        }
        if self.nodes[place].found.is_none() {
            self.ask(&self.nodes[place]);
        }
    }

    /// Nodes that have not told all, and whether all of these are without a channel.
    fn waiting(&self) -> (bool, bool) {
        let mut left = self.nodes.iter().filter(|asked| asked.found.is_none()).peekable();
        let some = left.peek().is_some();
        let lost =
            |asked: &Asked| matches!(self.links.ways[asked.node].standing, Standing::Lost(_) | Standing::Over(_));
        (some, left.all(lost))
    }

    fn run(&mut self, deadline: Instant) {
        for place in 0..self.nodes.len() {
            self.ask(&self.nodes[place]);
        }
        let patience = deadline.min(Instant::now() + PATIENCE);
        loop {
            let until = match self.waiting() {
                (false, _) => return,
                (true, true) => patience,
                (true, false) => deadline,
            };
            match self.links.next(until) {
                Happened::Frame(node, frame) => self.hear(node, &frame),
                Happened::Change => {}
                Happened::Late => return,
            }
        }
    }
}

/// Why a node has not told all.
fn silence(standing: &Standing, told: usize) -> String {
    match standing {
        Standing::Lost(why) | Standing::Over(why) => why.clone(),
        Standing::Opening => "no channel yet".to_string(),
        Standing::Ready if told == 0 => "no answer".to_string(),
        Standing::Ready => format!("told of {told} records, and not of all"),
    }
}

/// Asks these nodes what they hold.
pub fn scrub(links: &mut Links, roster: &Roster, nodes: &[usize], deadline: Instant) -> Result<Vec<Found>, Fault> {
    let plan = &roster.plan;
    let first = asks::take(roster, book::most(plan) as u64 + 2, deadline)?;
    let nodes = nodes.iter().map(|node| Asked { node: *node, records: Vec::new(), found: None }).collect();
    let mut scrub = Scrub { plan, links, first, nodes };
    scrub.run(deadline);
    let Scrub { links, nodes, .. } = scrub;
    let told = |asked: Asked| {
        links.rest(asked.node);
        let silent = || Found::Silent(silence(&links.ways[asked.node].standing, asked.records.len()));
        asked.found.unwrap_or_else(silent)
    };
    Ok(nodes.into_iter().map(told).collect())
}
