//! A client that stays: its channels are kept from one operation to the next, and its ask numbers are taken for many of them at once, so that an
//! operation costs it no wait for its own disk. For programs that save and open again and again; the commands make one operation each.

use super::asks;
use super::carry::carry;
use super::roster::Roster;
use super::Links;
use crate::code::{fault, Code, Fault};
use crate::operation::{Block, Operation};
use pasis::{Answer, Plan, Timestamp};
use std::path::Path;
use std::time::{Duration, Instant};

/// Ask numbers are taken for so many operations at once. What is not used of them at the end is no loss.
const AT_ONCE: u64 = 1024;

pub struct Client {
    roster: Roster,
    links: Links,
    next: u64,
    left: u64,
}

/// What came of a save.
pub enum Saved {
    Done(Timestamp),
    ClockSpent,
    /// The time was over: it may take effect later, or never.
    GivenUp,
}

/// What came of an open.
pub enum Opened {
    Done(Timestamp, Vec<u8>),
    NeverWritten,
    /// Aborted, or its rounds were spent.
    NoValue,
    GivenUp,
}

impl Client {
    /// A client of the nodes of a file. Several clients of one file are as several commands of it.
    pub fn new(file: &Path) -> Result<Client, Fault> {
        let roster = Roster::read(file)?;
        let links = Links::start(&roster);
        Ok(Client { roster, links, next: 0, left: 0 })
    }

    pub fn plan(&self) -> &Plan {
        &self.roster.plan
    }

    /// The first of W+1 numbers that were never used.
    fn ask(&mut self, deadline: Instant) -> Result<u64, Fault> {
        let each = u64::from(self.roster.plan.w) + 1;
        if self.left == 0 {
            self.next = asks::take(&self.roster, each * AT_ONCE, deadline)?;
            self.left = AT_ONCE;
        }
        let ask = self.next;
        (self.next, self.left) = (ask + each, self.left - 1);
        Ok(ask)
    }

    /// Saves a block of m times F bytes.
    pub fn save(&mut self, item: &[u8], within: Duration) -> Result<Saved, Fault> {
        let deadline = Instant::now() + within;
        let (plan, ask) = (self.roster.plan, self.ask(deadline)?);
        if item.len() != plan.item_size() {
            let line = format!("a block has {} bytes, and this has {}", plan.item_size(), item.len());
            return fault(Code::WrongUse, line);
        }
        let session = pasis::open_write(&plan, ask).or_else(|refusal| fault(Code::Damaged, refusal))?;
        let operation = Operation::new(&plan, session, Block::Save(item));
        let carried = carry(&mut self.links, operation, &[], deadline);
        Ok(match carried.run.answer {
            Answer::Done { timestamp, .. } => Saved::Done(timestamp),
            Answer::ClockSpent => Saved::ClockSpent,
            _ => Saved::GivenUp,
        })
    }

    /// Opens the block.
    pub fn open(&mut self, within: Duration) -> Result<Opened, Fault> {
        let deadline = Instant::now() + within;
        let (plan, ask) = (self.roster.plan, self.ask(deadline)?);
        let session = pasis::open_read(&plan, ask).or_else(|refusal| fault(Code::Damaged, refusal))?;
        let mut item = vec![0; plan.item_size()];
        let operation = Operation::new(&plan, session, Block::Open(&mut item));
        let carried = carry(&mut self.links, operation, &[], deadline);
        Ok(match carried.run.answer {
            Answer::Done { timestamp, .. } => Opened::Done(timestamp, item),
            Answer::NeverWritten { .. } => Opened::NeverWritten,
            Answer::Aborted { .. } | Answer::RoundsSpent { .. } => Opened::NoValue,
            _ => Opened::GivenUp,
        })
    }

    /// Closes all channels. What the nodes said meanwhile.
    pub fn end(self) -> Vec<String> {
        self.links.end()
    }
}
