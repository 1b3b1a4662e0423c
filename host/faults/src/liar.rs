//! A node that lies: it knows every record that was ever sent to it, arrived or not, and makes up an answer for each request and asker. Its
//! channel is authentic, so it can speak for itself alone, and no hash can be forged: what it tells is refused, or sound in itself.

use crate::plan::{frame_kind, reply_to, stamp_of, time_of, Plan, Stamp, FRAME_HEAD, STAMP};
use crate::poison;
use second::random::Random;
use std::collections::BTreeMap;

#[derive(Default)]
pub struct Liar {
    /// The records that were sent to this node.
    known: BTreeMap<Stamp, Vec<u8>>,
    /// The newest record that it has shown, and to which call.
    shown: Option<(Stamp, usize)>,
}

/// Whom a lie is told, and what may be told.
pub struct Asked<'a> {
    pub plan: &'a Plan,
    pub node: usize,
    pub call: usize,
    pub request: &'a [u8],
    /// Records of times near 2^64-1 may be told.
    pub late: bool,
}

impl Liar {
    /// A write request to this node has been sent.
    pub fn overhear(&mut self, request: &[u8]) {
        if frame_kind(request) == 3 {
            let record = request[FRAME_HEAD..].to_vec();
            self.known.insert(stamp_of(&record), record);
        }
    }

    /// The answer; none: silence.
    pub fn answer(&mut self, asked: &Asked, random: &mut Random) -> Option<Vec<u8>> {
        let body = &asked.request[FRAME_HEAD..];
        match frame_kind(asked.request) {
            1 => Some(reply_to(asked.request, 2, &self.time(random).to_be_bytes())),
            3 => self.acknowledgement(asked, random),
            5 => Some(reply_to(asked.request, 7, &self.record(asked, None, random))),
            _ => Some(reply_to(asked.request, 7, &self.record(asked, Some(stamp_of(body)), random))),
        }
    }

    fn newest(&self) -> u64 {
        self.known.last_key_value().map_or(0, |(stamp, _)| time_of(stamp))
    }

    /// Too low, as a rule; or too high, the last one too, which b nodes may say at any time; or true.
    fn time(&self, random: &mut Random) -> u64 {
        match random.within(0, 9) {
            0 => u64::MAX - random.pick(&[0, 0, 1, 2]),
            1 | 2 => self.newest(),
            3 => self.newest().saturating_add(random.within(1, 9) as u64),
            4 | 5 => self.newest().saturating_sub(1),
            _ => 0,
        }
    }

    /// That of the record; or of another, which its client refuses; or none.
    fn acknowledgement(&self, asked: &Asked, random: &mut Random) -> Option<Vec<u8>> {
        let stamp = &asked.request[FRAME_HEAD..FRAME_HEAD + STAMP];
        match random.within(0, 19) {
            0 => None,
            1 => Some(reply_to(asked.request, 4, &random.bytes(STAMP))),
            _ => Some(reply_to(asked.request, 4, stamp)),
        }
    }

    /// As a rule the newest record is shown to one call and kept from all others, so that no two see the same set.
    fn record(&mut self, asked: &Asked, bound: Option<Stamp>, random: &mut Random) -> Vec<u8> {
        let below: Vec<Stamp> = self.known.keys().copied().filter(|stamp| bound.is_none_or(|b| *stamp < b)).collect();
        if random.chance(15) {
            return self.made_up(asked, bound, &below, random);
        }
        let Some(newest) = below.last() else { return Vec::new() };
        let kept = match self.shown {
            Some((stamp, call)) if stamp >= *newest => stamp == *newest && call != asked.call,
            _ => {
                self.shown = Some((*newest, asked.call));
                false
            }
        };
        let tell = if kept { below.len().checked_sub(2).map(|older| below[older]) } else { Some(*newest) };
        tell.map_or(Vec::new(), |stamp| self.known[&stamp].clone())
    }

    /// The first triple; an old record; a record under another time; a sound record of bytes that nobody saved.
    fn made_up(&self, asked: &Asked, bound: Option<Stamp>, below: &[Stamp], random: &mut Random) -> Vec<u8> {
        let most = bound.map_or(u64::MAX, |stamp| time_of(&stamp).saturating_sub(1));
        let high = if asked.late { u64::MAX - random.within(0, 2) as u64 } else { self.newest() + 3 };
        let time = random.pick(&[most, most.saturating_sub(1), high, self.newest() + 1]).min(most).min(high);
        match random.within(0, 4) {
            0 => Vec::new(),
            1 | 2 if !below.is_empty() => {
                let mut record = self.known[&random.pick(below)].clone();
                if random.chance(50) && time > 0 {
                    record[..8].copy_from_slice(&time.to_be_bytes());
                }
                record
            }
            _ if time > 0 => poison::sound(asked.plan, time, &random.bytes(asked.plan.item())).swap_remove(asked.node),
            _ => Vec::new(),
        }
    }
}
