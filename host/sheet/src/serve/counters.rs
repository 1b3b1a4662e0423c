//! What a server has done since it started, in numbers.

use crate::json::Json;
use std::sync::atomic::{AtomicU64, Ordering};

/// The kinds of requests by their names; whatever else a frame says it is, is the last.
pub const KINDS: [&str; 5] = ["time", "write", "latest", "previous", "other"];

/// The place among them of a frame's kind.
pub fn place_of(kind: u8) -> usize {
    [1, 3, 5, 6].iter().position(|known| *known == kind).unwrap_or(4)
}

/// The answers that a frame of a run may get: accepted, or its own refusal.
const ANSWERS: [&str; 6] = ["accepted", "refused_4", "refused_5", "refused_6", "refused_7", "refused_8"];

#[derive(Default)]
pub struct Counters {
    requests: [AtomicU64; 5],
    answers: [AtomicU64; 6],
    pub runs: AtomicU64,
    pub stores: AtomicU64,
    pub fsyncs: AtomicU64,
    pub connections: AtomicU64,
    pub turned_away: AtomicU64,
    pub bytes_in: AtomicU64,
    pub bytes_out: AtomicU64,
}

pub fn add(counter: &AtomicU64, more: usize) {
    counter.fetch_add(more as u64, Ordering::Relaxed);
}

impl Counters {
    /// One request of this kind, answered by 0 or its refusal.
    pub fn answered(&self, kind: u8, number: u32) {
        add(&self.requests[place_of(kind)], 1);
        let place = if (4..=8).contains(&number) { number as usize - 3 } else { 0 };
        add(&self.answers[place], 1);
    }

    fn fields(&self, open: usize) -> Vec<(&'static str, u64)> {
        let value = |counter: &AtomicU64| counter.load(Ordering::Relaxed);
        let mut all: Vec<(&str, u64)> = KINDS.into_iter().zip(self.requests.iter().map(value)).collect();
        all.extend(ANSWERS.into_iter().zip(self.answers.iter().map(value)));
        all.extend([
            ("runs", value(&self.runs)),
            ("stores", value(&self.stores)),
            ("fsyncs", value(&self.fsyncs)),
            ("connections", value(&self.connections)),
            ("open", open as u64),
            ("turned_away", value(&self.turned_away)),
            ("bytes_in", value(&self.bytes_in)),
            ("bytes_out", value(&self.bytes_out)),
        ]);
        all
    }

    /// For people; so many connections are open now.
    pub fn line(&self, open: usize) -> String {
        let words: Vec<String> = self.fields(open).iter().map(|(name, value)| format!("{name} {value}")).collect();
        words.join(", ")
    }

    pub fn json(&self, open: usize) -> Json {
        Json::Object(self.fields(open).into_iter().map(|(name, value)| (name, Json::Number(value))).collect())
    }
}
