//! What a server says while it runs, a line each on standard error: for people, or as a JSON object.

use super::counters::{place_of, KINDS};
use super::voice::Voice;
use crate::json::Json;
use pasis::{Refusal, Timestamp};
use std::io;
use std::sync::{Arc, Mutex, PoisonError};
use std::time::{Duration, Instant};

/// How much is said of requests. What is refused, and what goes wrong, is said always.
#[derive(Clone, Copy, Debug, PartialEq, Eq, PartialOrd, Ord)]
pub enum Level {
    Quiet,
    /// Writes too.
    Writes,
    /// All requests, and the coming and going of connections.
    All,
}

/// Lines that a stranger can bring about: so many at once, and so many a second after that. The others are counted: a log is no place to be filled
/// from outside.
const AT_ONCE: u64 = 1000;
const A_SECOND: u64 = 10;

struct Flood {
    since: Instant,
    room: u64,
    left_out: u64,
}

pub struct Log {
    node: u8,
    json: bool,
    pub level: Level,
    flood: Mutex<Flood>,
    voice: Arc<Voice>,
}

/// One request and what came of it.
pub struct Told<'a> {
    pub from: &'a str,
    pub frame: &'a [u8],
    pub refusal: Option<Refusal>,
}

impl Log {
    pub fn new(node: u8, json: bool, level: Level) -> io::Result<Log> {
        let flood = Flood { since: Instant::now(), room: AT_ONCE, left_out: 0 };
        let voice = Voice::start(move |dropped| {
            let lines = ("lines", Json::Number(dropped));
            let fields = vec![("event", Json::text("dropped")), ("node", Json::Number(node.into())), lines];
            line(json, &format!("node {node}: {dropped} lines were dropped, since those before were not read"), fields)
        })?;
        Ok(Log { node, json, level, flood: Mutex::new(flood), voice })
    }

    fn print(&self, text: &str, fields: Vec<(&'static str, Json)>) {
        self.voice.say(line(self.json, text, fields));
    }

    /// The last lines, and all before them, written if somebody reads them.
    pub fn end(&self, last: String) {
        self.voice.end(last);
    }

    /// That it serves, and where: printed always, so that a port that the system chose is known.
    pub fn serving(&self, on: &str) {
        let fields = vec![("event", Json::text("serving")), ("node", self.number()), ("on", Json::text(on))];
        self.print(&format!("serving node {} on {on}", self.node), fields);
    }

    pub fn counters(&self, line: &str, json: Json) {
        let fields = vec![("event", Json::text("counters")), ("node", self.number()), ("counters", json)];
        self.print(&format!("node {}: counters: {line}", self.node), fields);
    }

    /// What happened to a connection, or to the server.
    pub fn note(&self, event: &'static str, from: &str, words: &str) {
        if !self.may_say() {
            return;
        }
        let fields = vec![
            ("event", Json::text(event)),
            ("node", self.number()),
            ("from", Json::text(from)),
            ("words", Json::text(words)),
        ];
        self.print(&format!("node {}: {from}: {words}", self.node), fields);
    }

    /// The same where all is said.
    pub fn detail(&self, event: &'static str, from: &str, words: &str) {
        if self.level == Level::All {
            self.note(event, from, words);
        }
    }

    /// A request, where the level has it said.
    pub fn request(&self, told: &Told) {
        let (kind, number) = (told.frame[5], told.refusal.map_or(0, Refusal::number));
        let wanted = match (told.refusal, kind) {
            (Some(_), _) => Level::Quiet,
            (None, 3) => Level::Writes,
            _ => Level::All,
        };
        if self.level < wanted || number != 0 && !self.may_say() {
            return;
        }
        let (name, ask) = (kind_name(kind), ask_of(told.frame));
        let node = told.frame[6];
        let other = if node == self.node { String::new() } else { format!(" for node {node}") };
        let stamp =
            told.frame.get(15..55).filter(|_| kind == 3).and_then(|bytes| bytes.first_chunk()).map(|s| Timestamp(*s));
        let said = match (told.refusal, stamp) {
            (Some(refusal), _) => format!("refused {}", refusal.to_string().trim_start_matches("refusal ")),
            (None, Some(stamp)) => format!("acknowledged {stamp}"),
            (None, None) => "answered".to_string(),
        };
        let fields = vec![
            ("event", Json::text("request")),
            ("node", self.number()),
            ("from", Json::text(told.from)),
            ("kind", Json::text(&name)),
            ("for", Json::Number(node.into())),
            ("ask", Json::Number(ask)),
            ("answer", Json::Number(number.into())),
            ("words", Json::text(&said)),
        ];
        self.print(&format!("node {}: {}: {name}{other}, ask {ask}: {said}", self.node, told.from), fields);
    }

    fn number(&self) -> Json {
        Json::Number(self.node.into())
    }

    /// Whether one more line may be said now; those that were left out before are told first.
    fn may_say(&self) -> bool {
        let mut flood = self.flood.lock().unwrap_or_else(PoisonError::into_inner);
        let seconds = flood.since.elapsed().as_secs();
        flood.since += Duration::from_secs(seconds);
        flood.room = AT_ONCE.min(flood.room.saturating_add(seconds.saturating_mul(A_SECOND)));
        let Some(room) = flood.room.checked_sub(1) else {
            flood.left_out += 1;
            return false;
        };
        flood.room = room;
        let left_out = std::mem::take(&mut flood.left_out);
        if left_out > 0 {
            let lines = ("lines", Json::Number(left_out));
            let fields = vec![("event", Json::text("left out")), ("node", self.number()), lines];
            self.print(&format!("node {}: {left_out} lines were left out", self.node), fields);
        }
        true
    }
}

/// A line for people, or for programs.
fn line(json: bool, text: &str, fields: Vec<(&'static str, Json)>) -> String {
    match json {
        true => format!("{}\n", Json::Object(fields)),
        false => format!("sheet: {text}\n"),
    }
}

fn kind_name(kind: u8) -> String {
    match place_of(kind) {
        4 => format!("kind {kind}"),
        place => KINDS[place].to_string(),
    }
}

/// The ask number of a frame, which has 15 bytes or more.
fn ask_of(frame: &[u8]) -> u64 {
    frame.get(7..15).and_then(|bytes| bytes.first_chunk()).map_or(0, |bytes| u64::from_be_bytes(*bytes))
}
