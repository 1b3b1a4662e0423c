//! Carries an operation to its end over all nodes at once: a round's requests to all, each reply to the session, the next round; a write or repair
//! round that has ended is delivered to the rest for a moment; at the deadline it is given up.

use super::{Happened, Links, Standing};
use crate::json::Json;
use crate::operation::{Operation, Run};
use pasis::{Refusal, Timestamp};
use std::time::{Duration, Instant};

/// How long a write round that has ended waits for the rest: as long as the operation took until then, within these bounds.
const GRACE: (Duration, Duration) = (Duration::from_millis(200), Duration::from_secs(1));

/// What one node did in an operation.
#[derive(Clone, Default)]
struct Deed {
    /// When it was asked last.
    asked: Option<Instant>,
    /// How long it took to answer what it was asked last, and whether that was to store.
    answered: Option<Duration>,
    stored: bool,
    /// The round asks it to store, and it has not answered.
    storing: bool,
    refused: Option<String>,
}

impl Deed {
    /// A word for programs and a line for people.
    fn told(&self, standing: &Standing, ended: bool) -> (&'static str, String) {
        let time = self.answered.map(|time| format!("{:.1} ms", 1000.0 * time.as_secs_f64())).unwrap_or_default();
        match (self, standing) {
            (Deed { stored: true, .. }, _) => ("stored", format!("stored, {time}")),
            (Deed { refused: Some(why), .. }, _) => ("refused", format!("its reply is refused ({why})")),
            (Deed { answered: Some(_), .. }, _) => ("answered", format!("answered, {time}")),
            (_, Standing::Lost(why) | Standing::Over(why)) => ("silent", format!("silent: {why}")),
            (Deed { storing: false, .. }, _) if ended => ("not waited for", "not waited for".to_string()),
            (_, Standing::Opening) => ("silent", "silent: no channel yet".to_string()),
            (Deed { storing: true, .. }, _) => {
                ("silent", "silent at the write; a full or a damaged book does not answer".to_string())
            }
            _ => ("silent", "silent: no answer".to_string()),
        }
    }

    /// The line, and the object; `ended` where the operation came to its end.
    fn tell(&self, node: usize, standing: &Standing, ended: bool) -> (String, Json) {
        let (did, words) = self.told(standing, ended);
        let taken = self.answered.filter(|_| did != "silent");
        let time = taken.map(|time| Json::Decimal((time.as_secs_f64() * 1e6).round() / 1e3));
        let object = vec![
            ("node", Json::Number(node as u64)),
            ("did", Json::text(did)),
            ("ms", Json::or_null(time)),
            ("words", Json::text(&words)),
        ];
        (format!("node {node}: {words}"), Json::Object(object))
    }
}

/// What came of an operation, and what each node did in it: the line, and the object.
pub struct Carried {
    pub run: Run,
    pub told: Vec<(String, Json)>,
}

struct Carrying<'a, 'b> {
    operation: Operation<'a>,
    links: &'b mut Links,
    deeds: Vec<Deed>,
    /// The nodes that take no part, as one whose book forgot.
    without: &'b [usize],
    /// The ask number of the open round.
    ask: [u8; 8],
}

/// Whether a frame says that a node stores under this timestamp, in answer to a request with this ask number.
pub fn acknowledges(frame: &[u8], ask: [u8; 8], stamp: Option<Timestamp>) -> bool {
    let wanted = stamp.map(|stamp| [&[1, 4][..], &ask, &stamp.0].concat());
    wanted.is_some_and(|wanted| frame.len() == 55 && [&frame[4..6], &frame[7..]].concat() == wanted)
}

impl Carrying<'_, '_> {
    /// Sends the requests of a round that has opened.
    fn ask(&mut self) {
        let requests = self.operation.begin();
        let storing = self.operation.storing();
        for (node, request) in requests.into_iter().enumerate().filter(|(node, _)| !self.without.contains(node)) {
            self.ask = request[7..15].try_into().expect("a request has 15 bytes or more");
            let (asked, refused) = (Some(Instant::now()), self.deeds[node].refused.take());
            self.deeds[node] = Deed { asked, refused, storing, ..Deed::default() };
            self.links.ask(node, request);
        }
    }

    /// The node answered what it was asked.
    fn answered(&mut self, node: usize, storing: bool) {
        self.links.rest(node);
        let deed = &mut self.deeds[node];
        deed.answered = deed.asked.map(|asked| asked.elapsed());
        (deed.stored, deed.storing, deed.refused) = (storing, false, None);
        if storing {
            self.operation.stored_at(node);
        }
    }

    /// Hands a frame on. One of a node that takes no part is none of this operation's.
    fn hear(&mut self, node: usize, frame: &[u8]) {
        if self.without.contains(&node) {
            return;
        }
        let storing = self.operation.storing();
        if storing && self.operation.over() {
            if acknowledges(frame, self.ask, self.operation.run.stamp) {
                self.answered(node, true);
            }
            return;
        }
        match self.operation.hear(node, frame) {
            Ok(()) => self.answered(node, storing),
            Err(Refusal::Awaited | Refusal::Heard | Refusal::Ended) => self.links.alive(node),
            Err(refusal) => self.deeds[node].refused = Some(refusal.to_string()),
        }
    }

    /// More nodes are out of reach for good than may be silent.
    fn hopeless(&self) -> bool {
        let out = |node: &usize| self.without.contains(node) || self.links.is_over(*node);
        (0..self.deeds.len()).filter(out).count() > usize::from(self.operation.plan.t)
    }

    /// Hears nodes until the open round is over; whether it is.
    fn round(&mut self, until: Instant) -> bool {
        while !self.operation.over() && !self.hopeless() {
            match self.links.next(until) {
                Happened::Frame(node, frame) => self.hear(node, &frame),
                Happened::Change => {}
                Happened::Late => break,
            }
        }
        self.operation.close();
        self.operation.over()
    }

    /// A node that has a channel, or is about to, and has not stored yet.
    fn on_its_way(&self) -> bool {
        let may = |node: usize| matches!(self.links.ways[node].standing, Standing::Opening | Standing::Ready);
        (0..self.deeds.len()).any(|node| !self.deeds[node].stored && may(node) && !self.without.contains(&node))
    }

    /// Delivers what is stored to the rest.
    fn deliver(&mut self, until: Instant) {
        while self.on_its_way() {
            match self.links.next(until) {
                Happened::Frame(node, frame) => self.hear(node, &frame),
                Happened::Change => {}
                Happened::Late => return,
            }
        }
    }
}

/// Carries an operation to its end, or to the deadline. Nodes in `without` are neither asked nor heard.
pub fn carry(links: &mut Links, operation: Operation, without: &[usize], deadline: Instant) -> Carried {
    let (begun, deeds) = (Instant::now(), vec![Deed::default(); links.ways.len()]);
    let mut carrying = Carrying { operation, links, deeds, without, ask: [0; 8] };
    loop {
        carrying.ask();
        if !carrying.round(deadline) || carrying.operation.ended() {
            break;
        }
    }
    if carrying.operation.storing() && carrying.operation.ended() {
        let grace = begun.elapsed().clamp(GRACE.0, GRACE.1);
        carrying.deliver(deadline.min(Instant::now() + grace));
    }
    let Carrying { mut operation, links, deeds, .. } = carrying;
    operation.run.stored.sort_unstable();
    let told = |(node, deed): (usize, &Deed)| deed.tell(node, &links.ways[node].standing, operation.ended());
    let told = deeds.iter().enumerate().filter(|(node, _)| !without.contains(node)).map(told).collect();
    Carried { run: operation.run, told }
}
