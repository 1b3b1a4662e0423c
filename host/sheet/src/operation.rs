//! One operation on its way: its session, its desk, and what has come of it. Requests come out of it and replies go in; who carries them, and in which
//! order, is `drive`'s or `nodes`' part.

use pasis::{Answer, Operation as Kind, Plan, Refusal, Session, Stage, Timestamp};

/// The block of an operation: what is saved, or where it is to be opened.
pub enum Block<'a> {
    Save(&'a [u8]),
    Open(&'a mut [u8]),
}

/// What a reader's node holds, as it said: a record, or none for the first triple.
type Held = Option<Vec<u8>>;

/// A read round that closed, or the last one that did not.
pub struct Round {
    pub bound: Option<Timestamp>,
    pub heard: Vec<usize>,
    pub candidate: Option<Timestamp>,
    pub set: Vec<usize>,
    pub verdict: &'static str,
}

/// The verdict of a round that did not close.
pub const NOT_CLOSED: &str = "not closed";

/// What came of an operation.
pub struct Run {
    /// `Open` where it did not end.
    pub answer: Answer,
    pub session: Session,
    pub rounds: Vec<Round>,
    /// Where a write or repair round stored, and under which timestamp.
    pub stored: Vec<usize>,
    pub stamp: Option<Timestamp>,
    pub cut_off: bool,
    /// Nodes that were not heard, and why.
    pub notes: Vec<String>,
}

/// The N-t replies of a round as a reader sees them: the greatest timestamp, and the replies with it and the same cross checksum as the
/// lowest-numbered of them. For the picture alone: the library decides by its own rule.
fn candidate(plan: &Plan, replies: &[(usize, Held)]) -> (Option<Timestamp>, Vec<usize>) {
    let stamp = |held: &Held| held.as_ref().and_then(|record| record.first_chunk().copied()).map(Timestamp);
    let greatest = replies.iter().map(|(_, held)| stamp(held)).max().flatten();
    let checksum = |held: &Held| held.as_ref().map(|record| record[40..40 + 32 * usize::from(plan.n)].to_vec());
    let mut with: Vec<_> = replies.iter().filter(|(_, held)| stamp(held) == greatest).collect();
    with.sort_by_key(|(node, _)| *node);
    let lowest = with.first().map(|(_, held)| checksum(held));
    let set = with.iter().filter(|(_, held)| Some(checksum(held)) == lowest).map(|(node, _)| *node);
    (greatest, set.collect())
}

/// What the library made of a closed read round, in words.
fn verdict(plan: &Plan, answer: Answer, stage: Option<Stage>, set: usize) -> &'static str {
    match answer {
        Answer::Done { .. } => "complete",
        Answer::NeverWritten { .. } => "never written",
        Answer::Aborted { .. } => "unclassifiable, aborted",
        _ if stage == Some(Stage::Storing) => "unclassifiable, repair",
        _ if set < plan.incomplete() => "incomplete",
        _ => "validation failed",
    }
}

/// Where a session stands; a round is over when this has changed.
type State = (Option<Stage>, u16);

pub struct Operation<'a> {
    pub plan: Plan,
    pub run: Run,
    block: Block<'a>,
    desk: Vec<u8>,
    /// The round that is open: where the session stood at its opening, what it asks below, and the replies that were accepted in it.
    start: State,
    bound: Option<Timestamp>,
    replies: Vec<(usize, Held)>,
}

impl<'a> Operation<'a> {
    pub fn new(plan: &Plan, session: Session, block: Block<'a>) -> Operation<'a> {
        let run = Run {
            answer: Answer::Open,
            session,
            rounds: Vec::new(),
            stored: Vec::new(),
            stamp: None,
            cut_off: false,
            notes: Vec::new(),
        };
        let desk = vec![0; plan.desk_size()];
        Operation { plan: *plan, run, block, desk, start: (None, 0), bound: None, replies: Vec::new() }
    }

    fn state(&self) -> State {
        (self.run.session.stage(), self.run.session.round())
    }

    /// Whether the round that was begun last is a write or a repair round.
    pub fn storing(&self) -> bool {
        self.start.0 == Some(Stage::Storing)
    }

    /// Whether the round that was begun last is over.
    pub fn over(&self) -> bool {
        self.state() != self.start
    }

    pub fn ended(&self) -> bool {
        self.run.session.stage() == Some(Stage::Ended)
    }

    /// Begins the round that has opened: the requests to all nodes, in the order of their numbers.
    pub fn begin(&mut self) -> Vec<Vec<u8>> {
        self.start = self.state();
        self.bound = self.run.session.bound();
        self.replies.clear();
        if self.storing() {
            self.run.stamp = Some(self.run.session.writing());
        }
        let request = |node: usize| {
            let mut frame = vec![0; self.plan.frame_size()];
            let owed = pasis::owed(&self.plan, &self.run.session, node as u64, &self.desk, &mut frame);
            frame.truncate(owed.expect("a round that opens owes a request to every node"));
            frame
        };
        (0..usize::from(self.plan.n)).map(request).collect()
    }

    /// Hands a node's reply to the session, which goes in by value and comes back.
    pub fn hear(&mut self, node: usize, reply: &[u8]) -> Result<(), Refusal> {
        let session = std::mem::replace(&mut self.run.session, Session::from_bytes([0; pasis::SESSION_SIZE]));
        let (session, answer) = match &mut self.block {
            Block::Save(item) => pasis::write_reply(&self.plan, session, reply, &mut self.desk, item),
            Block::Open(item) => pasis::read_reply(&self.plan, session, reply, &mut self.desk, item),
        };
        self.run.session = session;
        self.run.answer = answer?;
        let body = reply[15..].to_vec();
        self.replies.push((node, (!body.is_empty()).then_some(body)));
        Ok(())
    }

    /// A node that stores what this operation writes.
    pub fn stored_at(&mut self, node: usize) {
        if !self.run.stored.contains(&node) {
            self.run.stored.push(node);
        }
    }

    /// Takes a read round down for the picture; one that did not close has no candidate.
    pub fn close(&mut self) {
        if self.storing() || self.run.session.operation() != Some(Kind::Read) {
            return;
        }
        let (over, heard) = (self.over(), self.replies.iter().map(|(node, _)| *node).collect());
        let (candidate, set) = if over { candidate(&self.plan, &self.replies) } else { (None, Vec::new()) };
        let ended = verdict(&self.plan, self.run.answer, self.run.session.stage(), set.len());
        let verdict = if over { ended } else { NOT_CLOSED };
        self.run.rounds.push(Round { bound: self.bound, heard, candidate, set, verdict });
    }
}
