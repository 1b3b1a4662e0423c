//! One channel: the greeting, requests cut out of its bytes, their replies. It has its own thread, and at most one batch of requests under way: a
//! client that does not read its replies holds up nobody but itself, and what it sends meanwhile stays with the system.

use super::counters::add;
use super::log::Told;
use super::owner::{most_requests, Done, Job};
use super::system::{comes_within, send_no_more, takes_within};
use super::Shared;
use crate::code::Code;
use crate::wire::{self, Front};
use std::fs::File;
use std::io::{self, Read, Write};
use std::sync::mpsc::sync_channel;
use std::sync::Arc;
use std::time::{Duration, Instant};

/// What one read takes at most.
const READ: usize = 65_536;

/// How long a request or a greeting that was begun on a socket may take to be whole, where the idle time is not less: who sends a byte now and then would
/// else keep a place for ever.
const WHOLE: Duration = Duration::from_secs(30);

/// What a pipe takes at once where it has room.
const PART: usize = 4096;

fn late() -> io::Error {
    io::ErrorKind::TimedOut.into()
}

/// Whether a socket says that its time is over.
fn is_late(error: &io::Error) -> bool {
    [io::ErrorKind::WouldBlock, io::ErrorKind::TimedOut].contains(&error.kind())
}

/// Why a channel ends.
pub struct Parting {
    /// With which a server ends that has no other channel.
    pub code: Code,
    pub words: String,
    /// The book is not served any more, of which its own thread has more to say.
    pub of_the_book: bool,
}

fn parting<T>(code: Code, words: impl Into<String>) -> Result<T, Parting> {
    Err(Parting { code, words: words.into(), of_the_book: false })
}

pub struct Channel<'a> {
    pub shared: &'a Shared,
    /// One file of a socket, two of pipes.
    pub input: Arc<File>,
    pub output: Arc<File>,
    /// Who is at the other end, for the log.
    pub from: String,
    /// How long nothing may come.
    pub idle: Option<Duration>,
    /// Whether both ends are waited for here; a socket was told how long to wait.
    pub polled: bool,
    pending: Vec<u8>,
    /// When that which is pending has to be whole, once its rest is waited for.
    due: Option<Instant>,
    /// How many bytes came before those that are pending.
    taken: u64,
}

impl<'a> Channel<'a> {
    /// Of a socket.
    pub fn socket(shared: &'a Shared, socket: File, from: String, idle: Option<Duration>) -> Channel<'a> {
        let socket = Arc::new(socket);
        let input = socket.clone();
        Channel { shared, input, output: socket, from, idle, polled: false, pending: Vec::new(), due: None, taken: 0 }
    }

    /// Of standard input and output.
    pub fn standard(shared: &'a Shared, (input, output): (File, File), idle: Option<Duration>) -> Channel<'a> {
        let (input, output, from) = (Arc::new(input), Arc::new(output), "standard input".to_string());
        Channel { shared, input, output, from, idle, polled: true, pending: Vec::new(), due: None, taken: 0 }
    }

    /// Serves it to its end.
    pub fn serve(&mut self) -> Parting {
        let ended = self.greet().and_then(|()| loop {
            self.requests()?;
            if !self.more()? {
                break self.end();
            }
        });
        match ended {
            Ok(()) => Parting { code: Code::Done, words: "ended".to_string(), of_the_book: false },
            Err(parting) => parting,
        }
    }

    /// Closes a socket whose input was not read to its end: what is on its way is read past for a while, since a socket that is closed with unread
    /// bytes takes back what was sent.
    pub fn read_past(self) {
        let mut bytes = [0; READ];
        send_no_more(&self.output);
        for _ in 0..16 {
            if !comes_within(&self.input, Duration::from_secs(1)).unwrap_or(false) {
                break;
            }
            if !matches!((&*self.input).read(&mut bytes), Ok(1..)) {
                break;
            }
        }
    }

    /// The end of the input.
    fn end(&self) -> Result<(), Parting> {
        match self.pending.is_empty() {
            true => Ok(()),
            false => parting(Code::WrongUse, "the input ends within a frame, which is dropped"),
        }
    }

    /// Nothing came for as long as may be.
    fn idled<T>(&self) -> Result<T, Parting> {
        if self.due.is_none() {
            let seconds = self.idle.unwrap_or_default().as_secs();
            return parting(Code::Done, format!("nothing came for {seconds} s"));
        }
        let (at, seconds) = (self.taken, self.whole().as_secs());
        parting(Code::System, format!("after {at} bytes: what it began to send is not whole after {seconds} s"))
    }

    /// How long what was begun may take to be whole.
    fn whole(&self) -> Duration {
        self.idle.map_or(WHOLE, |idle| idle.min(WHOLE))
    }

    /// How long more is waited for, where that is not left to the socket. What was begun there has one time for all its parts, in which no other work of
    /// the server is counted. A pipe is waited for as long as it may be idle: nobody else wants its place.
    fn patience(&mut self) -> Option<Duration> {
        if self.polled {
            return self.idle;
        }
        let (now, whole) = (Instant::now(), self.whole());
        let begun = !self.pending.is_empty();
        begun.then(|| self.due.get_or_insert(now + whole).saturating_duration_since(now))
    }

    /// One read of what waits, or of what comes next; false at the end of the input.
    fn more(&mut self) -> Result<bool, Parting> {
        let mut bytes = [0; READ];
        loop {
            if let Some(patience) = self.patience() {
                match comes_within(&self.input, patience) {
                    Ok(true) => {}
                    Ok(false) => return self.idled(),
                    Err(error) => return parting(Code::System, error.to_string()),
                }
            }
            return match (&*self.input).read(&mut bytes) {
                Ok(n) => {
                    self.pending.extend_from_slice(&bytes[..n]);
                    add(&self.shared.counters.bytes_in, n);
                    Ok(n > 0)
                }
                Err(error) if error.kind() == io::ErrorKind::Interrupted => continue,
                Err(error) if is_late(&error) && !self.polled => self.idled(),
                Err(error) => parting(Code::System, error.to_string()),
            };
        }
    }

    /// Sends bytes, in parts that a pipe with room takes at once, so that nobody is waited for longer than may be.
    fn write(&self, bytes: &[u8]) -> Result<(), Parting> {
        let waits = self.idle.filter(|_| self.polled);
        for part in bytes.chunks(if waits.is_some() { PART } else { bytes.len().max(1) }) {
            let room = waits.map_or(Ok(true), |idle| takes_within(&self.output, idle));
            match room.and_then(|room| if room { (&*self.output).write_all(part) } else { Err(late()) }) {
                Ok(()) => add(&self.shared.counters.bytes_out, part.len()),
                Err(error) if is_late(&error) => return parting(Code::System, "its replies are not read"),
                Err(error) => return parting(Code::System, format!("its replies cannot be sent: {error}")),
            }
        }
        Ok(())
    }

    /// A client that greets is answered. Other first bytes are those of one that does not greet, and is served without.
    fn greet(&mut self) -> Result<(), Parting> {
        let word = wire::WORD.as_bytes();
        while self.pending.len() < 4 {
            if !word.starts_with(&self.pending) || !self.more()? {
                return Ok(());
            }
        }
        if self.pending[..4] != word[..4] {
            return Ok(());
        }
        let end = loop {
            let seen = &self.pending[..self.pending.len().min(wire::LINE)];
            match seen.iter().position(|byte| *byte == b'\n') {
                Some(place) => break Some(place + 1),
                None if seen.len() == wire::LINE => break None,
                None if !self.more()? => return parting(Code::WrongUse, "the input ends within a greeting"),
                None => {}
            }
        };
        let line = end.map(|end| String::from_utf8_lossy(&self.pending[..end]).into_owned());
        self.write(wire::answered(&self.shared.plan, self.shared.node, self.shared.room).as_bytes())?;
        match line.as_deref().and_then(wire::read) {
            None => return parting(Code::WrongUse, "it greets in words that are not of this version"),
            Some(greeting) => {
                if let Some(differs) = wire::differs(&self.shared.plan, greeting.print) {
                    return parting(Code::Damaged, format!("it has another plan: {differs}"));
                }
            }
        }
        self.take(end.unwrap_or(0));
        Ok(())
    }

    /// So many bytes from the front of what is pending.
    fn take(&mut self, count: usize) -> Vec<u8> {
        (self.taken, self.due) = (self.taken + count as u64, None);
        self.pending.drain(..count).collect()
    }

    /// Serves all whole requests that are pending, in one batch or more. At a length that no frame has, those before it are served.
    fn requests(&mut self) -> Result<(), Parting> {
        loop {
            let (mut count, mut end) = (0, 0);
            let most = most_requests(&self.shared.plan);
            let stop = loop {
                match wire::front(&self.shared.plan, &self.pending[end..]) {
                    Front::Frame(length) if count < most => (count, end) = (count + 1, end + length),
                    other => break other,
                }
            };
            if count > 0 {
                let frames = self.take(end);
                self.batch(frames, count)?;
            }
            match stop {
                Front::Frame(_) => {}
                Front::Beginning => return Ok(()),
                Front::NoFrame(length) => {
                    let (at, why) = (self.taken, "the rest of the input is not read");
                    return parting(
                        Code::WrongUse,
                        format!("after {at} bytes: no request has the length {length}; {why}"),
                    );
                }
            }
        }
    }

    /// Has one batch of requests served, and sends the replies.
    fn batch(&mut self, frames: Vec<u8>, count: usize) -> Result<(), Parting> {
        let shared = self.shared;
        let Some(_under_way) = shared.gate.enter() else { return parting(Code::Done, "the server ends") };
        let (back, done) = sync_channel(1);
        let kept = frames.clone();
        let _ = shared.jobs.send(Job { frames, count, back });
        let Ok(Done { replies, answers }) = done.recv() else {
            let words = "the book is not served any more".to_string();
            return Err(Parting { code: Code::System, words, of_the_book: true });
        };
        let sent = if replies.is_empty() { Ok(()) } else { self.write(&replies) };
        let mut rest = kept.as_slice();
        for refusal in answers {
            let Front::Frame(length) = wire::front(&shared.plan, rest) else { break };
            let (frame, after) = rest.split_at(length);
            rest = after;
            shared.counters.answered(frame[5], refusal.map_or(0, pasis::Refusal::number));
            shared.log.request(&Told { from: &self.from, frame, refusal });
        }
        sent
    }
}
