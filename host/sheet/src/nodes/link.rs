//! The thread of one node: when something is owed it opens a channel, greets, and sends the request again and again until it is told that the node was
//! heard; it opens another channel where one is lost.

use super::channel::{words, Channel};
use super::reader::{lost, read, Loss};
use super::roster::{Place, Reach};
use crate::wire;
use pasis::Plan;
use std::io;
use std::path::PathBuf;
use std::sync::mpsc::{Receiver, RecvTimeoutError, Sender, SyncSender};
use std::thread;
use std::time::{Duration, Instant, SystemTime, UNIX_EPOCH};

/// The pause before a channel is opened again, which doubles, and its bound.
const REOPEN: (Duration, Duration) = (Duration::from_millis(50), Duration::from_secs(2));

/// The pause before a request is sent again on a channel that is open, which doubles.
const AGAIN: Duration = Duration::from_millis(500);

/// So often a request goes out on one channel: then the channel is taken for dead. What lies unread in it is bounded by this.
const SENDINGS: u32 = 4;

/// A channel that was answered on and is not needed is left after as long again as it took, within these bounds, and up to twice that, by chance: a node that
/// serves one client at a time would else be kept from one who needs it, and two clients who each have a part of the nodes would wait for one another.
const GIVE_WAY: (Duration, Duration) = (Duration::from_millis(100), Duration::from_secs(1));

/// How long the other side has for its greeting: a connection that is made, and a command, which may have to make one first, as ssh.
const GREETING: (Duration, Duration) = (Duration::from_secs(5), Duration::from_secs(20));

/// What a link tells.
pub enum Event {
    /// A frame that came by this node's channel and names this node.
    Frame(Vec<u8>),
    /// A channel is open; the bytes of the node's book, where it tells them.
    Ready(Option<usize>),
    /// There is no channel, and why; another is tried, unless this is for good.
    Lost { why: String, for_good: bool },
    /// A command's line on standard error, or a frame that was dropped.
    Said(String),
    /// The thread has ended.
    Ended,
}

/// What a link is told, by who carries the operation and by its own reader; readers of earlier channels are not listened to.
pub enum Order {
    Ask(Vec<u8>),
    /// The node was heard: nothing is owed to it.
    Rest,
    /// Something came from it, if too late to be counted.
    Alive,
    End,
    Greeted {
        channel: u64,
        room: Option<usize>,
    },
    Closed {
        channel: u64,
        loss: Loss,
    },
}

/// What a link knows of itself from its start on.
#[derive(Clone)]
pub struct Post {
    pub node: usize,
    pub plan: Plan,
    pub place: Place,
    pub folder: PathBuf,
    pub events: SyncSender<(usize, Event)>,
    pub orders: Sender<Order>,
}

impl Post {
    /// Nobody listens at the end: that is no fault.
    pub fn tell(&self, event: Event) {
        let _ = self.events.send((self.node, event));
    }
}

/// A channel that could not be opened: a command that is not there will not come.
fn not_opened(reach: &Reach, error: &io::Error) -> Loss {
    let missing = matches!(error.kind(), io::ErrorKind::NotFound | io::ErrorKind::PermissionDenied);
    match reach {
        Reach::Exec(command) if missing => {
            Loss { for_good: true, ..lost(format!("cannot run {}: {}", command[0], words(error))) }
        }
        _ => lost(words(error)),
    }
}

fn greeting(reach: &Reach) -> Duration {
    match reach {
        Reach::Tcp(_) => GREETING.0,
        Reach::Exec(_) => GREETING.1,
    }
}

/// Something between 0 and 1, so that clients who met once do not meet again and again.
fn chance() -> f64 {
    let now = SystemTime::now().duration_since(UNIX_EPOCH).unwrap_or_default();
    f64::from(now.subsec_nanos() % 1000) / 1000.0
}

/// A channel's state.
enum State {
    Shut,
    Greeting(Channel),
    Open(Channel),
    /// It makes no sense to try again.
    Over,
}

pub struct Link {
    post: Post,
    orders: Receiver<Order>,
    state: State,
    /// Which channel this is and since when, and the pause before the next.
    channel: u64,
    since: Instant,
    pause: Duration,
    /// What is owed, how often it was sent on this channel, and when there is something to do.
    owed: Option<Vec<u8>>,
    sendings: u32,
    due: Option<Instant>,
}

impl Link {
    pub fn new(post: Post, orders: Receiver<Order>) -> Link {
        let (state, pause, since) = (State::Shut, REOPEN.0, Instant::now());
        Link { post, orders, state, channel: 0, since, pause, owed: None, sendings: 0, due: Some(Instant::now()) }
    }

    fn after(&mut self, pause: Duration) {
        self.due = Some(Instant::now() + pause);
    }

    fn open(&mut self) {
        self.channel += 1;
        (self.since, self.sendings, self.due) = (Instant::now(), 0, None);
        let post = self.post.clone();
        let say = move |line| post.tell(Event::Said(line));
        let opened = Channel::open(&self.post.place.reach, &self.post.folder, say).and_then(|(mut way, from)| {
            if !self.post.place.bare {
                way.send(wire::asked(&self.post.plan).as_bytes())?;
            }
            Ok((way, from))
        });
        match opened {
            Err(error) => self.lose(not_opened(&self.post.place.reach, &error)),
            Ok((way, from)) => {
                let (post, channel) = (self.post.clone(), self.channel);
                self.state = State::Greeting(way);
                self.after(greeting(&self.post.place.reach));
                if let Err(error) = thread::Builder::new().spawn(move || read(&post, channel, from)) {
                    self.lose(lost(words(&error)));
                }
            }
        }
    }

    /// Sends what is owed, if a channel is open.
    fn send(&mut self) {
        let (State::Open(way), Some(request)) = (&mut self.state, &self.owed) else { return };
        if self.sendings == SENDINGS {
            return;
        }
        if let Err(error) = way.send(request) {
            return self.lose(lost(words(&error)));
        }
        self.after(AGAIN * 2u32.pow(self.sendings));
        self.sendings += 1;
    }

    /// The channel is of no more use. What its reader says of its end comes of this, and is not why it was lost.
    fn lose(&mut self, loss: Loss) {
        let Loss { why, for_good } = loss;
        self.channel += 1;
        let next = if for_good { State::Over } else { State::Shut };
        match std::mem::replace(&mut self.state, next) {
            State::Greeting(way) | State::Open(way) => way.cut(),
            State::Shut | State::Over => {}
        }
        self.due = None;
        if !for_good {
            self.after(self.pause);
            self.pause = (self.pause * 2).min(REOPEN.1);
        }
        self.post.tell(Event::Lost { why, for_good });
    }

    fn greeted(&mut self, room: Option<usize>) {
        self.state = match std::mem::replace(&mut self.state, State::Over) {
            State::Greeting(way) => State::Open(way),
            other => other,
        };
        (self.sendings, self.due) = (0, None);
        self.post.tell(Event::Ready(room));
        self.send();
    }

    /// The time has come for something.
    fn wake(&mut self) {
        self.due = None;
        match self.state {
            State::Shut if self.owed.is_some() => self.open(),
            State::Greeting(_) => {
                self.lose(lost(format!("no greeting in {} s", greeting(&self.post.place.reach).as_secs())));
            }
            State::Open(_) if self.owed.is_some() && self.sendings == SENDINGS => {
                self.lose(lost("no answer; the channel is opened anew".to_string()));
            }
            State::Open(_) if self.owed.is_some() => self.send(),
            State::Open(_) if self.post.place.serves_one() => self.give_way(),
            State::Open(_) | State::Shut | State::Over => {}
        }
    }

    /// Leaves a channel that is not needed now. What its reader still tells is of an earlier one.
    fn give_way(&mut self) {
        self.channel += 1;
        if let State::Open(way) = std::mem::replace(&mut self.state, State::Shut) {
            way.leave();
        }
    }

    /// The node was heard. One that serves a single client at a time is let go after a while.
    fn rest(&mut self) {
        (self.owed, self.sendings, self.pause) = (None, 0, REOPEN.0);
        if matches!(self.state, State::Open(_)) && self.post.place.serves_one() {
            let least = self.since.elapsed().clamp(GIVE_WAY.0, GIVE_WAY.1);
            self.after(least + least.mul_f64(chance()));
        }
    }

    /// Something is owed, and where the channel was left another is opened.
    fn ask(&mut self, request: Vec<u8>) {
        self.owed = Some(request);
        match self.state {
            State::Shut if self.due.is_none() => self.open(),
            _ => self.send(),
        }
    }

    fn obey(&mut self, order: Order) {
        match order {
            Order::Ask(request) => self.ask(request),
            Order::Rest => self.rest(),
            Order::Alive => self.sendings = 0,
            Order::Greeted { channel, room } if channel == self.channel => self.greeted(room),
            Order::Closed { channel, loss } if channel == self.channel => self.lose(loss),
            Order::Greeted { .. } | Order::Closed { .. } | Order::End => {}
        }
    }

    /// Lives until it is told to end.
    pub fn live(mut self) {
        loop {
            let wait = self.due.map_or(Duration::from_secs(3600), |due| due.saturating_duration_since(Instant::now()));
            match self.orders.recv_timeout(wait) {
                Ok(Order::End) | Err(RecvTimeoutError::Disconnected) => break,
                Ok(order) => self.obey(order),
                Err(RecvTimeoutError::Timeout) => self.wake(),
            }
        }
        match std::mem::replace(&mut self.state, State::Over) {
            State::Greeting(way) | State::Open(way) => way.leave(),
            State::Shut | State::Over => {}
        }
        self.post.tell(Event::Ended);
    }
}
