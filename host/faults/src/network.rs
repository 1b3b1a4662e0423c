//! What is under way: which message arrives next, which are lost, which arrive twice, and who does not hear whom.

use second::random::Random;

/// How late a message is whose operation has ended.
pub const LEFT: u8 = 3;

pub struct Message {
    pub client: usize,
    pub node: usize,
    /// The number of the call that it belongs to.
    pub call: usize,
    pub frame: Vec<u8>,
    pub reply: bool,
    /// Of the Byzantine client: a node may refuse it.
    pub lying: bool,
    /// The lower, the sooner it arrives, as a rule.
    pub late: u8,
}

impl Message {
    fn copy(&self) -> Message {
        Message { frame: self.frame.clone(), ..*self }
    }

    /// The same by way of the client's second connection, whose other end is another keeper.
    pub fn beside(&self) -> Message {
        Message { client: self.client + 1, ..self.copy() }
    }
}

pub struct Network {
    flight: Vec<Message>,
    /// The side of every client and of every node, while there are two sides.
    sides: Option<(Vec<bool>, Vec<bool>)>,
    /// Of a hundred messages so many are lost, and so many arrive twice.
    loss: usize,
    twice: usize,
    pub lost: usize,
    pub calm: bool,
}

impl Network {
    /// How much is lost is the seed's.
    pub fn new(random: &mut Random) -> Network {
        let (loss, twice) = (random.pick(&[0, 0, 3, 8]), random.pick(&[0, 3, 6]));
        Network { flight: Vec::new(), sides: None, loss, twice, lost: 0, calm: false }
    }

    pub fn send(&mut self, message: Message) {
        self.flight.push(message);
    }

    pub fn is_empty(&self) -> bool {
        self.flight.is_empty()
    }

    /// From now on the parties of one side do not hear those of the other.
    pub fn part(&mut self, clients: usize, nodes: usize, random: &mut Random) {
        let mut side = |parties| (0..parties).map(|_| random.chance(50)).collect();
        self.sides = Some((side(clients), side(nodes)));
    }

    pub fn parted(&self) -> bool {
        self.sides.is_some()
    }

    pub fn heal(&mut self) {
        self.sides = None;
    }

    fn arrives(&self, message: &Message) -> bool {
        self.sides.as_ref().is_none_or(|(clients, nodes)| clients[message.client] == nodes[message.node])
    }

    /// The next message to arrive; none if none does. As a rule it is one of those that are to come first; what an operation left that has ended
    /// comes at some time or other.
    pub fn next(&mut self, random: &mut Random) -> Option<Message> {
        loop {
            let can: Vec<usize> = (0..self.flight.len()).filter(|i| self.arrives(&self.flight[*i])).collect();
            let (left, due): (Vec<usize>, Vec<usize>) = can.iter().partition(|i| self.flight[**i].late == LEFT);
            let soonest = due.iter().map(|i| self.flight[*i].late).min();
            let first: Vec<usize> = due.iter().copied().filter(|i| Some(self.flight[*i].late) == soonest).collect();
            let at = match random.within(0, 99) {
                0..=3 if !left.is_empty() => random.pick(&left),
                4..=6 if !due.is_empty() => random.pick(&due),
                _ if !first.is_empty() => random.pick(&first),
                _ if self.calm && !left.is_empty() => random.pick(&left),
                _ => return None,
            };
            let message = self.flight.swap_remove(at);
            let chance = random.within(0, 99);
            if self.calm || chance >= self.loss + self.twice {
                return Some(message);
            }
            if chance >= self.loss {
                self.flight.push(message.copy());
                return Some(message);
            }
            self.lost += 1;
        }
    }

    /// A message of another client to the same node that can arrive beside this one, a write as this one.
    pub fn beside(&mut self, with: &Message) -> Option<Message> {
        let fits = |other: &Message| {
            !other.reply && other.node == with.node && other.client % 2 != with.client % 2 && other.frame[5] == 3
        };
        let at = (0..self.flight.len()).find(|i| fits(&self.flight[*i]) && self.arrives(&self.flight[*i]))?;
        Some(self.flight.swap_remove(at))
    }

    /// The other requests to the same node that are due with this one and can arrive, at most so many: they wait there.
    pub fn waiting(&mut self, with: &Message, most: usize) -> Vec<Message> {
        let due = |other: &Message| !other.reply && other.node == with.node && other.late == with.late;
        let mut taken = Vec::new();
        while let Some(at) = (0..self.flight.len())
            .find(|i| taken.len() < most && due(&self.flight[*i]) && self.arrives(&self.flight[*i]))
        {
            taken.push(self.flight.swap_remove(at));
        }
        taken
    }

    /// The replies to ended operations of a client arrive now, when it has begun another.
    pub fn recall(&mut self, client: usize) {
        for message in self.flight.iter_mut().filter(|message| message.client == client && message.reply) {
            message.late = 0;
        }
    }

    /// Of the requests that a client has under way so much of a hundred is lost, of the replies half as much; the rest comes late.
    pub fn forget(&mut self, client: usize, percent: usize, random: &mut Random) {
        let before = self.flight.len();
        let lost =
            |message: &Message, random: &mut Random| random.chance(if message.reply { percent / 2 } else { percent });
        self.flight.retain(|message| message.client != client || !lost(message, random));
        self.lost += before - self.flight.len();
        for message in self.flight.iter_mut().filter(|message| message.client == client) {
            message.late = LEFT;
        }
    }
}
