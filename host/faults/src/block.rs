//! A run over one block: several clients at once, their messages under way, and a seed that says what happens next.

use crate::client::{Operation, Told};
use crate::counts::Counts;
use crate::judge::Judge;
use crate::network::{Message, Network, LEFT};
use crate::nodes::Nodes;
use crate::plan::{frame, frame_kind, time_of, Plan};
use crate::poison::{poisoned, sound, POISONS};
use crate::register::Outcome;
use crate::server::{Command, WAYS};
use crate::tactics::{after_held_replies, cut, first, lateness, First, Probe, AFTER_A_CUT, AFTER_A_SAVE};
use crate::trouble::Trouble;
use crate::wrong::Wrong;
use second::random::Random;

/// The clients that keep to the protocol; one more may not.
const CLIENTS: usize = 3;
/// How often a client asks again when nothing is under way, before it gives up.
const PATIENCE: usize = 8;

/// The most requests that a node takes together beside a first.
const TOGETHER: usize = 4;

/// What a run is over.
pub struct Setting<'a> {
    pub plan: Plan,
    /// None: the nodes are in memory.
    pub command: Option<&'a Command>,
    pub operations: usize,
    pub still: bool,
    pub wrong: Option<Wrong>,
    pub counts: &'a mut Counts,
}

struct Block<'a> {
    plan: Plan,
    nodes: Nodes,
    network: Network,
    random: Random,
    judge: Judge<'a>,
    clients: Vec<Option<Operation>>,
    asks: [u64; CLIENTS + 1],
    operations: usize,
    wrong: Option<Wrong>,
    /// The calls that are to come next, each alone, the last one first.
    probes: Vec<Probe>,
    /// From this one on, nodes are slow.
    slow: usize,
    /// Records of times near 2^64-1 are told and written at the end of this run.
    late: bool,
    /// The end of the run: no more faults, losses or cut-off clients.
    calm: bool,
}

/// A run of so many calls over a fresh block, then a last open, a save and an open in calm.
pub fn run(setting: Setting, mut random: Random) -> Result<(), Trouble> {
    let Setting { plan, command, operations, still, wrong, counts } = setting;
    let way = random.pick(&WAYS);
    let nodes = Nodes::start(plan, command, way, still, wrong)?;
    let mut block = Block {
        plan,
        nodes,
        network: Network::new(&mut random),
        judge: Judge::new(plan, counts),
        clients: (0..CLIENTS).map(|_| None).collect(),
        asks: std::array::from_fn(|client| (client as u64 + 1) << 48),
        operations,
        wrong,
        probes: Vec::new(),
        slow: 0,
        late: random.chance(25),
        calm: false,
        random,
    };
    block.turn_some();
    let told = block.all();
    block.judge.counts.take(&block.nodes.faults, &block.network);
    told
}

impl Block<'_> {
    fn all(&mut self) -> Result<(), Trouble> {
        while self.judge.calls() < self.operations || self.clients.iter().any(Option::is_some) {
            self.step()?;
        }
        self.end()
    }

    /// In most runs that allow it, nodes lie from the beginning; in some, one says 2^64-1 from the beginning to the end.
    fn turn_some(&mut self) {
        if self.random.chance(30) {
            let node = self.random.below(self.plan.n);
            self.nodes.stick(node);
        }
        if self.random.chance(75) {
            for _ in 0..self.plan.b {
                let node = self.random.below(self.plan.n);
                self.nodes.turn(node);
            }
        }
    }

    /// One thing happens.
    fn step(&mut self) -> Result<(), Trouble> {
        self.judge.now += 1;
        if !self.nodes.limits_kept() {
            return Err(Trouble::Failed("the schedule has more faults than the plan allows".into()));
        }
        let more = self.judge.calls() < self.operations;
        self.nodes.late = self.late && 4 * self.judge.calls() > 3 * self.operations;
        let client = self.random.below(CLIENTS);
        match self.random.within(0, 999) {
            0..=11 => self.nodes.fault(&mut self.random)?,
            12..=31 => self.wake()?,
            32 | 33 if self.clients[client].is_some() => self.give_up(client, 50),
            34..=36 if !self.network.parted() => {
                self.network.part(CLIENTS + 1, self.plan.n, &mut self.random);
                self.judge.counts.partitions += 1;
            }
            37..=46 => self.network.heal(),
            47..=51 if more && self.plan.byzantine => self.lie(),
            52..=151 if more && self.clients[client].is_none() => self.begin_some(client),
            _ => return self.deliver(client),
        }
        Ok(())
    }

    /// A silent node is started again.
    fn wake(&mut self) -> Result<(), Trouble> {
        let silent = self.nodes.silent();
        if silent.is_empty() {
            return Ok(());
        }
        let node = self.random.pick(&silent);
        Ok(self.nodes.restart(node)?)
    }

    /// The next probe, if nothing is beside it; or a save or an open.
    fn begin_some(&mut self, client: usize) {
        if self.probes.is_empty() {
            let save = self.random.chance(65);
            self.begin(client, save, None);
        } else if self.clients.iter().all(Option::is_none) {
            let Probe { save, first, client: by } = self.probes.pop().expect("there is one");
            self.begin(by.unwrap_or(client), save, Some(first));
        }
    }

    fn begin(&mut self, client: usize, save: bool, probe: Option<First>) {
        if self.random.chance(15) {
            self.slow = self.random.below(self.plan.n);
        }
        let item = save.then(|| self.random.bytes(self.plan.item()));
        let (call, floor) = self.judge.call(item.clone());
        let mut operation = Operation::begin(self.plan, self.asks[client], item, self.wrong, call, floor);
        operation.probe = probe;
        let cut_off = if save { 45 } else { 10 };
        if !self.calm && probe.is_none() {
            operation.cut = self.random.chance(cut_off).then(|| cut(&self.plan, &mut self.random));
            operation.held = self.random.chance(12).then_some(self.plan.replies());
        }
        if self.wrong != Some(Wrong::SameAsk) {
            self.asks[client] += self.plan.w as u64 + 1;
        }
        self.clients[client] = Some(operation);
        if self.random.chance(50) {
            self.network.recall(client);
        }
        self.ask(client);
    }

    /// Sends the requests owed to all nodes that are not heard.
    fn ask(&mut self, client: usize) {
        let Some(operation) = &self.clients[client] else { return };
        let whom = first(operation.save(), operation.storing(), operation.probe, &mut self.random);
        let late = lateness(&self.plan, &self.nodes, whom, self.slow, &mut self.random);
        for (node, late) in late.into_iter().enumerate() {
            if let Some(frame) = operation.owed(node) {
                self.nodes.overhear(node, &frame);
                let call = operation.call;
                self.network.send(Message { client, node, call, frame, reply: false, lying: false, late });
            }
        }
    }

    fn ask_again(&mut self, client: usize) {
        let Some(operation) = &mut self.clients[client] else { return };
        operation.asked += 1;
        if operation.asked > PATIENCE {
            self.give_up(client, 50);
        } else {
            self.ask(client);
        }
    }

    /// The client is cut off, or has waited enough; so much of a hundred of what it sent is lost.
    fn give_up(&mut self, client: usize, percent: usize) {
        let operation = self.clients[client].take().expect("it has an operation");
        self.network.forget(client, percent, &mut self.random);
        if operation.storing() {
            self.probes = AFTER_A_CUT.to_vec();
        }
        self.judge.given_up(&operation);
    }

    /// The Byzantine client writes under one timestamp, to some of the nodes: fragments of no item, or a cross checksum that is not theirs,
    /// or what a client might save, or two items at one time, or an item that another has saved.
    fn lie(&mut self) {
        let newest = time_of(&self.nodes.newest());
        let mut time = newest.max(1).saturating_add(self.random.pick(&[0, 1, 1, 1, 5]));
        if self.nodes.late && self.random.chance(30) {
            time = u64::MAX - self.random.pick(&[0, 1, 1, 2]);
        }
        let way = self.random.within(0, 9);
        if way < 6 {
            let poison = self.random.pick(&POISONS);
            let records = poisoned(&self.plan, poison, time, &mut self.random);
            self.judge.counts.poisoned += 1;
            return self.spread(records, 0);
        }
        for _ in 0..1 + (way == 8) as usize {
            let old = self.judge.some_item(&mut self.random).filter(|_| way == 9);
            let item = old.unwrap_or_else(|| self.random.bytes(self.plan.item()));
            let call = self.judge.stray(item.clone());
            self.spread(sound(&self.plan, time, &item), call);
        }
    }

    /// Sends each record to its node; as a rule so many arrive that a reader has to judge them.
    fn spread(&mut self, records: Vec<Vec<u8>>, call: usize) {
        let mut far = self.plan.n - cut(&self.plan, &mut self.random).min(self.plan.n);
        let mut order: Vec<usize> = (0..self.plan.n).collect();
        let ask = self.asks[CLIENTS];
        self.asks[CLIENTS] += 1;
        while !order.is_empty() {
            let node = order.swap_remove(self.random.below(order.len()));
            let frame = frame(3, node, ask, &records[node]);
            self.nodes.overhear(node, &frame);
            if far > 0 {
                far -= 1;
                continue;
            }
            self.network.send(Message { client: CLIENTS, node, call, frame, reply: false, lying: true, late: 0 });
        }
        self.probes = AFTER_A_CUT.to_vec();
    }

    /// One message under way arrives. Where none can, the partition ends or a client asks again.
    fn deliver(&mut self, client: usize) -> Result<(), Trouble> {
        let Some(message) = self.network.next(&mut self.random) else {
            if self.network.parted() && self.random.chance(30) {
                self.network.heal();
            }
            self.ask_again(client);
            return Ok(());
        };
        if message.reply {
            return self.take(message);
        }
        self.before_answer(&message);
        let kill = !self.calm && self.random.chance(2);
        if !kill && frame_kind(&message.frame) == 3 && self.nodes.side_by_side() {
            return self.deliver_two(message);
        }
        if !kill && self.random.chance(40) {
            let others = self.network.waiting(&message, TOGETHER);
            if !others.is_empty() {
                return self.deliver_run(message, others);
            }
        }
        let serve = if kill { Nodes::serve_and_kill } else { Nodes::serve };
        let answer = serve(&mut self.nodes, &message, &mut self.random)?;
        self.answered(message, answer)
    }

    /// Before a good node answers an open for the first time: how much has been executed by then (document 02, Q-5).
    fn before_answer(&mut self, message: &Message) {
        let Message { client, node, call, ref frame, .. } = *message;
        if matches!(frame_kind(frame), 5 | 6) && self.nodes.answers(node) {
            let moment = self.nodes.moment();
            if let Some(operation) = self.clients[client].as_mut().filter(|operation| operation.call == call) {
                operation.answered.get_or_insert(moment);
            }
        }
    }

    /// Requests that wait for one node, as it takes them together.
    fn deliver_run(&mut self, first: Message, others: Vec<Message>) -> Result<(), Trouble> {
        let all: Vec<Message> = [first].into_iter().chain(others).collect();
        all.iter().for_each(|message| self.before_answer(message));
        let answers = self.nodes.serve_run(&all, &mut self.random)?;
        all.into_iter().zip(answers).try_for_each(|(message, answer)| self.answered(message, answer))
    }

    /// A write request, and at the same moment that of another client, or the same by way of another connection, whose reply is not heard.
    fn deliver_two(&mut self, message: Message) -> Result<(), Trouble> {
        if let Some(other) = self.network.beside(&message) {
            let [one, two] = self.nodes.serve_two([&message, &other], &mut self.random)?;
            self.answered(message, one)?;
            return self.answered(other, two);
        }
        let one = if self.random.chance(30) {
            let [one, _] = self.nodes.serve_two([&message, &message.beside()], &mut self.random)?;
            one
        } else {
            self.nodes.serve(&message, &mut self.random)?
        };
        self.answered(message, one)
    }

    /// A node has served a request, and its reply is under way.
    fn answered(&mut self, message: Message, answer: Option<Vec<u8>>) -> Result<(), Trouble> {
        let Message { client, node, call, late, .. } = message;
        let Some(frame) = answer else { return Ok(()) };
        // The channel is authentic: a reply comes from the node that it names.
        if frame.get(6) != Some(&(node as u8)) {
            return Err(Trouble::Broken(format!("node {node} sent a frame of another node")));
        }
        if client < CLIENTS {
            let stored = frame_kind(&frame) == 4 && !self.nodes.lies(node);
            let operation = self.clients[client].as_ref().filter(|operation| operation.call == call);
            let late = if operation.is_some_and(|operation| operation.held.is_some()) { LEFT } else { late };
            self.network.send(Message { client, node, call, frame, reply: true, lying: false, late });
            self.replied(client, call, stored);
        }
        Ok(())
    }

    /// A reply to a call is under way, and perhaps its record is stored by a good node. Enough for one that is to be cut off?
    fn replied(&mut self, client: usize, call: usize, stored: bool) {
        let Some(operation) = self.clients[client].as_mut().filter(|operation| operation.call == call) else { return };
        let enough = |left: &mut Option<usize>| {
            left.as_mut().is_some_and(|left| {
                *left = left.saturating_sub(1);
                *left == 0
            })
        };
        if enough(&mut operation.held) {
            let probes = after_held_replies(client, (client + 1) % CLIENTS, operation.save());
            self.give_up(client, 0);
            self.probes = probes.to_vec();
        } else if stored && enough(&mut operation.cut) {
            let percent = self.random.pick(&[100, 100, 100, 50]);
            self.give_up(client, percent);
        }
    }

    /// A client takes a reply.
    fn take(&mut self, message: Message) -> Result<(), Trouble> {
        let client = message.client;
        let Some(operation) = &mut self.clients[client] else { return Ok(()) };
        let told = operation.take(&message.frame, self.nodes.good(message.node));
        let made_up = self.nodes.made_up(message.node, &message.frame);
        self.judge.counts.believed += (made_up && !matches!(told, Told::Refused)) as usize;
        match told {
            Told::Refused | Told::Nothing => {}
            Told::Round => {
                if operation.save() {
                    self.judge.timed(operation)?;
                }
                self.judge.counts.repaired += (!operation.save() && operation.storing()) as usize;
                operation.asked = 0;
                self.ask(client);
            }
            Told::Ended(ending) => {
                let operation = self.clients[client].take().expect("it is there");
                self.network.forget(client, if self.calm { 0 } else { 80 }, &mut self.random);
                self.judge.returned(&operation, &ending, &mut self.nodes)?;
                // A time round that hears one node too few misses a save; where b is 0 there is no liar by whom it is found too.
                let often = if self.plan.b == 0 { 80 } else { 40 };
                if operation.save() && self.probes.is_empty() && self.random.chance(often) {
                    self.probes = AFTER_A_SAVE.to_vec();
                }
            }
        }
        Ok(())
    }

    /// All nodes speak again and tell the truth, and all that is under way arrives; an open; a save and an open that returns it. Then the
    /// books and the history are looked at.
    fn end(&mut self) -> Result<(), Trouble> {
        self.calm = true;
        self.network.calm = true;
        self.network.heal();
        self.nodes.end_lies();
        for node in self.nodes.silent() {
            self.nodes.restart(node)?;
        }
        while !self.network.is_empty() {
            self.deliver(0)?;
        }
        self.alone(false)?;
        let saved = self.alone(true)?;
        let opened = self.alone(false)?;
        let above = self.nodes.above(&self.judge.stamp_before_last())?;
        self.judge.calm(saved, opened, above)?;
        self.nodes.none_lost()?;
        Ok(self.judge.history()?)
    }

    /// One operation with nothing beside it.
    fn alone(&mut self, save: bool) -> Result<Outcome, Trouble> {
        let call = self.judge.calls();
        self.judge.now += 1;
        self.begin(0, save, None);
        while self.clients[0].is_some() || !self.network.is_empty() {
            self.judge.now += 1;
            self.deliver(0)?;
        }
        Ok(self.judge.outcome(call))
    }
}
