//! A house of nodes and a client for the tests, all on bytes through `wire`.
#![allow(dead_code)] // each test program uses a part of it

use second::code::encode;
use second::frame::{Ask, Body, Frame};
use second::plan::{Clients, Member, Plan};
use second::record::{records, Record, Timestamp};
use second::wire;

/// A plan in the words of document 01, "N5 t1 b1 Q3 m2 repairable"; what is not said is F4, W3 and crash clients.
pub fn plan(words: &str) -> Plan {
    let mut plan =
        Plan { n: 0, t: 0, b: 0, q: 0, m: 0, f: 4, member: Member::Repairable, clients: Clients::Crash, w: 3 };
    for word in words.split(' ') {
        match word {
            "repairable" => plan.member = Member::Repairable,
            "non-repair" => plan.member = Member::NonRepair,
            "crash" => plan.clients = Clients::Crash,
            "Byzantine" => plan.clients = Clients::Byzantine,
            _ => {
                let (name, number) = word.split_at(1);
                let number = number.parse().expect("a number");
                let field = match name {
                    "N" => &mut plan.n,
                    "t" => &mut plan.t,
                    "b" => &mut plan.b,
                    "Q" => &mut plan.q,
                    "m" => &mut plan.m,
                    "F" => &mut plan.f,
                    "W" => &mut plan.w,
                    _ => panic!("no such word in a plan: {word}"),
                };
                *field = number;
            }
        }
    }
    plan
}

pub fn item(plan: &Plan, first: u8) -> Vec<u8> {
    (0..plan.item_length()).map(|i| first.wrapping_add((7 * i) as u8)).collect()
}

/// The N records of an item.
pub fn saved(plan: &Plan, time: u64, item: &[u8]) -> Vec<Record> {
    records(time, encode(plan, item))
}

/// N records of right hashes whose fragments belong to no item (if m < N).
pub fn poison(plan: &Plan, time: u64) -> Vec<Record> {
    records(time, (0..plan.n).map(|i| vec![(i * i + 1) as u8; plan.f]).collect())
}

pub fn frame(node: usize, ask: u64, body: Body) -> Vec<u8> {
    Frame { node, ask: Ask(ask), body }.bytes()
}

/// The frame at the start of a buffer.
pub fn cut(buffer: &[u8]) -> Vec<u8> {
    let length = u32::from_be_bytes(buffer[..4].try_into().unwrap()) as usize;
    buffer[..4 + length].to_vec()
}

/// The N books, each with room for eight records.
pub struct House {
    pub plan: Plan,
    pub books: Vec<Vec<u8>>,
}

impl House {
    pub fn new(plan: &Plan) -> House {
        let length = 11 + 8 * plan.record_length();
        let fresh = |node| {
            let mut book = vec![0xee; length];
            assert_eq!(wire::fresh_book(&wire::plan_bytes(plan), node as u64, &mut book), 0);
            book
        };
        House { plan: plan.clone(), books: (0..plan.n).map(fresh).collect() }
    }

    /// The node's reply, or its refusal.
    pub fn ask(&mut self, request: &[u8]) -> Result<Vec<u8>, u32> {
        let mut reply = vec![0xdd; self.plan.frame_room()];
        let node = usize::from(request[6]);
        match wire::node(&wire::plan_bytes(&self.plan), request, &mut self.books[node], &mut reply) {
            0 => Ok(cut(&reply)),
            refusal => Err(refusal),
        }
    }

    /// Puts the records of some nodes in their books.
    pub fn hold(&mut self, records: &[Record], nodes: &[usize]) {
        for node in nodes {
            self.ask(&frame(*node, 0, Body::WriteRequest(records[*node].clone()))).unwrap();
        }
    }
}

/// The kind of the frame in these bytes.
pub fn kind(frame: &[u8]) -> u8 {
    frame[5]
}

#[derive(Clone, Debug, PartialEq, Eq)]
pub struct Client {
    pub plan: Vec<u8>,
    pub session: Vec<u8>,
    pub desk: Vec<u8>,
    pub item: Vec<u8>,
    pub ending: Vec<u8>,
    room: usize,
}

impl Client {
    fn new(plan: &Plan, item: Vec<u8>) -> Client {
        Client {
            plan: wire::plan_bytes(plan).to_vec(),
            session: vec![0; wire::SESSION],
            desk: vec![0xcc; plan.desk_length()],
            item,
            ending: vec![0xbb; wire::ENDING],
            room: plan.frame_room(),
        }
    }

    pub fn writer(plan: &Plan, ask: u64, item: &[u8]) -> Client {
        let mut client = Client::new(plan, item.to_vec());
        assert_eq!(wire::open_write(&client.plan, ask, &mut client.session), 0);
        client
    }

    pub fn reader(plan: &Plan, ask: u64) -> Client {
        let mut client = Client::new(plan, vec![0xaa; plan.item_length()]);
        assert_eq!(wire::open_read(&client.plan, ask, &mut client.session), 0);
        client
    }

    pub fn owed(&self, node: usize) -> Result<Vec<u8>, u32> {
        let mut request = vec![0x99; self.room];
        match wire::owed(&self.plan, &self.session, node as u64, &self.desk, &mut request) {
            0 => Ok(cut(&request)),
            refusal => Err(refusal),
        }
    }

    pub fn hear(&mut self, reply: &[u8]) -> u32 {
        let Client { plan, session, desk, item, ending, .. } = self;
        match session[0] {
            0 => wire::write_reply(plan, session, reply, desk, item, ending),
            _ => wire::read_reply(plan, session, reply, desk, item, ending),
        }
    }

    /// Asks this node and hears its reply.
    pub fn turn(&mut self, house: &mut House, node: usize) -> u32 {
        let request = self.owed(node).expect("a request is owed");
        let reply = house.ask(&request).expect("the node serves it");
        self.hear(&reply)
    }

    /// Asks these nodes, round after round, until an ending.
    pub fn run(&mut self, house: &mut House, nodes: &[usize]) -> u32 {
        loop {
            for node in nodes {
                let number = self.turn(house, *node);
                if number != 0 {
                    return number;
                }
            }
        }
    }

    pub fn stage(&self) -> u8 {
        self.session[1]
    }

    pub fn round(&self) -> u16 {
        u16::from_be_bytes([self.session[2], self.session[3]])
    }

    pub fn marks(&self) -> &[u8] {
        &self.session[wire::MARKS..]
    }

    /// The timestamp and the rounds of the ending.
    pub fn end(&self) -> (Timestamp, u16) {
        (Timestamp::from_bytes(&self.ending[..40]), u16::from_be_bytes([self.ending[40], self.ending[41]]))
    }
}
