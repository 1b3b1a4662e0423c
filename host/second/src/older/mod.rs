//! Never an older sheet (document 02, Q-5): a well-formed write, executed by at least Q honest nodes before any honest node answers a read, and
//! what that read may end with. Here are the sentence, and the nodes and clients that both kinds of runs are made of: `drawn`, by a seed, beside
//! nodes that lie; `dropped`, one for each condition of the sentence, with it and without it. Every call is made by a maker, so at both libraries.

pub mod drawn;
pub mod dropped;

use crate::book::HEADER;
use crate::craft;
use crate::driver::{Driver, Maker, Outcome, Stop};
use crate::frame::Body;
use crate::library::{Call, Kind, Library};
use crate::plan::Plan;
use crate::random::Random;
use crate::record::{Record, Timestamp};
use crate::session::Session;
use crate::wire;

/// The endings of a read; every lower answer is open or refused.
pub const DONE: u32 = 101;
pub const NEVER_WRITTEN: u32 = 102;
pub const ABORTED: u32 = 103;
pub const ROUNDS_SPENT: u32 = 104;

/// What lies in a buffer before a call writes there.
const BLANK: u8 = 0xbb;

/// The write of the sentence.
#[derive(Clone, Debug)]
pub struct Written {
    pub stamp: Timestamp,
    pub item: Vec<u8>,
}

impl Written {
    /// The sentence, of one answer to the read: it is not "never written", and a value has a greater timestamp, or that one and the written
    /// bytes. Where it is broken, how.
    pub fn broken(&self, answer: u32, read: &Client) -> Option<&'static str> {
        match (answer, read.stamp().cmp(&self.stamp)) {
            (NEVER_WRITTEN, _) => Some("never written"),
            (DONE, std::cmp::Ordering::Less) => Some("an older sheet"),
            (DONE, std::cmp::Ordering::Equal) if read.item != self.item => Some("other bytes at the write's timestamp"),
            _ => None,
        }
    }
}

/// A read or a write of ours, with what is lent at its calls.
#[derive(Clone, Debug)]
pub struct Client {
    pub plan: Plan,
    pub session: Vec<u8>,
    pub desk: Vec<u8>,
    pub item: Vec<u8>,
    pub ending: Vec<u8>,
}

impl Client {
    pub fn session(&self) -> Session {
        wire::session_from(&self.session).expect("a session that a library made")
    }

    /// The timestamp of its ending; nothing before that.
    pub fn stamp(&self) -> Timestamp {
        Timestamp::from_bytes(&self.ending[..40])
    }

    /// The N records of its desk.
    pub fn records(&self) -> Vec<Record> {
        let slots = self.desk.chunks_exact(self.plan.record_length());
        slots.map(|bytes| Record::from_bytes(&self.plan, bytes)).collect()
    }
}

/// N nodes, each with its book, and whoever makes the calls.
pub struct House<'a> {
    maker: &'a mut dyn Maker,
    pub plan: Plan,
    pub books: Vec<Vec<u8>>,
}

impl House<'_> {
    /// Fresh books, each with room for so many records.
    pub fn new(maker: &mut dyn Maker, plan: Plan, records: usize) -> Result<House<'_>, Stop> {
        let mut house = House { maker, plan, books: Vec::new() };
        let length = HEADER + records * house.plan.record_length();
        for node in 0..house.plan.n {
            let [book] = house.call(Kind::FreshBook, node as u64, [vec![BLANK; length]])?.1;
            house.books.push(book);
        }
        Ok(house)
    }

    fn call<const K: usize>(
        &mut self,
        kind: Kind,
        number: u64,
        lent: [Vec<u8>; K],
    ) -> Result<(u32, [Vec<u8>; K]), Stop> {
        let plan = self.plan.clone();
        self.call_by(&plan, kind, number, lent)
    }

    /// A call by a plan that need not be the nodes'.
    fn call_by<const K: usize>(
        &mut self,
        plan: &Plan,
        kind: Kind,
        number: u64,
        lent: [Vec<u8>; K],
    ) -> Result<(u32, [Vec<u8>; K]), Stop> {
        let call = Call { kind, plan: wire::plan_bytes(plan).to_vec(), number, lent: lent.into() };
        let Outcome { number, lent } = self.maker.make(call)?;
        Ok((number, lent.try_into().expect("as many slices as were lent")))
    }

    /// A request at the node that it names: its reply, or none where it is refused.
    pub fn serve(&mut self, request: &[u8]) -> Result<Option<Vec<u8>>, Stop> {
        let node = usize::from(request[6]);
        let lent = [request.to_vec(), self.books[node].clone(), vec![BLANK; self.plan.frame_room()]];
        let (number, [_, book, reply]) = self.call(Kind::Node, 0, lent)?;
        self.books[node] = book;
        Ok((number == 0).then(|| whole(&reply)))
    }

    /// Hands these nodes their records of a write, each of which has to be executed.
    pub fn execute(&mut self, records: &[Record], nodes: &[usize]) -> Result<(), Stop> {
        for node in nodes {
            let request = craft::frame(*node, 1, Body::WriteRequest(records[*node].clone()));
            self.serve(&request)?.ok_or_else(|| Stop::Wrong(format!("node {node} refused a record")))?;
        }
        Ok(())
    }

    pub fn open_read(&mut self, plan: &Plan, ask: u64) -> Result<Client, Stop> {
        self.open(plan, Kind::OpenRead, ask, vec![BLANK; plan.item_length()])
    }

    pub fn open_write(&mut self, ask: u64, item: Vec<u8>) -> Result<Client, Stop> {
        let plan = self.plan.clone();
        self.open(&plan, Kind::OpenWrite, ask, item)
    }

    fn open(&mut self, plan: &Plan, kind: Kind, ask: u64, item: Vec<u8>) -> Result<Client, Stop> {
        let (number, [session]) = self.call_by(plan, kind, ask, [vec![BLANK; wire::SESSION]])?;
        if number != 0 {
            return Err(Stop::Wrong(format!("an opening was refused {number}")));
        }
        let (desk, ending) = (vec![BLANK; plan.desk_length()], vec![0; wire::ENDING]);
        Ok(Client { plan: plan.clone(), session, desk, item, ending })
    }

    /// The request that a client owes to a node; none where it has heard it, or has ended.
    pub fn owed(&mut self, client: &Client, node: usize) -> Result<Option<Vec<u8>>, Stop> {
        let lent = [client.session.clone(), client.desk.clone(), vec![BLANK; client.plan.frame_room()]];
        let (number, [.., request]) = self.call_by(&client.plan, Kind::Owed, node as u64, lent)?;
        Ok((number == 0).then(|| whole(&request)))
    }

    /// Hands a reply to a client, whose next call gets session and desk as this one hands them back.
    pub fn hear(&mut self, client: &mut Client, reply: &[u8]) -> Result<u32, Stop> {
        let kind = if client.session[0] == 0 { Kind::WriteReply } else { Kind::ReadReply };
        let Client { plan, session, desk, item, ending } = client.clone();
        let (number, [session, _, desk, item, ending]) =
            self.call_by(&plan, kind, 0, [session, reply.to_vec(), desk, item, ending])?;
        *client = Client { plan, session, desk, item, ending };
        Ok(number)
    }

    /// Asks a node for a client and hands on its reply; nothing happens where the client has heard it.
    pub fn turn(&mut self, client: &mut Client, node: usize) -> Result<u32, Stop> {
        let Some(request) = self.owed(client, node)? else { return Ok(0) };
        let reply = self.serve(&request)?.ok_or_else(|| Stop::Wrong(format!("node {node} refused a request")))?;
        self.hear(client, &reply)
    }

    /// Asks these nodes in turn, round after round, until the client ends.
    pub fn until_end(&mut self, client: &mut Client, nodes: &[usize]) -> Result<u32, Stop> {
        let rounds = client.plan.w + 1;
        for node in nodes.iter().cycle().take(2 * rounds * nodes.len()) {
            let answer = self.turn(client, *node)?;
            if answer >= DONE {
                return Ok(answer);
            }
        }
        Err(Stop::Wrong("a client did not end".into()))
    }
}

/// The frame at the start of a buffer.
fn whole(buffer: &[u8]) -> Vec<u8> {
    let length = u32::from_be_bytes(buffer[..4].try_into().expect("4 bytes")) as usize;
    buffer[..4 + length].to_vec()
}

/// So many drawn runs, and those of the conditions, at both libraries: what was met, in lines. The error names a call on which they differ, a
/// run that breaks the sentence or should and does not, or what was met too seldom.
pub fn compare(first: &mut dyn Library, other: &mut dyn Library, seed: u64, runs: u64) -> Result<String, String> {
    let mut driver = Driver::new(first, other, seed, u64::MAX);
    let lines = dropped::all(&mut driver).map_err(why)?;
    let met = drawn::all(&mut Random::new(seed), runs, &mut driver).map_err(why)?;
    Ok(format!("{met}, in {} calls\n{lines}", driver.made))
}

fn why(stop: Stop) -> String {
    match stop {
        Stop::Wrong(why) => why,
        Stop::Enough => "the calls ended before the runs".into(),
    }
}
