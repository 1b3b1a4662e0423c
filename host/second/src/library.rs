//! What is compared: the nine calls of the host interface, as a trait, and a call as a value.

use crate::wire;
use crate::wish::Wish;

/// The host interface. Our own program is one, the proved library's archive another.
pub trait Library {
    fn fresh_book(&mut self, plan: &[u8], node: u64, book: &mut [u8]) -> u32;
    fn node(&mut self, plan: &[u8], request: &[u8], book: &mut [u8], reply: &mut [u8]) -> u32;
    fn run(
        &mut self,
        plan: &[u8],
        run: &[u8],
        book: &mut [u8],
        replies: &mut [u8],
        numbers: &mut [u8],
        told: &mut [u8],
    ) -> u32;
    fn open_write(&mut self, plan: &[u8], ask: u64, session: &mut [u8]) -> u32;
    fn open_read(&mut self, plan: &[u8], ask: u64, session: &mut [u8]) -> u32;
    fn owed(&mut self, plan: &[u8], session: &[u8], node: u64, desk: &[u8], request: &mut [u8]) -> u32;
    fn write_reply(
        &mut self,
        plan: &[u8],
        session: &mut [u8],
        reply: &[u8],
        desk: &mut [u8],
        item: &[u8],
        ending: &mut [u8],
    ) -> u32;
    fn read_reply(
        &mut self,
        plan: &[u8],
        session: &mut [u8],
        reply: &[u8],
        desk: &mut [u8],
        item: &mut [u8],
        ending: &mut [u8],
    ) -> u32;
    fn smallest_plan(&mut self, member: u8, t: u64, b: u64, m: u64, counts: &mut [u8]) -> u32;
}

/// Our own program.
pub struct Second;

impl Library for Second {
    fn fresh_book(&mut self, plan: &[u8], node: u64, book: &mut [u8]) -> u32 {
        wire::fresh_book(plan, node, book)
    }

    fn node(&mut self, plan: &[u8], request: &[u8], book: &mut [u8], reply: &mut [u8]) -> u32 {
        wire::node(plan, request, book, reply)
    }

    fn run(
        &mut self,
        plan: &[u8],
        run: &[u8],
        book: &mut [u8],
        replies: &mut [u8],
        numbers: &mut [u8],
        told: &mut [u8],
    ) -> u32 {
        wire::run(plan, run, book, replies, numbers, told)
    }

    fn open_write(&mut self, plan: &[u8], ask: u64, session: &mut [u8]) -> u32 {
        wire::open_write(plan, ask, session)
    }

    fn open_read(&mut self, plan: &[u8], ask: u64, session: &mut [u8]) -> u32 {
        wire::open_read(plan, ask, session)
    }

    fn owed(&mut self, plan: &[u8], session: &[u8], node: u64, desk: &[u8], request: &mut [u8]) -> u32 {
        wire::owed(plan, session, node, desk, request)
    }

    fn write_reply(
        &mut self,
        plan: &[u8],
        session: &mut [u8],
        reply: &[u8],
        desk: &mut [u8],
        item: &[u8],
        ending: &mut [u8],
    ) -> u32 {
        wire::write_reply(plan, session, reply, desk, item, ending)
    }

    fn read_reply(
        &mut self,
        plan: &[u8],
        session: &mut [u8],
        reply: &[u8],
        desk: &mut [u8],
        item: &mut [u8],
        ending: &mut [u8],
    ) -> u32 {
        wire::read_reply(plan, session, reply, desk, item, ending)
    }

    fn smallest_plan(&mut self, member: u8, t: u64, b: u64, m: u64, counts: &mut [u8]) -> u32 {
        wire::smallest_plan(member, t, b, m, counts)
    }
}

#[derive(Clone, Copy, Debug, PartialEq, Eq)]
pub enum Kind {
    FreshBook,
    Node,
    OpenWrite,
    OpenRead,
    Owed,
    WriteReply,
    ReadReply,
    SmallestPlan,
    Run,
}

/// What lies in a lent slice; `Out` is a buffer that a frame or an ending is written into.
#[derive(Clone, Copy, Debug, PartialEq, Eq)]
pub enum Slice {
    Book,
    Request,
    Reply,
    Session,
    Desk,
    Item,
    Counts,
    /// Request frames end to end.
    Run,
    /// What a run writes: its reply frames end to end, a number for each frame, and what it is told.
    Replies,
    Numbers,
    Told,
    Out,
}

impl Kind {
    pub const ALL: [Kind; 9] = [
        Kind::FreshBook,
        Kind::Node,
        Kind::OpenWrite,
        Kind::OpenRead,
        Kind::Owed,
        Kind::WriteReply,
        Kind::ReadReply,
        Kind::SmallestPlan,
        Kind::Run,
    ];

    pub fn name(self) -> &'static str {
        match self {
            Kind::FreshBook => "fresh_book",
            Kind::Node => "node",
            Kind::OpenWrite => "open_write",
            Kind::OpenRead => "open_read",
            Kind::Owed => "owed",
            Kind::WriteReply => "write_reply",
            Kind::ReadReply => "read_reply",
            Kind::SmallestPlan => "smallest_plan",
            Kind::Run => "run",
        }
    }

    /// Every answer that the documents allow to this call, refusals in their order.
    pub fn answers(self) -> &'static [u32] {
        match self {
            Kind::FreshBook => &[0, 1, 2, 4],
            Kind::Node => &[0, 1, 2, 3, 4, 5, 6, 7, 8],
            Kind::OpenWrite | Kind::OpenRead => &[0, 1, 2, 13],
            Kind::Owed => &[0, 1, 2, 9, 14, 4, 11],
            Kind::WriteReply => &[0, 1, 2, 9, 14, 4, 10, 11, 101, 105],
            Kind::ReadReply => &[0, 1, 2, 9, 14, 4, 10, 11, 5, 6, 12, 101, 102, 103, 104],
            Kind::SmallestPlan => &[0, 1, 2, 20],
            Kind::Run => &[0, 1, 2, 21, 3],
        }
    }

    /// Whether the call takes a node or ask number.
    pub fn numbered(self) -> bool {
        matches!(self, Kind::FreshBook | Kind::OpenWrite | Kind::OpenRead | Kind::Owed)
    }

    /// The lent slices after the plan or the wish, in the order of the call.
    pub fn slices(self) -> &'static [Slice] {
        match self {
            Kind::FreshBook => &[Slice::Book],
            Kind::Node => &[Slice::Request, Slice::Book, Slice::Out],
            Kind::OpenWrite | Kind::OpenRead => &[Slice::Session],
            Kind::Owed => &[Slice::Session, Slice::Desk, Slice::Out],
            Kind::WriteReply | Kind::ReadReply => &[Slice::Session, Slice::Reply, Slice::Desk, Slice::Item, Slice::Out],
            Kind::SmallestPlan => &[Slice::Counts],
            Kind::Run => &[Slice::Run, Slice::Book, Slice::Replies, Slice::Numbers, Slice::Told],
        }
    }
}

/// One call: bytes in, and after it bytes out. `plan` is the plan's slice, or the wish in its 25 bytes; `number` is the node or the ask
/// number, 0 where the call takes none.
#[derive(Clone, Debug, PartialEq, Eq)]
pub struct Call {
    pub kind: Kind,
    pub plan: Vec<u8>,
    pub number: u64,
    pub lent: Vec<Vec<u8>>,
}

impl Call {
    /// Where this kind of call is lent such a slice.
    pub fn place(&self, slice: Slice) -> Option<usize> {
        self.kind.slices().iter().position(|other| *other == slice)
    }

    /// A call for the smallest plan.
    pub fn of_wish(wish: Wish, counts: Vec<u8>) -> Call {
        let Wish { member, t, b, m } = wish;
        let plan = [&[member][..], &t.to_be_bytes(), &b.to_be_bytes(), &m.to_be_bytes()].concat();
        Call { kind: Kind::SmallestPlan, plan, number: 0, lent: vec![counts] }
    }

    /// The wish of a call for the smallest plan.
    pub fn wish(&self) -> Option<Wish> {
        wish_from(&self.plan).filter(|_| self.kind == Kind::SmallestPlan)
    }
}

/// The wish of 25 bytes: member, then t, b and m in 8 each. The host interface takes it as four numbers; these bytes are how a call and
/// a stored case hold it.
pub fn wish_from(bytes: &[u8]) -> Option<Wish> {
    let (&member, numbers) = bytes.split_first()?;
    let ([t, b, m], []) = numbers.as_chunks() else { return None };
    let [t, b, m] = [t, b, m].map(|number| u64::from_be_bytes(*number));
    Some(Wish { member, t, b, m })
}

/// Makes a call on slices, wherever they lie.
pub fn make(library: &mut dyn Library, kind: Kind, plan: &[u8], number: u64, lent: &mut [&mut [u8]]) -> u32 {
    match (kind, lent) {
        (Kind::FreshBook, [book]) => library.fresh_book(plan, number, book),
        (Kind::Node, [request, book, reply]) => library.node(plan, request, book, reply),
        (Kind::OpenWrite, [session]) => library.open_write(plan, number, session),
        (Kind::OpenRead, [session]) => library.open_read(plan, number, session),
        (Kind::Owed, [session, desk, request]) => library.owed(plan, session, number, desk, request),
        (Kind::WriteReply, [session, reply, desk, item, ending]) => {
            library.write_reply(plan, session, reply, desk, item, ending)
        }
        (Kind::ReadReply, [session, reply, desk, item, ending]) => {
            library.read_reply(plan, session, reply, desk, item, ending)
        }
        (Kind::SmallestPlan, [counts]) => {
            let Wish { member, t, b, m } = wish_from(plan).expect("a wish");
            library.smallest_plan(member, t, b, m, counts)
        }
        (Kind::Run, [run, book, replies, numbers, told]) => library.run(plan, run, book, replies, numbers, told),
        (kind, lent) => panic!("{} is not lent {} slices", kind.name(), lent.len()),
    }
}
