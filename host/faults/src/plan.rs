//! The plans of the runs, and what document 01 lays out by a plan: records, books, frames. None of it is the library's.

use second::plan::{Clients, Member};

/// A book's bytes before its records, and a frame's before its body.
pub const BOOK_HEAD: usize = 11;
pub const FRAME_HEAD: usize = 15;
pub const STAMP: usize = 40;

pub type Stamp = [u8; STAMP];

#[derive(Clone, Copy, Debug)]
pub struct Plan {
    pub n: usize,
    pub t: usize,
    pub b: usize,
    pub q: usize,
    pub m: usize,
    pub f: usize,
    pub repairable: bool,
    pub byzantine: bool,
    pub w: u16,
}

#[rustfmt::skip]
pub const PLANS: [Plan; 8] = [
    Plan { n: 5, t: 1, b: 1, q: 3, m: 2, f: 16, repairable: true, byzantine: false, w: 16 },
    Plan { n: 7, t: 2, b: 1, q: 4, m: 2, f: 8, repairable: true, byzantine: true, w: 16 },
    Plan { n: 7, t: 1, b: 1, q: 3, m: 4, f: 5, repairable: false, byzantine: false, w: 8 },
    Plan { n: 3, t: 1, b: 0, q: 2, m: 1, f: 32, repairable: true, byzantine: false, w: 4 },
    Plan { n: 10, t: 2, b: 1, q: 4, m: 3, f: 8, repairable: false, byzantine: true, w: 16 },
    Plan { n: 5, t: 1, b: 1, q: 3, m: 2, f: 3, repairable: true, byzantine: true, w: 1 },
    Plan { n: 9, t: 2, b: 2, q: 5, m: 3, f: 7, repairable: true, byzantine: true, w: 16 },
    Plan { n: 5, t: 2, b: 0, q: 3, m: 1, f: 9, repairable: true, byzantine: true, w: 16 },
];

impl Plan {
    pub fn bytes(&self) -> [u8; 11] {
        let [f, w] = [self.f as u16, self.w].map(u16::to_be_bytes);
        let [n, t, b, q, m] = [self.n, self.t, self.b, self.q, self.m].map(|x| x as u8);
        let (member, clients) = (!self.repairable as u8, self.byzantine as u8);
        [n, t, b, q, m, f[0], f[1], member, clients, w[0], w[1]]
    }

    /// How a client of this plan greets a server: all but W.
    pub fn greeting(&self) -> String {
        let digits: String = self.bytes()[..9].iter().map(|byte| format!("{byte:02x}")).collect();
        format!("pasis 1 {digits}")
    }

    /// The plan as a keeper reads it: nine lines.
    pub fn text(&self) -> String {
        let member = if self.repairable { "repairable" } else { "non-repair" };
        let clients = if self.byzantine { "byzantine" } else { "crash" };
        let Plan { n, t, b, q, m, f, w, .. } = self;
        format!("N {n}\nt {t}\nb {b}\nQ {q}\nm {m}\nF {f}\nmember {member}\nclients {clients}\nW {w}\n")
    }

    /// The plan as the second program has it, whose fragment code and hash make what was never saved.
    pub fn second(&self) -> second::plan::Plan {
        let member = if self.repairable { Member::Repairable } else { Member::NonRepair };
        let clients = if self.byzantine { Clients::Byzantine } else { Clients::Crash };
        let Plan { n, t, b, q, m, f, w, .. } = *self;
        second::plan::Plan { n, t, b, q, m, f, member, clients, w: w as usize }
    }

    pub fn record(&self) -> usize {
        STAMP + 32 * self.n + self.f
    }

    pub fn item(&self) -> usize {
        self.m * self.f
    }

    /// The replies that end a round.
    pub fn replies(&self) -> usize {
        self.n - self.t
    }
}

pub fn frame_kind(frame: &[u8]) -> u8 {
    frame[5]
}

pub fn frame(kind: u8, node: usize, ask: u64, body: &[u8]) -> Vec<u8> {
    let length = (FRAME_HEAD - 4 + body.len()) as u32;
    [&length.to_be_bytes()[..], &[1, kind, node as u8], &ask.to_be_bytes(), body].concat()
}

/// A frame that answers a request: its node and its ask number.
pub fn reply_to(request: &[u8], kind: u8, body: &[u8]) -> Vec<u8> {
    let ask = u64::from_be_bytes(request[7..FRAME_HEAD].try_into().expect("8 bytes"));
    frame(kind, request[6] as usize, ask, body)
}

pub fn stamp_of(record: &[u8]) -> Stamp {
    record[..STAMP].try_into().expect("40 bytes")
}

pub fn time_of(stamp: &[u8]) -> u64 {
    u64::from_be_bytes(stamp[..8].try_into().expect("8 bytes"))
}

/// The records of a book that has a book's shape.
pub fn records<'a>(plan: &Plan, book: &'a [u8]) -> Vec<&'a [u8]> {
    let count = u16::from_be_bytes([book[9], book[10]]) as usize;
    book[BOOK_HEAD..].chunks(plan.record()).take(count).collect()
}
