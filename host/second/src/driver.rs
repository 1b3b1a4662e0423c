//! Makes each call twice, once at each of two libraries, and compares the answer and every lent byte; counts the answers met.
//! The first library is lent each slice apart; the other has all of them in one area, with guard bytes between, at shifting places. A run of
//! frames is also compared with the other library's answers to the same frames singly.

use crate::library::{make, Call, Kind, Library};
use crate::run::cut;
use crate::wire;
use crate::wish::Wish;

/// The answers counted: 0 to 14, 20, 21 and 101 to 105.
pub const NUMBERS: [u32; 22] = [0, 1, 2, 3, 4, 5, 6, 7, 8, 9, 10, 11, 12, 13, 14, 20, 21, 101, 102, 103, 104, 105];
/// The refusals among them.
const REFUSALS: std::ops::RangeInclusive<u32> = 1..=21;
/// How often each answer must have been met.
pub const ENOUGH: u64 = 100;
const GUARD: u8 = 0xa5;

/// Why the calls end.
#[derive(Clone, Debug, PartialEq, Eq)]
pub enum Stop {
    Enough,
    Wrong(String),
}

/// The answer and every lent slice after the call.
#[derive(Clone, Debug, PartialEq, Eq)]
pub struct Outcome {
    pub number: u32,
    pub lent: Vec<Vec<u8>>,
}

/// Whoever makes the generator's calls.
pub trait Maker {
    fn make(&mut self, call: Call) -> Result<Outcome, Stop>;
}

/// The call with each slice in a vector of its own.
pub fn apart(library: &mut dyn Library, call: &Call) -> Outcome {
    let mut lent = call.lent.clone();
    let mut slices: Vec<&mut [u8]> = lent.iter_mut().map(Vec::as_mut_slice).collect();
    let number = make(library, call.kind, &call.plan, call.number, &mut slices);
    Outcome { number, lent }
}

/// The call with all slices in one area, `shift` guard bytes before the first and 1 to 16 between; the error is a guard written over.
pub fn together(library: &mut dyn Library, call: &Call, shift: usize) -> Result<Outcome, String> {
    let gap = |i: usize| 1 + (shift + 5 * i) % 16;
    let mut area = vec![GUARD; shift];
    for (i, slice) in call.lent.iter().enumerate() {
        area.extend(slice);
        area.resize(area.len() + gap(i), GUARD);
    }
    let (before, mut rest) = area.split_at_mut(shift);
    let (mut slices, mut guards) = (Vec::new(), vec![before]);
    for (i, slice) in call.lent.iter().enumerate() {
        let (lent, after) = rest.split_at_mut(slice.len());
        let (guard, after) = after.split_at_mut(gap(i));
        slices.push(lent);
        guards.push(guard);
        rest = after;
    }
    let number = make(library, call.kind, &call.plan, call.number, &mut slices);
    if guards.iter().any(|guard| guard.iter().any(|byte| *byte != GUARD)) {
        return Err("a byte outside the lent slices was written".into());
    }
    Ok(Outcome { number, lent: slices.iter().map(|slice| slice.to_vec()).collect() })
}

/// What the frames of a run that is not refused come to singly, one after another, at this library: its book, its replies end to end over what
/// the run is lent for them, its numbers; what it is told is not theirs to say, and is left as it came.
pub fn singly(library: &mut dyn Library, call: &Call) -> Outcome {
    let [run, book, replies, numbers, _] = &call.lent[..] else { panic!("a run is lent five slices") };
    let (mut book, mut replies, mut numbers) = (book.clone(), replies.clone(), numbers.clone());
    let room = wire::plan_from(&call.plan).expect("a plan of a run that is not refused").frame_room();
    let mut end = 0;
    for (frame, number) in cut(run).0.into_iter().zip(&mut numbers) {
        let mut reply = vec![0; room];
        *number = library.node(&call.plan, frame, &mut book, &mut reply) as u8;
        if *number == 0 {
            let whole = cut(&reply).0[0];
            replies[end..end + whole.len()].copy_from_slice(whole);
            end += whole.len();
        }
    }
    let mut lent = call.lent.clone();
    lent[1..4].clone_from_slice(&[book, replies, numbers]);
    Outcome { number: 0, lent }
}

pub struct Driver<'a> {
    pub seed: u64,
    /// Calls to make.
    pub limit: u64,
    pub made: u64,
    first: &'a mut dyn Library,
    other: &'a mut dyn Library,
    counts: [[u64; NUMBERS.len()]; Kind::ALL.len()],
    turns: [u64; TURNS.len()],
}

/// What an accepted call may do beside its answer, as its bytes tell.
const TURNS: [&str; 14] = [
    "record stored",
    "held record acknowledged",
    "record below a bound",
    "first triple below a bound",
    "write round opened",
    "next read round opened",
    "repair round opened",
    "done without repair",
    "done after repair",
    "smallest plan of 16 nodes",
    EDGES[0],
    EDGES[1],
    EDGES[2],
    EDGES[3],
];

/// How a time round may end under a plan with b above 0 (document 02, Q-2).
pub const EDGES: [&str; 4] = [
    "2^64-1 from b nodes, a write round opened",
    "2^64-1 from b+1 nodes, the clock spent",
    "the (b+1)-th greatest time equal to the b-th",
    "a greater time in the entry of an unheard node",
];

/// Which of these the end of this time round is: none at any other call.
pub fn edges(call: &Call, outcome: &Outcome) -> Vec<&'static str> {
    let (before, after) = (&call.lent[0], &outcome.lent[0]);
    let ended = outcome.number == 105 || (outcome.number == 0 && before.get(1) != after.get(1));
    let b = call.plan.get(2).map_or(0, |b| usize::from(*b));
    if call.kind != Kind::WriteReply || !ended || b == 0 {
        return Vec::new();
    }
    let heard = |node: &usize| before[wire::MARKS + node] != 0 || call.lent[1][6] == *node as u8;
    let time = |node: usize| &after[wire::TIMES + 8 * node..][..8];
    let (told, other): (Vec<usize>, Vec<usize>) = (0..16).partition(heard);
    let mut told: Vec<&[u8]> = told.into_iter().map(time).collect();
    told.sort_unstable_by(|one, other| other.cmp(one));
    let last = told.iter().filter(|time| **time == [255; 8]).count();
    let met = [
        last == b && outcome.number == 0,
        last == b + 1 && outcome.number == 105,
        told[b] == told[b - 1],
        other.into_iter().any(|node| time(node) > told[b]),
    ];
    EDGES.into_iter().zip(met).filter(|(_, met)| *met).map(|(name, _)| name).collect()
}

/// Which of them this call did.
fn turn(call: &Call, outcome: &Outcome) -> Option<&'static str> {
    let (before, after) = (&call.lent[0], &outcome.lent[0]);
    let (staged, rounded) = (before.get(1) != after.get(1), before.get(2..4) != after.get(2..4));
    match (call.kind, outcome.number) {
        (Kind::Node, 0) if before[5] == 3 && call.lent[1] == outcome.lent[1] => Some("held record acknowledged"),
        (Kind::Node, 0) if before[5] == 3 => Some("record stored"),
        (Kind::Node, 0) if before[5] == 6 && outcome.lent[2][..4] == [0, 0, 0, 11] => {
            Some("first triple below a bound")
        }
        (Kind::Node, 0) if before[5] == 6 => Some("record below a bound"),
        (Kind::WriteReply, 0) if staged => Some("write round opened"),
        (Kind::ReadReply, 0) if rounded => Some("next read round opened"),
        (Kind::ReadReply, 0) if staged => Some("repair round opened"),
        (Kind::ReadReply, 101) if before[1] == 0 => Some("done without repair"),
        (Kind::ReadReply, 101) => Some("done after repair"),
        (Kind::SmallestPlan, 0) if after[0] == 16 => Some("smallest plan of 16 nodes"),
        _ => None,
    }
}

impl Maker for Driver<'_> {
    fn make(&mut self, call: Call) -> Result<Outcome, Stop> {
        if self.made == self.limit {
            return Err(Stop::Enough);
        }
        self.made += 1;
        let one = apart(self.first, &call);
        let two = together(self.other, &call, (self.made % 16) as usize).map_err(|why| self.wrong(&call, &why))?;
        if one != two {
            return Err(self.wrong(&call, &difference(&call, &one, &two)));
        }
        self.count(&call, &one)?;
        if call.kind == Kind::Run && one.number == 0 {
            let other = singly(self.other, &call);
            if one.lent[..4] != other.lent[..4] {
                return Err(self.wrong(&call, &format!("not as singly: {}", difference(&call, &one, &other))));
            }
        }
        Ok(one)
    }
}

impl<'a> Driver<'a> {
    pub fn new(first: &'a mut dyn Library, other: &'a mut dyn Library, seed: u64, limit: u64) -> Driver<'a> {
        Driver { seed, limit, made: 0, first, other, counts: Default::default(), turns: Default::default() }
    }

    fn wrong(&self, call: &Call, why: &str) -> Stop {
        Stop::Wrong(format!("seed {}, call {}, {}: {why}", self.seed, self.made, call.kind.name()))
    }

    /// Counts the answer, and holds both libraries to what the document says of every call: the answers of its list, and no byte
    /// changed by a refusal.
    fn count(&mut self, call: &Call, outcome: &Outcome) -> Result<(), Stop> {
        let number = outcome.number;
        if !call.kind.answers().contains(&number) {
            return Err(self.wrong(call, &format!("answer {number} is not one of this call")));
        }
        if REFUSALS.contains(&number) && outcome.lent != call.lent {
            return Err(self.wrong(call, &format!("refusal {number} changed a lent byte")));
        }
        let column = NUMBERS.iter().position(|other| *other == number).expect("every answer of a call is counted");
        self.counts[call.kind as usize][column] += 1;
        for turn in turn(call, outcome).into_iter().chain(edges(call, outcome)) {
            self.turns[TURNS.iter().position(|name| *name == turn).expect("a turn")] += 1;
        }
        Ok(())
    }

    /// How often this call gave this answer.
    pub fn met(&self, kind: Kind, number: u32) -> u64 {
        let column = NUMBERS.iter().position(|other| *other == number).expect("an answer");
        self.counts[kind as usize][column]
    }

    /// One row for each call, one column for each answer; a dot where the call cannot give that answer.
    pub fn table(&self) -> String {
        let mut text = format!("{:<13}", "");
        for number in NUMBERS {
            text += &format!("{number:>7}");
        }
        for kind in Kind::ALL {
            text += &format!("\n{:<13}", kind.name());
            for number in NUMBERS {
                let met = kind.answers().contains(&number).then(|| self.met(kind, number));
                text += &met.map_or(format!("{:>7}", "."), |met| format!("{met:>7}"));
            }
        }
        for (name, met) in TURNS.iter().zip(self.turns) {
            text += &format!("\n{name}: {met}");
        }
        text
    }

    /// The answers of a call that were met too seldom for the comparison to say much of them.
    pub fn seldom(&self) -> Vec<String> {
        let mut seldom = Vec::new();
        for kind in Kind::ALL {
            for number in kind.answers() {
                if self.met(kind, *number) < ENOUGH {
                    seldom.push(format!("{} {number}: {}", kind.name(), self.met(kind, *number)));
                }
            }
        }
        let turns = TURNS.iter().zip(self.turns).filter(|(_, met)| *met < ENOUGH);
        seldom.extend(turns.map(|(name, met)| format!("{name}: {met}")));
        seldom
    }
}

/// The two outcomes of one call, and the call itself: a wish in numbers, the rest in hex.
fn difference(call: &Call, one: &Outcome, two: &Outcome) -> String {
    let mut text = format!("answers {} and {}", one.number, two.number);
    text += &match call.wish() {
        Some(Wish { member, t, b, m }) => format!("\n  wish member {member} t {t} b {b} m {m}"),
        None => format!("\n  plan {} number {}", hex(&call.plan), call.number),
    };
    for (i, slice) in call.kind.slices().iter().enumerate() {
        text += &format!("\n  {slice:?} {}", hex(&call.lent[i]));
        let (a, b) = (&one.lent[i], &two.lent[i]);
        if let Some(first) = (0..a.len()).find(|at| a[*at] != b[*at]) {
            let end = (first + 32).min(a.len());
            text += &format!("\n    from byte {first} on: {} and {}", hex(&a[first..end]), hex(&b[first..end]));
        }
    }
    text
}

pub fn hex(bytes: &[u8]) -> String {
    bytes.iter().map(|byte| format!("{byte:02x}")).collect()
}
