//! Runs of frames as calls (document 02, Q-3): drawn ones, changed and damaged ones, long ones, full books; and those between the histories of
//! a run of the driver. That each comes to what its frames come to singly is the driver's to see.

use crate::book::{Book, HEADER};
use crate::craft::{self, Size};
use crate::driver::{Driver, Maker, Outcome, Stop, ENOUGH};
use crate::frame::{self, Body};
use crate::library::{Call, Kind, Library};
use crate::mutate;
use crate::plan::Plan;
use crate::random::Random;
use crate::record::{Record, Timestamp};
use crate::run::cut;
use crate::wire;

/// The runs of a comparison: drawn ones, and long ones of some hundred frames or at a book that fills.
const DRAWN: usize = 6_000;
const LONG: usize = 120;
/// The runs after each history.
const SOME: usize = 16;
/// The frames of a long run.
const HUNDREDS: usize = 300;

/// What a run that is not refused may meet.
pub const EDGES: [&str; 16] = [
    "an empty run",
    "a run of one frame",
    "a run of 300 frames",
    "an end within a length",
    "an end at a length of 10",
    "an end at a length one past the rest",
    "an end within a frame",
    "an end with a whole frame behind it",
    "a frame of length 11",
    "a frame too long or short for its kind",
    "a refused frame, and one after it accepted",
    "a held record acknowledged",
    "a record stored, and told by a frame after it",
    "a full book, and a read after it served",
    "bytes past the replies and the numbers",
    "neither replies nor numbers lent, and none needed",
];

/// Which of these this run is: none at any other call.
pub fn edges(call: &Call, outcome: &Outcome) -> Vec<&'static str> {
    if call.kind != Kind::Run || outcome.number != 0 {
        return Vec::new();
    }
    let (run, book) = (&call.lent[0], &call.lent[1]);
    let (frames, place) = cut(run);
    let (rest, numbers) = (&run[place..], &outcome.lent[3][..frames.len()]);
    let says = rest.first_chunk().map(|length| u64::from(u32::from_be_bytes(*length)));
    let past = says.filter(|says| *says > rest.len() as u64 - 4);
    let served = || frames.iter().copied().zip(numbers.iter().copied());
    // the frames after the first of which something is so
    let after = |first: fn(&[u8], u8) -> bool, then: fn(&[u8], u8) -> bool| {
        served().skip_while(|(frame, number)| !first(frame, *number)).skip(1).any(|(frame, number)| then(frame, number))
    };
    let r = wire::plan_from(&call.plan).map_or(0, |plan| plan.record_length());
    let lengths = |kind: u8| match kind {
        3 => r,
        6 => 40,
        _ => 0,
    };
    let misfit =
        |frame: &[u8]| frame[4] == 1 && [1, 3, 5, 6].contains(&frame[5]) && frame.len() != 15 + lengths(frame[5]);
    let holds = |frame: &[u8]| frame[5] == 3 && book[HEADER..].chunks_exact(r).any(|held| *held == frame[15..]);
    let told = outcome.lent[4][8..16].try_into().map(u64::from_be_bytes).expect("8 bytes") as usize;
    let met = [
        run.is_empty(),
        frames.len() == 1,
        frames.len() == HUNDREDS,
        (1..4).contains(&rest.len()),
        says == Some(10) && rest.len() >= 14,
        past == Some((rest.len() as u64).wrapping_sub(3)),
        past.is_some(),
        says.is_some() && (4..rest.len()).any(|at| !cut(&rest[at..]).0.is_empty()),
        frames.iter().any(|frame| frame.len() == 15),
        served().any(|(frame, number)| number == 4 && misfit(frame)),
        after(|_, number| number > 0, |_, number| number == 0),
        served().any(|(frame, number)| number == 0 && holds(frame)),
        after(|frame, number| number == 0 && frame[5] == 3, |frame, number| number == 0 && frame[5] != 3)
            && outcome.lent[1] != *book,
        after(|_, number| number == 8, |frame, number| number == 0 && frame[5] != 3),
        told < call.lent[2].len() && frames.len() < call.lent[3].len(),
        call.lent[2].is_empty() && call.lent[3].is_empty(),
    ];
    EDGES.into_iter().zip(met).filter(|(_, met)| *met).map(|(name, _)| name).collect()
}

/// Hands runs on to a driver, and counts what they meet and how their frames were answered.
struct Counter<'a, 'b> {
    driver: &'a mut Driver<'b>,
    met: [u64; EDGES.len()],
    numbers: [u64; 9],
}

impl Maker for Counter<'_, '_> {
    fn make(&mut self, call: Call) -> Result<Outcome, Stop> {
        let edged = call.clone();
        let outcome = self.driver.make(call)?;
        for edge in edges(&edged, &outcome) {
            self.met[EDGES.iter().position(|name| *name == edge).expect("an edge")] += 1;
        }
        if outcome.number == 0 {
            let frames = cut(&edged.lent[0]).0.len();
            outcome.lent[3][..frames].iter().for_each(|number| self.numbers[usize::from(*number)] += 1);
        }
        Ok(outcome)
    }
}

/// Drawn and long runs at both libraries, and a line of what was met. The error names a run on which they differ, or what was met too seldom.
pub fn compare(first: &mut dyn Library, other: &mut dyn Library, seed: u64) -> Result<String, String> {
    let mut driver = Driver::new(first, other, seed, u64::MAX);
    let mut counter = Counter { driver: &mut driver, met: Default::default(), numbers: Default::default() };
    if let Err(Stop::Wrong(why)) = all(&mut Random::new(seed), &mut counter) {
        return Err(why);
    }
    let Counter { met, numbers, .. } = counter;
    let answers = Kind::Run.answers().iter().map(|answer| (format!("answer {answer}"), driver.met(Kind::Run, *answer)));
    let frames = [0, 4, 5, 6, 7, 8].map(|number| (format!("frame answered {number}"), numbers[number]));
    let edges = EDGES.iter().zip(met).map(|(name, met)| (name.to_string(), met));
    let told: Vec<(String, u64)> = answers.chain(frames).chain(edges).collect();
    if let Some((name, met)) = told.iter().find(|(_, met)| *met < ENOUGH) {
        return Err(format!("runs: {name} met {met} times, fewer than {ENOUGH}"));
    }
    let told: Vec<String> = told.iter().map(|(name, met)| format!("{name} {met} times")).collect();
    let frames: u64 = numbers.iter().sum();
    Ok(format!("{} runs, {frames} frames, each run as its frames singly: {}", driver.made, told.join(", ")))
}

fn all(random: &mut Random, maker: &mut dyn Maker) -> Result<(), Stop> {
    for _ in 0..DRAWN {
        let run = drawn(random, Size::Any);
        maker.make(run)?;
    }
    for _ in 0..LONG {
        let (hundreds, filling) = (hundreds(random), filling(random));
        maker.make(hundreds)?;
        maker.make(filling)?;
    }
    Ok(())
}

/// Drawn runs, for a driver at its histories.
pub fn some(random: &mut Random, size: Size, maker: &mut dyn Maker) -> Result<(), Stop> {
    for _ in 0..SOME {
        let run = drawn(random, size);
        maker.make(run)?;
    }
    Ok(())
}

/// What the frames of a run are made of: a plan, a node of it, and records of this node that are sent or held.
struct Evening<'a> {
    random: &'a mut Random,
    plan: Plan,
    node: usize,
    records: Vec<Record>,
}

impl Evening<'_> {
    fn new(random: &mut Random, plan: Plan, records: usize) -> Evening<'_> {
        let node = random.below(plan.n);
        let mut evening = Evening { random, plan, node, records: Vec::new() };
        for _ in 0..records {
            let time = craft::record_time(evening.random);
            let record = evening.record(time);
            evening.records.push(record);
        }
        evening
    }

    fn record(&mut self, time: u64) -> Record {
        craft::poisonous(self.random, &self.plan, time).swap_remove(self.node)
    }

    /// A book with room for so many records and some bytes more, which holds some of ours; one of these may be damaged.
    fn book(&mut self, room: usize) -> Vec<u8> {
        let size = self.plan.record_length();
        let most = (65_536 - HEADER) / size;
        let mut book = Book { node: self.node, records: Vec::new() };
        for record in self.records.clone() {
            let held = book.held(record.stamp).is_some();
            if !held && book.records.len() < room.min(most) && self.random.chance(40) {
                book.insert(record);
            }
        }
        if !book.records.is_empty() && self.random.chance(25) {
            let at = self.random.below(book.records.len());
            book.records[at].fragment[0] ^= 1;
        }
        let spare = self.random.pick(&[0, 0, 1, size - 1]);
        let mut bytes = self.random.bytes((HEADER + room * size + spare).min(65_536));
        book.write(&self.plan, &mut bytes);
        bytes
    }

    fn frame(&mut self, body: Body) -> Vec<u8> {
        craft::frame(self.node, self.random.number(), body)
    }

    /// One of our records, in a write request.
    fn write(&mut self) -> Vec<u8> {
        let record = self.random.pick(&self.records);
        self.frame(Body::WriteRequest(record))
    }

    fn read(&mut self) -> Vec<u8> {
        let bound = match self.random.below(4) {
            0 => Timestamp { time: 1, verifier: [0; 32] },
            1 => Timestamp { time: 0, verifier: [9; 32] },
            _ => self.random.pick(&self.records).stamp,
        };
        let body = self.random.pick(&[Body::TimeRequest, Body::ReadLatest, Body::ReadPrevious(bound)]);
        self.frame(body)
    }

    /// A frame that a run cuts whole and a node refuses, as a rule.
    fn bad(&mut self) -> Vec<u8> {
        let mut frame = if self.random.chance(60) { self.write() } else { self.read() };
        match self.random.below(8) {
            0 => frame[4] = self.random.pick(&[0, 2, 255]),
            1 => frame[5] = self.random.pick(&[0, 2, 4, 7, 8, 255]),
            2 => frame[6] = self.random.pick(&[frame[6] ^ 1, self.plan.n as u8, 255]),
            3 | 4 => {
                // whole, and too long or too short for its kind
                let body = frame.len() - frame::HEADER;
                let other = self.random.pick(&[body + 1, body + 40, body - body.min(1), 0]);
                frame.resize(frame::HEADER + other, 0x3c);
                frame[..4].copy_from_slice(&(11 + other as u32).to_be_bytes());
            }
            5 if frame.len() >= 23 => frame[15..23].fill(0),
            _ => {
                let at = self.random.within(4, frame.len() - 1);
                frame[at] ^= 1 << self.random.below(8);
            }
        }
        frame
    }

    /// What is at the end of a run and is no frame, mostly; a good frame may come behind it, and is not looked at.
    fn tail(&mut self) -> Vec<u8> {
        let behind = if self.random.chance(50) { self.read() } else { Vec::new() };
        let whole = if self.random.chance(50) { self.write() } else { self.read() };
        let short = self.random.below(11) as u32;
        let length = |says: u32, rest: &[u8]| [&says.to_be_bytes()[..], rest].concat();
        match self.random.below(12) {
            0 => self.random.pick(&[vec![0], vec![0, 0], vec![0, 0, 0], whole[..3].to_vec()]),
            1 => length(10, &[&[1, 1, 0, 0, 0, 0, 0, 0, 0, 7][..], &behind].concat()),
            2 => length(short, &behind),
            3 => length(11, &whole[4..14]),
            4 => length(behind.len() as u32 + 1, &behind),
            5 => length(self.random.pick(&[u32::MAX, 1 << 31, 1 << 24]), &behind),
            6 | 7 => whole[..self.random.within(4, whole.len() - 1)].to_vec(),
            _ => Vec::new(),
        }
    }

    /// The call of a run, lent what it needs and at times more.
    fn call(&mut self, book: Vec<u8>, run: Vec<u8>) -> Call {
        let frames = cut(&run).0.len();
        let (more, places) = (self.random.pick(&[0, 0, 1, 40]), self.random.pick(&[0, 0, 1, 9]));
        let replies = self.random.bytes(frames * self.plan.frame_room() + more);
        let (numbers, told) = (self.random.bytes(frames + places), self.random.bytes(wire::TOLD));
        let plan = wire::plan_bytes(&self.plan).to_vec();
        Call { kind: Kind::Run, plan, number: 0, lent: vec![run, book, replies, numbers, told] }
    }
}

/// A run of few frames of all kinds at a book that has room for them or not, and in half of the cases one to three faults.
fn drawn(random: &mut Random, size: Size) -> Call {
    let plan = craft::plan(random, size);
    let (most, rooms) = match size {
        Size::Small => (3, &[0, 1, 1, 2][..]),
        Size::Any => (random.pick(&[2, 6, 14]), &[0, 1, 2, 3, 5, 9][..]),
    };
    let (room, frames, records) = (random.pick(rooms), random.within(0, most), random.within(1, 6));
    let mut evening = Evening::new(random, plan, records);
    let book = evening.book(room);
    let mut run = Vec::new();
    for _ in 0..frames {
        run.extend(match evening.random.below(10) {
            0..=3 => evening.write(),
            4..=6 => evening.read(),
            _ => evening.bad(),
        });
    }
    run.extend(evening.tail());
    let (mut call, plan) = (evening.call(book, run), evening.plan.clone());
    if random.chance(50) {
        for _ in 0..random.pick(&[1, 1, 1, 2, 2, 3]) {
            fault(random, &plan, &mut call);
        }
    }
    call
}

/// Three hundred writes in rising, falling or any order, some of them repeated, at times with other frames among them.
fn hundreds(random: &mut Random) -> Call {
    let plan = craft::plan(random, Size::Small);
    let (order, mixed) = (random.below(3), random.chance(50));
    let mut evening = Evening::new(random, plan, 0);
    for time in 1..=HUNDREDS as u64 {
        let record = evening.record(time);
        evening.records.push(record);
    }
    let mut sent: Vec<usize> = (0..HUNDREDS).collect();
    match order {
        0 => {}
        1 => sent.reverse(),
        _ => sent.iter_mut().for_each(|which| *which = evening.random.below(HUNDREDS)),
    }
    let mut run = Vec::new();
    for which in sent {
        run.extend(match evening.random.below(100) {
            0..=3 if mixed => evening.read(),
            4..=7 if mixed => evening.bad(),
            _ => {
                let record = evening.records[which].clone();
                evening.frame(Body::WriteRequest(record))
            }
        });
    }
    let held = evening.records.split_off(HUNDREDS.min(20));
    let book = evening.book(65_536 / evening.plan.record_length());
    evening.records.extend(held);
    evening.call(book, run)
}

/// More writes than the greatest book has room for, and reads after them.
fn filling(random: &mut Random) -> Call {
    let plan = Plan { n: 16, f: 1024, ..craft::plan(random, Size::Small) };
    // Q and m of a plan of few nodes go with more of them
    let plan = if plan.accepted().is_ok() { plan } else { Plan { t: 0, b: 0, q: 1, m: 1, ..plan } };
    let most = (65_536 - HEADER) / plan.record_length();
    let more = random.within(0, 3);
    let mut evening = Evening::new(random, plan, 0);
    for time in 1..=(most + more) as u64 {
        let record = evening.record(time);
        evening.records.push(record);
    }
    let mut run = Vec::new();
    for record in evening.records.clone() {
        run.extend(evening.frame(Body::WriteRequest(record)));
    }
    for _ in 0..4 {
        run.extend(if evening.random.chance(70) { evening.read() } else { evening.write() });
    }
    let mut book = evening.random.bytes(65_536);
    Book { node: evening.node, records: Vec::new() }.write(&evening.plan, &mut book);
    evening.call(book, run)
}

/// One thing wrong with a run: what it is refused for, or where it is cut.
fn fault(random: &mut Random, plan: &Plan, call: &mut Call) {
    let resize = |random: &mut Random, slice: &mut Vec<u8>, lengths: &[usize]| {
        let length = random.pick(lengths);
        slice.resize(length, 0x5a);
    };
    let lengths: Vec<usize> = call.lent.iter().map(Vec::len).collect();
    let less = |at: usize, by: usize| lengths[at] - lengths[at].min(by);
    match random.below(10) {
        0 => mutate::plan(random, plan, call),
        1 => resize(random, &mut call.lent[1], &[0, 10, 11, less(1, 1), 65_536, 65_537]),
        2 => resize(random, &mut call.lent[4], &[0, 16, 23, 25]),
        3 | 4 => {
            resize(random, &mut call.lent[2], &[0, less(2, 1), less(2, 40), less(2, 41), less(2, plan.frame_room())])
        }
        5 => resize(random, &mut call.lent[3], &[0, less(3, 1), less(3, 2), less(3, 9), less(3, 10)]),
        6 | 7 => mutate::book::change(random, plan, &mut call.lent[1]),
        8 => resize(random, &mut call.lent[0], &[0, less(0, 1), less(0, 11), less(0, 15)]),
        _ => mutate::flip(random, &mut call.lent[0]),
    }
}
