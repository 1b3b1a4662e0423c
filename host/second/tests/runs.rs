//! Document 02, Q-3: a run of frames laid end to end, where it is cut, what it comes to, and its refusals.

mod common;

use common::*;
use second::frame::Body;
use second::plan::Plan;
use second::record::Timestamp;
use second::run::cut;
use second::wire;

const FIRST: &str = "N5 t1 b1 Q3 m2 repairable";
const NODE: usize = 3;

/// What is lent to a run, and what came of it.
#[derive(Clone, Debug, PartialEq, Eq)]
struct Evening {
    plan: Vec<u8>,
    run: Vec<u8>,
    book: Vec<u8>,
    replies: Vec<u8>,
    numbers: Vec<u8>,
    told: Vec<u8>,
}

impl Evening {
    /// This run at this book, lent exactly what it needs.
    fn new(plan: &Plan, book: &[u8], frames: &[Vec<u8>]) -> Evening {
        let run = frames.concat();
        let count = cut(&run).0.len();
        Evening {
            plan: wire::plan_bytes(plan).to_vec(),
            run,
            book: book.to_vec(),
            replies: vec![0xdd; count * plan.frame_room()],
            numbers: vec![0xcc; count],
            told: vec![0xbb; wire::TOLD],
        }
    }

    fn serve(&mut self) -> u32 {
        let Evening { plan, run, book, replies, numbers, told } = self;
        wire::run(plan, run, book, replies, numbers, told)
    }

    /// Frames cut, bytes of replies, place.
    fn told(&self) -> [usize; 3] {
        std::array::from_fn(|i| u64::from_be_bytes(self.told[8 * i..8 * i + 8].try_into().unwrap()) as usize)
    }

    /// The replies that were written.
    fn replied(&self) -> Vec<&[u8]> {
        cut(&self.replies[..self.told()[1]]).0
    }

    fn kinds(&self) -> Vec<u8> {
        self.replied().into_iter().map(kind).collect()
    }
}

/// A book of node 3 with room for so many records.
fn fresh(plan: &Plan, records: usize) -> Vec<u8> {
    let mut book = vec![0xee; 11 + records * plan.record_length()];
    assert_eq!(wire::fresh_book(&wire::plan_bytes(plan), NODE as u64, &mut book), 0);
    book
}

fn write(plan: &Plan, time: u64) -> Vec<u8> {
    frame(NODE, 100 + time, Body::WriteRequest(saved(plan, time, &item(plan, 5)).swap_remove(NODE)))
}

fn ask(ask: u64, body: Body) -> Vec<u8> {
    frame(NODE, ask, body)
}

/// The frames one after another at the node's own call: the book, the replies end to end, the numbers.
fn singly(plan: &Plan, book: &[u8], frames: &[&[u8]]) -> (Vec<u8>, Vec<u8>, Vec<u8>) {
    let (mut book, mut replies, mut numbers) = (book.to_vec(), Vec::new(), Vec::new());
    for request in frames {
        let mut reply = vec![0; plan.frame_room()];
        let number = wire::node(&wire::plan_bytes(plan), request, &mut book, &mut reply);
        if number == 0 {
            replies.extend(common::cut(&reply));
        }
        numbers.push(number as u8);
    }
    (book, replies, numbers)
}

#[test]
fn an_empty_run() {
    let plan = plan(FIRST);
    let mut evening = Evening::new(&plan, &fresh(&plan, 2), &[]);
    assert!(evening.replies.is_empty() && evening.numbers.is_empty());
    let before = evening.clone();
    assert_eq!((evening.serve(), evening.told()), (0, [0, 0, 0]));
    assert_eq!(Evening { told: before.told.clone(), ..evening }, before);
}

#[test]
fn a_run_of_one() {
    let plan = plan(FIRST);
    for request in [write(&plan, 4), ask(9, Body::TimeRequest), ask(9, Body::ReadLatest)] {
        let book = fresh(&plan, 2);
        let mut evening = Evening::new(&plan, &book, std::slice::from_ref(&request));
        assert_eq!(evening.serve(), 0);
        let (book, replies, numbers) = singly(&plan, &book, &[&request]);
        assert_eq!((&evening.book, &evening.numbers, numbers), (&book, &vec![0], vec![0]));
        assert_eq!(evening.told(), [1, replies.len(), request.len()]);
        assert_eq!(evening.replies[..replies.len()], replies);
        assert!(evening.replies[replies.len()..].iter().all(|byte| *byte == 0xdd), "bytes past the replies stay");
    }
}

/// R is 204: 321 records have room in 65,536 bytes.
#[test]
fn three_hundred_writes() {
    let plan = plan(FIRST);
    let frames: Vec<Vec<u8>> = (1..=300).map(|time| write(&plan, time)).collect();
    let mut book = vec![0xee; 65_536];
    book[..11].copy_from_slice(&fresh(&plan, 0));
    let mut evening = Evening::new(&plan, &book, &frames);
    assert_eq!(evening.serve(), 0);
    assert_eq!(evening.told(), [300, 300 * 55, 300 * 219]);
    assert_eq!((evening.numbers.clone(), evening.kinds()), (vec![0; 300], vec![4; 300]));
    assert_eq!(evening.book[9..11], 300u16.to_be_bytes());
    let slices: Vec<&[u8]> = frames.iter().map(Vec::as_slice).collect();
    let (book, replies, _) = singly(&plan, &book, &slices);
    assert_eq!((evening.book, &evening.replies[..300 * 55]), (book, &replies[..]));
    assert_eq!(replies[4 * 55 + 7..][..8], 105u64.to_be_bytes(), "each reply has its request's ask number");
}

/// A run of three frames that ends after every number of bytes: what is whole is served, and the place is where the next frame begins.
#[test]
fn cut_at_every_byte() {
    let plan = plan(FIRST);
    let frames = [ask(1, Body::TimeRequest), write(&plan, 4), ask(2, Body::ReadLatest)];
    let starts = [0, 15, 234, 249];
    let whole = frames.concat();
    assert_eq!(whole.len(), starts[3]);
    for length in 0..=whole.len() {
        let mut evening = Evening::new(&plan, &fresh(&plan, 2), &[whole[..length].to_vec()]);
        let count = starts.iter().filter(|start| **start <= length).count() - 1;
        assert_eq!(
            (evening.serve(), evening.told()[0], evening.told()[2]),
            (0, count, starts[count]),
            "{length} bytes"
        );
        assert_eq!(evening.numbers, vec![0; count]);
        assert_eq!(evening.kinds(), [2, 4, 7][..count]);
    }
}

/// "A length is below 11 or larger than the rest": the rest is what comes after its 4 bytes.
#[test]
fn lengths_at_the_edge() {
    let plan = plan(FIRST);
    let time = ask(1, Body::TimeRequest);
    let tail =
        |length: u32, bytes: usize| [&length.to_be_bytes()[..], &time[4..], &[0; 30]].concat()[..4 + bytes].to_vec();
    for (length, bytes, frames, place) in [
        (0, 20, 1, 15),
        (10, 10, 1, 15),
        (10, 30, 1, 15),
        (11, 10, 1, 15),
        (11, 11, 2, 30),
        (12, 11, 1, 15),
        (12, 12, 2, 31),
        (u32::MAX, 30, 1, 15),
    ] {
        let mut evening = Evening::new(&plan, &fresh(&plan, 2), &[time.clone(), tail(length, bytes)]);
        assert_eq!(evening.serve(), 0);
        assert_eq!((evening.told()[0], evening.told()[2]), (frames, place), "length {length}, {bytes} bytes after it");
        // 12 is whole, and one byte too long for a time request
        let number = if length == 12 { 4 } else { 0 };
        assert_eq!(evening.numbers, [0, number][..frames]);
    }
    // behind a length that ends the run nothing is looked at
    let mut evening = Evening::new(&plan, &fresh(&plan, 2), &[tail(10, 10), time]);
    assert_eq!((evening.serve(), evening.told()), (0, [0, 0, 0]));
}

#[test]
fn refused_frames_among_good_ones() {
    let plan = plan(FIRST);
    let changed = |time: u64, at: usize, bit: u8| {
        let mut frame = write(&plan, time);
        frame[at] ^= bit;
        frame
    };
    let mut long = ask(3, Body::ReadLatest);
    long.extend([0; 40]);
    long[3] += 40;
    let mut zero = write(&plan, 1);
    zero[15..23].fill(0);
    let frames = [
        write(&plan, 4),
        changed(5, 6, 1),   // another node
        long,               // cut well, too long for its kind
        zero,               // time 0
        changed(5, 218, 1), // a fragment of another hash
        write(&plan, 4),    // held
        ask(7, Body::ReadPrevious(Timestamp { time: 0, verifier: [1; 32] })),
        ask(8, Body::TimeRequest),
        write(&plan, 2), // below the one that is held
        write(&plan, 9), // no room
        ask(9, Body::ReadLatest),
        write(&plan, 2),
    ];
    let book = fresh(&plan, 2);
    let mut evening = Evening::new(&plan, &book, &frames);
    assert_eq!(evening.serve(), 0);
    assert_eq!(evening.numbers, [0, 4, 4, 5, 6, 0, 5, 0, 0, 8, 0, 0]);
    assert_eq!(evening.kinds(), [4, 4, 2, 4, 7, 4]);
    assert_eq!((evening.told()[0], evening.told()[2]), (12, evening.run.len()));
    let (after, replies, numbers) = singly(&plan, &book, &cut(&evening.run).0);
    assert_eq!((&evening.book, &evening.numbers), (&after, &numbers));
    assert_eq!(evening.replies[..evening.told()[1]], replies);
    // one of the held records damaged: 7, and the run goes on
    let mut damaged = after;
    damaged[11 + 100] ^= 1;
    let mut evening = Evening::new(&plan, &damaged, &[write(&plan, 2), write(&plan, 4)]);
    assert_eq!((evening.serve(), &evening.numbers[..], evening.kinds()), (0, &[7, 0][..], vec![4]));
}

/// Document 01's row of N 16 and F 1,024: the 42nd record is refused 8, and what comes after it is served.
#[test]
fn a_full_book() {
    let plan = plan("N16 t1 b1 Q3 m2 F1024 repairable");
    let mut book = vec![0xee; 65_536];
    book[..11].copy_from_slice(&fresh(&plan, 0));
    let mut frames: Vec<Vec<u8>> = (1..=42).map(|time| write(&plan, time)).collect();
    frames.extend([ask(1, Body::TimeRequest), ask(2, Body::ReadLatest), write(&plan, 1)]);
    let mut evening = Evening::new(&plan, &book, &frames);
    assert_eq!(evening.serve(), 0);
    assert_eq!(evening.numbers, [&[0; 41][..], &[8, 0, 0, 0]].concat());
    assert_eq!(evening.kinds(), [&[4; 41][..], &[2, 7, 4]].concat());
    assert_eq!(evening.replied()[41][15..], 41u64.to_be_bytes());
    assert_eq!(evening.replied()[42][15..23], 41u64.to_be_bytes());
}

/// 1, 2, 21, 3 in this order, and no byte changes.
#[test]
fn refusals_of_a_run() {
    let plan = plan(FIRST);
    let good = Evening::new(&plan, &fresh(&plan, 2), &[write(&plan, 4), ask(1, Body::ReadLatest)]);
    assert_eq!((good.replies.len(), good.numbers.len()), (2 * 219, 2));
    type Fault = (u32, fn(&mut Evening));
    let faults: [Fault; 10] = [
        (1, |evening| evening.plan[2] = 2),
        (1, |evening| evening.plan.push(0)),
        (2, |evening| evening.book.truncate(10)),
        (2, |evening| evening.book.resize(65_537, 0)),
        (2, |evening| evening.told.truncate(23)),
        (2, |evening| evening.told.push(0)),
        (21, |evening| evening.replies.truncate(2 * 219 - 1)),
        (21, |evening| evening.numbers.truncate(1)),
        (3, |evening| evening.book[4] = 2),
        (3, |evening| evening.book[10] = 3),
    ];
    let order = |number: u32| [1, 2, 21, 3].iter().position(|known| *known == number).unwrap();
    for (i, (one, first)) in faults.iter().enumerate() {
        for (other, then) in &faults[i..] {
            let mut evening = good.clone();
            // the later one first, so that each is done to what it is meant for
            then(&mut evening);
            first(&mut evening);
            let before = evening.clone();
            let wanted = if order(*one) <= order(*other) { *one } else { *other };
            assert_eq!((evening.serve(), &evening), (wanted, &before));
        }
    }
    // frames that are not cut need no room
    let mut evening = good.clone();
    evening.run.truncate(230);
    evening.replies.truncate(219);
    evening.numbers.truncate(1);
    assert_eq!((evening.serve(), evening.told()), (0, [1, 55, 219]));
    let mut evening = good;
    evening.run.truncate(218);
    evening.replies.clear();
    evening.numbers.clear();
    assert_eq!((evening.serve(), evening.told()), (0, [0, 0, 0]));
}
