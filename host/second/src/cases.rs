//! Stored cases, for a program that makes them again (crates/replay). A call is one line of its `stdin`, the outcome one line of its `stdout`:
//!
//! ```text
//! CALL NUMBER PLAN A B C D E
//! ANSWER A B C D E
//! ```
//!
//! CALL is 01 fresh_book, 02 node, 03 open_write, 04 open_read, 05 owed, 06 write_reply, 07 read_reply, 08 smallest_plan, 09 run; NUMBER the
//! node or ask number in 8 bytes, zero where the call takes none; PLAN its plan slice, of 08 the wish in 25 bytes: member 1, t 8, b 8, m 8; A
//! to E the lent slices in the order of the call (book; request, book, reply; session; session, desk, request; session, reply, desk, item,
//! ending; counts; run, book, replies, numbers, told). ANSWER is the number, decimal; after it each slice as it is after
//! the call, or a dot where it is as lent. Bytes are lower-case hex, a minus where there are none; a call that is lent fewer than five
//! slices has a minus, and after the call a dot, for each of the others. Every line stands by itself.

use std::collections::BTreeSet;

use crate::craft::Size;
use crate::driver::{apart, edges, hex, Maker, Outcome, Stop};
use crate::gen::histories;
use crate::library::{Call, Kind, Library, Second};
use crate::runs;

/// The slices of a line.
const SLICES: usize = 5;
/// The most bytes lent in a stored case. The first of each answer of each call may be long, and has a plan with t above 0; the others are
/// short, so that the files stay small. Where half of the calls looked at had no such case, any will do that is not long.
const LONG: usize = 1520;
const SHORT: usize = 570;
/// The calls looked at, of histories: wishes and runs come from generators of their own, so they are not counted.
const TRIED: usize = 200_000;

/// The cases of one answer of one call.
#[derive(Clone, Default)]
struct Stored {
    cases: usize,
    plan: Vec<u8>,
}

/// Picks cases, of each answer of each call about as many, so that rare answers are not crowded out; of each history few. Beside these one
/// of each edge of a time round, and of a run, that has none yet.
struct Picker<'a> {
    count: usize,
    tried: usize,
    stored: Vec<Vec<Stored>>,
    edges: BTreeSet<&'static str>,
    out: &'a mut dyn FnMut(&Call, &Outcome),
}

impl Maker for Picker<'_> {
    fn make(&mut self, call: Call) -> Result<Outcome, Stop> {
        if self.tried == TRIED {
            return Err(Stop::Enough);
        }
        self.tried += usize::from(!matches!(call.kind, Kind::SmallestPlan | Kind::Run));
        let outcome = apart(&mut Second, &call);
        let stored = &mut self.stored[call.kind as usize][outcome.number as usize];
        let lent: usize = call.lent.iter().map(Vec::len).sum();
        // of a wish the member, of any other call the plan
        let (faults, differs) = match call.wish() {
            Some(wish) => (wish.t > 0, stored.plan.first() != Some(&wish.member)),
            None => (call.plan.get(1).is_some_and(|t| *t > 0), stored.plan != call.plan),
        };
        let good = match stored.cases {
            _ if self.tried > TRIED / 2 => lent <= LONG,
            0 => lent <= LONG && faults,
            _ => lent <= SHORT,
        };
        let wanted = stored.cases < self.count && good && differs;
        if wanted {
            stored.cases += 1;
            stored.plan = call.plan.clone();
        }
        let mut met = edges(&call, &outcome);
        met.extend(runs::edges(&call, &outcome));
        if wanted || (lent <= LONG && met.iter().any(|edge| !self.edges.contains(edge))) {
            self.edges.extend(met);
            (self.out)(&call, &outcome);
        }
        Ok(outcome)
    }
}

/// Hands out up to `count` cases of each answer of each call.
pub fn pick(seed: u64, count: usize, out: &mut dyn FnMut(&Call, &Outcome)) -> Stop {
    let stored = vec![vec![Stored::default(); 106]; Kind::ALL.len()];
    histories(seed, Size::Small, &mut Picker { count, tried: 0, stored, edges: BTreeSet::new(), out })
}

/// The line of a call.
pub fn asked(call: &Call) -> String {
    let mut text = format!("{:02x} {:016x} {}", call.kind as u8 + 1, call.number, field(&call.plan));
    for i in 0..SLICES {
        text += &format!(" {}", call.lent.get(i).map_or("-".into(), |slice| field(slice)));
    }
    text
}

/// The line of its outcome.
pub fn answered(call: &Call, outcome: &Outcome) -> String {
    let mut text = outcome.number.to_string();
    for i in 0..SLICES {
        let after = outcome.lent.get(i).filter(|after| **after != call.lent[i]);
        text += &format!(" {}", after.map_or(".".into(), |after| field(after)));
    }
    text
}

fn field(bytes: &[u8]) -> String {
    if bytes.is_empty() {
        "-".into()
    } else {
        hex(bytes)
    }
}

/// The call that a line tells; none where it is not of the form.
pub fn parse(text: &str) -> Option<Call> {
    let fields = text.split(' ').map(bytes).collect::<Option<Vec<_>>>()?;
    let [kind, number, plan, lent @ ..] = &fields[..] else { return None };
    let kind = Kind::ALL.into_iter().find(|known| kind[..] == [*known as u8 + 1])?;
    let number = u64::from_be_bytes(number.as_slice().try_into().ok()?);
    let (lent, rest) = lent.split_at_checked(kind.slices().len())?;
    let shaped = lent.len() + rest.len() == SLICES && rest.iter().all(Vec::is_empty);
    let call = Call { kind, plan: plan.clone(), number, lent: lent.to_vec() };
    let wished = kind != Kind::SmallestPlan || (call.wish().is_some() && number == 0);
    (shaped && wished).then_some(call)
}

fn bytes(field: &str) -> Option<Vec<u8>> {
    if field == "-" {
        return Some(Vec::new());
    }
    let digits: Option<Vec<u8>> = field.chars().map(|digit| Some(digit.to_digit(16)? as u8)).collect();
    let digits = digits?;
    (digits.len() % 2 == 0).then(|| digits.chunks_exact(2).map(|two| two[0] << 4 | two[1]).collect())
}

/// Makes the call of a line, and gives the line of its outcome; none where the line is no call.
pub fn replay(library: &mut dyn Library, text: &str) -> Option<String> {
    let call = parse(text)?;
    let outcome = apart(library, &call);
    Some(answered(&call, &outcome))
}
