//! Document 02, Q-5: drawn runs and those of its conditions, and the sentence itself: nodes and readers that are wrong alike at both libraries,
//! so that no comparison tells, break it.

use second::book::Book;
use second::driver::{apart, Maker, Outcome, Stop};
use second::library::{Call, Kind, Second};
use second::older::{self, drawn, dropped, ABORTED, DONE, ROUNDS_SPENT};
use second::random::Random;
use second::record::Timestamp;
use second::session::{Session, Stage};
use second::wire;

#[test]
fn no_run_breaks_the_sentence() {
    let told = older::compare(&mut Second, &mut Second, 5, 400).expect("no run breaks it");
    assert_eq!(told.lines().filter(|line| line.starts_with("  without '")).count(), told.lines().count() - 1);
    assert!(told.starts_with("400 runs: every condition kept "), "{told}");
}

/// What is done around a call of our own program.
type Around = fn(Call) -> Outcome;

/// Our own program with that.
struct Wrong(Around);

impl Maker for Wrong {
    fn make(&mut self, call: Call) -> Result<Outcome, Stop> {
        Ok((self.0)(call))
    }
}

fn right(call: &Call) -> Outcome {
    apart(&mut Second, call)
}

/// The call on the same book as if it held its first record alone; what is stored is stored.
fn of_first_record(call: &Call) -> Outcome {
    let (plan, mut other, mut outcome) = (wire::plan_from(&call.plan).unwrap(), call.clone(), right(call));
    let mut book = Book::read(&plan, &call.lent[1]).unwrap();
    book.records.truncate(1);
    book.write(&plan, &mut other.lent[1]);
    outcome.lent[2] = right(&other).lent[2].clone();
    outcome
}

/// The read goes on below this candidate, whatever its set was; after the last round its rounds are spent.
fn walked_on(call: &Call, mut outcome: Outcome, candidate: Timestamp) -> Outcome {
    let session = wire::session_from(&outcome.lent[0]).unwrap();
    let last = usize::from(session.round) == wire::plan_from(&call.plan).unwrap().w;
    let next = match last {
        true => session.ended(),
        false => Session { stage: Stage::Asking, ..session }.below(candidate),
    };
    outcome.number = if last { ROUNDS_SPENT } else { 0 };
    outcome.lent[0] = wire::session_bytes(&next).to_vec();
    outcome.lent[3..].clone_from_slice(&call.lent[3..]);
    outcome
}

/// A wrong thing, what is done, and the words by which it is found.
const WRONG: [(&str, Around, &str); 8] = [
    (
        "a reader takes an unclassifiable set for an incomplete one",
        |call| {
            let outcome = right(&call);
            let begun = outcome.number == 0 && call.lent[0][1] == 0 && outcome.lent[0][1] == 1;
            match call.kind == Kind::ReadReply && begun {
                true => {
                    let stamp = wire::session_from(&outcome.lent[0]).unwrap().stamp;
                    walked_on(&call, outcome, stamp)
                }
                false => outcome,
            }
        },
        "an older sheet",
    ),
    (
        "a reader takes a complete set for an invalid one",
        |call| {
            let outcome = right(&call);
            match call.kind == Kind::ReadReply && outcome.number == DONE && call.lent[0][1] == 0 {
                true => {
                    let stamp = Timestamp::from_bytes(&outcome.lent[4][..40]);
                    walked_on(&call, outcome, stamp)
                }
                false => outcome,
            }
        },
        "an older sheet",
    ),
    (
        "a reader that is aborted says that nothing was written",
        |call| {
            let outcome = right(&call);
            let aborted = call.kind == Kind::ReadReply && outcome.number == ABORTED;
            Outcome { number: if aborted { older::NEVER_WRITTEN } else { outcome.number }, ..outcome }
        },
        "never written",
    ),
    (
        "a reader changes a byte of what it is done with",
        |call| {
            let mut outcome = right(&call);
            if call.kind == Kind::ReadReply && outcome.number == DONE {
                outcome.lent[3][0] ^= 1;
            }
            outcome
        },
        "other bytes at the write's timestamp",
    ),
    (
        "a reader does not look at the ask number",
        |mut call| {
            if call.kind == Kind::ReadReply {
                let ask = wire::session_from(&call.lent[0]).unwrap().ask().0;
                call.lent[1][7..15].copy_from_slice(&ask.to_be_bytes());
            }
            right(&call)
        },
        "the sentence is broken",
    ),
    (
        "a node's latest record is its first",
        |call| match call.kind == Kind::Node && call.lent[0][5] == 5 {
            true => of_first_record(&call),
            false => right(&call),
        },
        "an older sheet",
    ),
    (
        "a node's record below a bound is its first",
        |call| match call.kind == Kind::Node && call.lent[0][5] == 6 {
            true => of_first_record(&call),
            false => right(&call),
        },
        "an older sheet",
    ),
    (
        "a node forgets its last record when it is asked for one below a bound",
        |call| {
            let mut outcome = right(&call);
            if call.kind == Kind::Node && call.lent[0][5] == 6 {
                let plan = wire::plan_from(&call.plan).unwrap();
                let mut book = Book::read(&plan, &outcome.lent[1]).unwrap();
                book.records.pop();
                book.write(&plan, &mut outcome.lent[1]);
            }
            outcome
        },
        "does not hold what it executed",
    ),
];

#[test]
fn what_is_wrong_alike_breaks_the_sentence() {
    assert!(drawn::all(&mut Random::new(5), 400, &mut Wrong(|call| right(&call))).is_ok());
    for (name, wrong, found) in WRONG {
        // some of them break it in more than one way: the first way that a seed meets is told
        let ways: Vec<Stop> =
            (1..=12).filter_map(|seed| drawn::all(&mut Random::new(seed), 400, &mut Wrong(wrong)).err()).collect();
        let told = |stop: &Stop| matches!(stop, Stop::Wrong(why) if why.contains(found));
        assert!(ways.iter().any(told), "{name}: {ways:?}");
    }
}

/// A reader that is right ends each run of a condition as it should; one that walks on does so in none that has a repair.
#[test]
fn the_runs_of_the_conditions_are_held_to_their_ends() {
    assert_eq!(dropped::all(&mut Wrong(|call| right(&call))).expect("each as it should").lines().count(), 11);
    let (_, walks_on, _) = WRONG[0];
    let Err(Stop::Wrong(why)) = dropped::all(&mut Wrong(walks_on)) else { panic!("it was not found") };
    assert!(why.starts_with("with 'executed by at least Q honest nodes' the read ended otherwise"), "{why}");
    // a reader that spends its rounds in the first breaks nothing: a run that should break the sentence is told
    let Err(Stop::Wrong(why)) = dropped::all(&mut Wrong(one_round)) else { panic!("it was not found") };
    assert!(why.starts_with("without 'executed by at least Q honest nodes' the sentence holds"), "{why}");
}

fn one_round(call: Call) -> Outcome {
    let outcome = right(&call);
    if call.kind != Kind::ReadReply || outcome.lent[0][2..4] == call.lent[0][2..4] {
        return outcome;
    }
    let session = wire::session_from(&call.lent[0]).unwrap().ended();
    let lent = [&[wire::session_bytes(&session).to_vec()], &call.lent[1..]].concat();
    Outcome { number: ROUNDS_SPENT, lent }
}
