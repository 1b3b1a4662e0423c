//! The driver itself: it agrees with us, it catches a library that is wrong in one place, on a wish and on a run too, and stored cases come back.

use second::cases;
use second::craft::Size;
use second::driver::{Driver, Stop};
use second::gen::histories;
use second::library::{Call, Kind, Library, Second};
use second::plan::NODES;
use second::run::cut;
use second::wish::Wish;
use second::{runs, wire, wishes};

/// The answer and one slice after a call of this name, made wrong.
type Fault = fn(&str, u32, &mut [u8]) -> u32;

/// Another way to the smallest plan.
type Smallest = fn(u8, u64, u64, u64, &mut [u8]) -> u32;

/// Another rule for the time that a new one is above: of b, of the times heard, and of the entries of unheard nodes.
type Rule = fn(usize, &[u64], &[u64]) -> u64;

/// Another way through a run: its plan, run, book, replies, numbers and what is told.
type Run = fn(&[u8], &[u8], &mut [u8], &mut [u8], &mut [u8], &mut [u8]) -> u32;

/// Our own program with a fault.
struct Faulty {
    fault: Fault,
    smallest: Smallest,
    run: Run,
    rule: Option<Rule>,
}

const FAULTLESS: Faulty =
    Faulty { fault: |_, number, _| number, smallest: wire::smallest_plan, run: wire::run, rule: None };

/// A session and a time reply with which our own program, too, comes to the time of another rule: all that were heard say it.
fn by_rule(rule: Rule, b: u8, session: &[u8], reply: &[u8]) -> (Vec<u8>, Vec<u8>) {
    let (mut session, mut reply) = (session.to_vec(), reply.to_vec());
    let entry = |node: usize| wire::TIMES + 8 * node;
    let time = |bytes: &[u8], at: usize| u64::from_be_bytes(bytes[at..at + 8].try_into().unwrap());
    let (heard, unheard): (Vec<usize>, Vec<usize>) = (0..16).partition(|node| session[wire::MARKS + node] != 0);
    let mut said: Vec<u64> = heard.iter().map(|node| time(&session, entry(*node))).collect();
    said.push(time(&reply, 15));
    let other = unheard.into_iter().filter(|node| *node != usize::from(reply[6]));
    let other: Vec<u64> = other.map(|node| time(&session, entry(node))).collect();
    let all = rule(usize::from(b), &said, &other).to_be_bytes();
    heard.iter().for_each(|node| session[entry(*node)..][..8].copy_from_slice(&all));
    reply[15..23].copy_from_slice(&all);
    (session, reply)
}

impl Library for Faulty {
    fn fresh_book(&mut self, plan: &[u8], node: u64, book: &mut [u8]) -> u32 {
        let number = Second.fresh_book(plan, node, book);
        (self.fault)("fresh_book", number, book)
    }
    fn node(&mut self, plan: &[u8], request: &[u8], book: &mut [u8], reply: &mut [u8]) -> u32 {
        let number = Second.node(plan, request, book, reply);
        (self.fault)("node", number, reply)
    }
    fn run(
        &mut self,
        plan: &[u8],
        run: &[u8],
        book: &mut [u8],
        replies: &mut [u8],
        numbers: &mut [u8],
        told: &mut [u8],
    ) -> u32 {
        (self.run)(plan, run, book, replies, numbers, told)
    }
    fn open_write(&mut self, plan: &[u8], ask: u64, session: &mut [u8]) -> u32 {
        Second.open_write(plan, ask, session)
    }
    fn open_read(&mut self, plan: &[u8], ask: u64, session: &mut [u8]) -> u32 {
        Second.open_read(plan, ask, session)
    }
    fn owed(&mut self, plan: &[u8], session: &[u8], node: u64, desk: &[u8], request: &mut [u8]) -> u32 {
        let number = Second.owed(plan, session, node, desk, request);
        (self.fault)("owed", number, request)
    }
    fn write_reply(
        &mut self,
        plan: &[u8],
        session: &mut [u8],
        reply: &[u8],
        desk: &mut [u8],
        item: &[u8],
        ending: &mut [u8],
    ) -> u32 {
        let timed =
            session.len() == wire::SESSION && session[..2] == [0, 0] && reply.len() == 23 && plan.len() == wire::PLAN;
        let Some(rule) = self.rule.filter(|_| timed) else {
            let number = Second.write_reply(plan, session, reply, desk, item, ending);
            return (self.fault)("write_reply", number, ending);
        };
        let mut times = session[wire::TIMES..wire::STAMP].to_vec();
        let (mut other, told) = by_rule(rule, plan[2], session, reply);
        let number = Second.write_reply(plan, &mut other, &told, desk, item, ending);
        if number == 0 || number > 100 {
            times[8 * usize::from(reply[6])..][..8].copy_from_slice(&reply[15..]);
            session.copy_from_slice(&other);
            session[wire::TIMES..wire::STAMP].copy_from_slice(&times);
        }
        number
    }
    fn read_reply(
        &mut self,
        plan: &[u8],
        session: &mut [u8],
        reply: &[u8],
        desk: &mut [u8],
        item: &mut [u8],
        ending: &mut [u8],
    ) -> u32 {
        let number = Second.read_reply(plan, session, reply, desk, item, ending);
        (self.fault)("read_reply", number, item)
    }
    fn smallest_plan(&mut self, member: u8, t: u64, b: u64, m: u64, counts: &mut [u8]) -> u32 {
        let number = (self.smallest)(member, t, b, m, counts);
        (self.fault)("smallest_plan", number, counts)
    }
}

fn run(other: &mut dyn Library, calls: u64) -> Stop {
    histories(5, Size::Any, &mut Driver::new(&mut Second, other, 5, calls))
}

#[test]
fn we_agree_with_ourselves() {
    assert_eq!(run(&mut Second, 30_000), Stop::Enough);
}

#[test]
fn a_wrong_library_is_caught() {
    let faults: [Fault; 5] = [
        |_, number, _| if number == 12 { 6 } else { number },
        |call, number, _| {
            if call == "write_reply" && number == 105 {
                101
            } else {
                number
            }
        },
        |call, number, bytes| {
            if let ("node", 0, Some(last)) = (call, number, bytes.last_mut()) {
                *last ^= 1;
            }
            number
        },
        |call, number, bytes| {
            if let ("read_reply", 102, Some(last)) = (call, number, bytes.last_mut()) {
                *last ^= 1;
            }
            number
        },
        |call, number, bytes| {
            if let ("smallest_plan", 2, [first, ..]) = (call, number, bytes) {
                *first ^= 1;
            }
            number
        },
    ];
    for fault in faults {
        let Stop::Wrong(why) = run(&mut Faulty { fault, ..FAULTLESS }, 200_000) else { panic!("a fault was not met") };
        assert!(why.starts_with("seed 5, call "), "{why}");
    }
}

fn falling(mut times: Vec<u64>) -> Vec<u64> {
    times.sort_unstable_by(|one, other| other.cmp(one));
    times
}

/// Near misses of document 02's Q-2. By the rule itself the same detour agrees.
#[test]
fn a_wrong_time_is_caught() {
    let right: Rule = |b, said, _| falling(said.to_vec()).get(b).copied().unwrap_or(0);
    assert_eq!(run(&mut Faulty { rule: Some(right), ..FAULTLESS }, 30_000), Stop::Enough);
    let wrong: [(&str, Rule); 6] = [
        ("the greatest", |_, said, _| falling(said.to_vec())[0]),
        ("the second greatest, whatever b", |_, said, _| falling(said.to_vec()).get(1).copied().unwrap_or(said[0])),
        ("the b-th greatest", |b, said, _| falling(said.to_vec()).get(b.saturating_sub(1)).copied().unwrap_or(0)),
        ("the (b+2)-th greatest", |b, said, _| falling(said.to_vec()).get(b + 1).copied().unwrap_or(0)),
        ("equal values counted once", |b, said, _| {
            let mut times = falling(said.to_vec());
            times.dedup();
            times.get(b).or(times.last()).copied().unwrap_or(0)
        }),
        ("entries of unheard nodes counted", |b, said, other| falling([said, other].concat())[b]),
    ];
    for (name, rule) in wrong {
        let stop = run(&mut Faulty { rule: Some(rule), ..FAULTLESS }, 200_000);
        assert!(matches!(stop, Stop::Wrong(_)), "{name} was not met");
    }
}

/// Table 2 with sums of 64 bits that pass the end.
fn wrapping(member: u8, t: u64, b: u64, m: u64, counts: &mut [u8]) -> u32 {
    let number = wire::smallest_plan(member, t, b, m, counts);
    let times = u64::from(member) + 1;
    let liars = t.wrapping_add(b);
    for (n, q) in (1..=NODES).flat_map(|n| (0..=NODES).map(move |q| (n, q))).filter(|_| number == 20) {
        let (nodes, quorum) = (u64::from(n), u64::from(q));
        let most = if member == 0 { quorum.wrapping_sub(t) } else { quorum.wrapping_add(b) };
        if liars < quorum && quorum.wrapping_add(liars.wrapping_mul(times)) <= nodes && m <= most {
            counts.copy_from_slice(&[n, q]);
            return 0;
        }
    }
    number
}

#[test]
fn a_wrong_wish_is_caught() {
    let line = wishes::compare(&mut Second, &mut Second, 5).expect("no difference");
    assert!(line.starts_with("18522 with t, b, m 0 to 20: ") && line.contains("; 10000 of 64 bits: "), "{line}");
    let narrow: Smallest = |member, t, b, m, counts| wire::smallest_plan(member, t as u32 as u64, b, m, counts);
    let greater_q: Fault = |call, number, bytes| {
        if let ("smallest_plan", 0, [16, q]) = (call, number, bytes) {
            *q += 1;
        }
        number
    };
    for mut wrong in [
        Faulty { fault: greater_q, ..FAULTLESS },
        Faulty { fault: |_, number, _| if number == 20 { 1 } else { number }, ..FAULTLESS },
        Faulty { smallest: narrow, ..FAULTLESS },
        Faulty { smallest: wrapping, ..FAULTLESS },
    ] {
        let why = wishes::compare(&mut Second, &mut wrong, 5).expect_err("a fault was not met");
        assert!(why.starts_with("seed 5, call ") && why.contains("\n  wish member "), "{why}");
    }
}

/// The bytes of a run up to its first frame that its node refuses.
fn until_refused(plan: &[u8], run: &[u8], book: &[u8]) -> usize {
    let (mut book, mut end) = (book.to_vec(), 0);
    for frame in cut(run).0 {
        let mut reply = vec![0; 2000];
        if wire::node(plan, frame, &mut book, &mut reply) != 0 {
            break;
        }
        end += frame.len();
    }
    end
}

/// Near misses of document 02's Q-3.
#[test]
fn a_wrong_run_is_caught() {
    let wrong: [(&str, Run); 8] = [
        ("a refused frame ends the run", |plan, run, book, replies, numbers, told| {
            let end = until_refused(plan, run, book);
            let (mut a, mut b, mut c, mut d) = (book.to_vec(), replies.to_vec(), numbers.to_vec(), told.to_vec());
            let end = if wire::run(plan, run, &mut a, &mut b, &mut c, &mut d) == 0 { end } else { run.len() };
            wire::run(plan, &run[..end], book, replies, numbers, told)
        }),
        ("a refused frame is told as accepted", |plan, run, book, replies, numbers, told| {
            let number = wire::run(plan, run, book, replies, numbers, told);
            if number == 0 {
                numbers[..cut(run).0.len()].iter_mut().filter(|number| **number == 8).for_each(|number| *number = 0);
            }
            number
        }),
        ("a length of 10 is a frame's", |plan, run, book, replies, numbers, told| {
            let number = wire::run(plan, run, book, replies, numbers, told);
            let (frames, place) = cut(run);
            if number == 0 && run[place..].starts_with(&[0, 0, 0, 10]) && run.len() - place >= 14 {
                told[7] = told[7].wrapping_add(1);
                numbers[frames.len()..].iter_mut().take(1).for_each(|number| *number = 4);
            }
            number
        }),
        ("the rest has the length's 4 bytes in it", |plan, run, book, replies, numbers, told| {
            let number = wire::run(plan, run, book, replies, numbers, told);
            let rest = &run[cut(run).1..];
            let says = rest.first_chunk().map_or(0, |length| u32::from_be_bytes(*length) as usize);
            if number == 0 && says >= 11 && says <= rest.len() {
                told[16..].copy_from_slice(&(run.len() as u64).to_be_bytes());
            }
            number
        }),
        ("the place is the run's length", |plan, run, book, replies, numbers, told| {
            let number = wire::run(plan, run, book, replies, numbers, told);
            if number == 0 {
                told[16..].copy_from_slice(&(run.len() as u64).to_be_bytes());
            }
            number
        }),
        ("21 after 3", |plan, run, book, replies, numbers, told| {
            match wire::run(plan, run, book, replies, numbers, told) {
                21 if wire::run(plan, &[], &mut book.to_vec(), &mut [], &mut [], &mut [0; 24]) == 3 => 3,
                number => number,
            }
        }),
        ("2 for too little room", |plan, run, book, replies, numbers, told| {
            match wire::run(plan, run, book, replies, numbers, told) {
                21 => 2,
                number => number,
            }
        }),
        ("a byte past the replies", |plan, run, book, replies, numbers, told| {
            let number = wire::run(plan, run, book, replies, numbers, told);
            if let (0, Some(last)) = (number, replies.last_mut()) {
                *last = 0;
            }
            number
        }),
    ];
    for (name, run) in wrong {
        let why = runs::compare(&mut Second, &mut Faulty { run, ..FAULTLESS }, 5).expect_err(name);
        assert!(why.starts_with("seed 5, call "), "{name}: {why}");
    }
}

/// Two libraries that go wrong alike in a run still differ from their own answers to its frames singly.
#[test]
fn a_run_is_as_its_frames_singly() {
    let run: Run = |plan, run, book, replies, numbers, told| {
        let number = wire::run(plan, run, book, replies, numbers, told);
        if number == 0 {
            numbers[..cut(run).0.len()].iter_mut().filter(|number| **number == 5).for_each(|number| *number = 6);
        }
        number
    };
    let (mut one, mut other) = (Faulty { run, ..FAULTLESS }, Faulty { run, ..FAULTLESS });
    let why = runs::compare(&mut one, &mut other, 5).expect_err("a fault was not met");
    assert!(why.contains("run: not as singly: "), "{why}");
}

#[test]
fn stored_cases_come_back() {
    let (mut lines, mut met) = (Vec::new(), std::collections::BTreeSet::new());
    let stop = cases::pick(9, 3, &mut |call, outcome| {
        met.insert((call.kind as usize, outcome.number));
        lines.push((cases::asked(call), cases::answered(call, outcome)));
    });
    assert_eq!(stop, Stop::Enough);
    let all: usize = Kind::ALL.iter().map(|kind| kind.answers().len()).sum();
    assert_eq!(met.len(), all, "a stored case of every answer of every call");
    for (asked, answered) in &lines {
        let call = cases::parse(asked).expect("a stored case");
        assert_eq!(cases::asked(&call), *asked);
        assert_eq!(cases::replay(&mut Second, asked), Some(answered.clone()));
    }
    let asked = &lines[0].0;
    for changed in [format!("{asked}0"), format!("{asked} -"), format!("0{asked}"), format!("0a{}", &asked[2..])] {
        assert_eq!(cases::replay(&mut Second, &changed), None);
    }
}

#[test]
fn a_stored_wish_has_25_bytes() {
    let call = Call::of_wish(Wish { member: 1, t: 1, b: 1, m: 4 }, vec![9, 9]);
    let asked = cases::asked(&call);
    let wish = "01000000000000000100000000000000010000000000000004";
    assert_eq!(asked, format!("08 0000000000000000 {wish} 0909 - - - -"));
    assert_eq!(cases::parse(&asked), Some(call));
    assert_eq!(cases::replay(&mut Second, &asked).as_deref(), Some("0 0703 . . . ."));
    for other in [&wish[2..], &wish[16..], "-", &format!("{wish}00"), &wish.repeat(2)] {
        assert_eq!(cases::replay(&mut Second, &asked.replace(wish, other)), None, "{other}");
    }
    assert_eq!(cases::replay(&mut Second, &asked.replacen("0000 ", "0001 ", 1)), None, "a number");
}
