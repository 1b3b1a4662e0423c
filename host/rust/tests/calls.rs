//! The calls through this crate, against the linked archive: a save and an open, each ending, and refusals with the bytes that stay. Runs are in run.rs.

use pasis::{Answer, Clients, Member, Operation, Plan, Refusal, Session, Stage, Timestamp};

/// N books in memory, and the buffers of one client.
struct House {
    plan: Plan,
    books: Vec<Vec<u8>>,
    desk: Vec<u8>,
    ask: u64,
}

fn small() -> Plan {
    Plan { f: 4, w: 3, ..Plan::default() }
}

impl House {
    fn new(plan: Plan) -> House {
        let books = (0..u64::from(plan.n)).map(|node| {
            let mut book = vec![0; plan.book_size(4)];
            pasis::fresh_book(&plan, node, &mut book).expect("a fresh book");
            book
        });
        House { plan, books: books.collect(), desk: vec![0; plan.desk_size()], ask: 1 }
    }

    /// What node says to the request that the session owes it.
    fn reply(&mut self, session: &Session, node: usize) -> Result<Vec<u8>, Refusal> {
        let mut request = vec![0; self.plan.frame_size()];
        let mut reply = request.clone();
        let asked = pasis::owed(&self.plan, session, node as u64, &self.desk, &mut request)?;
        let told = pasis::node(&self.plan, &request[..asked], &mut self.books[node], &mut reply)?;
        Ok(reply[..told].to_vec())
    }

    /// Asks these nodes in turn until the operation ends; `Open` if it does not. Each node's number counts once a pass.
    fn drive(
        &mut self,
        mut session: Session,
        nodes: &[usize],
        mut hear: impl FnMut(&Plan, Session, &[u8], &mut [u8]) -> (Session, Result<Answer, Refusal>),
    ) -> Answer {
        for _ in 0..=self.plan.w {
            for node in nodes {
                let Ok(frame) = self.reply(&session, *node) else { continue };
                let (next, answer) = hear(&self.plan, session, &frame, &mut self.desk);
                session = next;
                match answer {
                    Ok(Answer::Open) | Err(_) => {}
                    Ok(ending) => return ending,
                }
            }
        }
        Answer::Open
    }

    fn take_ask(&mut self) -> u64 {
        self.ask += u64::from(self.plan.w) + 1;
        self.ask - u64::from(self.plan.w) - 1
    }

    fn save(&mut self, item: &[u8], nodes: &[usize]) -> Answer {
        let ask = self.take_ask();
        let session = pasis::open_write(&self.plan, ask).expect("opened");
        self.drive(session, nodes, |plan, session, reply, desk| pasis::write_reply(plan, session, reply, desk, item))
    }

    fn open(&mut self, nodes: &[usize]) -> (Answer, Vec<u8>) {
        let ask = self.take_ask();
        let session = pasis::open_read(&self.plan, ask).expect("opened");
        let mut item = vec![0xee; self.plan.item_size()];
        let answer = self.drive(session, nodes, |plan, session, reply, desk| {
            pasis::read_reply(plan, session, reply, desk, &mut item)
        });
        (answer, item)
    }

    /// Stores at these nodes alone what a save of theirs would, and leaves it there: a client that stopped.
    fn cut_off(&mut self, item: &[u8], store: &[usize]) {
        let ask = self.take_ask();
        let mut session = pasis::open_write(&self.plan, ask).expect("opened");
        for node in 0..self.plan.replies() {
            let frame = self.reply(&session, node).expect("a time");
            session = pasis::write_reply(&self.plan, session, &frame, &mut self.desk, item).0;
        }
        assert_eq!(session.stage(), Some(Stage::Storing));
        for node in store {
            self.reply(&session, *node).expect("stored");
        }
    }
}

fn done(answer: Answer) -> (Timestamp, u16) {
    match answer {
        Answer::Done { timestamp, rounds } => (timestamp, rounds),
        other => panic!("{other:?} where done was awaited"),
    }
}

const ALL: [usize; 5] = [0, 1, 2, 3, 4];

#[test]
fn the_archive_is_of_this_interface() {
    assert_eq!(pasis::interface(), pasis::INTERFACE);
    assert_eq!(pasis::plan_size(), pasis::PLAN_SIZE);
    assert_eq!(pasis::session_size(), pasis::SESSION_SIZE);
    assert_eq!(pasis::ending_size(), pasis::ENDING_SIZE);
}

#[test]
fn a_save_and_an_open_with_a_silent_node() {
    let mut house = House::new(small());
    let (first, rounds) = done(house.save(b"one leaf", &[0, 1, 2, 4]));
    assert_eq!((first.time(), rounds), (1, 0));
    assert_eq!(done(house.save(b"two leaf", &[1, 2, 3, 4])).0.time(), 2);
    let (answer, item) = house.open(&[4, 3, 1, 0]);
    assert_eq!((done(answer).0.time(), item.as_slice()), (2, &b"two leaf"[..]));
}

#[test]
fn never_written_and_a_round_that_does_not_end() {
    let mut house = House::new(small());
    assert_eq!(house.open(&ALL), (Answer::NeverWritten { rounds: 1 }, vec![0xee; 8]));
    assert_eq!(house.open(&[0, 1, 2]).0, Answer::Open);
}

#[test]
fn an_incomplete_save_is_walked_past_and_an_unclassifiable_one_repaired() {
    let mut house = House::new(small());
    let (kept, _) = done(house.save(b"one leaf", &ALL));
    house.cut_off(b"two leaf", &[0]);
    let (answer, item) = house.open(&ALL);
    assert_eq!((done(answer), item.as_slice()), ((kept, 2), &b"one leaf"[..]));
    done(house.save(b"ten leaf", &ALL));
    house.cut_off(b"six leaf", &[1, 2]);
    let (answer, item) = house.open(&ALL);
    let (repaired, rounds) = done(answer);
    assert_eq!((repaired.time(), rounds, item.as_slice()), (3, 1, &b"six leaf"[..]));
    assert_eq!(done(house.open(&[0, 2, 3, 1]).0), (repaired, 1));
}

#[test]
fn aborted() {
    let member = Member::NonRepair;
    let mut house = House::new(Plan { n: 7, q: 3, m: 4, member, clients: Clients::Byzantine, ..small() });
    house.plan.check().expect("document 01's second plan");
    house.cut_off(b"four by four run", &[0, 1, 2]);
    assert_eq!(house.open(&[0, 1, 2, 3, 4, 5]).0, Answer::Aborted { rounds: 1 });
}

#[test]
fn rounds_spent() {
    let mut house = House::new(Plan { w: 1, ..small() });
    house.cut_off(b"one leaf", &[0]);
    assert_eq!(house.open(&ALL), (Answer::RoundsSpent { rounds: 1 }, vec![0xee; 8]));
}

/// A write that has heard these times from nodes 0 on, and its last answer.
fn told(plan: &Plan, times: &[u64]) -> (Session, Result<Answer, Refusal>) {
    let (mut desk, item) = (vec![0; plan.desk_size()], vec![7; plan.item_size()]);
    let mut told = (pasis::open_write(plan, 9).expect("opened"), Ok(Answer::Open));
    for (node, time) in times.iter().enumerate() {
        let mut reply = vec![0, 0, 0, 19, 1, 2, node as u8];
        reply.extend(9u64.to_be_bytes());
        reply.extend(time.to_be_bytes());
        told = pasis::write_reply(plan, told.0, &reply, &mut desk, &item);
    }
    told
}

/// Document 02, Q-2: the second greatest of four replies counts where b is 1.
#[test]
fn one_lying_node_does_not_spend_the_clock() {
    for (times, time) in [([u64::MAX, 9, 9, 4], 10), ([7, 9, 9, 4], 10), ([10, 4, 4, 4], 5)] {
        let (session, answer) = told(&small(), &times);
        assert_eq!((session.stage(), answer), (Some(Stage::Storing), Ok(Answer::Open)));
        assert_eq!(session.writing().time(), time, "{times:?}");
        let kept: Vec<Option<u64>> = (0..5).map(|node| session.time_told(node)).collect();
        assert_eq!(kept, [&times[..], &[0]].concat().into_iter().map(Some).collect::<Vec<_>>());
        assert_eq!((session.time_told(15), session.time_told(16)), (Some(0), None));
    }
}

#[test]
fn clock_spent() {
    let (session, answer) = told(&small(), &[u64::MAX, 9, 4, u64::MAX]);
    assert_eq!((session.stage(), answer), (Some(Stage::Ended), Ok(Answer::ClockSpent)));
    let plan = Plan { n: 1, t: 0, b: 0, q: 1, m: 1, ..small() };
    let (session, answer) = told(&plan, &[u64::MAX]);
    assert_eq!((session.stage(), answer), (Some(Stage::Ended), Ok(Answer::ClockSpent)));
    let (_, answer) = pasis::write_reply(&plan, session, &[], &mut vec![0; plan.desk_size()], b"leaf");
    assert_eq!(answer, Err(Refusal::Ended));
}

#[test]
fn refusals_of_plans_and_openings() {
    assert_eq!(Plan { m: 3, ..small() }.check(), Err(Refusal::Plan));
    assert_eq!(Plan { n: 0, t: 9, ..small() }.check(), Err(Refusal::Plan));
    assert_eq!(pasis::open_write(&small(), u64::MAX - 2), Err(Refusal::Ask));
    let session = pasis::open_read(&small(), u64::MAX - 3).expect("the last that fits");
    assert_eq!((session.operation(), session.round(), session.bound()), (Some(Operation::Read), 1, None));
}

#[test]
fn refusals_at_the_node_leave_book_and_reply() {
    let plan = small();
    let mut book = [7; 10];
    assert_eq!(pasis::fresh_book(&plan, 0, &mut book), Err(Refusal::Length));
    assert_eq!(pasis::fresh_book(&plan, 5, &mut [7; 99]), Err(Refusal::Frame));
    assert_eq!(book, [7; 10]);
    let mut book = vec![0; plan.book_size(1)];
    let mut reply = vec![0xaa; plan.frame_size()];
    let ask = [0, 0, 0, 11, 1, 5, 0, 0, 0, 0, 0, 0, 0, 0, 3];
    assert_eq!(pasis::node(&plan, &ask, &mut book, &mut reply), Err(Refusal::Book));
    pasis::fresh_book(&plan, 1, &mut book).expect("a fresh book");
    let before = book.clone();
    assert_eq!(pasis::node(&plan, &ask, &mut book, &mut reply), Err(Refusal::Frame));
    assert_eq!(pasis::node(&plan, &ask, &mut book, &mut reply[1..]), Err(Refusal::Length));
    assert_eq!((book, reply), (before, vec![0xaa; plan.frame_size()]));
}

#[test]
fn refusals_at_the_client_hand_the_session_back() {
    let mut house = House::new(small());
    done(house.save(b"one leaf", &ALL));
    let session = pasis::open_read(&house.plan, 50).expect("opened");
    let good = house.reply(&session, 2).expect("a reply");
    let mut bad = good.clone();
    *bad.last_mut().expect("a fragment") ^= 1;
    let mut desk = vec![0; house.plan.desk_size()];
    let mut item = [0; 8];
    let mut hear = |session, reply: &[u8]| pasis::read_reply(&house.plan, session, reply, &mut desk, &mut item);
    let before = *session.as_bytes();
    let (session, answer) = hear(session, &bad);
    assert_eq!((*session.as_bytes(), answer), (before, Err(Refusal::Hash)));
    let (session, answer) = hear(session, &good);
    assert_eq!(answer, Ok(Answer::Open));
    let (session, answer) = hear(session, &good);
    assert_eq!(answer, Err(Refusal::Heard));
    let (session, answer) = hear(session, &good[1..]);
    assert_eq!(answer, Err(Refusal::Frame));
    let (session, answer) = pasis::write_reply(&house.plan, session, &good, &mut house.desk, b"one leaf");
    assert_eq!(answer, Err(Refusal::Session));
    let (_, answer) = pasis::read_reply(&house.plan, session, &good, &mut house.desk, &mut [0; 7]);
    assert_eq!(answer, Err(Refusal::Length));
    let none = Session::from_bytes([9; pasis::SESSION_SIZE]);
    assert_eq!(none.stage(), None);
    assert_eq!(pasis::owed(&house.plan, &none, 0, &house.desk, &mut [0; 300]), Err(Refusal::Session));
}

#[test]
fn every_refusal_has_its_number_and_words() {
    assert_eq!(Refusal::Plan.number(), 1);
    assert_eq!(Refusal::Ended.number(), 14);
    assert_eq!(Refusal::Hash.to_string(), "refusal 6: a hash check fails");
    assert_eq!(Refusal::Wish.number(), 20);
    assert_eq!(Refusal::Wish.to_string(), "refusal 20: no N and Q up to 16 are accepted for this wish");
    assert_eq!(Refusal::Run.number(), 21);
    assert_eq!(
        Refusal::Run.to_string(),
        "refusal 21: under R+15 reply bytes or one number place for each frame of the run"
    );
    assert_eq!(Refusal::Other(19).to_string(), "refusal 19: not a number of this interface");
}

/// Sizes of what no plan has are large, not wrong, and nothing panics.
#[test]
fn sizes_of_huge_values() {
    let plan = Plan { n: 255, t: 0, q: 0, f: u16::MAX, ..Plan::default() };
    assert_eq!((plan.book_size(usize::MAX), plan.replies_size(usize::MAX)), (usize::MAX, usize::MAX));
    let plan = Plan { n: 1, t: 255, q: 1, ..plan };
    assert_eq!((plan.replies(), plan.incomplete()), (0, 0));
    let session = pasis::open_read(&small(), 1).expect("a session");
    assert_eq!((session.mark(16), session.mark(usize::MAX)), (None, None));
}
