//! Reading (document 01, "The client"; Figure 3 of the report): read rounds that walk down, and at most one repair round.

use crate::code::{cross_checksum, decode, regenerate, Share};
use crate::frame::Body;
use crate::plan::{Class, Clients, Member, Plan};
use crate::record::{under, Record, Timestamp};
use crate::refusal::{require, Refusal};
use crate::session::{fill, put, slot, Answer, Mark, Operation, Session};

/// A reply to a reader; order 1, 2, 9, 14, 4, 10, 11, 5, 6, 12.
pub fn reply(
    plan: &Plan,
    session: &Session,
    reply: &[u8],
    desk: &mut [u8],
    item: &mut [u8],
) -> Result<(Session, Answer), Refusal> {
    let frame = session.hear(plan, Operation::Read, reply, desk, item)?;
    let Body::ReadReply(record) = frame.body else {
        return Ok(repaired(plan, session, frame.node, desk, item));
    };
    let mark = match &record {
        None => Mark::FirstTriple,
        Some(record) => {
            require(record.stamp.time >= 1, Refusal::Time)?;
            require(record.hashes_right(frame.node), Refusal::Hash)?;
            require(session.bound.is_none_or(|bound| record.stamp < bound), Refusal::Bound)?;
            put(plan, desk, frame.node, record);
            Mark::Record
        }
    };
    let (next, over) = session.marked(plan, frame.node, mark);
    Ok(if over { closed(plan, next, desk, item) } else { (next, Answer::Open) })
}

/// A write reply in the repair round; at its end the item is read from the desk's first m slots.
fn repaired(plan: &Plan, session: &Session, node: usize, desk: &[u8], item: &mut [u8]) -> (Session, Answer) {
    let (next, over) = session.marked(plan, node, Mark::Record);
    if !over {
        return (next, Answer::Open);
    }
    for (number, run) in item.chunks_exact_mut(plan.f).enumerate() {
        run.copy_from_slice(&Record::from_bytes(plan, slot(plan, desk, number)).fragment);
    }
    let answer = Answer::Done { stamp: next.stamp, rounds: next.round };
    (next.ended(), answer)
}

/// The candidate of a closed round with its set.
struct Candidate {
    stamp: Timestamp,
    checksum: Vec<u8>,
    /// In node order.
    set: Vec<(usize, Record)>,
}

impl Candidate {
    /// The greatest timestamp, and the replies that bear it with the cross checksum of the lowest-numbered of them; none when every
    /// reply is the first triple.
    fn choose(plan: &Plan, session: &Session, desk: &[u8]) -> Option<Candidate> {
        let heard: Vec<(usize, Record)> = (0..plan.n)
            .filter(|node| session.marks[*node] == Mark::Record)
            .map(|node| (node, Record::from_bytes(plan, slot(plan, desk, node))))
            .collect();
        let stamp = heard.iter().map(|(_, record)| record.stamp).max()?;
        let checksum = heard.iter().find(|(_, record)| record.stamp == stamp)?.1.checksum.clone();
        let set =
            heard.into_iter().filter(|(_, record)| record.stamp == stamp && record.checksum == checksum).collect();
        Some(Candidate { stamp, checksum, set })
    }

    /// The m lowest-numbered of the set.
    fn shares(&self, plan: &Plan) -> Vec<Share<'_>> {
        self.set[..plan.m].iter().map(|(node, record)| (*node, &record.fragment[..])).collect()
    }

    fn valid(&self, plan: &Plan) -> bool {
        match plan.clients {
            Clients::Crash => true,
            Clients::Byzantine => cross_checksum(&regenerate(plan, &self.shares(plan))) == self.checksum,
        }
    }
}

/// The end of a read round. The closing reply's own record lies in its slot already.
fn closed(plan: &Plan, session: Session, desk: &mut [u8], item: &mut [u8]) -> (Session, Answer) {
    let rounds = session.round;
    let Some(candidate) = Candidate::choose(plan, &session, desk) else {
        return (session.ended(), Answer::NeverWritten { rounds });
    };
    let stamp = candidate.stamp;
    match plan.class(candidate.set.len()) {
        Class::Complete if candidate.valid(plan) => {
            item.copy_from_slice(&decode(plan, &candidate.shares(plan)));
            (session.ended(), Answer::Done { stamp, rounds })
        }
        Class::Unclassifiable if plan.member == Member::NonRepair => (session.ended(), Answer::Aborted { rounds }),
        Class::Unclassifiable if candidate.valid(plan) => {
            let fragments = regenerate(plan, &candidate.shares(plan));
            fill(plan, desk, &under(stamp, &candidate.checksum, fragments));
            (session.storing(stamp), Answer::Open)
        }
        _ if usize::from(rounds) == plan.w => (session.ended(), Answer::RoundsSpent { rounds }),
        _ => (session.below(stamp), Answer::Open),
    }
}
