//! Writing (document 01, "The client"; Figure 2 of the report): a time round, whose time is that of document 02, Q-2; then a write round.

use crate::code::encode;
use crate::frame::Body;
use crate::plan::Plan;
use crate::record::{records, Timestamp};
use crate::refusal::Refusal;
use crate::session::{fill, Answer, Mark, Operation, Session};

/// A reply to a writer; order 1, 2, 9, 14, 4, 10, 11. The item that is saved is the one lent with the reply that ends the time round.
pub fn reply(
    plan: &Plan,
    session: &Session,
    reply: &[u8],
    desk: &mut [u8],
    item: &[u8],
) -> Result<(Session, Answer), Refusal> {
    let frame = session.hear(plan, Operation::Write, reply, desk, item)?;
    let (mut next, over) = session.marked(plan, frame.node, Mark::Record);
    match frame.body {
        Body::TimeReply(time) => {
            next.times[frame.node] = time;
            if !over {
                return Ok((next, Answer::Open));
            }
            let Some(time) = passed(plan, &next).checked_add(1) else {
                return Ok((next.ended(), Answer::ClockSpent));
            };
            let stamp = prepare(plan, desk, item, time);
            Ok((next.storing(stamp), Answer::Open))
        }
        _ if over => {
            let stamp = next.stamp;
            Ok((next.ended(), Answer::Done { stamp, rounds: 0 }))
        }
        _ => Ok((next, Answer::Open)),
    }
}

/// The (b+1)-th greatest of the N-t time replies, "equal values counted each" (document 02, Q-2): in falling order, the one after b. There
/// is one, since N-t is above b in every accepted plan.
fn passed(plan: &Plan, session: &Session) -> u64 {
    let heard = |node: &usize| session.marks[*node] != Mark::Unheard;
    let mut times: Vec<u64> = (0..plan.n).filter(heard).map(|node| session.times[node]).collect();
    times.sort_unstable_by(|one, other| other.cmp(one));
    times[plan.b]
}

/// Fills the desk with all N records of the item at this time, and gives their timestamp.
fn prepare(plan: &Plan, desk: &mut [u8], item: &[u8], time: u64) -> Timestamp {
    let records = records(time, encode(plan, item));
    fill(plan, desk, &records);
    records[0].stamp
}
