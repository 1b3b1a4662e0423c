//! Safe calls of the proved library `libpasis.a`. `host/pasis.h` is the manual: what each call does, its order of refusals, and what the
//! caller owes (ask numbers, channels, one desk a session, the book on disk before the reply is sent). This crate adds types and no rule.
//!
//! A slice of a wrong length is not an error of its own here: the library refuses it, with [`Refusal::Length`] or the number that
//! document 01 gives, and leaves every byte as it came.
//!
//! ```
//! let wish = pasis::Wish { member: pasis::Member::Repairable, t: 0, b: 0, m: 1 };
//! let plan = wish.plan(4, pasis::Clients::Crash, 1)?;
//! assert_eq!(plan.n, 1);
//! let mut book = vec![0; plan.book_size(8)];
//! let mut desk = vec![0; plan.desk_size()];
//! let (mut request, mut reply) = (vec![0; plan.frame_size()], vec![0; plan.frame_size()]);
//! pasis::fresh_book(&plan, 0, &mut book)?;
//! let mut session = pasis::open_write(&plan, 1)?;
//! loop {
//!     let asked = pasis::owed(&plan, &session, 0, &desk, &mut request)?;
//!     let told = pasis::node(&plan, &request[..asked], &mut book, &mut reply)?;
//!     let (next, answer) = pasis::write_reply(&plan, session, &reply[..told], &mut desk, b"leaf");
//!     session = next;
//!     if let pasis::Answer::Done { timestamp, .. } = answer? {
//!         assert_eq!(timestamp.time(), 1);
//!         break;
//!     }
//! }
//! # Ok::<(), pasis::Refusal>(())
//! ```

mod answer;
mod calls;
mod plan;
mod run;
mod session;
mod wish;

pub use answer::{Answer, Refusal, Timestamp, ENDING_SIZE};
pub use calls::{fresh_book, node, open_read, open_write, owed, read_reply, run, write_reply};
pub use plan::{Clients, Member, Plan, BOOK_LEAST, BOOK_MOST, PLAN_SIZE};
pub use run::{Ran, TOLD_SIZE};
pub use session::{Mark, Operation, Session, Stage, SESSION_SIZE};
pub use wish::{Counts, Wish, COUNTS_SIZE};

/// The interface that this crate was written for; [`interface`] is the archive's.
pub const INTERFACE: u32 = 4;

/// The interface number of the archive that is linked.
pub fn interface() -> u32 {
    pasis_raw::interface()
}

/// The archive's own word for [`PLAN_SIZE`].
pub fn plan_size() -> usize {
    pasis_raw::plan_size()
}

/// The archive's own word for [`SESSION_SIZE`].
pub fn session_size() -> usize {
    pasis_raw::session_size()
}

/// The archive's own word for [`ENDING_SIZE`].
pub fn ending_size() -> usize {
    pasis_raw::ending_size()
}

/// The node that a frame names, to be compared with the node at the channel's other end; `None` if it is too short to name one.
pub fn frame_node(frame: &[u8]) -> Option<u8> {
    frame.get(6).copied()
}

/// The whole length of a frame, from its first 4 bytes; `None` if there are fewer.
pub fn frame_length(frame: &[u8]) -> Option<u64> {
    let length = frame.first_chunk::<4>()?;
    Some(u64::from(u32::from_be_bytes(*length)) + 4)
}
