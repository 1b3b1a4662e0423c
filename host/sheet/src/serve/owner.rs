//! The one thread that has the book. It takes all requests that wait as one run: one call of the library, one new book on the disk where the
//! bytes changed, and only then the replies.

use super::counters::{add, Counters};
use super::kept::Kept;
use crate::code::{fault, Code, Fault};
use pasis::{Plan, Refusal};
use std::sync::mpsc::{Receiver, SyncSender};

/// So many bytes of replies a run may have, as in keeper.
const REPLIES: usize = 524_288;

/// The most requests of a run: 329 in the largest plan.
pub fn most_requests(plan: &Plan) -> usize {
    REPLIES / plan.frame_size()
}

/// Whole requests of one connection, at most as many as a run has.
pub struct Job {
    pub frames: Vec<u8>,
    pub count: usize,
    pub back: SyncSender<Done>,
}

/// What came of them: the replies end to end, and of each request whether it was refused.
pub struct Done {
    pub replies: Vec<u8>,
    pub answers: Vec<Option<Refusal>>,
}

/// Why the book is not served any more, and the requests that get no reply for it: they are to be let go when the fault is told, and not before.
pub struct Stopped {
    pub fault: Fault,
    pub unanswered: Vec<Job>,
}

/// Serves until nobody is left who could ask, or something fails: then nothing of the run is told.
pub fn keep(mut kept: Kept, jobs: &Receiver<Job>, counters: &Counters) -> Result<(), Stopped> {
    let most = most_requests(&kept.plan);
    let mut next = None;
    loop {
        let Some(first) = next.take().or_else(|| jobs.recv().ok()) else { return Ok(()) };
        let (mut count, mut run) = (first.count, vec![first]);
        while next.is_none() {
            match jobs.try_recv() {
                Ok(job) if count + job.count <= most => {
                    count += job.count;
                    run.push(job);
                }
                Ok(job) => next = Some(job),
                Err(_) => break,
            }
        }
        if let Err(fault) = serve(&mut kept, &run, count, counters) {
            return Err(Stopped { fault, unanswered: run });
        }
    }
}

/// One run.
fn serve(kept: &mut Kept, run: &[Job], count: usize, counters: &Counters) -> Result<(), Fault> {
    let frames: Vec<u8> = run.iter().flat_map(|job| job.frames.iter().copied()).collect();
    let mut after = kept.bytes.clone();
    let (mut replies, mut numbers) = (vec![0; kept.plan.replies_size(count)], vec![0; count]);
    let ran = match pasis::run(&kept.plan, &frames, &mut after, &mut replies, &mut numbers) {
        Ok(ran) => ran,
        Err(refusal) => return fault(Code::Damaged, format!("a run of requests was refused as a whole ({refusal})")),
    };
    add(&counters.runs, 1);
    if after != kept.bytes {
        kept.store(after)?;
        add(&counters.stores, 1);
        add(&counters.fsyncs, 2);
    }
    let mut outcomes = ran.outcomes();
    for job in run {
        let mut done = Done { replies: Vec::new(), answers: Vec::with_capacity(job.count) };
        for outcome in outcomes.by_ref().take(job.count) {
            done.answers.push(outcome.err());
            done.replies.extend_from_slice(outcome.unwrap_or_default());
        }
        // A connection that has gone meanwhile needs no reply.
        let _ = job.back.send(done);
    }
    Ok(())
}
