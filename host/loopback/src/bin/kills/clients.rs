//! The clients of one run: they save and open at once, and what came of each call is taken down.

use faults::register::{Call, Outcome as Came};
use loopback::Outcome;
use second::random::Random;
use sheet::{Client, Opened, Saved};
use std::path::Path;
use std::sync::atomic::{AtomicUsize, Ordering};
use std::sync::Mutex;
use std::thread;
use std::time::Duration;

/// The calls of one run, but for the last in calm.
const CALLS: usize = 110;

/// An operation that has not ended by then is given up.
const WITHIN: Duration = Duration::from_secs(20);

/// A call, and the timestamp that it ended with.
pub struct Taken {
    pub call: Call,
    pub stamp: Option<[u8; 40]>,
}

/// What the clients of one run share.
pub struct Shared {
    /// Every call and every return has a moment of its own.
    moment: AtomicUsize,
    calls: AtomicUsize,
    saves: AtomicUsize,
    most_saves: usize,
    taken: Mutex<Vec<Taken>>,
}

/// The block of a save: its number, in 16 bytes.
fn block(value: usize) -> Vec<u8> {
    (value as u128).to_be_bytes().to_vec()
}

fn value_of(item: &[u8]) -> Outcome<usize> {
    let bytes = item.try_into().map_err(|_| "an open returned a block of another length")?;
    usize::try_from(u128::from_be_bytes(bytes)).map_err(|_| "an open returned bytes that nobody saved".to_string())
}

impl Shared {
    /// So many saves at most.
    pub fn new(most_saves: usize) -> Shared {
        let zero = || AtomicUsize::new(0);
        Shared { moment: zero(), calls: zero(), saves: zero(), most_saves, taken: Mutex::new(Vec::new()) }
    }

    /// All calls, in the order of their returns.
    pub fn taken(self) -> Vec<Taken> {
        self.taken.into_inner().expect("no client panics")
    }

    fn now(&self) -> usize {
        self.moment.fetch_add(1, Ordering::SeqCst)
    }

    fn save(&self, client: &mut Client, value: usize) -> Outcome<()> {
        let called = self.now();
        let came = client.save(&block(value), WITHIN).map_err(|fault| fault.line)?;
        let (outcome, stamp) = match came {
            Saved::Done(stamp) => (Came::Saved(value), Some(stamp.0)),
            Saved::GivenUp => (Came::GivenUp(value), None),
            Saved::ClockSpent => return Err(format!("save {value} spent the clock")),
        };
        self.take(called, outcome, stamp);
        Ok(())
    }

    pub fn open(&self, client: &mut Client) -> Outcome<()> {
        let called = self.now();
        let came = client.open(WITHIN).map_err(|fault| fault.line)?;
        let (outcome, stamp) = match came {
            Opened::Done(stamp, item) => (Came::Opened(Some(value_of(&item)?)), Some(stamp.0)),
            Opened::NeverWritten => (Came::Opened(None), None),
            Opened::NoValue | Opened::GivenUp => (Came::Nothing, None),
        };
        self.take(called, outcome, stamp);
        Ok(())
    }

    fn take(&self, called: usize, outcome: Came, stamp: Option<[u8; 40]>) {
        let call = Call { called, returned: self.now(), outcome };
        self.taken.lock().expect("no client panics").push(Taken { call, stamp });
    }

    /// One client: saves and opens until all calls are made.
    pub fn work(&self, file: &Path, mut random: Random) -> Outcome<()> {
        let mut client = Client::new(file).map_err(|fault| fault.line)?;
        while self.calls.fetch_add(1, Ordering::SeqCst) < CALLS {
            // So that a run takes its time also where a disk takes none.
            thread::sleep(Duration::from_micros(random.below(8_000) as u64));
            let value = if random.chance(50) { self.saves.fetch_add(1, Ordering::SeqCst) + 1 } else { usize::MAX };
            if value <= self.most_saves {
                self.save(&mut client, value)?;
            } else {
                self.open(&mut client)?;
            }
        }
        client.end();
        Ok(())
    }
}
