//! Who may come in, and when it is time to go: the connections that are open, and the requests that are under way. A server that ends lets no
//! request in any more and waits for those that are in.

use std::sync::{Arc, Condvar, Mutex, MutexGuard, PoisonError};
use std::time::{Duration, Instant};

struct State {
    ending: bool,
    connections: usize,
    under_way: usize,
    /// Since when no connection is open.
    empty_since: Instant,
}

pub struct Gate {
    state: Mutex<State>,
    changed: Condvar,
    most: usize,
}

/// Why a connection is not let in.
pub enum Closed {
    Full,
    Ending,
}

/// A connection that was let in, until this is dropped.
pub struct Admitted(Arc<Gate>);

/// Requests that are under way, until this is dropped, which is when their replies are written.
pub struct UnderWay<'a>(&'a Gate);

impl Gate {
    /// With room for so many connections.
    pub fn new(most: usize) -> Arc<Gate> {
        let state = State { ending: false, connections: 0, under_way: 0, empty_since: Instant::now() };
        Arc::new(Gate { state: Mutex::new(state), changed: Condvar::new(), most })
    }

    fn state(&self) -> MutexGuard<'_, State> {
        self.state.lock().unwrap_or_else(PoisonError::into_inner)
    }

    pub fn admit(self: &Arc<Gate>) -> Result<Admitted, Closed> {
        let mut state = self.state();
        if state.ending {
            return Err(Closed::Ending);
        }
        if state.connections >= self.most {
            return Err(Closed::Full);
        }
        state.connections += 1;
        Ok(Admitted(self.clone()))
    }

    /// None where the server ends.
    pub fn enter(&self) -> Option<UnderWay<'_>> {
        let mut state = self.state();
        if state.ending {
            return None;
        }
        state.under_way += 1;
        Some(UnderWay(self))
    }

    /// The connections that are open.
    pub fn open(&self) -> usize {
        self.state().connections
    }

    /// Ends it if no connection was open for so long.
    pub fn end_if_empty(&self, so_long: Duration) -> bool {
        let mut state = self.state();
        state.ending |= state.connections == 0 && state.empty_since.elapsed() >= so_long;
        state.ending
    }

    /// No request comes in any more, and those that are in have been answered; or, of clients that take no replies, so long was waited for it.
    pub fn end(&self, patience: Duration) {
        let mut state = self.state();
        state.ending = true;
        let waited = self.changed.wait_timeout_while(state, patience, |state| state.under_way > 0);
        drop(waited);
    }
}

impl Drop for Admitted {
    fn drop(&mut self) {
        let mut state = self.0.state();
        state.connections -= 1;
        state.empty_since = Instant::now();
    }
}

impl Drop for UnderWay<'_> {
    fn drop(&mut self) {
        self.0.state().under_way -= 1;
        self.0.changed.notify_all();
    }
}
