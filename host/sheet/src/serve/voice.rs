//! Standard error, which has a thread of its own: a log that nobody reads holds up no request and no store. Lines wait in a queue; those for which it
//! has no room are dropped, and a line in their place tells how many they were.

use std::io::{self, Write};
use std::sync::{Arc, Condvar, Mutex, MutexGuard, PoisonError};
use std::thread;
use std::time::Duration;

/// So many lines wait at most, while as many are being written: more than a stranger brings about at once.
const MOST: usize = 4096;

/// How long a server that ends waits until its last lines are written.
const PATIENCE: Duration = Duration::from_secs(2);

#[derive(Default)]
struct Queue {
    lines: Vec<String>,
    /// So many came behind those, and had no room.
    dropped: u64,
    /// Lines that were taken out are not all written yet.
    writing: bool,
}

pub struct Voice {
    queue: Mutex<Queue>,
    changed: Condvar,
    /// The line that tells of so many that were dropped.
    tell: Box<dyn Fn(u64) -> String + Send + Sync>,
}

impl Voice {
    /// With its thread, which lives as long as the process.
    pub fn start(tell: impl Fn(u64) -> String + Send + Sync + 'static) -> io::Result<Arc<Voice>> {
        let voice = Arc::new(Voice { queue: Mutex::default(), changed: Condvar::new(), tell: Box::new(tell) });
        let own = voice.clone();
        thread::Builder::new().name("log".to_string()).spawn(move || loop {
            own.write();
        })?;
        Ok(voice)
    }

    fn queue(&self) -> MutexGuard<'_, Queue> {
        self.queue.lock().unwrap_or_else(PoisonError::into_inner)
    }

    /// A line, where there is room for it. Nobody is waited for.
    pub fn say(&self, line: String) {
        let mut queue = self.queue();
        match queue.lines.len() < MOST {
            true => queue.lines.push(line),
            false => queue.dropped += 1,
        }
        self.changed.notify_all();
    }

    /// The last lines, for which there is always room; all are waited for, if not for long.
    pub fn end(&self, last: String) {
        let mut queue = self.queue();
        self.own_up(&mut queue);
        queue.lines.push(last);
        self.changed.notify_all();
        let unwritten = |queue: &mut Queue| queue.writing || !queue.lines.is_empty();
        drop(self.changed.wait_timeout_while(queue, PATIENCE, unwritten));
    }

    /// Puts a line in the place of those that were dropped.
    fn own_up(&self, queue: &mut Queue) {
        let dropped = std::mem::take(&mut queue.dropped);
        if dropped > 0 {
            queue.lines.push((self.tell)(dropped));
        }
    }

    /// Writes all that waits, as soon as something does. Where it cannot be written there is nobody to tell.
    fn write(&self) {
        let waited = self.changed.wait_while(self.queue(), |queue| queue.lines.is_empty());
        let mut queue = waited.unwrap_or_else(PoisonError::into_inner);
        self.own_up(&mut queue);
        let lines = std::mem::take(&mut queue.lines);
        queue.writing = true;
        drop(queue);
        for line in lines {
            let _ = io::stderr().write_all(line.as_bytes());
        }
        self.queue().writing = false;
        self.changed.notify_all();
    }
}
