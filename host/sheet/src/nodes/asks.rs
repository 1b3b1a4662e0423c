//! The ask numbers of a client over nodes. The next unused one stands in FILE.ask, beside FILE, without the client's number, which is the upper 16 bits
//! of every one. It is raised, durably, before a number is used: what a crash wastes is no loss, and none is ever given twice. FILE.lock is held
//! for that moment alone, so that operations of one FILE may run at the same time; it is waited for no longer than the operation may take.

use super::roster::Roster;
use crate::code::{fault, Code, Fault};
use crate::files::{self, beside};
use crate::folder::missing;
use std::io;
use std::path::Path;
use std::time::{Instant, SystemTime, UNIX_EPOCH};

/// So many numbers a client has.
const ALL: u64 = 1 << 48;

/// Where a client begins that has no counter, or has lost it: 16 numbers for each millisecond since 1970, which is above all that were used as long as
/// fewer were taken than that and no clock was set back.
fn by_the_clock() -> u64 {
    let since = SystemTime::now().duration_since(UNIX_EPOCH).unwrap_or_default();
    u64::try_from(since.as_millis()).unwrap_or(0).saturating_mul(16).saturating_add(1)
}

/// The next unused number.
fn next(path: &Path) -> Result<u64, Fault> {
    let shown = path.display();
    let bytes = match files::read_file(path, 32) {
        Ok(bytes) => bytes,
        Err(error) if missing(&error) => return Ok(by_the_clock()),
        Err(error) => return fault(Code::System, format!("{shown}: {error}")),
    };
    let text = String::from_utf8_lossy(&bytes);
    let digits = text.trim_end();
    let number = digits.bytes().all(|byte| byte.is_ascii_digit()).then(|| digits.parse().ok()).flatten();
    let why = "this is not an ask number; put one above all that were used into it, or remove it to begin by the clock";
    number.map_or_else(|| fault(Code::Damaged, format!("{shown}: {why}")), Ok)
}

/// The first of so many ask numbers that were never used, and never will be by another: that they are stands in the file before this comes back.
/// It comes back at the deadline, if another has the lock until then.
pub fn take(roster: &Roster, many: u64, deadline: Instant) -> Result<u64, Fault> {
    let path = files::followed(&roster.path);
    let (asks, lock) = (beside(&path, ".ask"), beside(&path, ".lock"));
    let failed = |path: &Path| {
        let shown = path.display().to_string();
        move |error: io::Error| Fault { code: Code::System, line: format!("{shown}: {error}") }
    };
    let Some(_lock) = files::lock(&lock, deadline).map_err(failed(&lock))? else {
        let why = "another program has this lock, and did not give it back before the deadline";
        return fault(Code::System, format!("{}: {why}", lock.display()));
    };
    let first = next(&asks)?;
    let Some(after) = first.checked_add(many).filter(|after| *after < ALL) else {
        let why = format!("the ask numbers of client {} are used up; take another number for it", roster.client);
        return fault(Code::Damaged, format!("{}: {why}", asks.display()));
    };
    files::keep(&asks, format!("{after}\n").as_bytes()).map_err(failed(&asks))?;
    Ok(u64::from(roster.client) << 48 | first)
}
