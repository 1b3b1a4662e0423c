//! A fresh book for a node, made once and never in the place of anything: a node that forgot what it acknowledged counts among the b that lie.

use super::kept::{failed, lock, there};
use crate::code::{fault, Code, Fault, Report};
use crate::files::{self, beside, gone};
use crate::folder::read_plan;
use crate::json::Json;
use pasis::{Plan, BOOK_MOST};
use std::fs::{self, OpenOptions};
use std::io::{self, Write};
use std::path::{Path, PathBuf};
use std::time::Duration;

/// What the command line asks for.
pub struct Fresh {
    pub plan: PathBuf,
    pub book: PathBuf,
    pub node: u64,
    pub room: Option<usize>,
    pub wait: Duration,
}

/// The bytes of the book, where the plan has such a node and such a book.
fn bytes(plan: &Plan, node: u64, room: usize) -> Result<Vec<u8>, Fault> {
    let least = plan.book_size(1);
    if node >= u64::from(plan.n) {
        return fault(Code::WrongUse, format!("--new: there is no node {node}, the plan has 0 to {}", plan.n - 1));
    }
    if !(least..=BOOK_MOST).contains(&room) {
        return fault(Code::WrongUse, format!("--room: a book of this plan has {least} to {BOOK_MOST} bytes"));
    }
    let mut book = vec![0; room];
    match pasis::fresh_book(plan, node, &mut book) {
        Ok(()) => Ok(book),
        Err(refusal) => fault(Code::WrongUse, format!("--new {node}: {refusal}")),
    }
}

/// The book under BOOK.new, the plan's text under BOOK.plan, both on the disk; and only then the name BOOK, by a call that fails where anything has it.
fn put(path: &Path, book: &[u8], text: &[u8]) -> io::Result<()> {
    let new = beside(path, ".new");
    gone(fs::remove_file(&new))?;
    let mut file = OpenOptions::new().write(true).create_new(true).open(&new)?;
    let written = file.write_all(book).and_then(|()| file.sync_all());
    let written = written.and_then(|()| files::keep(&beside(path, ".plan"), text));
    let linked = written.and_then(|()| fs::hard_link(&new, path));
    let removed = fs::remove_file(&new);
    linked.and(removed)?;
    files::sync_names(path)
}

/// Makes it, with the plan's text beside it, as `keeper PLAN BOOK new` does.
pub fn make(fresh: &Fresh) -> Result<Report, Fault> {
    there(&fresh.plan)?;
    let plan = read_plan(fresh.plan.as_os_str(), Code::WrongUse)?;
    let text = files::read_file(&fresh.plan, 4096).map_err(failed(&fresh.plan))?;
    let room = fresh.room.unwrap_or(BOOK_MOST);
    let (book, path) = (bytes(&plan, fresh.node, room)?, &fresh.book);
    let taken = || fault(Code::WrongUse, format!("{}: is there already, and stays as it is", path.display()));
    if fs::symlink_metadata(path).is_ok() {
        return taken();
    }
    let _lock = lock(path, fresh.wait)?;
    // Who had the lock may have made it: the plan beside it is that one's too.
    if fs::symlink_metadata(path).is_ok() {
        return taken();
    }
    match put(path, &book, &text) {
        Err(error) if error.kind() == io::ErrorKind::AlreadyExists => return taken(),
        other => other.map_err(failed(path))?,
    }
    let saves = (room - 11) / plan.record_size();
    let mut report = Report::new(Code::Done);
    let (shown, node) = (path.display(), fresh.node);
    report.line(format!("made: {shown}, a fresh book for node {node}, with room for {saves} saves"));
    report.say("node", Json::Number(node));
    report.say("saves", Json::Number(saves as u64));
    Ok(report)
}
