//! The book that a server owns: its lock, its plan, its bytes in memory, and how they come to the disk. It does as a keeper with the lock does
//! (docs/KEEPER.md, "What is on the disk"), but that the book is read once, at the start.

use crate::code::{fault, Code, Fault};
use crate::drive::told_of;
use crate::files::{self, beside, followed, gone};
use crate::folder::{compared, missing, read_plan};
use pasis::{Plan, Refusal, BOOK_MOST};
use std::fs::{self, File, OpenOptions};
use std::io::{self, Write};
use std::os::unix::fs::MetadataExt;
use std::path::{Path, PathBuf};
use std::time::{Duration, Instant};

/// By which it is seen that a file is still the one that was put there: device, number, length, and when it was written.
type Mark = (u64, u64, u64, i64, i64);

pub struct Kept {
    pub plan: Plan,
    pub node: u8,
    /// What is to be said at the start.
    pub note: Option<String>,
    pub bytes: Vec<u8>,
    path: PathBuf,
    mark: Mark,
    _lock: File,
}

pub fn failed(path: &Path) -> impl Fn(io::Error) -> Fault + '_ {
    move |error| Fault { code: Code::System, line: format!("{}: {error}", path.display()) }
}

/// A file that has to be there.
pub fn there(path: &Path) -> Result<(), Fault> {
    match fs::metadata(path) {
        Ok(is) if is.is_file() => Ok(()),
        Ok(_) => fault(Code::WrongUse, format!("{}: this is not a file", path.display())),
        Err(error) if missing(&error) => fault(Code::WrongUse, format!("{}: no such file", path.display())),
        Err(error) => Err(failed(path)(error)),
    }
}

/// The lock that all who keep this book take; the system gives it back when this process ends. Others are waited for so long.
pub fn lock(book: &Path, patience: Duration) -> Result<File, Fault> {
    let path = beside(book, ".lock");
    let why = "another program keeps this book, and has its lock";
    match files::lock(&path, Instant::now() + patience).map_err(failed(&path))? {
        Some(file) => Ok(file),
        None => fault(Code::System, format!("{}: {why}", path.display())),
    }
}

fn mark(is: &fs::Metadata) -> Mark {
    (is.dev(), is.ino(), is.len(), is.mtime(), is.mtime_nsec())
}

/// The node whose book this is: the library is asked for its greatest time, as each node in turn.
fn node_of(plan: &Plan, book: &[u8]) -> Result<u8, Refusal> {
    let mut reply = vec![0; plan.frame_size()];
    for node in 0..plan.n {
        let request = [&[0, 0, 0, 11, 1, 1, node][..], &[0; 8]].concat();
        match pasis::node(plan, &request, &mut book.to_vec(), &mut reply) {
            Ok(_) => return Ok(node),
            Err(Refusal::Frame) => {}
            Err(refusal) => return Err(refusal),
        }
    }
    Err(Refusal::Frame)
}

impl Kept {
    /// Takes the lock, waiting so long for it, and the book as it then is, once that is on the disk. What a crash left of a new one is taken away.
    pub fn open(plan_path: &Path, book_path: &Path, patience: Duration) -> Result<Kept, Fault> {
        there(plan_path)?;
        there(book_path)?;
        let plan = read_plan(plan_path.as_os_str(), Code::WrongUse)?;
        let path = followed(book_path);
        let failed = failed(book_path);
        let lock = lock(&path, patience)?;
        gone(fs::remove_file(beside(&path, ".new"))).map_err(&failed)?;
        let note = of_one_plan(&path, plan_path, &plan)?;
        // Before it is read: who changes it from here on, without the lock, is noticed at the first store.
        let mark = mark(&fs::metadata(&path).map_err(&failed)?);
        let bytes = files::read_file(&path, BOOK_MOST).map_err(&failed)?;
        files::settle(&path).map_err(&failed)?;
        match node_of(&plan, &bytes) {
            Ok(node) => Ok(Kept { plan, node, note, bytes, path, mark, _lock: lock }),
            Err(refusal) => fault(Code::Damaged, format!("{}: {}", book_path.display(), told_of(refusal, &bytes))),
        }
    }

    /// A whole book in the place of the old one: a new file, fsync, rename, fsync of the folder. Where one of these fails the book on the disk is the
    /// old one or the new one, whole, and nothing may be told.
    pub fn store(&mut self, bytes: Vec<u8>) -> Result<(), Fault> {
        let failed = failed(&self.path);
        if mark(&fs::symlink_metadata(&self.path).map_err(&failed)?) != self.mark {
            let why = "another program has put a book in its place or changed it; nothing was stored";
            return fault(Code::Damaged, format!("{}: {why}", self.path.display()));
        }
        let new = beside(&self.path, ".new");
        let mut file = OpenOptions::new().write(true).create_new(true).open(&new).map_err(self::failed(&new))?;
        let written = file.write_all(&bytes).and_then(|()| file.sync_all());
        if let Err(error) = written.and_then(|()| fs::rename(&new, &self.path)) {
            let _ = fs::remove_file(&new);
            return Err(self::failed(&new)(error));
        }
        drop(file);
        files::sync_names(&self.path).map_err(&failed)?;
        self.mark = mark(&fs::symlink_metadata(&self.path).map_err(failed)?);
        self.bytes = bytes;
        Ok(())
    }
}

/// Whether the plan is the one that the book was made with: beside it lies BOOK.plan of `keeper`, or `plan.made` of a folder that `sheet` made.
fn of_one_plan(book: &Path, file: &Path, plan: &Plan) -> Result<Option<String>, Fault> {
    let (own, made) = (beside(book, ".plan"), book.with_file_name(crate::folder::MADE));
    let remembered = if !own.exists() && made.exists() { made } else { own };
    compared(&remembered, file, plan, "book")
}
