//! A book that is ours to change, while other programs keep it too: the lock BOOK.lock, which the system takes back from a program that ends
//! (keeper has it by host/keeper-locked), and BOOK.new, by which keepers without that lock keep out of each other's way. Who has both is alone.
//!
//! The new book is written under a name of our own, BOOK.sheet; BOOK.new is a second name of that file, so that one that a crash of ours left
//! can be told from a keeper's and is taken away. A keeper's is never touched. BOOK.sheet is on disk before BOOK.new is made and until it is gone, so
//! that a power cut leaves no BOOK.new of ours alone.

use crate::files::{beside, followed, gone, same, sync_names, OURS};
use std::fs::{self, File, OpenOptions};
use std::io::{self, Write};
use std::path::{Path, PathBuf};
use std::thread;
use std::time::{Duration, Instant};

/// As long as a keeper waits for another.
const PATIENCE: Duration = Duration::from_secs(5);

pub struct Claim {
    pub path: PathBuf,
    file: File,
    own: PathBuf,
    new: PathBuf,
    _lock: File,
}

impl Claim {
    /// Waits for the lock, and for a keeper that is writing; a link is followed.
    pub fn wait(book: &Path) -> io::Result<Claim> {
        let path = followed(book);
        let lock = OpenOptions::new().create(true).append(true).open(beside(&path, ".lock"))?;
        lock.lock()?;
        let (own, new) = (beside(&path, OURS), beside(&path, ".new"));
        if same(&own, &new) {
            fs::remove_file(&new)?;
            sync_names(&new)?;
        }
        gone(fs::remove_file(&own))?;
        let file = OpenOptions::new().write(true).create_new(true).open(&own)?;
        sync_names(&own)?;
        let claim = Claim { path, file, own, new, _lock: lock };
        let since = Instant::now();
        loop {
            match fs::hard_link(&claim.own, &claim.new) {
                Err(error) if error.kind() == io::ErrorKind::AlreadyExists && since.elapsed() < PATIENCE => {
                    thread::sleep(Duration::from_millis(5));
                }
                Err(error) if error.kind() == io::ErrorKind::AlreadyExists => {
                    let why = "a keeper is writing, or was cut off: if no keeper of this book runs, remove this file";
                    return Err(io::Error::other(format!("{}: {why}", claim.new.display())));
                }
                other => return other.map(|()| claim),
            }
        }
    }

    /// A whole book in the place of the old one: written, fsync, rename, fsync of the folder.
    pub fn store(mut self, book: &[u8]) -> io::Result<()> {
        self.file.write_all(book)?;
        self.file.sync_all()?;
        fs::rename(&self.new, &self.path)?;
        sync_names(&self.path)
    }
}

impl Drop for Claim {
    fn drop(&mut self) {
        // Only where it is still ours: after a rename another may have made one.
        if same(&self.own, &self.new) {
            let _ = fs::remove_file(&self.new).and_then(|()| sync_names(&self.new));
        }
        let _ = fs::remove_file(&self.own);
    }
}
