//! What the disk alone takes: the calls by which nodes store their books, without nodes.

use std::fs::{self, File};
use std::io::{self, Write};
use std::path::Path;
use std::thread;
use std::time::{Duration, Instant};

/// A book of the greatest length.
const BOOK: usize = 65_536;

/// Stores one book so many times: a new file, fsync, rename, fsync of the folder.
fn stored(folder: &Path, file: usize, times: u64) -> io::Result<()> {
    let (name, new) = (folder.join(format!("floor-{file}")), folder.join(format!("floor-{file}.new")));
    let mut book = vec![0; BOOK];
    for time in 0..times {
        book[..8].copy_from_slice(&time.to_be_bytes());
        let mut file = File::create_new(&new)?;
        file.write_all(&book)?;
        file.sync_all()?;
        fs::rename(&new, &name)?;
        File::open(folder)?.sync_all()?;
    }
    Ok(())
}

/// The time that it takes to store each of so many books so many times, all at once.
pub fn floor(folder: &Path, files: usize, times: u64) -> io::Result<Duration> {
    let begun = Instant::now();
    thread::scope(|scope| {
        let start = |file| scope.spawn(move || stored(folder, file, times));
        let all: Vec<_> = (0..files).map(start).collect();
        all.into_iter().try_for_each(|one| one.join().expect("no thread panics"))
    })?;
    Ok(begun.elapsed())
}
