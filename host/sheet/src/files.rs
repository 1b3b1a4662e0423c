//! Files: written whole or not at all, read up to a limit.

use std::ffi::OsStr;
use std::fs::{self, File, OpenOptions, TryLockError};
use std::io::{self, Read, Write};
use std::os::unix::fs::MetadataExt;
use std::path::{Path, PathBuf};
use std::thread;
use std::time::{Duration, Instant};

/// `path` with something behind its name.
pub fn beside(path: &Path, ending: &str) -> PathBuf {
    let mut name = path.as_os_str().to_os_string();
    name.push(ending);
    PathBuf::from(name)
}

/// What the new file of one in our folder is called. Not NAME.new: that of a book is keeper's.
pub const OURS: &str = ".sheet";

/// The file that a link names in the end; the path itself where there is none.
pub fn followed(path: &Path) -> PathBuf {
    fs::canonicalize(path).unwrap_or_else(|_| path.to_path_buf())
}

/// Whether two names are of one file.
pub fn same(one: &Path, other: &Path) -> bool {
    let number = |path: &Path| fs::symlink_metadata(path).map(|is| (is.dev(), is.ino()));
    matches!((number(one), number(other)), (Ok(one), Ok(other)) if one == other)
}

/// The folder that a file lies in.
pub fn folder_of(path: &Path) -> &Path {
    match path.parent() {
        Some(folder) if folder != Path::new("") => folder,
        _ => Path::new("."),
    }
}

/// Puts these bytes in the place of a file: a new file, fsync, rename, fsync of the folder. A crash at any moment leaves the old file or the
/// new one, whole. A file that cannot be finished is taken away again.
fn replace(path: &Path, new: &Path, bytes: &[u8]) -> io::Result<()> {
    let mut file = OpenOptions::new().write(true).create_new(true).open(new)?;
    let written = file.write_all(bytes).and_then(|()| file.sync_all()).and_then(|()| fs::rename(new, path));
    if written.is_err() {
        let _ = fs::remove_file(new);
    }
    written?;
    sync_names(path)
}

/// A file of our own folder, which is ours alone for as long as this command has its lock: what an earlier crash left behind under the name
/// of our new files is taken away. A link is followed.
pub fn keep(path: &Path, bytes: &[u8]) -> io::Result<()> {
    let path = followed(path);
    let new = beside(&path, OURS);
    gone(fs::remove_file(&new))?;
    replace(&path, &new, bytes)
}

/// How often a lock that another has is tried again.
const PAUSE: Duration = Duration::from_millis(5);

/// The lock of this name; the system gives it back when the file is closed. Nothing where another has it until that moment. It is tried once at least.
pub fn lock(path: &Path, until: Instant) -> io::Result<Option<File>> {
    let file = OpenOptions::new().create(true).append(true).open(path)?;
    loop {
        match file.try_lock() {
            Ok(()) => return Ok(Some(file)),
            Err(TryLockError::Error(error)) => return Err(error),
            Err(TryLockError::WouldBlock) => {}
        }
        let left = until.saturating_duration_since(Instant::now());
        if left.is_zero() {
            return Ok(None);
        }
        thread::sleep(left.min(PAUSE));
    }
}

/// Removing what is not there is no fault.
pub fn gone(removed: io::Result<()>) -> io::Result<()> {
    match removed {
        Err(error) if error.kind() != io::ErrorKind::NotFound => Err(error),
        _ => Ok(()),
    }
}

/// A file of somebody's: no other file is touched, a link is followed, and a pipe or device is written as it is.
pub fn give(path: &Path, bytes: &[u8]) -> io::Result<()> {
    let path = followed(path);
    if fs::metadata(&path).is_ok_and(|is| !is.is_file()) {
        return OpenOptions::new().write(true).open(&path)?.write_all(bytes);
    }
    replace(&path, &beside(&path, &format!(".{}.new", std::process::id())), bytes)
}

/// Whether a file lies in this folder, or would; a link is followed.
pub fn lies_in(path: &Path, folder: &Path) -> bool {
    let path = followed(path);
    match (fs::canonicalize(folder_of(&path)), fs::canonicalize(folder)) {
        (Ok(of_file), Ok(folder)) => of_file == folder,
        _ => false,
    }
}

/// Waits until what the names of a folder say is on disk.
pub fn sync_names(path: &Path) -> io::Result<()> {
    File::open(folder_of(path))?.sync_all()
}

/// Whether a wait for the disk failed. A file system that takes no writes, as that of an image, knows no such wait: nothing there is on its way.
fn waited(done: io::Result<()>) -> io::Result<()> {
    match done {
        Err(error) if error.kind() == io::ErrorKind::InvalidInput => Ok(()),
        other => other,
    }
}

/// Waits until a file that was read is on disk, its bytes and its name, whoever wrote it: a program that was killed, or has not come so far yet,
/// leaves one that a power cut may undo. A link is followed.
pub fn settle(path: &Path) -> io::Result<()> {
    let path = followed(path);
    waited(File::open(&path)?.sync_all())?;
    waited(sync_names(&path))
}

/// All of a file, or of standard input where its name is `-`; of more than `most` bytes the first most+1.
pub fn read(path: &OsStr, most: usize) -> io::Result<Vec<u8>> {
    let mut bytes = Vec::new();
    let most = most as u64 + 1;
    if path == "-" {
        io::stdin().lock().take(most).read_to_end(&mut bytes)?;
    } else {
        File::open(path)?.take(most).read_to_end(&mut bytes)?;
    }
    Ok(bytes)
}

/// The same of a file that must be one: a pipe would be waited for.
pub fn read_file(path: &Path, most: usize) -> io::Result<Vec<u8>> {
    if !fs::metadata(path)?.is_file() {
        return Err(io::Error::other("this is not a file"));
    }
    read(path.as_os_str(), most)
}
