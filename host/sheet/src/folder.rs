//! The folder of a sheet: `plan`, `plan.made` (the plan that it was made with), `ask` (the next unused ask number) and the books `book-0` to
//! `book-(N-1)`.

use crate::code::{fault, Code, Fault};
use crate::files;
use crate::plan_text;
use pasis::{Plan, BOOK_MOST};
use std::ffi::OsStr;
use std::fs::{self, File, TryLockError};
use std::io::{self, Write};
use std::path::{Path, PathBuf};

pub struct Folder {
    pub path: PathBuf,
    pub plan: Plan,
    /// What every command says of this folder.
    pub note: Option<String>,
    /// Held until the command ends, so that no other command of this folder runs beside it.
    _lock: File,
}

/// What stands between us and a node's book; a node without one is silent.
pub type Silence = String;

pub fn missing(error: &io::Error) -> bool {
    [io::ErrorKind::NotFound, io::ErrorKind::NotADirectory].contains(&error.kind())
}

/// A fault of the system with this file.
fn failed(path: &Path) -> impl Fn(io::Error) -> Fault + '_ {
    move |error| Fault { code: Code::System, line: format!("{}: {error}", path.display()) }
}

/// Waits until what this file or folder stands for is ours.
fn lock(path: &Path) -> Result<File, Fault> {
    let failed = failed(path);
    let file = match File::open(path) {
        Err(error) if missing(&error) => {
            return fault(Code::WrongUse, format!("{}: there is no sheet here (sheet new makes one)", path.display()))
        }
        other => other.map_err(&failed)?,
    };
    match file.try_lock() {
        Ok(()) => return Ok(file),
        Err(TryLockError::WouldBlock) => {
            let _ = writeln!(io::stderr(), "sheet: {}: in use, waiting", path.display());
        }
        Err(TryLockError::Error(error)) => return Err(failed(error)),
    }
    file.lock().map_err(failed)?;
    Ok(file)
}

/// The plan of a file, within its rules.
pub fn read_plan(path: &OsStr, code: Code) -> Result<Plan, Fault> {
    let shown = path.display();
    let bytes = match files::read(path, 4096) {
        Ok(bytes) => bytes,
        Err(error) if missing(&error) => return fault(Code::WrongUse, format!("{shown}: no such file")),
        Err(error) => return fault(Code::System, format!("{shown}: {error}")),
    };
    if bytes.len() > 4096 {
        return fault(code, format!("{shown}: this is not a plan's nine lines of text"));
    }
    let plan = plan_text::read(&bytes).or_else(|why| fault(code, format!("{shown}: {why}")))?;
    match plan.check() {
        Ok(()) => Ok(plan),
        Err(refusal) => fault(code, format!("{shown}: {refusal}; sheet new --help has the rules")),
    }
}

/// The plan that a sheet was made with.
pub const MADE: &str = "plan.made";

/// Whether the plan is the one that the sheet, or the book, was made with, but for W, which is the reader's alone: an item laid out by one plan and read by
/// another would be another item. A note where none is remembered.
pub fn compared(made: &Path, file: &Path, plan: &Plan, what: &str) -> Result<Option<String>, Fault> {
    let bytes = match files::read_file(made, 4096) {
        Ok(bytes) => bytes,
        Err(error) if missing(&error) => {
            let why = "is not there, so that an edit of the plan would not be seen; a copy of the plan in its place ends this";
            return Ok(Some(format!("{}: {why}", made.display())));
        }
        Err(error) => return Err(failed(made)(error)),
    };
    let before = plan_text::read(&bytes).or_else(|why| fault(Code::Damaged, format!("{}: {why}", made.display())))?;
    let edits: Vec<String> = std::iter::zip(plan_text::values(&before), plan_text::values(plan))
        .filter(|((name, was), (_, is))| was != is && *name != "W")
        .map(|((name, was), (_, is))| format!("{name} {was}, now {name} {is}"))
        .collect();
    if edits.is_empty() {
        return Ok(None);
    }
    let edits = edits.join("; ");
    fault(Code::Damaged, format!("{}: this is not the plan that the {what} was made with: {edits}", file.display()))
}

/// Lies in a folder whose sheet is being made.
const MAKING: &str = "making";

/// Whether a folder is empty, once what a `new` that was cut off left there is taken away.
fn clear(folder: &Path) -> io::Result<bool> {
    let paths = fs::read_dir(folder)?.map(|entry| entry.map(|entry| entry.path())).collect::<io::Result<Vec<_>>>()?;
    let ours = |path: &PathBuf| {
        let name = path.file_name().unwrap_or_default().to_string_lossy().into_owned();
        let name = name.strip_suffix(files::OURS).unwrap_or(&name);
        *path == files::beside(&folder.join("plan"), files::OURS)
            || name == MAKING
            || name == MADE
            || name == "ask"
            || name.strip_prefix("book-").is_some_and(|node| node.parse::<u8>().is_ok())
    };
    let making = folder.join(MAKING);
    let begun = paths.contains(&making) || paths.contains(&files::beside(&making, files::OURS));
    if !(paths.is_empty() || begun && paths.iter().all(ours)) {
        return Ok(false);
    }
    // The sign goes last, so that a second cut leaves it.
    for path in paths.iter().filter(|path| !path.ends_with(MAKING)) {
        fs::remove_file(path)?;
    }
    Ok(true)
}

impl Folder {
    pub fn enter(path: &Path) -> Result<Folder, Fault> {
        let file = path.join("plan");
        let lock = lock(&file)?;
        let plan = read_plan(file.as_os_str(), Code::Damaged)?;
        let note = compared(&path.join(MADE), &file, &plan, "sheet")?;
        Ok(Folder { path: path.to_path_buf(), plan, note, _lock: lock })
    }

    /// A new sheet, made while the folder is ours. The plan is written last: a folder without a plan is no sheet. As long as the file `making`
    /// lies beside no plan, what is there was never finished, and is made anew.
    pub fn make(path: &Path, plan: &Plan, room: usize) -> Result<(), Fault> {
        let failed = failed(path);
        if fs::metadata(path).is_ok_and(|is| !is.is_dir()) {
            return fault(Code::WrongUse, format!("{}: this is not a folder", path.display()));
        }
        fs::create_dir_all(path).map_err(&failed)?;
        let _lock = lock(path)?;
        let making = path.join(MAKING);
        if !clear(path).map_err(&failed)? {
            return fault(Code::WrongUse, format!("{}: the folder is not empty; nothing was written", path.display()));
        }
        files::keep(&making, b"").map_err(&failed)?;
        for node in 0..u64::from(plan.n) {
            let mut book = vec![0; room];
            if let Err(refusal) = pasis::fresh_book(plan, node, &mut book) {
                return fault(Code::WrongUse, format!("book-{node}: {refusal}"));
            }
            files::keep(&path.join(format!("book-{node}")), &book).map_err(&failed)?;
        }
        files::keep(&path.join("ask"), b"1\n").map_err(&failed)?;
        for name in [MADE, "plan"] {
            files::keep(&path.join(name), plan_text::write(plan).as_bytes()).map_err(&failed)?;
        }
        fs::remove_file(&making).and_then(|()| files::sync_names(&making)).map_err(failed)
    }

    pub fn book_path(&self, node: usize) -> PathBuf {
        self.path.join(format!("book-{node}"))
    }

    /// A node's book, on disk, or why it cannot be had: what is told of it is still there after a power cut. A missing book is not made anew: an empty
    /// book in its place would be a lie.
    pub fn book(&self, node: usize) -> Result<Vec<u8>, Silence> {
        let path = self.book_path(node);
        match files::read_file(&path, BOOK_MOST).and_then(|bytes| files::settle(&path).map(|()| bytes)) {
            Ok(bytes) => Ok(bytes),
            Err(error) if missing(&error) => Err("missing".to_string()),
            Err(error) => Err(format!("cannot be read: {error}")),
        }
    }

    /// The next unused ask number.
    pub fn next_ask(&self) -> Result<u64, Fault> {
        let path = self.path.join("ask");
        let shown = path.display();
        let advice = "put a number above all that were used into it";
        let text = match files::read(path.as_os_str(), 32) {
            Ok(bytes) => String::from_utf8_lossy(&bytes).trim_end().to_string(),
            Err(error) if missing(&error) => return fault(Code::Damaged, format!("{shown}: missing; {advice}")),
            Err(error) => return fault(Code::System, format!("{shown}: {error}")),
        };
        let digits = !text.is_empty() && text.bytes().all(|byte| byte.is_ascii_digit());
        match text.parse() {
            Ok(ask) if digits => Ok(ask),
            _ => fault(Code::Damaged, format!("{shown}: this is not an ask number; {advice}")),
        }
    }

    /// The first of W+1 ask numbers for an operation. That they are used stands in the file before this comes back.
    pub fn take_ask(&self) -> Result<u64, Fault> {
        let ask = self.next_ask()?;
        self.set_down(ask).map(|()| ask)
    }

    /// The same for an open. Nothing of it leaves this process, and no reply can come later: where the folder may not be written, as in a
    /// snapshot, it goes on with a note.
    pub fn take_ask_to_read(&self) -> Result<(u64, Option<String>), Fault> {
        let ask = self.next_ask()?;
        match self.set_down(ask) {
            Err(Fault { code: Code::System, line }) => {
                Ok((ask, Some(format!("{line}; the block is opened all the same"))))
            }
            other => other.map(|()| (ask, None)),
        }
    }

    /// Writes down that the W+1 ask numbers from `ask` on are used.
    fn set_down(&self, ask: u64) -> Result<(), Fault> {
        let path = self.path.join("ask");
        let Some(next) = ask.checked_add(u64::from(self.plan.w) + 1) else {
            return fault(Code::Damaged, format!("{}: the ask numbers are used up", path.display()));
        };
        files::keep(&path, format!("{next}\n").as_bytes()).map_err(failed(&path))
    }
}
