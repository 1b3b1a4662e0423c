//! A way to a node: a byte stream there and one back, of a TCP connection or of a command's pipes.

use super::roster::Reach;
use std::io::{self, BufRead, BufReader, Read, Write};
use std::net::{Shutdown, TcpStream, ToSocketAddrs};
use std::path::Path;
use std::process::{Child, ChildStderr, Command, Stdio};
use std::thread::{self, JoinHandle};
use std::time::{Duration, Instant};

/// How long a connection may take to be made, and a write to be taken.
const PATIENCE: Duration = Duration::from_secs(5);

/// How long a command has to end once its input is closed.
const LEAVE: Duration = Duration::from_millis(500);

/// The longest line of a command's standard error that is told, and how many.
const LINE: u64 = 200;
const LINES: usize = 20;

/// What holds the stream open.
enum Hold {
    Tcp(TcpStream),
    /// The command, and the thread that reads its standard error, if there could be one.
    Exec(Child, Option<JoinHandle<()>>),
}

pub struct Channel {
    to: Option<Box<dyn Write + Send>>,
    hold: Hold,
}

/// The other half, for a thread of its own.
pub type From = Box<dyn Read + Send>;

/// An error of the system for people, without its number: "connection refused".
pub fn words(error: &io::Error) -> String {
    let text = error.to_string();
    let text = text.split(" (os error").next().unwrap_or_default();
    let mut letters = text.chars();
    letters.next().map(|first| first.to_lowercase().chain(letters).collect()).unwrap_or_default()
}

fn connected(address: &str) -> io::Result<TcpStream> {
    let mut last = io::Error::new(io::ErrorKind::NotFound, "this address is not known");
    for address in address.to_socket_addrs()? {
        match TcpStream::connect_timeout(&address, PATIENCE) {
            Ok(stream) => return Ok(stream),
            Err(error) => last = error,
        }
    }
    Err(last)
}

fn tcp(address: &str) -> io::Result<(Channel, From)> {
    let stream = connected(address)?;
    stream.set_nodelay(true)?;
    stream.set_write_timeout(Some(PATIENCE))?;
    let (to, from) = (stream.try_clone()?, stream.try_clone()?);
    Ok((Channel { to: Some(Box::new(to)), hold: Hold::Tcp(stream) }, Box::new(from)))
}

/// Tells what a command says on standard error, up to a bound; the rest is read and dropped, so that the command never waits.
fn listen(errors: ChildStderr, mut say: impl FnMut(String)) {
    let mut errors = BufReader::new(errors);
    for told in 0.. {
        let mut line = Vec::new();
        match errors.by_ref().take(LINE).read_until(b'\n', &mut line) {
            Ok(0) | Err(_) => return,
            Ok(_) if told < LINES => {
                let text = String::from_utf8_lossy(&line);
                say(text.trim_end().chars().map(|letter| if letter.is_control() { ' ' } else { letter }).collect());
            }
            Ok(_) if told == LINES => say("says more, which is left out".to_string()),
            Ok(_) => {}
        }
    }
}

fn exec(words: &[String], folder: &Path, say: impl FnMut(String) + Send + 'static) -> io::Result<(Channel, From)> {
    let mut command = Command::new(&words[0]);
    command.args(&words[1..]).current_dir(folder);
    command.stdin(Stdio::piped()).stdout(Stdio::piped()).stderr(Stdio::piped());
    let mut child = command.spawn()?;
    let (Some(to), Some(from), Some(errors)) = (child.stdin.take(), child.stdout.take(), child.stderr.take()) else {
        return Err(io::Error::other("it has no pipes"));
    };
    let listener = thread::Builder::new().spawn(move || listen(errors, say));
    let hold = Hold::Exec(child, listener.ok());
    Ok((Channel { to: Some(Box::new(to)), hold }, Box::new(from)))
}

/// Waits until it is so, and no longer than this.
fn wait(most: Duration, mut so: impl FnMut() -> bool) {
    let since = Instant::now();
    while !so() && since.elapsed() < most {
        thread::sleep(Duration::from_millis(1));
    }
}

impl Channel {
    /// Opens a way; `say` is told what a command says on standard error.
    pub fn open(reach: &Reach, folder: &Path, say: impl FnMut(String) + Send + 'static) -> io::Result<(Channel, From)> {
        match reach {
            Reach::Tcp(address) => tcp(address),
            Reach::Exec(words) => exec(words, folder, say),
        }
    }

    pub fn send(&mut self, bytes: &[u8]) -> io::Result<()> {
        match &mut self.to {
            Some(to) => to.write_all(bytes).and_then(|()| to.flush()),
            None => Err(io::ErrorKind::BrokenPipe.into()),
        }
    }

    /// Says that nothing more is sent. What was sent is still taken by the node; a command has a moment to end.
    pub fn leave(mut self) {
        self.to = None;
        match &mut self.hold {
            Hold::Tcp(stream) => {
                let _ = stream.shutdown(Shutdown::Write);
            }
            Hold::Exec(child, listener) => {
                wait(LEAVE, || !matches!(child.try_wait(), Ok(None)));
                wait(LEAVE / 10, || listener.as_ref().is_none_or(JoinHandle::is_finished));
            }
        }
    }

    /// Cuts the stream off both ways, so that who reads it ends.
    pub fn cut(self) {
        if let Hold::Tcp(stream) = &self.hold {
            let _ = stream.shutdown(Shutdown::Both);
        }
    }
}

impl Drop for Channel {
    /// No command is left behind.
    fn drop(&mut self) {
        self.to = None;
        if let Hold::Exec(child, _) = &mut self.hold {
            let _ = child.kill();
            let _ = child.wait();
        }
    }
}
