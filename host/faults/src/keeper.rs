//! One keeper as a process: frames into its standard input, replies and lines out of it, SIGKILL. A server that listens has two connections, each
//! as a keeper of its own, but that they live and die together.

use crate::library::frame_length;
use crate::plan::FRAME_HEAD;
use crate::trouble::Trouble;
use std::collections::VecDeque;
use std::io::{self, BufRead, BufReader, Lines, Read, Write};
use std::net::TcpStream;
use std::process::{Child, ChildStderr, Command, Stdio};
use std::sync::mpsc::{channel, Receiver, RecvTimeoutError, Sender};
use std::thread;
use std::time::Duration;

/// No request takes a keeper so long, on a busy machine either.
const PATIENCE: Duration = Duration::from_secs(60);

enum Heard {
    Frame(Vec<u8>),
    Line(String),
    End,
}

/// What became of one request.
pub enum Answer {
    Reply(Vec<u8>),
    Refused,
    /// The keeper has ended: its book or its plan is not one. Its last line.
    Gone(String),
}

pub struct Keeper {
    /// None of a server's second connection.
    child: Option<Child>,
    /// None where a server did not come so far that it could be reached.
    input: Option<Box<dyn Write>>,
    heard: Receiver<Heard>,
}

/// Who hears the lines of a server that name the connection.
type Hearer = (String, Sender<Heard>);

impl Keeper {
    pub fn start(command: &mut Command) -> io::Result<Keeper> {
        let mut child = command.stdin(Stdio::piped()).stdout(Stdio::piped()).stderr(Stdio::piped()).spawn()?;
        let (send, heard) = channel();
        let input: Box<dyn Write> = Box::new(child.stdin.take().expect("piped"));
        let (output, errors) = (child.stdout.take().expect("piped"), child.stderr.take().expect("piped"));
        let lines = send.clone();
        thread::spawn(move || frames(BufReader::new(output), &send));
        thread::spawn(move || {
            for line in BufReader::new(errors).lines().map_while(Result::ok) {
                let _ = lines.send(Heard::Line(line));
            }
        });
        Ok(Keeper { child: Some(child), input: Some(input), heard })
    }

    /// A server that says where it listens, and two connections to it, of which the first greets.
    pub fn two_connections(command: &mut Command, greeting: &str) -> io::Result<Vec<Keeper>> {
        let mut child = command.stdin(Stdio::null()).stdout(Stdio::null()).stderr(Stdio::piped()).spawn()?;
        let mut lines = BufReader::new(child.stderr.take().expect("piped")).lines();
        let (mut keepers, mut hearers) = (Vec::new(), Vec::new());
        let address = listens_on(&mut lines);
        for greets in [true, false] {
            let (send, heard) = channel();
            let connected = address.as_ref().ok_or(io::ErrorKind::NotConnected.into());
            match connected.and_then(|address| connection(address, greeting, greets)) {
                Ok(stream) => {
                    hearers.push((stream.local_addr()?.to_string(), send.clone()));
                    let output = stream.try_clone()?;
                    thread::spawn(move || frames(BufReader::new(output), &send));
                    keepers.push(Keeper { child: None, input: Some(Box::new(stream)), heard });
                }
                Err(_) => {
                    let _ = send.send(Heard::End);
                    keepers.push(Keeper { child: None, input: None, heard });
                }
            }
        }
        keepers[0].child = Some(child);
        thread::spawn(move || route(lines, &hearers));
        Ok(keepers)
    }

    pub fn send(&mut self, frame: &[u8]) {
        // A keeper that has ended takes no bytes; `answer` will say so.
        let _ = self.input.as_mut().map(|input| input.write_all(frame).and_then(|()| input.flush()));
    }

    /// Waits for what becomes of the one request that was sent. Refusals 4 to 8 are the request's, and the keeper goes on; any other
    /// line comes before its end.
    pub fn answer(&mut self) -> Result<Answer, Trouble> {
        let mut last = String::new();
        loop {
            match self.heard.recv_timeout(PATIENCE) {
                Ok(Heard::Frame(frame)) => return Ok(Answer::Reply(frame)),
                Ok(Heard::Line(line)) if (4..=8).any(|k| line.contains(&format!("refused {k}:"))) => {
                    return Ok(Answer::Refused)
                }
                Ok(Heard::Line(line)) => last = line,
                Ok(Heard::End) | Err(RecvTimeoutError::Disconnected) => return Ok(Answer::Gone(last)),
                Err(RecvTimeoutError::Timeout) => {
                    return Err(Trouble::Failed("a keeper neither replied nor refused nor ended".into()))
                }
            }
        }
    }

    /// Waits for what becomes of these requests, which were sent together. Replies come in the order of their requests, and each has its request's
    /// ask number; what has none is refused, or came too late for a keeper that has ended.
    pub fn answers(&mut self, requests: &[&[u8]]) -> Result<Vec<Answer>, Trouble> {
        let (mut replies, mut refused, mut gone) = (VecDeque::new(), 0, None);
        while gone.is_none() && replies.len() + refused < requests.len() {
            match self.answer()? {
                Answer::Reply(frame) => replies.push_back(frame),
                Answer::Refused => refused += 1,
                Answer::Gone(line) => gone = Some(line),
            }
        }
        let ask = |frame: &[u8]| frame[7..FRAME_HEAD].to_vec();
        let answer = |request: &&[u8]| match replies.pop_front() {
            Some(reply) if ask(&reply) == ask(request) => Answer::Reply(reply),
            other => {
                other.into_iter().for_each(|reply| replies.push_front(reply));
                gone.clone().map_or(Answer::Refused, Answer::Gone)
            }
        };
        Ok(requests.iter().map(answer).collect())
    }

    /// The end of its input, and then its own.
    pub fn end(self) {
        let Keeper { child, input, .. } = self;
        drop(input);
        let _ = child.map(|mut child| child.wait());
    }

    /// SIGKILL. Gives the reply that it may have sent before.
    pub fn kill(mut self) -> Option<Vec<u8>> {
        if let Some(child) = &mut self.child {
            let _ = child.kill();
            let _ = child.wait();
        }
        let mut reply = None;
        while let Ok(heard) = self.heard.recv() {
            match heard {
                Heard::Frame(frame) => reply = Some(frame),
                Heard::Line(_) => {}
                Heard::End => break,
            }
        }
        reply
    }
}

/// The address at which a server says that it listens; none where it ends before.
fn listens_on(lines: &mut Lines<BufReader<ChildStderr>>) -> Option<String> {
    let address = |line: String| Some(line.split_once("serving node ")?.1.split_once(" on ")?.1.to_string());
    lines.by_ref().map_while(Result::ok).find_map(address)
}

/// A connection, whose greeting, if it greets, is answered by the same words.
fn connection(address: &str, greeting: &str, greets: bool) -> io::Result<TcpStream> {
    let mut stream = TcpStream::connect(address)?;
    stream.set_nodelay(true)?;
    if greets {
        stream.write_all(format!("{greeting}\n").as_bytes())?;
        let mut line = Vec::new();
        while line.last() != Some(&b'\n') {
            let mut byte = [0];
            stream.read_exact(&mut byte)?;
            line.push(byte[0]);
        }
        if !line.starts_with(greeting.as_bytes()) {
            return Err(io::Error::other("another greeting"));
        }
    }
    Ok(stream)
}

/// Hands each line of a server to the connection that it names.
fn route(lines: Lines<BufReader<ChildStderr>>, hearers: &[Hearer]) {
    for line in lines.map_while(Result::ok) {
        for (_, to) in hearers.iter().filter(|(address, _)| line.contains(&format!(" {address}: "))) {
            let _ = to.send(Heard::Line(line.clone()));
        }
    }
}

/// Whole frames until the stream ends; a frame cut off by a kill is dropped.
fn frames(mut output: impl Read, to: &Sender<Heard>) {
    loop {
        let mut frame = vec![0; 4];
        if output.read_exact(&mut frame).is_err() {
            break;
        }
        frame.resize(frame_length(&frame), 0);
        if output.read_exact(&mut frame[4..]).is_err() || to.send(Heard::Frame(frame)).is_err() {
            break;
        }
    }
    let _ = to.send(Heard::End);
}
