//! A server as a process, its connections, and what it says.

use keeper_trials::{first_frame, Place};
use std::io::{BufRead, BufReader, ErrorKind, Read, Write};
use std::net::TcpStream;
use std::process::{Child, ChildStderr, Command, Stdio};
use std::sync::{Arc, Mutex};
use std::thread;
use std::time::{Duration, Instant};

/// No wait of a trial is longer, on a busy machine either.
pub const PATIENCE: Duration = Duration::from_secs(30);

/// `sheet serve PLAN BOOK` in this place.
pub fn serve(place: &Place, words: &[&str]) -> Command {
    let mut command = Command::new(env!("CARGO_BIN_EXE_sheet"));
    command.args(["serve", "PLAN", "BOOK"]).args(words).current_dir(&place.folder);
    command.stdin(Stdio::piped()).stdout(Stdio::piped()).stderr(Stdio::piped());
    command
}

/// One that listens.
pub struct Node {
    pub child: Child,
    pub address: String,
    lines: Arc<Mutex<Vec<String>>>,
}

/// Looks again and again, until it is so.
pub fn until(what: &str, mut is: impl FnMut() -> bool) {
    let began = Instant::now();
    while !is() {
        assert!(began.elapsed() < PATIENCE, "{what}: it does not come to this");
        thread::sleep(Duration::from_millis(5));
    }
}

impl Node {
    pub fn start(place: &Place, words: &[&str]) -> Node {
        Node::of(serve(place, &[&["--listen", "127.0.0.1:0"], words].concat()))
    }

    /// Of a command that listens somewhere and says where.
    pub fn of(mut command: Command) -> Node {
        let mut child = command.spawn().expect("sheet");
        let errors = child.stderr.take().expect("piped");
        let mut node = Node::around(child);
        node.read(errors);
        until("it says where it listens", || node.says("serving"));
        node.is_at(&node.line("serving"));
        node
    }

    /// Takes down what it says from now on.
    pub fn read(&self, errors: ChildStderr) {
        let to = self.lines.clone();
        thread::spawn(move || {
            for line in BufReader::new(errors).lines().map_while(Result::ok) {
                to.lock().expect("whole").push(line);
            }
        });
    }

    /// Where it listens, by the line that says so.
    pub fn is_at(&mut self, line: &str) {
        let last = line.trim_end().trim_end_matches("\"}").rsplit([' ', '"']).next();
        self.address = last.expect("a word").to_string();
    }

    /// One on standard input and output, that is to be signalled.
    pub fn around(child: Child) -> Node {
        Node { child, address: String::new(), lines: Arc::default() }
    }

    pub fn lines(&self) -> Vec<String> {
        self.lines.lock().expect("whole").clone()
    }

    /// The first line with these words.
    pub fn line(&self, words: &str) -> String {
        let lines = self.lines();
        lines.iter().find(|line| line.contains(words)).cloned().unwrap_or_else(|| panic!("{words}: {lines:?}"))
    }

    pub fn says(&self, words: &str) -> bool {
        self.lines().iter().any(|line| line.contains(words))
    }

    pub fn connect(&self) -> TcpStream {
        let stream = TcpStream::connect(&self.address).expect("a connection");
        stream.set_nodelay(true).expect("set");
        stream.set_read_timeout(Some(PATIENCE)).expect("set");
        stream
    }

    pub fn signal(&self, name: &str) {
        let kill = format!("kill -{name} {}", self.child.id());
        assert!(Command::new("sh").args(["-c", &kill]).status().expect("sh").success());
    }

    /// Waits for its end: its exit code, none of one that was killed.
    pub fn code(&mut self) -> Option<i32> {
        self.child.wait().expect("its end").code()
    }
}

impl Drop for Node {
    fn drop(&mut self) {
        let _ = self.child.kill();
        let _ = self.child.wait();
    }
}

/// So many replies of a stream.
pub fn hear(stream: &mut impl Read, count: usize) -> Vec<u8> {
    let mut all = Vec::new();
    for _ in 0..count {
        let mut frame = vec![0; 4];
        stream.read_exact(&mut frame).expect("a length");
        let length = u32::from_be_bytes(*frame.first_chunk().expect("4 bytes")) as usize;
        frame.resize(4 + length, 0);
        stream.read_exact(&mut frame[4..]).expect("a frame");
        all.extend(frame);
    }
    all
}

/// Requests, and their replies.
pub fn ask(stream: &mut (impl Read + Write), requests: &[u8]) -> Vec<u8> {
    stream.write_all(requests).expect("sent");
    hear(stream, keeper_trials::replies(requests))
}

/// A greeting, and the line that answers it.
pub fn greet(stream: &mut (impl Read + Write), line: &str) -> String {
    stream.write_all(line.as_bytes()).expect("sent");
    let (mut answer, mut byte) = (String::new(), [0]);
    while !answer.ends_with('\n') && stream.read(&mut byte).expect("a read") == 1 {
        answer.push(byte[0] as char);
    }
    answer
}

/// Whether the other side has closed it, with nothing more sent. One that has gone may have cut it off.
pub fn closed(stream: &mut impl Read) -> bool {
    let late = [ErrorKind::WouldBlock, ErrorKind::TimedOut];
    match stream.read(&mut [0; 64]) {
        Ok(count) => count == 0,
        Err(error) => !late.contains(&error.kind()),
    }
}

/// What the second program answers to these frames, one at a time: the replies, and how many it refuses.
pub fn singly(book: &mut [u8], mut input: &[u8]) -> (Vec<u8>, usize) {
    let (plan, mut sent, mut refused) = (keeper_trials::plan(), Vec::new(), 0);
    while let Some(request) = first_frame(input) {
        let mut reply = vec![0; plan.frame_room()];
        match second::wire::node(&second::wire::plan_bytes(&plan), &request, book, &mut reply) {
            0 => sent.extend(first_frame(&reply).expect("a reply")),
            _ => refused += 1,
        }
        input = &input[request.len()..];
    }
    (sent, refused)
}
