//! What serves one node: keepers over a book on disk, or the library's call on a book in memory.

use crate::keeper::{Answer, Keeper};
use crate::library::{node, run};
use crate::plan::Plan;
use crate::trouble::Trouble;
use std::fs;
use std::io;
use std::path::{Path, PathBuf};
use std::process;
use std::thread;
use std::time::Duration;

/// The name of the plan's text.
const TEXT: &str = "plan";

/// What takes the lock of a book and runs a keeper; from the repository's folder.
const LOCKED: &str = "host/keeper-locked";

/// What keeps a book: `keeper`, or `sheet serve`, which always has the lock.
#[derive(Clone, Copy, PartialEq)]
pub enum Program {
    Keeper,
    Serve,
}

/// How many keepers a node has, and how they keep apart (docs/KEEPER.md).
#[derive(Clone, Copy, PartialEq)]
pub enum Way {
    /// One, which is told that it has the lock; a server on standard input and output.
    Alone,
    /// Two at once, without the lock; one server that listens, with two connections.
    Unlocked,
    /// One that has the lock by keeper-locked, and one that waits for it.
    Waiting,
}

pub const WAYS: [Way; 4] = [Way::Alone, Way::Alone, Way::Unlocked, Way::Waiting];

/// How the keepers of a run are started, and where their plan and their books lie.
pub struct Command {
    program: Program,
    words: Vec<String>,
    folder: PathBuf,
}

impl Command {
    /// Makes the folder, with the plan.
    pub fn new(plan: &Plan, program: Program, words: &[String], folder: PathBuf) -> io::Result<Command> {
        fs::create_dir(&folder)?;
        fs::write(folder.join(TEXT), plan.text())?;
        Ok(Command { program, words: words.to_vec(), folder })
    }

    /// The run is over, and nothing was found.
    pub fn remove(&self) {
        let _ = fs::remove_dir_all(&self.folder);
    }
}

pub struct Server {
    plan: Plan,
    up: bool,
    kept: Kept,
}

enum Kept {
    Memory(Vec<u8>),
    Disk(Disk),
}

struct Disk {
    program: Program,
    words: Vec<String>,
    greeting: String,
    text: PathBuf,
    book: PathBuf,
    way: Way,
    /// The one that has the lock is the first.
    running: Vec<Keeper>,
}

impl Server {
    /// The server of node i with this book.
    pub fn new(plan: Plan, command: Option<&Command>, i: usize, way: Way, book: Vec<u8>) -> io::Result<Server> {
        let Some(Command { program, words, folder }) = command else {
            return Ok(Server { plan, up: true, kept: Kept::Memory(book) });
        };
        let path = folder.join(format!("book-{i}"));
        fs::write(&path, &book)?;
        let (words, text) = (words.clone(), folder.join(TEXT));
        let (program, greeting) = (*program, plan.greeting());
        let disk = Disk { program, words, greeting, text, book: path, way, running: Vec::new() };
        let mut server = Server { plan, up: false, kept: Kept::Disk(disk) };
        server.start()?;
        Ok(server)
    }

    pub fn up(&self) -> bool {
        self.up
    }

    pub fn start(&mut self) -> io::Result<()> {
        self.up = true;
        match &mut self.kept {
            Kept::Memory(_) => Ok(()),
            Kept::Disk(disk) => disk.start(),
        }
    }

    /// SIGKILL to all its keepers.
    pub fn kill(&mut self) {
        self.up = false;
        if let Kept::Disk(disk) = &mut self.kept {
            disk.running.drain(..).for_each(|keeper| drop(keeper.kill()));
        }
    }

    pub fn book(&self) -> io::Result<Vec<u8>> {
        match &self.kept {
            Kept::Memory(book) => Ok(book.clone()),
            Kept::Disk(disk) => fs::read(&disk.book),
        }
    }

    /// Another book in its place, while it is not up.
    pub fn replace(&mut self, with: &[u8]) -> io::Result<()> {
        match &mut self.kept {
            Kept::Memory(book) => {
                *book = with.to_vec();
                Ok(())
            }
            Kept::Disk(disk) => fs::write(&disk.book, with),
        }
    }

    /// A request of this client.
    pub fn serve(&mut self, client: usize, request: &[u8]) -> Result<Answer, Trouble> {
        match &mut self.kept {
            Kept::Memory(book) => Ok(answer(node(&self.plan, request, book))),
            Kept::Disk(disk) => disk.serve(client, request),
        }
    }

    /// Requests that wait, handed over together: in memory by one call, which must come to what they come to singly.
    pub fn serve_run(&mut self, requests: &[&[u8]]) -> Result<Vec<Answer>, Trouble> {
        match &mut self.kept {
            Kept::Memory(book) => {
                let mut copy = book.clone();
                let singly: Vec<_> = requests.iter().map(|request| node(&self.plan, request, &mut copy)).collect();
                let ran = run(&self.plan, requests, book).unwrap_or_else(|refused| vec![Err(refused); requests.len()]);
                if ran != singly || *book != copy {
                    return Err(Trouble::Broken(
                        "a run of requests came to something else than they did singly".into(),
                    ));
                }
                Ok(ran.into_iter().map(answer).collect())
            }
            Kept::Disk(disk) => disk.serve_run(requests),
        }
    }

    /// Whether two clients' requests can be served at the same moment.
    pub fn serves_two(&self, one: usize, other: usize) -> bool {
        matches!(&self.kept, Kept::Disk(disk) if disk.at(one) != disk.at(other))
    }

    /// Two clients' requests, handed over before either is answered.
    pub fn serve_two(&mut self, asked: [(usize, &[u8]); 2]) -> Result<[Answer; 2], Trouble> {
        let Kept::Disk(disk) = &mut self.kept else {
            return Err(Trouble::Failed("a node in memory serves one at a time".into()));
        };
        for (client, request) in asked {
            let at = disk.at(client);
            disk.running[at].send(request);
        }
        let [one, other] = asked.map(|(client, _)| {
            let at = disk.at(client);
            disk.running[at].answer()
        });
        Ok([one?, other?])
    }

    /// A request, and SIGKILL so long after it: to all keepers, or, where one waits for the lock, to the one that has it. Gives the reply that
    /// had been sent by then.
    pub fn serve_and_kill(&mut self, client: usize, request: &[u8], pause: Duration) -> Option<Vec<u8>> {
        self.up = false;
        let Kept::Disk(disk) = &mut self.kept else { return None };
        let at = disk.at(client);
        disk.running[at].send(request);
        thread::sleep(pause);
        let spared = if disk.way == Way::Waiting { disk.running.split_off(1) } else { Vec::new() };
        let killed = std::mem::replace(&mut disk.running, spared);
        self.up = !disk.running.is_empty();
        let replies: Vec<Option<Vec<u8>>> = killed.into_iter().map(Keeper::kill).collect();
        replies.into_iter().nth(at).flatten()
    }

    /// The keeper that has the lock ends, by the end of its input or by SIGKILL, and the one that waits has it. Whether one waited.
    pub fn hand_over(&mut self, kill: bool) -> bool {
        let Kept::Disk(disk) = &mut self.kept else { return false };
        if disk.way != Way::Waiting || disk.running.len() < 2 {
            return false;
        }
        let first = disk.running.remove(0);
        if kill {
            first.kill();
        } else {
            first.end();
        }
        true
    }

    /// Whether a killed keeper has left its new file; without the lock a person has to remove it, and here does.
    pub fn clear(&self) -> bool {
        let Kept::Disk(disk) = &self.kept else { return false };
        let unlocked = disk.way == Way::Unlocked && disk.program == Program::Keeper;
        unlocked && fs::remove_file(disk.new_book()).is_ok()
    }
}

/// What became of a request, of a call's answer.
fn answer(told: Result<Vec<u8>, u32>) -> Answer {
    match told {
        Ok(reply) => Answer::Reply(reply),
        Err(4..=8) => Answer::Refused,
        Err(refused) => Answer::Gone(format!("refused {refused}")),
    }
}

impl Disk {
    /// Both keepers where they serve side by side. The one that is to wait for the lock is started when the first has it, which is known when
    /// it has answered.
    fn start(&mut self) -> io::Result<()> {
        if self.way == Way::Unlocked && self.program == Program::Serve && self.running.is_empty() {
            self.running = Keeper::two_connections(&mut self.server(), &self.greeting)?;
        }
        while self.running.len() < if self.way == Way::Unlocked { 2 } else { 1 } {
            self.running.push(self.keeper()?);
        }
        Ok(())
    }

    /// A server, with the words that the way asks for. No other reason than a fault of its own ends it early.
    fn server(&self) -> process::Command {
        let mut command = process::Command::new(&self.words[0]);
        command.args(&self.words[1..]).args([&self.text, &self.book]).args(["--quiet", "--idle", "0", "--wait", "600"]);
        command.args((self.way == Way::Unlocked).then_some("--listen=127.0.0.1:0"));
        command
    }

    fn keeper(&self) -> io::Result<Keeper> {
        if self.program == Program::Serve {
            return Keeper::start(&mut self.server());
        }
        let mut command = process::Command::new(if self.way == Way::Waiting { LOCKED } else { &self.words[0] });
        match self.way {
            Way::Waiting => command.env("KEEPER", self.words.join(" ")),
            _ => command.args(&self.words[1..]),
        };
        command.args([&self.text, &self.book]).args((self.way == Way::Alone).then_some("locked"));
        Keeper::start(&mut command)
    }

    /// The keeper that serves this client.
    fn at(&self, client: usize) -> usize {
        if self.way == Way::Unlocked {
            client % 2
        } else {
            0
        }
    }

    fn serve(&mut self, client: usize, request: &[u8]) -> Result<Answer, Trouble> {
        let at = self.at(client);
        self.running[at].send(request);
        let answer = self.running[at].answer()?;
        self.another(&answer)?;
        Ok(answer)
    }

    /// Requests in one write to the keeper that all clients share.
    fn serve_run(&mut self, requests: &[&[u8]]) -> Result<Vec<Answer>, Trouble> {
        self.running[0].send(&requests.concat());
        let answers = self.running[0].answers(requests)?;
        self.another(&answers[0])?;
        Ok(answers)
    }

    /// Where one is to wait for the lock and none does, it is started when the first has answered.
    fn another(&mut self, answer: &Answer) -> io::Result<()> {
        if self.way == Way::Waiting && self.running.len() == 1 && !matches!(answer, Answer::Gone(_)) {
            self.running.push(self.keeper()?);
        }
        Ok(())
    }

    fn new_book(&self) -> PathBuf {
        let name = self.book.file_name().expect("a book has a name").to_string_lossy();
        self.book.parent().unwrap_or(Path::new(".")).join(format!("{name}.new"))
    }
}
