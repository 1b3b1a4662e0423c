//! A node in the test: a port of loopback, a book in memory, the library's call on each request; and each way in which a node may fail.

use pasis::Plan;
use std::io::{Read, Write};
use std::net::{TcpListener, TcpStream};
use std::sync::atomic::{AtomicUsize, Ordering};
use std::sync::{Arc, Mutex, MutexGuard};
use std::thread;
use std::time::Duration;

#[derive(Clone, Copy, Debug, PartialEq)]
pub enum Way {
    Serves,
    /// Takes a connection and never says a word.
    Silent,
    /// Greets, and answers nothing but time requests.
    SilentToWrites,
    /// Closes a connection as soon as it is there.
    Closes,
    /// Closes a connection after each reply.
    Forgets,
    /// Says in its greeting, or in its frames, that it is another node.
    GreetsAs(u8),
    SpeaksAs(u8),
    /// Greets by another plan's Q.
    OtherPlan,
    /// Answers the greeting by a line of another kind.
    OtherWords,
    /// A length of 4 GiB, and one of 3.
    Long,
    Short,
    /// Answers after so many milliseconds, or write requests alone.
    Slow(u64),
    SlowToWrites(u64),
    /// Sends each reply twice, and frames of old ask numbers before it.
    Repeats,
    /// Knows no greeting, as keeper.
    Bare,
    /// Greets without telling its room.
    Roomless,
}

pub struct Node {
    pub address: String,
    inner: Arc<Inner>,
}

struct Inner {
    plan: Plan,
    number: u8,
    way: Mutex<Way>,
    book: Mutex<Vec<u8>>,
    /// Kind and ask number of every request.
    asked: Mutex<Vec<(u8, u64)>>,
    /// How many connections came.
    came: AtomicUsize,
}

fn locked<T>(value: &Mutex<T>) -> MutexGuard<'_, T> {
    value.lock().expect("no thread of a node panics")
}

impl Node {
    /// Node `number`, with room for so many records.
    pub fn start(plan: &Plan, number: u8, room: usize) -> Node {
        let listener = TcpListener::bind("127.0.0.1:0").expect("a port");
        let address = listener.local_addr().expect("an address").to_string();
        let mut book = vec![0; plan.book_size(room)];
        pasis::fresh_book(plan, number.into(), &mut book).expect("a book");
        let (way, asked, came) = (Mutex::new(Way::Serves), Mutex::default(), AtomicUsize::new(0));
        let inner = Arc::new(Inner { plan: *plan, number, way, book: Mutex::new(book), asked, came });
        let node = Node { address, inner: inner.clone() };
        thread::spawn(move || {
            for stream in listener.incoming().flatten() {
                let inner = inner.clone();
                thread::spawn(move || inner.serve(stream));
            }
        });
        node
    }

    /// How many connections came to it.
    pub fn came(&self) -> usize {
        self.inner.came.load(Ordering::SeqCst)
    }

    pub fn turn(&self, way: Way) {
        *locked(&self.inner.way) = way;
    }

    pub fn book(&self) -> Vec<u8> {
        locked(&self.inner.book).clone()
    }

    pub fn set_book(&self, book: Vec<u8>) {
        *locked(&self.inner.book) = book;
    }

    /// A fresh book in the place of the one that it had.
    pub fn lose_book(&self) {
        let mut book = self.book();
        pasis::fresh_book(&self.inner.plan, self.inner.number.into(), &mut book).expect("a book");
        self.set_book(book);
    }

    /// How many records it holds.
    pub fn held(&self) -> usize {
        let book = self.book();
        usize::from(u16::from_be_bytes([book[9], book[10]]))
    }

    /// Kind and ask number of every request that came, in their order.
    pub fn asked(&self) -> Vec<(u8, u64)> {
        locked(&self.inner.asked).clone()
    }
}

impl Inner {
    fn way(&self) -> Way {
        *locked(&self.way)
    }

    /// The greeting, written here by the contract's words and not by the program's.
    fn greeting(&self, way: Way) -> String {
        let mut plan = self.plan.bytes();
        let number = if let Way::GreetsAs(number) = way { number } else { self.number };
        if way == Way::OtherPlan {
            plan[3] += 1;
        }
        let print: String = plan[..9].iter().map(|byte| format!("{byte:02x}")).collect();
        match way {
            Way::OtherWords => "HTTP/1.1 400 Bad Request\r\n".to_string(),
            Way::Roomless => format!("pasis 1 {print} node {number}\n"),
            _ => format!("pasis 1 {print} node {number} room {}\n", locked(&self.book).len()),
        }
    }

    fn serve(&self, mut stream: TcpStream) -> Option<()> {
        let way = self.way();
        self.came.fetch_add(1, Ordering::SeqCst);
        match way {
            Way::Closes => return None,
            Way::Silent => {
                let _ = stream.read_to_end(&mut Vec::new());
                return None;
            }
            Way::Bare => {}
            _ => {
                let mut line = Vec::new();
                while line.last() != Some(&b'\n') {
                    let mut byte = [0];
                    stream.read_exact(&mut byte).ok()?;
                    line.push(byte[0]);
                }
                assert!(line.starts_with(b"pasis 1 ") && line.len() == 27, "{line:?}");
                stream.write_all(self.greeting(way).as_bytes()).ok()?;
            }
        }
        loop {
            let request = cut(&mut stream)?;
            let kind = request[5];
            let ask = u64::from_be_bytes(request[7..15].try_into().expect("8 bytes"));
            locked(&self.asked).push((kind, ask));
            self.answer(&mut stream, &request)?;
        }
    }

    /// Answers one request, or does not; nothing where the connection is to be closed.
    fn answer(&self, stream: &mut TcpStream, request: &[u8]) -> Option<()> {
        let way = self.way();
        match way {
            Way::SlowToWrites(pause) if request[5] == 3 => thread::sleep(Duration::from_millis(pause)),
            Way::Slow(pause) => thread::sleep(Duration::from_millis(pause)),
            Way::Long => return stream.write_all(&[0xff; 4]).ok(),
            Way::Short => return stream.write_all(&[0, 0, 0, 3]).ok(),
            Way::SilentToWrites if request[5] == 3 => return Some(()),
            Way::Silent => return Some(()),
            _ => {}
        }
        let mut reply = vec![0; self.plan.frame_size()];
        let served = pasis::node(&self.plan, request, &mut locked(&self.book), &mut reply);
        let Ok(length) = served else { return Some(()) };
        reply.truncate(length);
        if let Way::SpeaksAs(number) = way {
            reply[6] = number;
        }
        if way == Way::Repeats {
            let mut old = reply.clone();
            old[14] ^= 0x40;
            stream.write_all(&[old.clone(), old, reply.clone()].concat()).ok()?;
        }
        stream.write_all(&reply).ok()?;
        (way != Way::Forgets).then_some(())
    }
}

/// A whole frame out of a stream.
fn cut(stream: &mut TcpStream) -> Option<Vec<u8>> {
    let mut length = [0; 4];
    stream.read_exact(&mut length).ok()?;
    let mut rest = vec![0; u32::from_be_bytes(length) as usize];
    stream.read_exact(&mut rest).ok()?;
    Some([&length[..], &rest].concat())
}
