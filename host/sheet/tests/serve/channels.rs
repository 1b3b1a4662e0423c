//! Channels: greetings, how many there may be and how long they may be silent, clients that do not read, sockets that are handed over.

use crate::node::{ask, closed, greet, hear, serve, until, Node, PATIENCE};
use keeper_trials::{fed, looks, records, replies, writes, Place};
use second::random::Random;
use std::io::{Read, Write};
use std::net::{TcpListener, TcpStream};
use std::os::fd::OwnedFd;
use std::os::unix::net::{UnixListener, UnixStream};
use std::process::{Command, Stdio};
use std::thread;
use std::time::{Duration, Instant};

/// The fingerprint of the trials' plan: N 5, t 1, b 1, Q 3, m 2, F 16, repairable, crash.
const OURS: &str = "pasis 1 050101030200100000\n";
const ANSWER: &str = "pasis 1 050101030200100000 node 3 room 65536\n";

fn fresh(name: &str) -> Place {
    let place = Place::new(name);
    place.fresh();
    place
}

#[test]
fn a_client_of_the_same_plan() {
    let place = fresh("serve-greets");
    let node = Node::start(&place, &[]);
    let mut stream = node.connect();
    assert_eq!(greet(&mut stream, OURS), ANSWER);
    assert_eq!(replies(&ask(&mut stream, &looks())), 2);
    // The greeting byte by byte, and the requests right behind it.
    let mut slow = node.connect();
    for byte in &OURS.as_bytes()[..OURS.len() - 1] {
        slow.write_all(&[*byte]).expect("sent");
    }
    assert_eq!(greet(&mut slow, "\n"), ANSWER);
    assert_eq!(replies(&ask(&mut slow, &looks())), 2);
}

/// Another plan, words of another version, a line without end: the node's own line all the same, one line in the log, and the end; others go on.
#[test]
fn clients_of_another_plan() {
    let place = fresh("serve-another");
    let node = Node::start(&place, &[]);
    for (line, words) in [
        (
            "pasis 1 050101030204000001\n",
            "it has another plan: F is 16 here and 1024 there, clients is crash here and byzantine there",
        ),
        (
            "pasis 1 070201040200100000\n",
            "it has another plan: N is 5 here and 7 there, t is 1 here and 2 there, Q is 3 here and 4 there",
        ),
        ("pasis 2 what comes then\n", "it greets in words that are not of this version"),
        (&"pasis 1 ".repeat(20), "it greets in words that are not of this version"),
    ] {
        let before = node.lines().len();
        let mut stream = node.connect();
        assert_eq!(greet(&mut stream, line), ANSWER, "{line}");
        assert!(closed(&mut stream), "{line}");
        until(words, || node.lines()[before..].iter().any(|said| said.ends_with(words)));
        assert_eq!(node.lines().len(), before + 1, "{:?}", node.lines());
    }
    assert_eq!(replies(&ask(&mut node.connect(), &looks())), 2);
}

#[test]
fn greetings_on_standard_input() {
    let place = fresh("serve-greets-standard");
    let output = fed(serve(&place, &[]), &[OURS.as_bytes(), &looks()].concat());
    assert!(output.stdout.starts_with(ANSWER.as_bytes()) && output.stderr.is_empty(), "{output:?}");
    assert_eq!((replies(&output.stdout[ANSWER.len()..]), output.status.code()), (2, Some(0)));
    let output = fed(serve(&place, &[]), b"pasis 1 050101030200100001\n");
    assert_eq!((output.stdout, output.status.code()), (ANSWER.as_bytes().to_vec(), Some(8)));
    let line = "sheet: standard input: it has another plan: clients is crash here and byzantine there\n";
    assert_eq!(String::from_utf8_lossy(&output.stderr), line);
}

/// What stands before a length that no request has is answered, though more lies behind it; so is what stands before the end within a frame.
#[test]
fn lengths_that_no_request_has() {
    let place = fresh("serve-lengths");
    let node = Node::start(&place, &[]);
    for length in [0u32, 10, 228, u32::MAX] {
        let mut stream = node.connect();
        let input = [&looks()[..], &length.to_be_bytes(), &looks().repeat(3)].concat();
        stream.write_all(&input).expect("sent");
        assert_eq!(replies(&hear(&mut stream, 2)), 2);
        assert!(closed(&mut stream), "{length}");
        let words = format!("after {} bytes: no request has the length {length}; the rest", looks().len());
        until(&words, || node.says(&words));
        let output = fed(serve(&fresh(&format!("serve-lengths-{length}")), &[]), &input);
        assert_eq!((replies(&output.stdout), output.status.code()), (2, Some(2)), "{output:?}");
    }
    let mut stream = node.connect();
    stream.write_all(&[&looks()[..], &[0, 0]].concat()).expect("sent");
    assert_eq!(replies(&hear(&mut stream, 2)), 2);
    drop(stream);
    until("the end within a frame", || node.says("the input ends within a frame, which is dropped"));
}

/// Bytes of a stranger: some begin as a greeting, some as a frame, the rest is anything.
fn stray(random: &mut Random) -> Vec<u8> {
    let begin = random.pick(&[
        &b""[..],
        b"p",
        b"pasis ",
        OURS.as_bytes(),
        b"pasis 1 \xff\xfe\n",
        &[0, 0, 0, 11, 1],
        &[0, 0, 0, 227, 1, 3, 3],
    ]);
    let length = random.pick(&[0, 1, 10, 100, 3000]);
    [begin, &random.bytes(length)].concat()
}

/// Whatever comes, it is told in one line or ends as a stream of requests; nothing changes, and the next client is served.
#[test]
fn bytes_that_make_no_sense() {
    let place = fresh("serve-stray");
    let (before, mut random) = (std::fs::read(place.file("BOOK")).expect("BOOK"), Random::new(7));
    for _ in 0..60 {
        let input = stray(&mut random);
        let output = fed(serve(&place, &[]), &input);
        let text = String::from_utf8_lossy(&output.stderr).into_owned();
        assert!(matches!(output.status.code(), Some(0 | 2 | 8)), "{input:?}: {output:?}");
        assert!(text.lines().all(|line| line.starts_with("sheet: ")), "{input:?}: {text}");
    }
    let node = Node::start(&place, &[]);
    for _ in 0..200 {
        let _ = node.connect().write_all(&stray(&mut random));
    }
    until("the next client is served", || {
        let mut stream = node.connect();
        stream.write_all(&looks()).is_ok() && stream.read(&mut [0; 8]).is_ok_and(|n| n > 0)
    });
    assert!(node.lines().iter().all(|line| line.starts_with("sheet: ")), "{:?}", node.lines());
    assert_eq!(std::fs::read(place.file("BOOK")).expect("BOOK"), before);
}

#[test]
fn one_connection_too_many() {
    let place = fresh("serve-65");
    let node = Node::start(&place, &[]);
    let mut streams: Vec<_> = (0..64).map(|_| node.connect()).collect();
    for stream in &mut streams {
        assert_eq!(replies(&ask(stream, &looks())), 2);
    }
    assert!(closed(&mut node.connect()));
    until("it is logged", || node.says("turned away: there are as many connections as may be"));
    assert_eq!(replies(&ask(&mut streams[63], &looks())), 2);
    drop(streams.remove(0));
    until("there is room again", || {
        let mut stream = node.connect();
        let sent = stream.write_all(&looks());
        sent.is_ok() && stream.read(&mut [0; 8]).is_ok_and(|n| n > 0)
    });
}

#[test]
fn a_connection_that_is_silent() {
    let place = fresh("serve-idle");
    let node = Node::start(&place, &["--idle", "4", "--verbose"]);
    let (mut silent, mut busy) = (node.connect(), node.connect());
    until("the silent one is closed", || {
        assert_eq!(replies(&ask(&mut busy, &looks())), 2);
        std::thread::sleep(Duration::from_millis(100));
        node.says("nothing came for 4 s")
    });
    assert!(closed(&mut silent));
    assert_eq!(replies(&ask(&mut busy, &looks())), 2);
    let mut child = serve(&place, &["--idle", "1", "--wait", "30"]);
    drop(node);
    let mut child = child.spawn().expect("sheet");
    let input = child.stdin.take();
    assert_eq!(child.wait().expect("its end").code(), Some(0));
    drop(input);
}

/// Sends a byte of this now and then, until the other side has closed the connection.
fn trickle(mut stream: TcpStream, bytes: Vec<u8>) {
    thread::spawn(move || {
        for byte in bytes {
            if stream.write_all(&[byte]).is_err() {
                return;
            }
            thread::sleep(Duration::from_millis(300));
        }
    });
}

/// Clients that begin a request or a greeting, and send a byte of it now and then, have their time and no more: their places are free then.
#[test]
fn clients_that_send_a_byte_now_and_then() {
    let place = fresh("serve-trickle");
    let node = Node::start(&place, &["--idle", "5", "--connections", "2"]);
    let (mut request, mut greeting) = (node.connect(), node.connect());
    let looked = ask(&mut request, &looks());
    trickle(request.try_clone().expect("a second end"), writes(&records(1, 1)));
    trickle(greeting.try_clone().expect("a second end"), [b"pasis 1 ".to_vec(), vec![b'0'; 60]].concat());
    assert!(closed(&mut node.connect()), "there is no place");
    let lines = [
        format!("after {} bytes: what it began to send is not whole after 5 s", looks().len()),
        "after 0 bytes: what it began to send is not whole after 5 s".to_string(),
    ];
    until("they are closed", || lines.iter().all(|line| node.says(line)));
    assert!(closed(&mut request) && closed(&mut greeting));
    let mut served = Vec::new();
    until("there are places again", || {
        let mut stream = node.connect();
        let sent = stream.write_all(&looks());
        if sent.is_ok() && stream.read_exact(&mut vec![0; looked.len()]).is_ok() {
            served.push(stream);
        }
        served.len() == 2
    });
}

/// A client that is slow, and ends what it began: each request has its own time, though the next one is begun before anything is quiet.
#[test]
fn a_client_that_is_slow() {
    let place = fresh("serve-slow");
    let node = Node::start(&place, &["--idle", "5"]);
    let (mut stream, input, began) = (node.connect(), writes(&records(1, 5)), Instant::now());
    let mut to = stream.try_clone().expect("a second end");
    let parts: Vec<Vec<u8>> = input.chunks(input.len() / 14).map(<[u8]>::to_vec).collect();
    let sending = thread::spawn(move || {
        for part in parts {
            to.write_all(&part).expect("sent");
            thread::sleep(Duration::from_millis(500));
        }
    });
    assert_eq!(replies(&hear(&mut stream, 5)), 5);
    assert!(began.elapsed() > Duration::from_secs(6), "longer than one request may take");
    sending.join().expect("sent");
    assert_eq!(place.held().len(), 5);
}

/// A pipe is no place of another client: what was begun there may take as long as it likes, as long as something comes.
#[test]
fn a_pipe_that_is_slow() {
    let place = fresh("serve-slow-pipe");
    let mut child = serve(&place, &["--idle", "5"]).spawn().expect("sheet");
    let (mut to, mut from) = (child.stdin.take().expect("piped"), child.stdout.take().expect("piped"));
    let input = writes(&records(1, 1));
    for part in input.chunks(input.len() / 7) {
        to.write_all(part).expect("sent");
        thread::sleep(Duration::from_secs(1));
    }
    assert_eq!(replies(&hear(&mut from, 1)), 1);
    drop(to);
    assert_eq!(child.wait().expect("its end").code(), Some(0));
}

/// A client that sends requests and reads nothing holds up nobody, is closed in the end, and costs no more memory than its share.
#[test]
fn a_client_that_does_not_read() {
    let place = fresh("serve-stuck");
    let node = Node::start(&place, &["--idle", "8", "--quiet"]);
    let mut stuck = node.connect();
    stuck.set_write_timeout(Some(Duration::from_secs(2))).expect("set");
    ask(&mut node.connect(), &writes(&records(1, 3)));
    let some = looks().repeat(1000);
    while stuck.write_all(&some).is_ok() {}
    assert_eq!(replies(&ask(&mut node.connect(), &looks())), 2);
    assert!(!node.says("its replies are not read"), "held up until the other was closed");
    until("it is closed", || node.says("its replies are not read"));
    let status = std::fs::read_to_string(format!("/proc/{}/status", node.child.id())).expect("its status");
    let most = status.lines().find_map(|line| line.strip_prefix("VmHWM:")).expect("its most memory");
    let most: usize = most.trim().trim_end_matches(" kB").parse().expect("a number");
    assert!(most < 32 * 1024, "{most} kB");
}

/// The same over pipes: it ends, so that the lock is free for the next.
#[test]
fn a_client_that_does_not_read_its_pipe() {
    let place = fresh("serve-stuck-pipe");
    let mut child = serve(&place, &["--idle", "3"]).spawn().expect("sheet");
    let mut to = child.stdin.take().expect("piped");
    let sending = std::thread::spawn(move || while to.write_all(&looks().repeat(1000)).is_ok() {});
    assert_eq!(child.wait().expect("its end").code(), Some(9));
    sending.join().expect("its end");
    let mut line = String::new();
    child.stderr.take().expect("piped").read_to_string(&mut line).expect("a text");
    assert_eq!(line, "sheet: standard input: its replies are not read\n");
}

/// A socket as systemd hands it over: descriptor 3, and two words that say so.
fn socket_command(place: &Place, socket: OwnedFd) -> Command {
    let sheet = env!("CARGO_BIN_EXE_sheet");
    let script =
        format!("LISTEN_PID=$$ LISTEN_FDS=1 exec '{sheet}' serve PLAN BOOK --socket --idle-stop 3 3<&0 0</dev/null");
    let mut command = Command::new("sh");
    command.args(["-c", &script]).current_dir(&place.folder).stdin(Stdio::from(socket));
    command.stdout(Stdio::null()).stderr(Stdio::piped());
    command
}

fn handed(place: &Place, socket: OwnedFd) -> Node {
    Node::of(socket_command(place, socket))
}

/// What does not listen is no socket to serve: an end of a connection, or no socket at all.
#[test]
fn what_does_not_listen() {
    let place = fresh("serve-no-socket");
    let (one, _other) = UnixStream::pair().expect("a pair");
    let file = std::fs::File::open("/dev/null").expect("a file");
    for handed in [OwnedFd::from(one), OwnedFd::from(file)] {
        let output = socket_command(&place, handed).output().expect("sh");
        let line = "sheet: --socket: what was handed over does not listen; with systemd, Accept=no does it\n";
        assert_eq!((output.status.code(), &*String::from_utf8_lossy(&output.stderr)), (Some(2), line));
    }
}

/// It ends by itself when nobody was there for a while, and the socket, which stays, takes whoever comes then.
#[test]
fn sockets_that_are_handed_over() {
    let place = fresh("serve-socket");
    let listener = TcpListener::bind("127.0.0.1:0").expect("a socket");
    for time in 1..=2 {
        let mut node = handed(&place, listener.try_clone().expect("a second one").into());
        let mut stream = node.connect();
        assert_eq!(greet(&mut stream, OURS), ANSWER);
        assert_eq!(replies(&ask(&mut stream, &writes(&records(time, 1)))), 1);
        drop(stream);
        assert_eq!(node.code(), Some(0));
    }
    let path = place.file("socket");
    let node = handed(&place, UnixListener::bind(&path).expect("a socket").into());
    let mut stream = UnixStream::connect(&path).expect("a connection");
    stream.set_read_timeout(Some(PATIENCE)).expect("set");
    assert_eq!(replies(&ask(&mut stream, &[looks(), writes(&records(3, 1))].concat())), 3);
    assert_eq!((node.address.ends_with("/socket") || node.address == "socket", place.held().len()), (true, 3));
}
