//! What a server asks of the system beyond the standard library: to be told of signals, to wait for standard input and output no longer than so
//! long, and the sockets that a service manager hands over. All that is unsafe in `sheet` stands here.

use std::ffi::{c_int, c_ulong};
use std::fs::File;
use std::io;
use std::os::fd::{AsRawFd, FromRawFd, OwnedFd};
use std::time::Duration;

/// A set of signals as the C library has it on Linux: 1,024 bits.
#[repr(C)]
struct Signals([u64; 16]);

/// What `poll` is asked of one descriptor.
#[repr(C)]
struct Polled {
    fd: c_int,
    events: i16,
    happened: i16,
}

extern "C" {
    fn sigemptyset(set: *mut Signals) -> c_int;
    fn sigaddset(set: *mut Signals, signal: c_int) -> c_int;
    fn pthread_sigmask(how: c_int, set: *const Signals, before: *mut Signals) -> c_int;
    fn sigwait(set: *const Signals, signal: *mut c_int) -> c_int;
    fn poll(polled: *mut Polled, count: c_ulong, milliseconds: c_int) -> c_int;
    fn shutdown(socket: c_int, how: c_int) -> c_int;
    fn getsockopt(socket: c_int, level: c_int, name: c_int, value: *mut c_int, length: *mut u32) -> c_int;
}

// The numbers of Linux, on x86-64 and aarch64 alike.
const SIGINT: c_int = 2;
const SIGUSR1: c_int = 10;
const SIGTERM: c_int = 15;
const SIG_BLOCK: c_int = 0;
const POLLIN: i16 = 1;
const POLLOUT: i16 = 4;
const SHUT_WR: c_int = 1;
const SOL_SOCKET: c_int = 1;
const SO_ACCEPTCONN: c_int = 30;

/// What a signal asks for.
#[derive(Clone, Copy, Debug, PartialEq, Eq)]
pub enum Wanted {
    End,
    Counters,
}

/// The signals that are waited for: none of them interrupts a thread, and one that comes early stays for who waits next.
pub struct Awaited(Signals);

impl Awaited {
    /// To be called before the first thread is started: all threads have it from the first.
    pub fn hold_back() -> Awaited {
        let mut set = Signals([0; 16]);
        // SAFETY: the set is ours, and as long as the C library's; the mask before it is not asked for.
        unsafe {
            sigemptyset(&mut set);
            for signal in [SIGINT, SIGUSR1, SIGTERM] {
                sigaddset(&mut set, signal);
            }
            pthread_sigmask(SIG_BLOCK, &set, std::ptr::null_mut());
        }
        Awaited(set)
    }

    /// Waits for the next of them.
    pub fn next(&self) -> Wanted {
        let mut signal = 0;
        // SAFETY: both are ours for the call.
        let failed = unsafe { sigwait(&self.0, &mut signal) };
        match signal {
            SIGUSR1 if failed == 0 => Wanted::Counters,
            _ => Wanted::End,
        }
    }
}

/// Standard input and output as files, unbuffered. Called once: they are closed with the channel that has them.
pub fn standard() -> (File, File) {
    // SAFETY: the runtime has seen to it that both are open, and nothing else here reads or writes them.
    unsafe { (File::from_raw_fd(0), File::from_raw_fd(1)) }
}

/// Whether bytes, or the end, have come within so long.
pub fn comes_within(file: &File, patience: Duration) -> io::Result<bool> {
    happens_within(file, POLLIN, patience)
}

/// Whether there is room within so long: at a pipe, for 4,096 bytes.
pub fn takes_within(file: &File, patience: Duration) -> io::Result<bool> {
    happens_within(file, POLLOUT, patience)
}

fn happens_within(file: &File, events: i16, patience: Duration) -> io::Result<bool> {
    let milliseconds = patience.as_millis().clamp(1, c_int::MAX as u128) as c_int;
    let mut polled = Polled { fd: file.as_raw_fd(), events, happened: 0 };
    loop {
        // SAFETY: one descriptor is asked of, and it is open for as long as the file is lent.
        let count = unsafe { poll(&mut polled, 1, milliseconds) };
        let error = io::Error::last_os_error();
        match count {
            -1 if error.kind() == io::ErrorKind::Interrupted => {}
            -1 => return Err(error),
            count => return Ok(count > 0),
        }
    }
}

/// Tells the other end of a socket that nothing more is sent.
pub fn send_no_more(socket: &File) {
    // SAFETY: it is open for as long as it is lent. Where it has gone already there is nobody to tell.
    unsafe { shutdown(socket.as_raw_fd(), SHUT_WR) };
}

/// Whether this is a socket that takes connections.
pub fn listens(socket: &OwnedFd) -> bool {
    let (mut listens, mut length) = (0, size_of::<c_int>() as u32);
    // SAFETY: both are ours for the call, and the length is that of the number.
    let failed = unsafe { getsockopt(socket.as_raw_fd(), SOL_SOCKET, SO_ACCEPTCONN, &mut listens, &mut length) };
    failed == 0 && listens != 0
}

/// The sockets that a service manager hands over (systemd's LISTEN_PID and LISTEN_FDS), from descriptor 3 on; called once.
pub fn handed_over() -> Vec<OwnedFd> {
    let number = |name: &str| std::env::var(name).ok().and_then(|text| text.parse::<u32>().ok());
    let ours = number("LISTEN_PID") == Some(std::process::id());
    let count = if ours { number("LISTEN_FDS").unwrap_or(0).min(16) } else { 0 };
    // SAFETY: by its word these descriptors are open and handed to this process, and nothing else here has opened or owns them: it is asked
    // before any file is.
    (0..count as c_int).map(|place| unsafe { OwnedFd::from_raw_fd(3 + place) }).collect()
}
