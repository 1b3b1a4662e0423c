//! Where a server listens: a TCP address, or the sockets that a service manager hands over; and the thread of each connection.

use super::channel::Channel;
use super::counters::add;
use super::gate::Closed;
use super::log::Level;
use super::system::listens;
use super::Shared;
use crate::code::{fault, Code, Fault};
use std::fs::File;
use std::io;
use std::net::{SocketAddr, TcpListener, ToSocketAddrs};
use std::os::fd::OwnedFd;
use std::os::unix::net::UnixListener;
use std::sync::Arc;
use std::thread;
use std::time::Duration;

pub enum Listener {
    Tcp(TcpListener),
    Unix(UnixListener),
}

/// A connection that has come, and who it is.
struct Come {
    socket: OwnedFd,
    from: String,
}

/// A TCP address, of this machine alone unless it is said otherwise.
pub fn at(address: &str, beyond_loopback: bool) -> Result<Listener, Fault> {
    let wrong = |why: String| fault(Code::WrongUse, format!("--listen: {address}: {why}"));
    let all: Vec<SocketAddr> = match address.to_socket_addrs() {
        Ok(all) => all.collect(),
        Err(error) => return wrong(format!("this is not an address and a port, as 127.0.0.1:7003 ({error})")),
    };
    if let Some(other) = all.iter().find(|one| !one.ip().is_loopback() && !beyond_loopback) {
        let why = "is reached from other machines: channels are taken to be authentic, so give --beyond-loopback only";
        return wrong(format!("{} {why} where no stranger can reach it", other.ip()));
    }
    match TcpListener::bind(&all[..]) {
        Ok(listener) => Ok(Listener::Tcp(listener)),
        Err(error) => fault(Code::System, format!("--listen: {address}: {error}")),
    }
}

/// A socket that was handed over; it must be one that listens, of TCP or of a path.
pub fn handed(socket: OwnedFd) -> Result<Listener, Fault> {
    if !listens(&socket) {
        return fault(
            Code::WrongUse,
            "--socket: what was handed over does not listen; with systemd, Accept=no does it",
        );
    }
    let tcp = TcpListener::from(socket);
    match tcp.local_addr() {
        Ok(_) => Ok(Listener::Tcp(tcp)),
        Err(_) => Ok(Listener::Unix(UnixListener::from(OwnedFd::from(tcp)))),
    }
}

impl Listener {
    /// Where it listens, for people.
    pub fn name(&self) -> io::Result<String> {
        match self {
            Listener::Tcp(listener) => listener.local_addr().map(|address| address.to_string()),
            Listener::Unix(listener) => listener.local_addr().map(|address| match address.as_pathname() {
                Some(path) => path.display().to_string(),
                None => "a socket without a path".to_string(),
            }),
        }
    }

    /// The next connection. How long it may be idle holds for its replies too, which it has to take.
    fn accept(&self, idle: Option<Duration>) -> io::Result<Come> {
        match self {
            Listener::Tcp(listener) => {
                let (stream, from) = listener.accept()?;
                stream.set_nodelay(true)?;
                stream.set_read_timeout(idle)?;
                stream.set_write_timeout(idle)?;
                Ok(Come { socket: stream.into(), from: from.to_string() })
            }
            Listener::Unix(listener) => {
                let (stream, _) = listener.accept()?;
                stream.set_read_timeout(idle)?;
                stream.set_write_timeout(idle)?;
                Ok(Come { socket: stream.into(), from: "a local client".to_string() })
            }
        }
    }

    /// Takes connections for as long as the process lives; one that cannot be served is closed at once.
    pub fn serve(self, shared: &Arc<Shared>, idle: Option<Duration>) {
        loop {
            match self.accept(idle) {
                Ok(come) => admit(shared, come, idle),
                Err(error) => {
                    shared.log.note("failed", "a connection", &format!("cannot be taken: {error}"));
                    // As where no descriptor is free: it may be over soon.
                    thread::sleep(Duration::from_millis(50));
                }
            }
        }
    }
}

/// A thread for a connection, where there is room for one.
fn admit(shared: &Arc<Shared>, come: Come, idle: Option<Duration>) {
    let admitted = match shared.gate.admit() {
        Ok(admitted) => admitted,
        Err(Closed::Ending) => return,
        Err(Closed::Full) => {
            add(&shared.counters.turned_away, 1);
            return shared.log.note("turned away", &come.from, "turned away: there are as many connections as may be");
        }
    };
    add(&shared.counters.connections, 1);
    let (own, from) = (shared.clone(), come.from.clone());
    let spawned = thread::Builder::new().spawn(move || {
        let Come { socket, from } = come;
        let _admitted = admitted;
        own.log.detail("came", &from, "came");
        let mut channel = Channel::socket(&own, File::from(socket), from, idle);
        let parting = channel.serve();
        let quiet = parting.code == Code::Done && own.log.level < Level::All;
        if !quiet {
            own.log.note("closed", &channel.from, &parting.words);
        }
        if [Code::WrongUse, Code::Damaged].contains(&parting.code) {
            channel.read_past();
        }
    });
    if let Err(error) = spawned {
        shared.log.note("failed", &from, &format!("cannot be served: {error}"));
    }
}
