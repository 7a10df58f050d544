//! An RPC server for peers that it doesn't trust: each message is vetted before the RPC system of `capnp-rpc` sees it.
//!
//!     cargo run --bin rpc_server -- 127.0.0.1:0 [CONNECTIONS [PER_PEER [SECONDS [IDLE]]]]
//!
//! It prints its port, and then a line for each connection that ended otherwise than by its peer, between two messages. The line
//! of a refused message ends with the path to the pointer. The server accepts at most CONNECTIONS at once, and PER_PEER of one
//! IPv4 address, or of the 64 bits of a network of IPv6. A message has SECONDS from its first byte on. A connection on which no
//! message comes for IDLE seconds is ended. When it gets the signal USR1 it prints its counters. It serves until it is stopped.
//! If nobody reads its lines, it drops further ones and counts them.
//!
//! `capnp-rpc` may panic at an accepted message: 0.14.1 and 0.19.0 do. Each connection has a task of its own, so a panic costs
//! that connection alone.
//!
//! The status is 2 for a wrong command line, and 3 if the address can't be listened at.

use capnp_rpc::rpc_twoparty_capnp::Side;
use capnp_rpc::twoparty::VatNetwork;
use capnp_rpc::RpcSystem;
use capvet::Limits;
use capvet_capnp_rpc::{End, Ended, Watch};
use futures::io::AsyncReadExt;
use rpc::calculator_capnp::calculator;
use rpc::Calculator;
use std::cell::RefCell;
use std::collections::{BTreeMap, HashMap};
use std::io::Write;
use std::net::{IpAddr, Ipv6Addr, SocketAddr};
use std::process::ExitCode;
use std::rc::Rc;
use std::sync::atomic::{AtomicU64, Ordering};
use std::sync::mpsc::{sync_channel, SyncSender};
use std::sync::Arc;
use std::time::Duration;
use std::{fmt, io, panic, thread};
use tokio::net::{TcpListener, TcpStream};
use tokio::runtime::Builder;
use tokio::signal::unix::{signal, SignalKind};
use tokio::task::LocalSet;
use tokio::time::{sleep, Sleep};
use tokio_util::compat::TokioAsyncReadCompatExt;

/// What a peer may send: 1 MiB, as many words of charge, 32 levels.
const LIMITS: Limits = Limits::DEFAULT
    .with_message_words(1 << 17)
    .with_charge(1 << 17)
    .with_depth(32);
/// How long a peer may leave replies unread.
const UNREAD: Duration = Duration::from_secs(2);
/// How long to wait where no connection can be accepted, as without descriptors.
const PAUSE: Duration = Duration::from_millis(100);

/// How many lines wait for whoever reads them. Further ones are dropped.
const LINES: usize = 1024;

/// Lines that a thread of their own writes. A write may wait for its reader, and fails if that has ended. The server goes on.
struct Log {
    lines: SyncSender<String>,
    lost: AtomicU64,
}

impl Log {
    fn new(mut out: impl Write + Send + 'static) -> Arc<Self> {
        let (lines, waiting) = sync_channel::<String>(LINES);
        thread::spawn(move || {
            for line in waiting {
                let _ = out.write_all(line.as_bytes());
            }
        });
        let lost = AtomicU64::default();
        Arc::new(Self { lines, lost })
    }

    fn write(&self, line: impl fmt::Display) {
        if self.lines.try_send(format!("{line}\n")).is_err() {
            self.lost.fetch_add(1, Ordering::Relaxed);
        }
    }
}

/// What has happened so far.
#[derive(Default)]
struct Counters {
    accepted: u64,
    turned_away: u64,
    late: u64,
    idle: u64,
    unread: u64,
    failed: u64,
    /// By the answer's name.
    refused: BTreeMap<&'static str, u64>,
}

struct Server {
    out: Arc<Log>,
    errors: Arc<Log>,
    service: calculator::Client,
    most: usize,
    most_per_peer: usize,
    seconds: u64,
    idle: u64,
    counters: RefCell<Counters>,
    /// The open connections of each network.
    open: RefCell<HashMap<IpAddr, usize>>,
}

/// The place of an open connection. It is left also where the connection's task panics.
struct Place {
    server: Rc<Server>,
    network: IpAddr,
}

impl Drop for Place {
    fn drop(&mut self) {
        let mut open = self.server.open.borrow_mut();
        match open.get_mut(&self.network) {
            Some(count) if *count > 1 => *count -= 1,
            _ => {
                open.remove(&self.network);
            }
        }
    }
}

impl fmt::Display for Server {
    fn fmt(&self, f: &mut fmt::Formatter<'_>) -> fmt::Result {
        let (counters, open) = (self.counters.borrow(), self.open.borrow());
        write!(
            f,
            "open {} accepted {}",
            open.values().sum::<usize>(),
            counters.accepted
        )?;
        write!(
            f,
            " turned away {} late {} idle {}",
            counters.turned_away, counters.late, counters.idle
        )?;
        write!(f, " unread {} failed {}", counters.unread, counters.failed)?;
        write!(f, " lines lost {}", self.out.lost.load(Ordering::Relaxed))?;
        counters
            .refused
            .iter()
            .try_for_each(|(name, count)| write!(f, " {name} {count}"))
    }
}

/// Returns what counts as one address: one of IPv4, or the 64 bits of a network of IPv6.
fn network_of(address: IpAddr) -> IpAddr {
    match address {
        IpAddr::V4(_) => address,
        IpAddr::V6(it) => match it.to_ipv4_mapped() {
            Some(it) => it.into(),
            None => Ipv6Addr::from(u128::from(it) & (u128::MAX << 64)).into(),
        },
    }
}

impl Server {
    fn new([most, most_per_peer, seconds, idle]: [u64; 4]) -> Self {
        Self {
            out: Log::new(io::stdout()),
            errors: Log::new(io::stderr()),
            service: capnp_rpc::new_client(Calculator),
            most: usize::try_from(most).unwrap_or(usize::MAX),
            most_per_peer: usize::try_from(most_per_peer).unwrap_or(usize::MAX),
            seconds,
            idle,
            counters: RefCell::default(),
            open: RefCell::default(),
        }
    }

    /// Returns the place of a connection that is within the limits. It is open until the place is dropped.
    fn admit(self: &Rc<Self>, address: IpAddr) -> Option<Place> {
        let network = network_of(address);
        let mut open = self.open.borrow_mut();
        let mut counters = self.counters.borrow_mut();
        let of_peer = open.get(&network).copied().unwrap_or(0);
        if of_peer >= self.most_per_peer || open.values().sum::<usize>() >= self.most {
            counters.turned_away += 1;
            return None;
        }
        open.insert(network, of_peer + 1);
        counters.accepted += 1;
        let server = self.clone();
        Some(Place { server, network })
    }

    /// Accepts connections, and never ends.
    async fn serve(self: Rc<Self>, listener: TcpListener) {
        loop {
            match listener.accept().await {
                Ok((stream, peer)) => {
                    if let Some(place) = self.admit(peer.ip()) {
                        // (tokio catches a panic of this task, and drops what it holds)
                        tokio::task::spawn_local(connected(place, stream, peer));
                    }
                }
                Err(error) => {
                    self.errors.write(format_args!("accept: {error}"));
                    sleep(PAUSE).await;
                }
            }
        }
    }

    /// Prints the counters when it is asked to, and never ends.
    async fn report(self: Rc<Self>) -> io::Result<()> {
        let mut asked = signal(SignalKind::user_defined1())?;
        while asked.recv().await.is_some() {
            self.out.write(&self);
        }
        Ok(())
    }
}

/// Serves a connection until it ends, and drops it and its place then.
async fn connected(place: Place, stream: TcpStream, peer: SocketAddr) {
    let server = &place.server;
    let _ = stream.set_nodelay(true);
    let (reader, writer) = stream.compat().split();
    let watch = Peer {
        server: server.clone(),
        address: peer,
    };
    let (reader, writer, options) = capvet_capnp_rpc::vetting(reader, writer, LIMITS, watch);
    let network = VatNetwork::new(reader, writer, Side::Server, options);
    let service = server.service.clone().client;
    // (how it ended was reported by `Peer`)
    let _ = RpcSystem::new(Box::new(network), Some(service)).await;
}

/// Watches over a connection.
struct Peer {
    server: Rc<Server>,
    address: SocketAddr,
}

impl Watch for Peer {
    type Deadline = Sleep;

    fn sleep(&mut self, time: Duration) -> Sleep {
        sleep(time)
    }

    fn deadline(&mut self) -> Option<Sleep> {
        Some(sleep(Duration::from_secs(self.server.seconds)))
    }

    fn idle(&mut self) -> Option<Sleep> {
        Some(sleep(Duration::from_secs(self.server.idle)))
    }

    fn ended(&mut self, ended: &Ended) {
        let mut counters = self.server.counters.borrow_mut();
        match &ended.end {
            End::NotAccepted(error) => {
                *counters.refused.entry(error.error().name()).or_default() += 1;
            }
            End::Late => counters.late += 1,
            End::Idle => counters.idle += 1,
            End::Unread => counters.unread += 1,
            End::Closed => {}
            _ => counters.failed += 1,
        }
        if ended.end != End::Closed {
            let path = ended.path().map(|it| format!(", path {it}"));
            self.server.out.write(format_args!(
                "{}: {ended}, after {} messages and {} bytes{}",
                self.address,
                ended.messages,
                ended.bytes,
                path.unwrap_or_default()
            ));
        }
    }

    fn unread(&mut self) -> Option<Sleep> {
        Some(sleep(UNREAD))
    }
}

/// The address, and the four numbers.
fn words() -> Option<(String, [u64; 4])> {
    let mut words = std::env::args().skip(1);
    let address = words.next()?;
    let mut numbers = [500, 100, 10, 600];
    for number in &mut numbers {
        match words.next() {
            Some(word) => *number = word.parse().ok()?,
            None => break,
        }
    }
    words.next().is_none().then_some((address, numbers))
}

/// Listens, prints the port, and serves.
async fn serve(address: &str, numbers: [u64; 4]) -> io::Result<()> {
    let listener = TcpListener::bind(address).await?;
    let server = Rc::new(Server::new(numbers));
    server.out.write(listener.local_addr()?.port());
    let errors = server.errors.clone();
    panic::set_hook(Box::new(move |it| errors.write(it)));
    tokio::task::spawn_local(server.clone().report());
    server.serve(listener).await;
    Ok(())
}

fn main() -> ExitCode {
    let (address, numbers) = match words() {
        Some(words) => words,
        None => {
            eprintln!("usage: rpc_server ADDRESS [CONNECTIONS [PER_PEER [SECONDS [IDLE]]]]");
            return ExitCode::from(2);
        }
    };
    let runtime = Builder::new_current_thread().enable_all().build();
    let served = runtime.and_then(|it| LocalSet::new().block_on(&it, serve(&address, numbers)));
    match served {
        Ok(()) => ExitCode::SUCCESS,
        Err(error) => {
            eprintln!("rpc_server: {address}: {error}");
            ExitCode::from(3)
        }
    }
}

#[cfg(test)]
mod tests {
    use super::*;

    // Whether each of these addresses gets a place, where a peer may have two.
    fn admitted(server: &Rc<Server>, addresses: &[&str], places: &mut Vec<Place>) -> Vec<bool> {
        let admitted = addresses.iter().map(|it| {
            let place = server.admit(it.parse().expect("an address"));
            let is_admitted = place.is_some();
            places.extend(place);
            is_admitted
        });
        admitted.collect()
    }

    #[test]
    fn a_network_of_ipv6_is_one_peer() {
        let server = Rc::new(Server::new([6, 2, 1, 1]));
        let mut places = Vec::new();
        let one = ["2001:db8:0:1::1", "2001:db8:0:1:ffff::2", "2001:db8:0:1::3"];
        assert_eq!(admitted(&server, &one, &mut places), [true, true, false]);
        let other = ["2001:db8:0:2::1", "2001:db8:0:2::1", "2001:db8:0:2::1"];
        assert_eq!(admitted(&server, &other, &mut places), [true, true, false]);
        let mapped = ["192.0.2.1", "::ffff:192.0.2.1", "192.0.2.1", "192.0.2.2"];
        let got = admitted(&server, &mapped, &mut places);
        assert_eq!(got, [true, true, false, false]);
        let open = "open 6 accepted 6 turned away 4 ";
        assert!(server.to_string().starts_with(open), "{server}");
        places.remove(0);
        assert_eq!(admitted(&server, &one, &mut places), [true, false, false]);
        places.clear();
        assert!(server.open.borrow().is_empty());
    }
}
