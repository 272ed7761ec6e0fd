//! A connection with another node: what waits to be written, the thread that writes it, and the thread that reads.

use crate::control::{Control, Whom};
use crate::format::STACK;
use crate::gateway::Inner;
use crate::proxy::Boards;
use crate::report::{Broken, Report};
use crate::routing;
use crate::term::{ErlangRef, Term};
use std::collections::{HashMap, VecDeque};
use std::io::{self, Read, Write};
use std::net::{Shutdown, TcpStream};
use std::sync::{Arc, Condvar, Mutex, MutexGuard, PoisonError};
use std::thread;
use std::time::{Duration, Instant};

/// How many bytes a read takes in at once.
const CHUNK: usize = 1 << 16;
/// What waits to be written counts with so many bytes beside its own.
const EACH: usize = 64;

/// Locks, also if a thread has panicked meanwhile: nothing of the program's own runs under a lock.
pub(crate) fn locked<T>(mutex: &Mutex<T>) -> MutexGuard<'_, T> {
    mutex.lock().unwrap_or_else(PoisonError::into_inner)
}

/// Why something was not sent.
#[derive(Clone, Copy, Debug, PartialEq, Eq, Hash)]
#[non_exhaustive]
pub enum Unsent {
    /// The connection has broken, or this node has left.
    Broken,
    /// The term is larger than may be.
    TooLarge,
    /// What it was to be sent to is not of a node that this one may connect to.
    NotANode,
}

impl std::fmt::Display for Unsent {
    fn fmt(&self, f: &mut std::fmt::Formatter<'_>) -> std::fmt::Result {
        f.write_str(match self {
            Unsent::Broken => "it is not sent: the connection is broken",
            Unsent::TooLarge => "it is not sent: the term is too large",
            Unsent::NotANode => "it is not sent: this node may not connect to such a node",
        })
    }
}

impl std::error::Error for Unsent {}

/// A connection with another node, also one that is still being made.
pub(crate) struct Connection {
    pub(crate) gateway: Arc<Inner>,
    /// The name of the other node.
    pub(crate) node: Arc<str>,
    out: Mutex<Out>,
    changed: Condvar,
    /// The proxies of its processes, by desks.
    pub(crate) boards: Boards,
    /// The desks on which its processes monitor processes that they have named by a registered name.
    named: Mutex<HashMap<ErlangRef, u8>>,
}

#[derive(Default)]
struct Out {
    packets: VecDeque<Vec<u8>>,
    /// How many bytes wait, with those that are being written.
    bytes: usize,
    stream: Option<TcpStream>,
    broken: Option<Broken>,
    /// Whether this node is about to make it.
    is_trying: bool,
    /// Whether a thread reads, which is the one that tells of the end then.
    is_read: bool,
}

impl Connection {
    pub(crate) fn new(gateway: &Arc<Inner>, node: Arc<str>) -> Arc<Connection> {
        Arc::new(Connection {
            gateway: gateway.clone(),
            node,
            out: Mutex::default(),
            changed: Condvar::new(),
            boards: Boards::new(gateway.ushers.len()),
            named: Mutex::default(),
        })
    }

    /// This node begins to make the connection, or has not made it.
    pub(crate) fn tries(&self, is_trying: bool) {
        locked(&self.out).is_trying = is_trying;
    }

    /// Whether this node is about to make it, and it is not made.
    pub(crate) fn is_trying(&self) -> bool {
        let out = locked(&self.out);
        out.is_trying && out.stream.is_none() && out.broken.is_none()
    }

    /// Notes the desk of a monitor by name.
    pub(crate) fn note(&self, reference: &ErlangRef, desk: u8) {
        locked(&self.named).insert(reference.clone(), desk);
    }

    /// The desk of such a monitor, which has ended.
    pub(crate) fn noted(&self, reference: &ErlangRef) -> Option<u8> {
        locked(&self.named).remove(reference)
    }

    /// Has a packet written behind all that waits. It never waits. If too much waits, the connection breaks.
    pub(crate) fn push(self: &Arc<Connection>, control: Control, message: Option<&Term>) -> Result<(), Unsent> {
        let packet = control.packet(message);
        if packet.len() > self.gateway.settings.largest {
            return Err(Unsent::TooLarge);
        }
        let mut out = locked(&self.out);
        if out.broken.is_some() {
            return Err(Unsent::Broken);
        }
        let bytes = out.bytes + packet.len() + EACH;
        if bytes > self.gateway.settings.unsent && !out.packets.is_empty() {
            drop(out);
            self.break_off(Broken::NotReading);
            return Err(Unsent::Broken);
        }
        out.bytes = bytes;
        out.packets.push_back(packet);
        drop(out);
        self.changed.notify_all();
        Ok(())
    }

    /// Whether it has not broken.
    pub(crate) fn is_open(&self) -> bool {
        locked(&self.out).broken.is_none()
    }

    /// Waits until the connection is made or broken, for so long at most, and returns whether it is made.
    pub(crate) fn wait(&self, limit: Duration) -> bool {
        let waits = |out: &mut Out| out.stream.is_none() && out.broken.is_none();
        let waited = self.changed.wait_timeout_while(locked(&self.out), limit, waits);
        let (out, _) = waited.unwrap_or_else(PoisonError::into_inner);
        out.broken.is_none() && out.stream.is_some()
    }

    /// The connection is made. It returns `false` if it was made before, or has broken.
    pub(crate) fn attach(self: &Arc<Connection>, stream: TcpStream) -> bool {
        let handles = (stream.try_clone(), stream.try_clone());
        let (Ok(reads), Ok(writes)) = handles else { return false };
        let mut out = locked(&self.out);
        if out.stream.is_some() || out.broken.is_some() {
            return false;
        }
        out.stream = Some(stream);
        out.is_read = true;
        drop(out);
        self.changed.notify_all();
        self.gateway.report(&Report::Up { node: &self.node });
        let (reader, writer) = (self.clone(), self.clone());
        let thread = |name: &str| thread::Builder::new().name(name.into());
        let started = thread("erlang writes").spawn(move || writer.write(writes));
        let reading = thread("erlang reads").stack_size(STACK).spawn(move || reader.read(reads));
        if started.is_err() || reading.is_err() {
            self.break_off(Broken::Closed);
        }
        if reading.is_err() {
            self.ended();
        }
        true
    }

    /// Breaks the connection, for the reason of the first call. The thread that reads tells the proxies, behind all that it
    /// has read before.
    pub(crate) fn break_off(self: &Arc<Connection>, why: Broken) {
        let mut out = locked(&self.out);
        if out.broken.is_some() {
            return;
        }
        out.broken = Some(why);
        out.packets.clear();
        let stream = out.stream.take();
        let is_read = out.is_read;
        drop(out);
        self.changed.notify_all();
        if let Some(stream) = stream {
            let _ = stream.shutdown(Shutdown::Both);
        }
        if !is_read {
            self.ended();
        }
    }

    /// Has all proxies exit with `noconnection`.
    fn ended(self: &Arc<Connection>) {
        let why = locked(&self.out).broken.unwrap_or(Broken::Closed);
        self.gateway.report(&Report::Broken { node: &self.node, why });
        routing::broken(self);
        // (so another connection with the node is made behind this news)
        self.gateway.forget(self);
    }

    fn read(self: Arc<Connection>, stream: TcpStream) {
        let why = match self.read_packets(stream) {
            Ok(()) => Broken::Closed,
            Err(why) => why,
        };
        self.break_off(why);
        self.ended();
    }

    /// Reads packets until the connection breaks.
    fn read_packets(self: &Arc<Connection>, stream: TcpStream) -> Result<(), Broken> {
        let tick = self.gateway.settings.tick;
        stream.set_read_timeout(Some(tick / 4)).map_err(|_| Broken::Closed)?;
        let mut packets = Packets { stream, read: Vec::new(), begin: 0, heard: Instant::now() };
        while self.is_open() {
            match packets.next(self.gateway.settings.largest)? {
                // (a tick)
                Some([]) => continue,
                Some(packet) => {
                    let (control, term) = Control::read(packet).map_err(|_| Broken::Malformed)?;
                    routing::route(self, control, term);
                    continue;
                }
                None => {}
            }
            if packets.heard.elapsed() > tick + tick / 4 {
                return Err(Broken::Silent);
            }
        }
        Ok(())
    }

    /// Writes what waits until the connection breaks, and a tick if nothing does for long.
    fn write(self: Arc<Connection>, mut stream: TcpStream) {
        let quiet = self.gateway.settings.tick / 4;
        loop {
            let waits = |out: &mut Out| out.packets.is_empty() && out.broken.is_none();
            let waited = self.changed.wait_timeout_while(locked(&self.out), quiet, waits);
            let (mut out, _) = waited.unwrap_or_else(PoisonError::into_inner);
            if out.broken.is_some() {
                return;
            }
            let packets = std::mem::take(&mut out.packets);
            drop(out);
            if write_all(&mut stream, &packets).is_err() {
                return self.break_off(Broken::Closed);
            }
            let written: usize = packets.iter().map(|packet| packet.len() + EACH).sum();
            locked(&self.out).bytes -= written;
        }
    }

    /// Tells the other node that a process of this one has exited, by a link or a monitor.
    pub(crate) fn tell(self: &Arc<Connection>, control: Control) {
        if let Control::Down { from: Whom::Name(_), reference, .. } = &control {
            self.noted(reference);
        }
        // (if it is broken, the other node knows)
        if self.push(control, None) == Err(Unsent::TooLarge) {
            self.break_off(Broken::TooLarge);
        }
    }
}

/// Writes packets together, or a tick if there are none.
fn write_all(stream: &mut TcpStream, packets: &VecDeque<Vec<u8>>) -> io::Result<()> {
    if packets.is_empty() {
        return stream.write_all(&[0; 4]);
    }
    let mut together = Vec::new();
    for packet in packets {
        if packet.len() > CHUNK {
            stream.write_all(&together)?;
            together.clear();
            stream.write_all(packet)?;
        } else {
            together.extend_from_slice(packet);
            if together.len() > CHUNK {
                stream.write_all(&together)?;
                together.clear();
            }
        }
    }
    stream.write_all(&together)
}

/// The packets that a stream has.
struct Packets {
    stream: TcpStream,
    read: Vec<u8>,
    /// Where what was not handed out begins.
    begin: usize,
    /// When something came.
    heard: Instant,
}

impl Packets {
    /// The next packet. An empty one is a tick. `None` if nothing came for a while.
    fn next(&mut self, largest: usize) -> Result<Option<&[u8]>, Broken> {
        loop {
            let here = &self.read[self.begin..];
            if let Some((length, _)) = here.split_first_chunk::<4>() {
                let length = u32::from_be_bytes(*length) as usize;
                if length > largest {
                    return Err(Broken::TooLarge);
                }
                if here.len() >= length + 4 {
                    let begin = self.begin + 4;
                    self.begin = begin + length;
                    return Ok(Some(&self.read[begin..begin + length]));
                }
            }
            if !self.fill()? {
                return Ok(None);
            }
        }
    }

    /// Reads what has come, and returns whether something has.
    fn fill(&mut self) -> Result<bool, Broken> {
        self.read.drain(..self.begin);
        self.begin = 0;
        if self.read.is_empty() {
            // (a large packet is not kept room for)
            self.read.shrink_to(2 * CHUNK);
        }
        let before = self.read.len();
        self.read.resize(before + CHUNK, 0);
        let count = self.stream.read(&mut self.read[before..]);
        self.read.truncate(before + *count.as_ref().unwrap_or(&0));
        match count {
            Ok(0) => Err(Broken::Closed),
            Ok(_) => {
                self.heard = Instant::now();
                Ok(true)
            }
            Err(fault) if fault.kind() == io::ErrorKind::Interrupted => Ok(true),
            Err(fault) if matches!(fault.kind(), io::ErrorKind::WouldBlock | io::ErrorKind::TimedOut) => Ok(false),
            Err(_) => Err(Broken::Closed),
        }
    }
}
