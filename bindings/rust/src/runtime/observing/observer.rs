//! The page of a run, over HTTP. It only reads.

use super::super::calls::CallFault;
use super::super::paces::{is_trial, no_wait};
use super::super::run::Handle;
use super::request::{self, Request, Response};
use super::view::{Look, Place};
use super::{json, metrics};
use crate::Pid;
use json::Json;
use std::fmt;
use std::io::{self, Read};
use std::net::{Ipv4Addr, SocketAddr, TcpListener, TcpStream, ToSocketAddrs};
use std::sync::atomic::{AtomicBool, AtomicUsize, Ordering::SeqCst};
use std::sync::{Arc, Mutex, PoisonError};
use std::thread::{self, JoinHandle};
use std::time::Duration;

/// The page, the same for all languages.
const PAGE: &str = include_str!("observer.html");
/// How many connections are served at a time.
const MOST: usize = 16;
/// How long a look waits for a desk.
const LIMIT: Duration = Duration::from_millis(500);
/// How many bytes of the text of a process's state are shown.
const LONGEST_TEXT: usize = 65_536;

/// A server of the page of a run: what [`Handle::observe`] returns. Printed, it is the address of the page. Dropped, it ends.
///
/// | `GET` of | is answered with |
/// |---|---|
/// | `/TOKEN/` | the page |
/// | `/TOKEN/state`, `/TOKEN/state?after=NEXT` | a [`View`](super::View) as JSON, from a page of processes on |
/// | `/TOKEN/inspect?pid=0.3.1` | what a behaviour says of its state, as JSON |
/// | `/TOKEN/metrics`, or `/metrics` with `Authorization: Bearer TOKEN` | the counts in the text format of Prometheus |
///
/// Anything else is an error of HTTP. A request has two seconds to come and 8 KiB, a response five seconds to go, and 16
/// connections are served at a time.
///
/// ```
/// use pundewo::runtime::Runtime;
///
/// let runtime = Runtime::builder().desks(2).start()?;
/// let observer = runtime.observe(0)?;
/// println!("{observer}");
/// # assert!(observer.to_string().starts_with("http://127.0.0.1:"));
/// runtime.stop()?;
/// # Ok::<(), Box<dyn std::error::Error>>(())
/// ```
#[must_use = "dropped, it ends"]
pub struct Observer {
    address: SocketAddr,
    served: Arc<Served>,
    thread: Option<JoinHandle<()>>,
}

/// What the threads of an observer share.
struct Served {
    handle: Handle,
    token: String,
    /// How many connections are served now.
    busy: AtomicUsize,
    is_over: AtomicBool,
    /// Held by the one that looks: two looks at a time would only be more work for the desks.
    looks: Mutex<()>,
}

impl Handle {
    /// Serves a page that shows the run, on this port of the loopback alone, or on a free one for 0.
    ///
    /// The page is at an address with a token, which others do not know: [`Observer::url`]. There are `GET` requests and no
    /// other, and none changes anything. What else is there: see [`Observer`].
    ///
    /// # Errors
    ///
    /// As [`TcpListener::bind`], or if the system has no random numbers or no thread.
    pub fn observe(&self, port: u16) -> io::Result<Observer> {
        self.observe_at((Ipv4Addr::LOCALHOST, port))
    }

    /// The same on an address of this machine, such as `0.0.0.0:9000`, which others reach. The connection is not encrypted, so
    /// whoever sees it sees the token.
    ///
    /// # Errors
    ///
    /// As [`observe`](Handle::observe).
    pub fn observe_at(&self, address: impl ToSocketAddrs) -> io::Result<Observer> {
        if is_trial() {
            no_wait("Handle::observe", "World::living, or Replay::history");
        }
        let listener = TcpListener::bind(address)?;
        let address = listener.local_addr()?;
        let served = Arc::new(Served {
            handle: self.clone(),
            token: token()?,
            busy: AtomicUsize::new(0),
            is_over: AtomicBool::new(false),
            looks: Mutex::new(()),
        });
        let shared = served.clone();
        let accepts = move || accept(&listener, &shared);
        let thread = Some(thread::Builder::new().name("observer".into()).spawn(accepts)?);
        Ok(Observer { address, served, thread })
    }
}

impl Observer {
    /// The address of the page, with its token.
    #[must_use]
    pub fn url(&self) -> String {
        format!("http://{}/{}/", self.address, self.served.token)
    }

    /// The address that it listens at.
    #[must_use]
    pub fn address(&self) -> SocketAddr {
        self.address
    }

    /// The token, which Prometheus gives as `authorization: credentials` where it asks for `/metrics`.
    #[must_use]
    pub fn token(&self) -> &str {
        &self.served.token
    }
}

impl fmt::Display for Observer {
    fn fmt(&self, f: &mut fmt::Formatter<'_>) -> fmt::Result {
        f.write_str(&self.url())
    }
}

impl fmt::Debug for Observer {
    fn fmt(&self, f: &mut fmt::Formatter<'_>) -> fmt::Result {
        f.debug_struct("Observer").field("address", &self.address).finish_non_exhaustive()
    }
}

impl Drop for Observer {
    fn drop(&mut self) {
        self.served.is_over.store(true, SeqCst);
        // (so that the thread, which waits for a connection, sees it)
        let mut address = self.address;
        if address.ip().is_unspecified() {
            address.set_ip(Ipv4Addr::LOCALHOST.into());
        }
        if TcpStream::connect_timeout(&address, Duration::from_secs(1)).is_ok() {
            _ = self.thread.take().map(JoinHandle::join);
        }
    }
}

/// 128 random bits, as text.
fn token() -> io::Result<String> {
    let mut bits = [0; 16];
    std::fs::File::open("/dev/urandom")?.read_exact(&mut bits)?;
    Ok(bits.iter().map(|byte| format!("{byte:02x}")).collect())
}

/// Whether two texts are equal, in a time that does not say where they differ.
fn is_same(one: &str, other: &str) -> bool {
    one.len() == other.len() && one.bytes().zip(other.bytes()).fold(0, |all, (a, b)| all | (a ^ b)) == 0
}

/// Serves connections until the observer is dropped.
fn accept(listener: &TcpListener, served: &Arc<Served>) {
    loop {
        let stream = listener.accept();
        if served.is_over.load(SeqCst) {
            return;
        }
        match stream {
            Ok((stream, _)) => begin(stream, served),
            // (no file for a connection: soon there may be)
            Err(_) => thread::sleep(Duration::from_millis(50)),
        }
    }
}

/// Serves a connection on a thread of its own, unless there are too many.
fn begin(stream: TcpStream, served: &Arc<Served>) {
    struct Busy(Arc<Served>);
    impl Drop for Busy {
        fn drop(&mut self) {
            self.0.busy.fetch_sub(1, SeqCst);
        }
    }
    let count = served.busy.fetch_add(1, SeqCst);
    let busy = Busy(served.clone());
    if count >= MOST {
        request::turn_away(stream);
        return;
    }
    let serves = move || _ = serve(stream, &busy.0);
    let _ = thread::Builder::new().name("observer".into()).spawn(serves);
}

fn serve(mut stream: TcpStream, served: &Served) -> io::Result<()> {
    let Some(request) = request::read(&mut stream) else { return Ok(()) };
    let response = request.map_or_else(|refused| refused, |request| served.answer(&request));
    request::write(&mut stream, &response)
}

impl Served {
    fn answer(&self, request: &Request) -> Response {
        let text = |kind, body| Response { status: "200 OK", kind, body };
        let path = request.path.strip_prefix('/').unwrap_or_default();
        let (first, rest) = path.split_once('/').unwrap_or((path, ""));
        let is_ours = is_same(first, &self.token);
        if !(is_ours || path == "metrics" && is_same(&request.bearer, &self.token)) {
            return Response::refused("404 Not Found");
        }
        match if is_ours { rest } else { path } {
            "" if path.ends_with('/') => text("text/html; charset=utf-8", PAGE.to_owned()),
            "metrics" => text("text/plain; version=0.0.4; charset=utf-8", self.metrics()),
            "state" => self.state(request.field("after")).map_or_else(refuse, |body| text("application/json", body)),
            "inspect" => self.inspect(request.field("pid")).map_or_else(refuse, |body| text("application/json", body)),
            _ => Response::refused("404 Not Found"),
        }
    }

    fn look(&self, look: Look) -> super::View {
        let _one = self.looks.lock().unwrap_or_else(PoisonError::into_inner);
        self.handle.look(&Look { limit: LIMIT, ..look })
    }

    fn metrics(&self) -> String {
        metrics::text(&self.look(Look { processes: 0, ..Look::default() }))
    }

    /// The state as JSON, from this page on. `None` if there is no such page.
    fn state(&self, after: Option<&str>) -> Option<String> {
        let after = match after {
            Some(text) => {
                let (desk, seat) = text.split_once('.')?;
                Some(Place { desk: desk.parse().ok()?, seat: seat.parse().ok().filter(|&seat| seat < usize::MAX)? })
            }
            None => None,
        };
        let mut out = String::new();
        self.look(Look { after, ..Look::default() }).put(&mut out);
        Some(out)
    }

    /// What a behaviour says of its state, or why it says nothing, as JSON. `None` if this is no pid.
    fn inspect(&self, pid: Option<&str>) -> Option<String> {
        let mut parts = pid?.split('.');
        let (shard, slot) = (parts.next()?.parse().ok()?, parts.next()?.parse().ok()?);
        let pid = Pid { shard, slot, version: parts.next()?.parse().ok()? };
        Some(match self.handle.inspect(pid, LIMIT) {
            Ok(text) => json::one("text", within(&text)),
            Err(fault) => json::one("fault", &reason(&fault)),
        })
    }
}

fn refuse() -> Response {
    Response::refused("400 Bad Request")
}

/// As much of a text as is shown.
fn within(text: &str) -> &str {
    let end = (0..=LONGEST_TEXT.min(text.len())).rev().find(|&end| text.is_char_boundary(end));
    &text[..end.unwrap_or(0)]
}

/// Why a behaviour says nothing.
fn reason(fault: &CallFault) -> String {
    match fault {
        CallFault::Down(..) => "the process has exited".into(),
        CallFault::Dropped => "the behaviour panicked as it was asked".into(),
        fault => fault.to_string(),
    }
}
