//! A node of an Erlang cluster, and what the program does with it.

use crate::connection::{Connection, Unsent, locked};
use crate::control::{Control, Whom};
use crate::cookie::Cookie;
use crate::ei;
use crate::proxy::{For, NoProxy, ToProxy, proxy};
use crate::reason::{NOCONNECTION, Reasons};
use crate::report::{Broken, Report, Reporter};
use crate::serving::{Converted, Delivery, Door, Incoming, Refusal, Served};
use crate::term::{ErlangPid, ErlangRef, Term, atom};
use crate::usher::{Came, ToUsher, Usher};
use pundewo::runtime::{Address, Call, CallFault, Context, Handle, SpawnFault};
use pundewo::{Fault, Pid, Reason, Ref};
use std::collections::hash_map::RandomState;
use std::collections::{BTreeMap, HashMap};
use std::fmt;
use std::hash::{BuildHasher, Hasher};
use std::io;
use std::net::{Ipv4Addr, Shutdown, SocketAddr, TcpListener, TcpStream, ToSocketAddrs};
use std::panic::{AssertUnwindSafe, catch_unwind};
use std::sync::atomic::{AtomicBool, AtomicU64, AtomicUsize, Ordering::SeqCst};
use std::sync::{Arc, Mutex, OnceLock};
use std::thread;
use std::time::{Duration, Instant};

/// For how long a handshake may take, and how many are made at once.
const HANDSHAKE: Duration = Duration::from_secs(7);
const HANDSHAKES: usize = 16;
/// How many nodes are connected, or are about to be.
const NODES: usize = 256;
/// How long a connection of a node that refused this one may take to come from there.
const CROSSING: Duration = Duration::from_millis(300);
/// How long the other connection with a node may take to tell of its end.
const PATIENCE: Duration = Duration::from_secs(5);
const LOOK: Duration = Duration::from_millis(1);
/// How much longer than its caller a proxy knows of a call.
const LATE: Duration = Duration::from_secs(1);
/// The port of `epmd`, by which the address of a host is looked up.
const EPMD: u16 = 4_369;

pub(crate) struct Settings {
    address: Ipv4Addr,
    pub(crate) tick: Duration,
    pub(crate) largest: usize,
    pub(crate) unsent: usize,
    pub(crate) waiting: usize,
    pub(crate) proxies: usize,
}

/// The settings of a gateway, of which each may be left as it is.
pub struct Builder {
    run: Handle,
    settings: Settings,
    port: u16,
    reporter: Option<Reporter>,
}

impl fmt::Debug for Builder {
    fn fmt(&self, f: &mut fmt::Formatter<'_>) -> fmt::Result {
        f.debug_struct("Builder").field("listen", &self.settings.address).finish_non_exhaustive()
    }
}

impl Builder {
    /// Where other nodes connect. Without this `127.0.0.1`: then this node connects to none beyond this machine either.
    #[must_use]
    pub fn listen(mut self, address: Ipv4Addr) -> Builder {
        self.settings.address = address;
        self
    }

    /// The port where other nodes connect, as `inet_dist_listen_min` has it: for a wall or a tunnel that lets one port through.
    /// Without this the system chooses one.
    #[must_use]
    pub fn port(mut self, port: u16) -> Builder {
        self.port = port;
        self
    }

    /// `net_ticktime`: after so long and a quarter of it without a sign of the other node the connection breaks. Without this
    /// 60 seconds, as in Erlang.
    #[must_use]
    pub fn tick(mut self, time: Duration) -> Builder {
        self.settings.tick = time.max(Duration::from_millis(40));
        self
    }

    /// How many bytes a packet has at most, both ways. Without this 64 MiB.
    #[must_use]
    pub fn largest(mut self, bytes: usize) -> Builder {
        self.settings.largest = bytes.clamp(4_096, u32::MAX as usize - 8);
        self
    }

    /// How many bytes may wait for a node that does not read them. One packet is taken whatever its size. With more the
    /// connection breaks. Without this 64 MiB.
    #[must_use]
    pub fn unsent(mut self, bytes: usize) -> Builder {
        self.settings.unsent = bytes;
        self
    }

    /// How many messages may wait for a process that is served before the connection that brings it more is read again.
    /// Without this 100,000.
    #[must_use]
    pub fn waiting(mut self, messages: usize) -> Builder {
        self.settings.waiting = messages.max(1);
        self
    }

    /// How many processes of one other node may have a proxy on one desk. With more a link or a monitor ends at once, with
    /// `system_limit`. Without this 512.
    #[must_use]
    pub fn proxies(mut self, most: usize) -> Builder {
        self.settings.proxies = most;
        self
    }

    /// Has this closure told what happens. It runs on whatever thread, which waits for it.
    #[must_use]
    pub fn report(mut self, reporter: impl Fn(&Report<'_>) + Send + Sync + 'static) -> Builder {
        self.reporter = Some(Box::new(reporter));
        self
    }

    /// Joins a cluster, as a hidden node with this name: `switch@127.0.0.1`. `epmd` of this machine has to run.
    ///
    /// # Errors
    ///
    /// [`JoinFault`] says why not.
    pub fn join(self, node: &str, cookie: &Cookie) -> Result<Gateway, JoinFault> {
        let (listener, place) = self.place(node)?;
        let mut ei = ei::Node::new(&place, cookie.text()).map_err(JoinFault::of)?;
        ei.publish(place.port, HANDSHAKE).map_err(JoinFault::of)?;
        let known = Arc::new(OnceLock::new());
        let ushers = ushers(&self.run, &known)?;
        let inner = Arc::new(self.inner(ei, ushers, node, &place));
        let _ = known.set(inner.clone());
        let listens = inner.clone();
        let started = thread::Builder::new().name("erlang listens".into()).spawn(move || listens.listen(&listener));
        match started {
            Ok(_) => Ok(Gateway(inner)),
            Err(fault) => {
                inner.leave();
                Err(JoinFault::Listen(fault))
            }
        }
    }

    /// Where the node is, and what listens there.
    fn place<'a>(&self, node: &'a str) -> Result<(TcpListener, ei::Place<'a>), JoinFault> {
        let (alive, host) = parts_of(node).ok_or(JoinFault::BadName)?;
        let address = self.settings.address;
        let listener = TcpListener::bind((address, self.port)).map_err(JoinFault::Listen)?;
        let port = listener.local_addr().map_err(JoinFault::Listen)?.port();
        let creation = (RandomState::new().build_hasher().finish() as u32) | 0x100;
        Ok((listener, ei::Place { alive, host, address, port, creation }))
    }

    fn inner(self, ei: ei::Node, ushers: Vec<Address<ToUsher>>, node: &str, place: &ei::Place<'_>) -> Inner {
        Inner {
            run: self.run,
            settings: self.settings,
            ushers,
            reasons: Reasons::default(),
            node: node.into(),
            creation: place.creation,
            ei,
            port: place.port,
            names: Mutex::default(),
            doors: Mutex::default(),
            connections: Mutex::default(),
            has_left: AtomicBool::new(false),
            handshakes: AtomicUsize::new(0),
            numbers: AtomicU64::new(1),
            reporter: self.reporter,
        }
    }
}

/// The ushers of all desks.
fn ushers(run: &Handle, known: &Arc<OnceLock<Arc<Inner>>>) -> Result<Vec<Address<ToUsher>>, JoinFault> {
    let mut ushers = Vec::new();
    for desk in 0..=u8::MAX {
        match run.spawn_on(desk, Usher(known.clone())) {
            Ok(usher) => ushers.push(usher),
            Err(SpawnFault::Table(Fault::BadDesks)) => break,
            Err(fault) => {
                ushers.iter().for_each(|usher| _ = usher.send(ToUsher::Leave));
                return Err(JoinFault::Spawn(fault));
            }
        }
    }
    Ok(ushers)
}

/// The two parts of a node's name.
fn parts_of(node: &str) -> Option<(&str, &str)> {
    let (alive, host) = node.split_once('@')?;
    let is_good =
        |text: &str| !text.is_empty() && text.len() <= 200 && text.bytes().all(|byte| byte.is_ascii_graphic());
    (is_good(alive) && is_good(host) && !host.contains('@')).then_some((alive, host))
}

/// Why no cluster was joined.
#[derive(Debug)]
#[non_exhaustive]
pub enum JoinFault {
    /// The name of the node is not as `switch@127.0.0.1`, in printed ASCII, or too long for `ei`.
    BadName,
    /// The address or a thread was not to be had.
    Listen(io::Error),
    /// `epmd` does not run on this machine, or a live node has the name.
    Epmd,
    /// No process was spawned on a desk.
    Spawn(SpawnFault),
}

impl JoinFault {
    fn of(fault: ei::Fault) -> JoinFault {
        match fault {
            ei::Fault::Epmd => JoinFault::Epmd,
            ei::Fault::BadSetting | ei::Fault::Refused | ei::Fault::OtherHandshake => JoinFault::BadName,
        }
    }
}

impl fmt::Display for JoinFault {
    fn fmt(&self, f: &mut fmt::Formatter<'_>) -> fmt::Result {
        match self {
            JoinFault::BadName => f.write_str("the node does not join: its name is not as `switch@127.0.0.1`"),
            JoinFault::Listen(fault) => write!(f, "the node does not join: it cannot listen: {fault}"),
            JoinFault::Epmd => {
                f.write_str("the node does not join: epmd does not run (`epmd -daemon`), or a node has the name")
            }
            JoinFault::Spawn(fault) => write!(f, "the node does not join: {fault}"),
        }
    }
}

impl std::error::Error for JoinFault {}

/// Why nothing was linked, monitored or asked.
#[derive(Clone, Copy, Debug, PartialEq, Eq, Hash)]
#[non_exhaustive]
pub enum RemoteFault {
    /// The connection with the node has broken, or may not be made.
    Unsent(Unsent),
    /// There are as many proxies as may be.
    Full,
    /// The table refuses: no slot was free for the proxy, or there was no memory or no stamp.
    Table(Fault),
}

impl fmt::Display for RemoteFault {
    fn fmt(&self, f: &mut fmt::Formatter<'_>) -> fmt::Result {
        match self {
            RemoteFault::Unsent(fault) => fault.fmt(f),
            RemoteFault::Full => f.write_str("there are as many proxies as may be"),
            RemoteFault::Table(fault) => write!(f, "the proxy is not there: {fault}"),
        }
    }
}

impl std::error::Error for RemoteFault {}

impl From<Unsent> for RemoteFault {
    fn from(fault: Unsent) -> RemoteFault {
        RemoteFault::Unsent(fault)
    }
}

impl From<NoProxy> for RemoteFault {
    fn from(fault: NoProxy) -> RemoteFault {
        match fault {
            NoProxy::Broken => RemoteFault::Unsent(Unsent::Broken),
            NoProxy::Full => RemoteFault::Full,
            NoProxy::Table(fault) => RemoteFault::Table(fault),
        }
    }
}

/// A process of another node: by its pid, or by its registered name and its node.
#[derive(Clone, Debug, PartialEq, Eq, Hash)]
pub struct Remote {
    node: Arc<str>,
    whom: Whom,
}

impl From<&ErlangPid> for Remote {
    fn from(pid: &ErlangPid) -> Remote {
        Remote { node: pid.node.clone(), whom: Whom::Pid(pid.clone()) }
    }
}

/// The name, and the node.
impl From<(&str, &str)> for Remote {
    fn from((name, node): (&str, &str)) -> Remote {
        Remote { node: node.into(), whom: Whom::Name(atom(name)) }
    }
}

impl From<&Remote> for Remote {
    fn from(remote: &Remote) -> Remote {
        remote.clone()
    }
}

impl fmt::Display for Remote {
    fn fmt(&self, f: &mut fmt::Formatter<'_>) -> fmt::Result {
        match &self.whom {
            Whom::Pid(pid) => pid.fmt(f),
            Whom::Name(name) => write!(f, "{{{},{}}}", Term::Atom(name.clone()), Term::atom(&self.node)),
        }
    }
}

/// A node of an Erlang cluster, whose processes are those of a run. It may be cloned and go to any thread.
///
/// It is a node until [`leave`](Gateway::leave), or until the run ends. Until then it has processes of its own, so
/// [`Runtime::wait`](pundewo::runtime::Runtime::wait) waits for that.
#[derive(Clone)]
pub struct Gateway(Arc<Inner>);

impl fmt::Debug for Gateway {
    fn fmt(&self, f: &mut fmt::Formatter<'_>) -> fmt::Result {
        write!(f, "Gateway({})", self.0.node)
    }
}

impl Gateway {
    /// Joins a cluster with the settings as they are: see [`Builder::join`].
    ///
    /// # Errors
    ///
    /// [`JoinFault`] says why not.
    pub fn join(run: &Handle, node: &str, cookie: &Cookie) -> Result<Gateway, JoinFault> {
        Gateway::builder(run).join(node, cookie)
    }

    /// The settings of a gateway of this run.
    #[must_use]
    pub fn builder(run: &Handle) -> Builder {
        let settings = Settings {
            address: Ipv4Addr::LOCALHOST,
            tick: Duration::from_secs(60),
            largest: 64 << 20,
            unsent: 64 << 20,
            waiting: 100_000,
            proxies: 512,
        };
        Builder { run: run.clone(), settings, port: 0, reporter: None }
    }

    /// The name of this node.
    #[must_use]
    pub fn node(&self) -> &str {
        &self.0.node
    }

    /// The names of the nodes that are connected, or are about to be.
    #[must_use]
    pub fn nodes(&self) -> Vec<String> {
        let connections = locked(&self.0.connections);
        let mut nodes: Vec<String> = connections.keys().map(|node| node.to_string()).collect();
        nodes.sort();
        nodes
    }

    /// Connects to a node, and waits for that. Whatever sends to a node connects to it by itself, and does not wait.
    ///
    /// # Errors
    ///
    /// [`Unsent::Broken`], if the node is not reached in time or refuses this one; [`Unsent::NotANode`].
    pub fn connect(&self, node: &str, limit: Duration) -> Result<(), Unsent> {
        let connection = self.0.connection(&node.into())?;
        if connection.wait(limit) { Ok(()) } else { Err(Unsent::Broken) }
    }

    /// Breaks the connection with a node: Erlang's `erlang:disconnect_node`. It returns `false` if there is none.
    pub fn disconnect(&self, node: &str) -> bool {
        let connection = locked(&self.0.connections).get(node).cloned();
        connection.inspect(|connection| connection.break_off(Broken::Closed)).is_some()
    }

    /// Serves a process under a registered name: `{name, Node} ! Term`, `gen_server:call({name, Node}, Term)` and `cast` come
    /// to it, as does what is sent to its pid. It returns `false` if the name is taken.
    ///
    /// The conversion runs on the thread that reads the connection. If it refuses or panics, the caller gets
    /// `{error, {refused, Name}}`, and the gateway reports it.
    pub fn serve<M: Send + 'static>(
        &self,
        name: &str,
        process: impl Into<Served<M>>,
        convert: impl Fn(&mut Incoming) -> Result<Delivery<M>, Refusal> + Send + Sync + 'static,
    ) -> bool {
        let to = process.into();
        let process = match &to {
            Served::Process(address) => Some(address.pid()),
            Served::Named(_) => None,
        };
        let door: Arc<dyn Door> = Arc::new(Converted { to, convert });
        let mut names = locked(&self.0.names);
        if matches!(name, "net_kernel" | "pundewo") || names.contains_key(name) {
            return false;
        }
        names.insert(atom(name), door.clone());
        drop(names);
        process.into_iter().for_each(|pid| self.0.open(pid, door.clone()));
        true
    }

    /// Serves a name no more. Its process is still there for those who have its pid. It returns `false` if the name is not
    /// served.
    pub fn unserve(&self, name: &str) -> bool {
        let door = locked(&self.0.names).remove(name);
        door.is_some()
    }

    /// Takes in what is sent to the pid of a process, without a name: `Pid ! Term` and `gen_server:call(Pid, Term)`. It returns
    /// the pid, for the terms in which it is sent.
    pub fn expose<M: Send + 'static>(
        &self,
        process: &Address<M>,
        convert: impl Fn(&mut Incoming) -> Result<Delivery<M>, Refusal> + Send + Sync + 'static,
    ) -> ErlangPid {
        let door = Converted { to: Served::Process(process.clone()), convert };
        self.0.open(process.pid(), Arc::new(door));
        self.0.pid_of(process.pid())
    }

    /// The pid of a process as Erlang has it. It may be linked, monitored and sent exit signals; it gets no terms unless it is
    /// [served](Gateway::serve) or [exposed](Gateway::expose).
    #[must_use]
    pub fn pid<M: Send + 'static>(&self, process: &Address<M>) -> ErlangPid {
        self.0.pid_of(process.pid())
    }

    /// Sends a process of another node a term: Erlang's `!`. It never waits, so a handler may send. What one thread sends one
    /// process arrives in that order, once, while the connection stands. It is `Ok` if it is on its way.
    ///
    /// # Errors
    ///
    /// [`Unsent`].
    pub fn send(&self, to: impl Into<Remote>, term: impl Into<Term>) -> Result<(), Unsent> {
        let Remote { node, whom } = to.into();
        let from = Some(self.0.pid_or_own(None));
        self.0.connection(&node)?.push(Control::Send { from, to: whom }, Some(&term.into()))
    }

    /// Sends a `gen_server` a request without an answer: `gen_server:cast`.
    ///
    /// # Errors
    ///
    /// [`Unsent`].
    pub fn cast(&self, to: impl Into<Remote>, request: impl Into<Term>) -> Result<(), Unsent> {
        self.send(to, Term::tuple([Term::atom("$gen_cast"), request.into()]))
    }

    /// Asks a `gen_server` from outside, and waits for its answer: `gen_server:call`. A behaviour takes
    /// [`call`](Gateway::call).
    ///
    /// # Errors
    ///
    /// [`CallFault::Down`] if the server exits or had exited, or with [`NOCONNECTION`]; [`CallFault::Timeout`].
    pub fn ask(&self, to: impl Into<Remote>, limit: Duration, request: impl Into<Term>) -> Result<Term, CallFault> {
        let none = |_| CallFault::Down(NOCONNECTION, None);
        let Remote { node, whom } = to.into();
        let (until, connection) = (Instant::now() + limit, self.0.connection(&node).map_err(none)?);
        let usher = &self.0.ushers[self.0.number() as usize % self.0.ushers.len()];
        let find = |reply| ToUsher::Of(connection.clone(), Came::Find(whom.clone(), reply));
        let found = usher.ask(find).wait(limit)?;
        let by = found.map_err(|_| CallFault::Down(NOCONNECTION, None))?;
        let reference = self.0.new_ref();
        let asking = by.ask(|reply| ToProxy::Call(reference.clone(), reply, until + LATE));
        let message = gen_call(self.0.pid_of(by.pid()), reference, request.into());
        let from = Some(self.0.pid_of(by.pid()));
        connection.push(Control::Send { from, to: whom }, Some(&message)).map_err(none)?;
        asking.wait(until.saturating_duration_since(Instant::now()))
    }

    /// Asks a `gen_server` in the name of a process: `gen_server:call`, which does not wait. The call ends once, by
    /// [`Event::Answer`](pundewo::runtime::Event::Answer): with the answer, by the exit of the server or of the connection
    /// ([`CallFault::Down`]), or when so much time has gone by.
    ///
    /// # Errors
    ///
    /// [`RemoteFault`], and then nothing was asked.
    pub fn call<M: Send + 'static>(
        &self,
        cx: &mut Context<'_, M>,
        to: impl Into<Remote>,
        limit: Duration,
        request: impl Into<Term>,
    ) -> Result<Call<Term>, RemoteFault> {
        let Remote { node, whom } = to.into();
        let connection = self.0.connection(&node)?;
        let by = proxy(&connection, cx, &whom, For::Watch)?;
        let (reference, own) = (self.0.new_ref(), self.0.pid_of(by.pid()));
        let message = gen_call(own.clone(), reference.clone(), request.into());
        let pushed = connection.push(Control::Send { from: Some(own), to: whom }, Some(&message));
        let until = Instant::now() + limit + LATE;
        let call = match pushed {
            Ok(()) => cx.call(&by, limit, |reply| ToProxy::Call(reference, reply, until)).map_err(RemoteFault::Table),
            Err(fault) => Err(fault.into()),
        };
        if call.is_err() {
            cx.send(&by, ToProxy::Look);
        }
        call
    }

    /// Links a process with one of another node: Erlang's `link`. It returns the proxy, which is the process of the table that
    /// exits as that of the other node does. If the other node is not reached, it exits with [`NOCONNECTION`].
    ///
    /// # Errors
    ///
    /// [`RemoteFault`].
    pub fn link<M: Send + 'static>(&self, cx: &mut Context<'_, M>, to: &ErlangPid) -> Result<Pid, RemoteFault> {
        let (me, whom) = (cx.pid(), Whom::Pid(to.clone()));
        let connection = self.0.connection(&to.node)?;
        let by = proxy(&connection, cx, &whom, For::Itself)?;
        let linked = cx.link(&by);
        cx.send(&by, if linked.is_ok() { ToProxy::Linked(me) } else { ToProxy::Look });
        linked.map_err(RemoteFault::Table)?;
        connection.push(Control::Link { from: self.0.pid_of(me), to: to.clone() }, None)?;
        Ok(by.pid())
    }

    /// Takes the link with a process of another node away: Erlang's `unlink`.
    ///
    /// # Errors
    ///
    /// [`RemoteFault`].
    pub fn unlink<M: Send + 'static>(&self, cx: &mut Context<'_, M>, to: &ErlangPid) -> Result<(), RemoteFault> {
        let (me, whom) = (cx.pid(), Whom::Pid(to.clone()));
        let connection = self.0.connection(&to.node)?;
        if let Some(by) = connection.boards.of_process(me.shard, &whom) {
            let unlinked = cx.unlink(&by);
            cx.send(&by, ToProxy::Unlinked(me));
            unlinked.map_err(RemoteFault::Table)?;
        }
        let id = Some(Term::from(self.0.number()));
        Ok(connection.push(Control::Unlink { id, from: self.0.pid_of(me), to: to.clone() }, None)?)
    }

    /// Monitors a process of another node: Erlang's `monitor`. One [`Event::Down`](pundewo::runtime::Event::Down) comes as it
    /// has exited or if it had, or with [`NOCONNECTION`].
    ///
    /// # Errors
    ///
    /// [`RemoteFault`].
    pub fn monitor<M: Send + 'static>(
        &self,
        cx: &mut Context<'_, M>,
        to: impl Into<Remote>,
    ) -> Result<Ref, RemoteFault> {
        let Remote { node, whom } = to.into();
        let connection = self.0.connection(&node)?;
        let by = proxy(&connection, cx, &whom, For::Watch)?;
        let monitor = cx.monitor(&by);
        if let Ok(monitor) = monitor {
            connection.boards.pin(cx.pid().shard, &whom, monitor);
        }
        cx.send(&by, ToProxy::Look);
        monitor.map_err(RemoteFault::Table)
    }

    /// Takes a monitor of a process of another node back. Nothing more is told of it.
    pub fn demonitor<M: Send + 'static>(&self, cx: &mut Context<'_, M>, of: impl Into<Remote>, monitor: Ref) {
        let Remote { node, whom } = of.into();
        cx.demonitor(monitor);
        let connection = locked(&self.0.connections).get(&node).cloned();
        let by = connection.and_then(|connection| connection.boards.unpin(cx.pid().shard, &whom, monitor));
        by.into_iter().for_each(|by| _ = cx.send(&by, ToProxy::Look));
    }

    /// Sends a process of another node an exit signal, in the name of this one: Erlang's `exit/2`.
    ///
    /// # Errors
    ///
    /// [`Unsent`].
    pub fn exit<M: Send + 'static>(&self, cx: &Context<'_, M>, to: &ErlangPid, reason: Reason) -> Result<(), Unsent> {
        let (from, reason) = (self.0.pid_of(cx.pid()), self.0.reasons.term(reason, None));
        self.0.connection(&to.node)?.push(Control::ExitSignal { from, to: to.clone(), reason }, None)
    }

    /// The term of an exit reason: that with which a process of Erlang exited.
    #[must_use]
    pub fn term_of(&self, reason: Reason) -> Term {
        self.0.reasons.term(reason, None)
    }

    /// The exit reason for a term, as a process of Erlang that exits with it has.
    #[must_use]
    pub fn reason_of(&self, term: &Term) -> Reason {
        self.0.reasons.of(term)
    }

    /// Leaves the cluster, without waiting: all connections break, all proxies exit with [`NOCONNECTION`], and then the
    /// gateway's own processes exit.
    pub fn leave(&self) {
        self.0.leave();
    }
}

#[cfg(test)]
impl Gateway {
    pub(crate) fn port(&self) -> u16 {
        self.0.port
    }

    pub(crate) fn usher_pid(&self) -> ErlangPid {
        self.0.pid_or_own(None)
    }
}

fn gen_call(from: ErlangPid, reference: ErlangRef, request: Term) -> Term {
    let caller = Term::tuple([Term::Pid(from), reference.into()]);
    Term::tuple([Term::atom("$gen_call"), caller, request])
}

/// What the parts of a gateway share.
pub(crate) struct Inner {
    pub(crate) run: Handle,
    pub(crate) settings: Settings,
    pub(crate) ushers: Vec<Address<ToUsher>>,
    pub(crate) reasons: Reasons,
    node: Arc<str>,
    creation: u32,
    ei: ei::Node,
    port: u16,
    names: Mutex<BTreeMap<Arc<str>, Arc<dyn Door>>>,
    doors: Mutex<HashMap<Pid, Arc<dyn Door>>>,
    connections: Mutex<HashMap<Arc<str>, Arc<Connection>>>,
    has_left: AtomicBool,
    handshakes: AtomicUsize,
    numbers: AtomicU64,
    reporter: Option<Reporter>,
}

impl Inner {
    /// Tells the program what has happened, if it wants to know.
    pub(crate) fn report(&self, what: &Report<'_>) {
        if let Some(reporter) = &self.reporter {
            let _ = catch_unwind(AssertUnwindSafe(|| reporter(what)));
        }
    }

    /// A number that no other call of this has returned.
    fn number(&self) -> u64 {
        self.numbers.fetch_add(1, SeqCst)
    }

    pub(crate) fn new_ref(&self) -> ErlangRef {
        let number = self.number();
        // (the first word has 18 bits)
        let words = vec![(number & 0x3_ffff) as u32, (number >> 18) as u32, (number >> 50) as u32];
        ErlangRef { node: self.node.clone(), creation: self.creation, words }
    }

    /// The pid of a process as Erlang has it.
    pub(crate) fn pid_of(&self, pid: Pid) -> ErlangPid {
        let number = u32::from(pid.shard) << 16 | pid.slot & 0xffff;
        ErlangPid { node: self.node.clone(), number, serial: pid.version, creation: self.creation }
    }

    /// The same, or that of an usher, which sends what nobody is known to send.
    pub(crate) fn pid_or_own(&self, pid: Option<Pid>) -> ErlangPid {
        self.pid_of(pid.unwrap_or_else(|| self.ushers[0].pid()))
    }

    /// The process that has this pid in Erlang, if it is of this node as it is now.
    pub(crate) fn own(&self, pid: &ErlangPid) -> Option<Pid> {
        let shard = u8::try_from(pid.number >> 16).ok()?;
        let usher = self.ushers.get(usize::from(shard))?.pid();
        let own = Pid { shard, slot: pid.number & 0xffff, version: pid.serial };
        // (an usher is nobody to other nodes)
        (pid.creation == self.creation && pid.node == self.node && own != usher).then_some(own)
    }

    pub(crate) fn name(&self, name: &str) -> Option<Arc<dyn Door>> {
        locked(&self.names).get(name).cloned()
    }

    pub(crate) fn door(&self, pid: Pid) -> Option<Arc<dyn Door>> {
        locked(&self.doors).get(&pid).cloned()
    }

    /// The names that are served.
    pub(crate) fn names_term(&self) -> Term {
        Term::list(locked(&self.names).keys().map(|name| Term::Atom(name.clone())))
    }

    /// Takes terms in for a process, until it has exited.
    fn open(&self, pid: Pid, door: Arc<dyn Door>) {
        let before = locked(&self.doors).insert(pid, door);
        if before.is_none() {
            if let Some(usher) = self.ushers.get(usize::from(pid.shard)) {
                usher.send(ToUsher::Watch(pid));
            }
        }
    }

    /// A process has exited to which terms were sent.
    pub(crate) fn shut(&self, pid: Pid) {
        let door = locked(&self.doors).remove(&pid);
        drop(door);
    }

    /// The connection with a node, which is made if there is none.
    fn connection(self: &Arc<Inner>, node: &Arc<str>) -> Result<Arc<Connection>, Unsent> {
        let mut connections = locked(&self.connections);
        if let Some(known) = connections.get(node) {
            return Ok(known.clone());
        }
        if self.has_left.load(SeqCst) {
            return Err(Unsent::Broken);
        }
        if *node == self.node || parts_of(node).is_none() || connections.len() >= NODES {
            return Err(Unsent::NotANode);
        }
        let connection = Connection::new(self, node.clone());
        connection.tries(true);
        connections.insert(node.clone(), connection.clone());
        drop(connections);
        let made = connection.clone();
        let connects = move || made.gateway.clone().make(&made);
        if thread::Builder::new().name("erlang connects".into()).spawn(connects).is_err() {
            connection.break_off(Broken::NotMade);
        }
        Ok(connection)
    }

    /// A connection has broken, and all have been told.
    pub(crate) fn forget(&self, connection: &Arc<Connection>) {
        let mut connections = locked(&self.connections);
        if connections.get(&connection.node).is_some_and(|known| Arc::ptr_eq(known, connection)) {
            connections.remove(&connection.node);
        }
    }

    /// Connects to a node.
    ///
    /// Both nodes may do so at the same time. Then the connection stays that is made by the node whose name is the greater one,
    /// as Erlang has it.
    fn make(self: &Arc<Inner>, connection: &Arc<Connection>) {
        let node = &connection.node;
        let made = if self.may_reach(node) { self.ei.connect(node, HANDSHAKE).ok() } else { None };
        connection.tries(made.is_some());
        match made {
            Some(stream) => self.made(connection, stream),
            // (the other node refuses if its own connection stays: that comes, or is there)
            None if connection.wait(CROSSING) => {}
            None => connection.break_off(Broken::NotMade),
        }
    }

    /// This node has connected.
    fn made(self: &Arc<Inner>, connection: &Arc<Connection>, stream: TcpStream) {
        let handle = stream.try_clone();
        if handle.is_ok_and(|handle| connection.attach(handle)) {
            return;
        }
        if self.node > connection.node {
            self.joined(&connection.node, stream);
        } else {
            let _ = stream.shutdown(Shutdown::Both);
        }
    }

    /// Whether this node may connect to that one: only to one of this machine, unless it listens elsewhere.
    fn may_reach(&self, node: &str) -> bool {
        let Some((_, host)) = parts_of(node) else { return false };
        if !self.settings.address.is_loopback() {
            return true;
        }
        let addresses = (host, EPMD).to_socket_addrs();
        addresses.is_ok_and(|mut addresses| addresses.all(|address: SocketAddr| address.ip().is_loopback()))
    }

    /// Takes connections in until the node leaves.
    fn listen(self: &Arc<Inner>, listener: &TcpListener) {
        for stream in listener.incoming() {
            if self.has_left.load(SeqCst) {
                return;
            }
            match stream {
                Ok(stream) => self.take_in(stream),
                // (no descriptor is free, perhaps)
                Err(_) => thread::sleep(Duration::from_millis(10)),
            }
        }
    }

    fn take_in(self: &Arc<Inner>, stream: TcpStream) {
        if self.handshakes.fetch_add(1, SeqCst) >= HANDSHAKES {
            self.handshakes.fetch_sub(1, SeqCst);
            return;
        }
        let inner = self.clone();
        let greets = move || {
            let greeted = inner.ei.accept(stream, HANDSHAKE);
            inner.handshakes.fetch_sub(1, SeqCst);
            match greeted {
                Ok((stream, node)) => inner.joined(&node.into(), stream),
                Err(_) => inner.report(&Report::NotANode),
            }
        };
        if thread::Builder::new().name("erlang greets".into()).spawn(greets).is_err() {
            self.handshakes.fetch_sub(1, SeqCst);
        }
    }

    /// A node has connected. Another connection with it ends first.
    fn joined(self: &Arc<Inner>, node: &Arc<str>, stream: TcpStream) {
        let (until, mut crossed) = (Instant::now() + PATIENCE, None);
        while *node != self.node && !self.has_left.load(SeqCst) && Instant::now() < until {
            let mut connections = locked(&self.connections);
            let is_new = !connections.contains_key(node);
            if is_new && connections.len() >= NODES {
                break;
            }
            let entry = connections.entry(node.clone());
            let connection = entry.or_insert_with(|| Connection::new(self, node.clone())).clone();
            drop(connections);
            // (that of this node stays, if it is made)
            if self.node > *node && connection.is_trying() {
                crossed = Some(connection);
                thread::sleep(LOOK);
                continue;
            }
            if crossed.is_some_and(|crossed| Arc::ptr_eq(&crossed, &connection)) && connection.wait(Duration::ZERO) {
                break;
            }
            crossed = None;
            let Ok(handle) = stream.try_clone() else { break };
            if connection.attach(handle) {
                return;
            }
            connection.break_off(Broken::Replaced);
            thread::sleep(LOOK);
        }
        let _ = stream.shutdown(Shutdown::Both);
    }

    /// Leaves, without waiting.
    pub(crate) fn leave(self: &Arc<Inner>) {
        if self.has_left.swap(true, SeqCst) {
            return;
        }
        let inner = self.clone();
        let leaves = move || inner.left();
        // (without a thread the connections stay until the program ends)
        let _ = thread::Builder::new().name("erlang leaves".into()).spawn(leaves);
    }

    fn left(&self) {
        self.ei.unpublish();
        // (the thread that listens sees that the node has left)
        let _ = TcpStream::connect_timeout(&(self.settings.address_to_reach(), self.port).into(), PATIENCE);
        let until = Instant::now() + PATIENCE;
        loop {
            let connections: Vec<_> = locked(&self.connections).values().cloned().collect();
            if connections.is_empty() || Instant::now() > until {
                break;
            }
            connections.iter().for_each(|connection| connection.break_off(Broken::Left));
            thread::sleep(LOOK);
        }
        self.ushers.iter().for_each(|usher| _ = usher.send(ToUsher::Leave));
        let names = std::mem::take(&mut *locked(&self.names));
        let doors = std::mem::take(&mut *locked(&self.doors));
        drop((names, doors));
    }
}

impl Settings {
    /// The address at which this node reaches itself.
    fn address_to_reach(&self) -> Ipv4Addr {
        if self.address.is_unspecified() { Ipv4Addr::LOCALHOST } else { self.address }
    }
}
