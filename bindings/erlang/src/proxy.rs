//! Proxies: an Erlang process that is linked or monitored, or that monitors or has asked a process of this node, is a process
//! of the table. So its links, its monitors, its exit and the order of what it sends are the table's.
//!
//! It has a proxy for each desk on which it has to do with processes: what it sends a process comes from the same desk, on
//! one way. The board of a desk lists them. It is the desk's own: its usher, its proxies and the handlers of the program's own
//! processes there look at it, one after the other.

use crate::connection::{Connection, locked};
use crate::control::{Control, Whom};
use crate::serving::{Parcel, Pending};
use crate::term::{ErlangPid, ErlangRef, Term};
use pundewo::runtime::{Address, Behaviour, Context, Event, Next, Reply};
use pundewo::{Fault, Pid, Reason, Ref};
use std::collections::{HashMap, HashSet};
use std::sync::{Arc, Mutex};
use std::time::{Duration, Instant};

/// The boards of a connection.
pub(crate) struct Boards(Vec<Mutex<Board>>);

#[derive(Default)]
struct Board {
    /// Whether the connection has broken, and no proxy is made any more.
    closed: bool,
    proxies: HashMap<Whom, Entry>,
    by_pid: HashMap<Pid, Whom>,
}

impl Board {
    fn add(&mut self, whom: &Whom, address: Address<ToProxy>) {
        self.by_pid.insert(address.pid(), whom.clone());
        self.proxies.insert(whom.clone(), Entry { address, coming: 0, pins: HashSet::new(), watch: None });
    }
}

struct Entry {
    address: Address<ToProxy>,
    /// How many messages are on their way to it.
    coming: usize,
    /// The monitors of processes of this node that it has.
    pins: HashSet<Ref>,
    /// The monitor by which the other node tells of the exit.
    watch: Option<ErlangRef>,
}

/// Why there is no proxy.
#[derive(Clone, Copy, Debug, PartialEq, Eq)]
pub(crate) enum NoProxy {
    Broken,
    Full,
    Table(Fault),
}

impl Boards {
    pub(crate) fn new(desks: usize) -> Boards {
        Boards((0..desks).map(|_| Mutex::default()).collect())
    }

    fn of(&self, desk: u8) -> &Mutex<Board> {
        &self.0[usize::from(desk)]
    }

    /// All proxies of a desk, since the connection has broken.
    pub(crate) fn close(&self, desk: u8) -> Vec<Address<ToProxy>> {
        let mut board = locked(self.of(desk));
        board.closed = true;
        board.by_pid.clear();
        std::mem::take(&mut board.proxies).into_values().map(|entry| entry.address).collect()
    }

    /// The proxy that has this pid, which gets a message.
    pub(crate) fn by_pid(&self, pid: Pid) -> Option<Address<ToProxy>> {
        let mut board = locked(self.0.get(usize::from(pid.shard))?);
        let whom = board.by_pid.get(&pid)?.clone();
        let entry = board.proxies.get_mut(&whom)?;
        entry.coming += 1;
        Some(entry.address.clone())
    }

    /// The proxy of a process on this desk, if there is one, which gets a message.
    pub(crate) fn of_process(&self, desk: u8, whom: &Whom) -> Option<Address<ToProxy>> {
        let mut board = locked(self.of(desk));
        let entry = board.proxies.get_mut(whom)?;
        entry.coming += 1;
        Some(entry.address.clone())
    }

    /// Whom a proxy is of.
    pub(crate) fn whom(&self, pid: Pid) -> Option<Whom> {
        locked(self.0.get(usize::from(pid.shard))?).by_pid.get(&pid).cloned()
    }

    /// Takes a proxy off, since its process has exited.
    pub(crate) fn take(&self, desk: u8, whom: &Whom) -> Option<Address<ToProxy>> {
        let mut board = locked(self.of(desk));
        let entry = board.proxies.remove(whom)?;
        board.by_pid.remove(&entry.address.pid());
        Some(entry.address)
    }

    /// Takes a proxy off that has exited by itself.
    fn take_off(&self, pid: Pid) {
        let mut board = locked(self.of(pid.shard));
        if let Some(whom) = board.by_pid.remove(&pid) {
            board.proxies.remove(&whom);
        }
    }

    /// A process of this node monitors a proxy.
    pub(crate) fn pin(&self, desk: u8, whom: &Whom, monitor: Ref) {
        if let Some(entry) = locked(self.of(desk)).proxies.get_mut(whom) {
            entry.pins.insert(monitor);
        }
    }

    /// Such a monitor is given up. It returns the proxy, which gets a message, unless that has exited since.
    pub(crate) fn unpin(&self, desk: u8, whom: &Whom, monitor: Ref) -> Option<Address<ToProxy>> {
        let mut board = locked(self.of(desk));
        let entry = board.proxies.get_mut(whom)?;
        if !entry.pins.remove(&monitor) {
            return None;
        }
        entry.coming += 1;
        Some(entry.address.clone())
    }
}

/// What a proxy is wanted for.
#[derive(Clone, Copy, Debug, PartialEq, Eq)]
pub(crate) enum For {
    /// Its process, which tells of its exit by links.
    Itself,
    /// A call or a monitor of a process of this node: the other node is to tell of its exit.
    Watch,
}

/// The proxy of an Erlang process on the desk of the process whose context this is, which has to get a message. It is spawned
/// if there is none.
pub(crate) fn proxy<M: Send + 'static>(
    connection: &Arc<Connection>,
    cx: &mut Context<'_, M>,
    whom: &Whom,
    wanted: For,
) -> Result<Address<ToProxy>, NoProxy> {
    let desk = cx.pid().shard;
    let mut board = locked(connection.boards.of(desk));
    if board.closed {
        return Err(NoProxy::Broken);
    }
    if !board.proxies.contains_key(whom) && board.proxies.len() >= connection.gateway.settings.proxies {
        return Err(NoProxy::Full);
    }
    if !board.proxies.contains_key(whom) {
        let address = cx.spawn(Proxy::new(connection, whom)).map_err(NoProxy::Table)?;
        board.add(whom, address);
    }
    let Some(entry) = board.proxies.get_mut(whom) else { return Err(NoProxy::Broken) };
    entry.coming += 1;
    let address = entry.address.clone();
    if wanted == For::Watch && entry.watch.is_none() {
        let reference = connection.gateway.new_ref();
        entry.watch = Some(reference.clone());
        drop(board);
        let from = connection.gateway.pid_of(address.pid());
        connection.tell(Control::Monitor { from, to: whom.clone(), reference });
    }
    Ok(address)
}

/// What a proxy is told.
pub(crate) enum ToProxy {
    /// What its process sends a process of this node.
    Deliver(Box<dyn Parcel>),
    /// A process of this node has linked itself, or has taken the link away.
    Linked(Pid),
    Unlinked(Pid),
    /// Its process has linked itself with one of this node, or has taken the link away.
    Link(Pid),
    Unlink(Option<Term>, Pid),
    /// Its process sends an exit signal.
    Signal(Pid, Reason),
    /// Its process monitors one of this node, which it has named so, or does not any more.
    Monitor(Pid, Whom, ErlangRef),
    Demonitor(ErlangRef),
    /// A process of this node has asked its process, and waits until then.
    Call(ErlangRef, Reply<Term>, Instant),
    /// Its process sends something to the proxy itself.
    Answer(Term),
    /// It is to look whether it is needed.
    Look,
    /// Its process has exited, or the connection has broken.
    Died(Reason),
}

pub(crate) struct Proxy {
    connection: Arc<Connection>,
    whom: Whom,
    /// The processes that are linked.
    links: HashSet<Pid>,
    /// Its process's monitors: the process, how it was named, and the reference.
    monitors: HashMap<Ref, (Pid, Whom, ErlangRef)>,
    by_reference: HashMap<ErlangRef, Ref>,
    /// What its process has asked processes of this node.
    pending: Vec<Box<dyn Pending>>,
    /// What processes of this node have asked its process.
    calls: HashMap<ErlangRef, (Reply<Term>, Instant)>,
    /// Its pid, once it has started.
    me: Option<Pid>,
    /// Whether its process has exited, the connection has broken, or it is not needed.
    is_over: bool,
}

impl Proxy {
    fn new(connection: &Arc<Connection>, whom: &Whom) -> Proxy {
        Proxy {
            connection: connection.clone(),
            whom: whom.clone(),
            links: HashSet::new(),
            monitors: HashMap::new(),
            by_reference: HashMap::new(),
            pending: Vec::new(),
            calls: HashMap::new(),
            me: None,
            is_over: false,
        }
    }

    fn own(&self, pid: Pid) -> ErlangPid {
        self.connection.gateway.pid_of(pid)
    }

    /// Tells its process that a linked one has exited.
    fn tell_exit(&self, from: Pid, reason: Reason, panic: Option<&str>) {
        if let Whom::Pid(to) = &self.whom {
            let reason = self.connection.gateway.reasons.term(reason, panic);
            self.connection.tell(Control::Exit { from: self.own(from), to: to.clone(), reason });
        }
    }

    fn tell_down(&self, from: Whom, reference: ErlangRef, reason: Reason, panic: Option<&str>) {
        if let Whom::Pid(to) = &self.whom {
            let reason = self.connection.gateway.reasons.term(reason, panic);
            self.connection.tell(Control::Down { from, to: to.clone(), reference, reason });
        }
    }

    fn link(&mut self, cx: &mut Context<'_, ToProxy>, pid: Pid) {
        self.links.insert(pid);
        if cx.link(pid).is_err() {
            self.links.remove(&pid);
            self.tell_exit(pid, Reason::Noproc, None);
        }
    }

    fn unlink(&mut self, cx: &mut Context<'_, ToProxy>, id: Option<Term>, pid: Pid) {
        if self.links.remove(&pid) {
            let _ = cx.unlink(pid);
        }
        if let (Some(id), Whom::Pid(to)) = (id, &self.whom) {
            self.connection.tell(Control::UnlinkAck { id, from: self.own(pid), to: to.clone() });
        }
    }

    fn monitor(&mut self, cx: &mut Context<'_, ToProxy>, pid: Pid, named: Whom, reference: ErlangRef) {
        match cx.monitor(pid) {
            Ok(monitor) => {
                self.by_reference.insert(reference.clone(), monitor);
                self.monitors.insert(monitor, (pid, named, reference));
            }
            Err(_) => self.tell_down(named, reference, Reason::Noproc, None),
        }
    }

    fn demonitor(&mut self, cx: &mut Context<'_, ToProxy>, reference: &ErlangRef) {
        if let Some(monitor) = self.by_reference.remove(reference) {
            self.monitors.remove(&monitor);
            cx.demonitor(monitor);
        }
    }

    /// What its process sends to the proxy: the answer of a call, or nothing that is known.
    fn answer(&mut self, cx: &mut Context<'_, ToProxy>, term: Term) {
        let Term::Tuple(parts) = term else { return };
        let Ok([Term::Reference(reference), value]) = <[Term; 2]>::try_from(parts) else { return };
        if let Some((reply, _)) = self.calls.remove(&*reference) {
            cx.reply(reply, value);
        }
    }

    fn message(&mut self, cx: &mut Context<'_, ToProxy>, message: ToProxy) -> Next {
        match message {
            ToProxy::Deliver(parcel) => self.pending.extend(parcel.by_proxy(cx)),
            ToProxy::Linked(pid) => _ = self.links.insert(pid),
            ToProxy::Unlinked(pid) => _ = self.links.remove(&pid),
            ToProxy::Link(pid) => self.link(cx, pid),
            ToProxy::Unlink(id, pid) => self.unlink(cx, id, pid),
            ToProxy::Signal(pid, reason) => _ = cx.exit(pid, reason),
            ToProxy::Monitor(pid, named, reference) => self.monitor(cx, pid, named, reference),
            ToProxy::Demonitor(reference) => self.demonitor(cx, &reference),
            ToProxy::Call(reference, reply, until) => _ = self.calls.insert(reference, (reply, until)),
            ToProxy::Answer(term) => self.answer(cx, term),
            ToProxy::Look => {}
            // (this is sent after it was taken off the board)
            ToProxy::Died(reason) => {
                self.is_over = true;
                return Next::Stop(reason);
            }
        }
        self.looked(cx)
    }

    /// One message less is on its way.
    fn arrived(&self, cx: &Context<'_, ToProxy>) {
        let mut board = locked(self.connection.boards.of(cx.pid().shard));
        if let Some(entry) = board.proxies.get_mut(&self.whom) {
            entry.coming = entry.coming.saturating_sub(1);
        }
    }

    /// What it does next: it exits if nobody needs it.
    fn looked(&mut self, cx: &Context<'_, ToProxy>) -> Next {
        let now = Instant::now();
        self.calls.retain(|_, (_, until)| *until > now);
        let is_needed = !(self.links.is_empty() && self.monitors.is_empty() && self.pending.is_empty());
        if !is_needed && self.calls.is_empty() && self.retire(cx.pid()) {
            self.is_over = true;
            return Next::DONE;
        }
        let first = self.calls.values().map(|(_, until)| until.saturating_duration_since(now)).min();
        first.map_or(Next::Wait, |time| Next::WaitFor(time + Duration::from_millis(1)))
    }

    /// Takes the proxy off the board, unless somebody is about to send to it, or monitors it.
    fn retire(&self, me: Pid) -> bool {
        let mut board = locked(self.connection.boards.of(me.shard));
        let Some(entry) = board.proxies.get(&self.whom) else { return false };
        if entry.address.pid() != me || entry.coming > 0 || !entry.pins.is_empty() {
            return false;
        }
        board.by_pid.remove(&me);
        let entry = board.proxies.remove(&self.whom);
        drop(board);
        if let Some(reference) = entry.and_then(|entry| entry.watch) {
            let from = self.own(me);
            self.connection.tell(Control::Demonitor { from, to: self.whom.clone(), reference });
        }
        true
    }
}

impl Behaviour for Proxy {
    type Message = ToProxy;

    fn started(&mut self, cx: &mut Context<'_, ToProxy>) -> Next {
        self.me = Some(cx.pid());
        Next::Wait
    }

    fn traps_exits(&self) -> bool {
        true
    }

    fn handle(&mut self, cx: &mut Context<'_, ToProxy>, event: Event<ToProxy>) -> Next {
        match event {
            Event::Message(message) => {
                self.arrived(cx);
                return self.message(cx, message);
            }
            Event::Exit(exit) if self.links.remove(&exit.pid) => {
                self.tell_exit(exit.pid, exit.reason, exit.panic.as_deref());
            }
            // (an exit signal to the proxy, as all processes get as the run ends)
            Event::Exit(exit) if exit.reason != Reason::Normal => return Next::Stop(exit.reason),
            Event::Down(down) => {
                if let Some((_, named, reference)) = self.monitors.remove(&down.monitor) {
                    self.by_reference.remove(&reference);
                    self.tell_down(named, reference, down.reason, down.panic.as_deref());
                }
            }
            Event::Answer(answer) => {
                let place = self.pending.iter().position(|pending| pending.is_of(&answer));
                if let Some(place) = place {
                    self.pending.remove(place).answer(answer);
                }
            }
            _ => {}
        }
        self.looked(cx)
    }

    /// It was killed, or the run ends: its process is told, as if all that it has to do with had exited.
    fn ended(self, why: Reason) {
        if self.is_over {
            return;
        }
        if let Some(me) = self.me {
            self.connection.boards.take_off(me);
        }
        self.links.iter().for_each(|pid| self.tell_exit(*pid, why, None));
        for (_, named, reference) in self.monitors.values() {
            self.tell_down(named.clone(), reference.clone(), why, None);
        }
    }
}
