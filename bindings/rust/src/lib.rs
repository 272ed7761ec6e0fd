//! The proved process table of Pundewo, from safe Rust.
//!
//! A node is a set of [`Desk`]s. Each holds processes, keeps a journal of what happened on it, and belongs to one
//! thread at a time: each call that changes it takes it by `&mut`, and one that reads it by `&`. Signals travel between
//! desks as letters, which a [`turn`](Desk::turn) posts and handles: nothing arrives before a turn of the receiver's
//! desk. In the end [`gather`] brings all desks together, and [`settle`](Gathered::settle) delivers the letters that are
//! left over.
//!
//! ```
//! use pundewo::{Body, Config, Item, Pick, gather, open};
//!
//! let mut desks = open(2, Config::default())?;
//! let (here, there) = (desks[0].spawn()?, desks[1].spawn()?);
//! desks[0].send(here, there, Body { kind: 1, num: 7, who: None })?;
//! desks[0].turn(16);
//! desks[1].turn(16);
//! let item = desks[1].receive(there, Pick::Kind(1))?;
//! assert_eq!(item, Some(Item::User(here, Body { kind: 1, num: 7, who: None })));
//! let quiet = gather(desks)?.settle()?;
//! let history = quiet.history()?;
//! assert_eq!(history.events().last().unwrap().to_string(), "4@1 took <1.0.1> kind 1 = user <0.0.1> 1 7");
//! for event in &history {
//!     println!("{event}");
//! }
//! # Ok::<(), pundewo::Fault>(())
//! ```
//!
//! A program whose processes run code takes [`runtime`]: typed messages, and a thread for each desk. A program with threads
//! of its own takes a [`Crew`] for each desk, which says which process is told what, and has [`supervisors`].
//!
//! # Errors
//!
//! A call that fails has changed nothing, but the journal notes one that fails with [`Fault::NoProc`]. Two errors may come
//! from most calls. [`Fault::Memory`]: there was no memory, and the call may be made again. [`Fault::Worn`]: the clock of
//! the desk is at 2^62, so it takes no more events. [`Fault::Unknown`] comes from a call with a target that the desk does
//! not [`know`](Desk::knows).
//!
//! # What is proved
//!
//! Of each function of the library, that it does what the table's own call does, and that a failed call changes nothing.
//! Nothing checks a Rust call against that contract: each function here meets what the one that it calls asks of its
//! caller. Handles begin empty, are never copied, and are lent to one call at a time: they are private, a call that
//! changes has `&mut`, and a reader locks the handle while it reads. [`gather`] tests that it has all desks of one
//! [`open`] or one [`resume`](Quiet::resume), each once and in order, and a [`Crew`] that it is used with its own desk.
//!
//! So all types are `Send` and `Sync`, errors too. Two threads cannot change one desk at the same time:
//!
//! ```compile_fail,E0499
//! let mut desks = pundewo::open(1, pundewo::Config::default()).unwrap();
//! std::thread::scope(|threads| {
//!     threads.spawn(|| desks[0].turn(1));
//!     threads.spawn(|| desks[0].turn(1));
//! });
//! ```

#![deny(missing_debug_implementations, missing_docs)]

#[cfg(doctest)]
#[doc = include_str!("../README.md")]
struct Readme;

#[cfg(doctest)]
#[doc = include_str!("../../../docs/RUNTIME_RUST.md")]
struct Page;

#[cfg(doctest)]
#[doc = include_str!("../../../docs/TRIALS.md")]
struct Trials;

mod asking;
mod crew;
mod iterators;
#[doc(hidden)]
pub mod raw;
mod reading;
#[forbid(unsafe_code)]
pub mod runtime;
pub mod supervisors;
mod tools;
#[forbid(unsafe_code)]
pub mod trial;
mod values;

pub use asking::{AskFault, Call, Door, Heard, Post, PostError, Request, WayIn, way_in};
pub use crew::{Crew, Job, Next, Node, NodeBack, NotTaken, What, go_on};
pub use iterators::{Events, Journal, LeftOvers, Links, Living, Monitors, Pids, Waiting, Watchers};
pub use reading::NotRead;
pub use tools::{Fired, Groups, Holder, Left, NameFault, Names, Timer, Timers};
pub use values::{
    Account, Body, Config, Event, Fault, Happened, Ids, Item, LeftOver, LinkId, Loss, Pick, Pid, Reason, Ref, Signal,
    Turned,
};

// (the library is linked by it)
use pundewo_sys as _;
use raw::{Handle, RawAccount, RawIds, RawItem, RawLoss, RawRef, RawTurned};
use std::fmt;
use std::ptr::null_mut;
use std::sync::atomic::{AtomicU64, Ordering};
use std::sync::{Mutex, MutexGuard, PoisonError};

/// The name and the version of the library, and whether it was proved.
///
/// ```
/// assert!(pundewo::build().starts_with("pundewo "));
/// ```
#[must_use]
pub fn build() -> &'static str {
    // SAFETY: the library has a text there that ends with a zero, and nothing changes it.
    let text = unsafe { std::ffi::CStr::from_ptr(&raw const raw::pundewo_build) };
    text.to_str().unwrap_or("pundewo")
}

const OK: u32 = raw::PT_OK;
const NOTHING: u32 = raw::PT_NOTHING;

const NONE: Handle = Handle { at: null_mut() };

/// The handle of a value, for one call at a time.
struct Held(Mutex<Handle>);

impl Held {
    fn new(handle: Handle) -> Held {
        Held(Mutex::new(handle))
    }

    /// The handle, for a call that changes what it has, and without a lock.
    // (a call that panicked has left the handle as the library wrote it)
    #[inline]
    fn own(&mut self) -> &mut Handle {
        self.0.get_mut().unwrap_or_else(PoisonError::into_inner)
    }

    /// The handle, for a call that reads. The lock takes some 16 nanoseconds.
    #[inline]
    fn lent(&self) -> MutexGuard<'_, Handle> {
        self.0.lock().unwrap_or_else(PoisonError::into_inner)
    }
}

/// The fault of a code. A handle of this crate is never empty where it is called, and never full where it is filled.
// Cold, so that an inlined call that succeeds costs its caller one test.
#[cold]
fn fault_of(code: u32) -> Fault {
    match code {
        raw::PT_FULL => Fault::Full,
        raw::PT_MEMORY => Fault::Memory,
        raw::PT_WORN => Fault::Worn,
        raw::PT_GONE => Fault::Gone,
        raw::PT_MYSELF => Fault::Myself,
        raw::PT_NOPROC => Fault::NoProc,
        raw::PT_UNKNOWN => Fault::Unknown,
        raw::PT_BAD_DESKS => Fault::BadDesks,
        raw::PT_BAD_SLOTS => Fault::BadSlots,
        raw::PT_BAD_TOP_VERSION => Fault::BadTopVersion,
        raw::PT_BAD_LANE => Fault::BadLane,
        raw::PT_BAD_START => Fault::BadStart,
        raw::PT_BAD_CODE => Fault::BadCode,
        raw::PT_NOT_RUNNING => Fault::NotRunning,
        raw::PT_WRONG_DESK => Fault::WrongDesk,
        raw::PT_BAD_PLACES => Fault::BadPlaces,
        _ => unreachable!("the library answered {code}"),
    }
}

impl From<RawTurned> for Turned {
    #[inline]
    fn from(raw: RawTurned) -> Turned {
        let stopped = (raw.stopped != OK).then(|| fault_of(raw.stopped));
        Turned { posted: raw.posted, handled: raw.handled, stopped }
    }
}

#[inline]
fn told(code: u32) -> Result<(), Fault> {
    if code == OK { Ok(()) } else { Err(fault_of(code)) }
}

/// The value that a call wrote, or `None` where it says that there is nothing.
#[inline]
fn found<T>(code: u32, value: T) -> Option<T> {
    match code {
        OK => Some(value),
        NOTHING => None,
        _ => unreachable!("the library answered {code}"),
    }
}

/// What a node keeps through all that is made of it: which `open` it comes from, and how many slots a desk has.
#[derive(Clone, Copy)]
struct Lineage {
    opened: u64,
    slots: u32,
}

/// A number that no other call gives.
fn fresh() -> u64 {
    static NUMBERS: AtomicU64 = AtomicU64::new(0);
    NUMBERS.fetch_add(1, Ordering::Relaxed)
}

/// A desk of a node. Dropped, it is given up, with its processes and its journal.
pub struct Desk {
    // from `open` on it has a desk, until it is dropped or gathered
    handle: Held,
    node: u64,
    number: u8,
    count: usize,
    origin: Lineage,
}

impl Drop for Desk {
    fn drop(&mut self) {
        // SAFETY: the handle is the only one of its desk, or empty, which is answered by a code.
        unsafe { raw::pt_give_up(self.handle.own()) };
    }
}

impl fmt::Debug for Desk {
    fn fmt(&self, f: &mut fmt::Formatter<'_>) -> fmt::Result {
        write!(f, "Desk {{ number: {}, .. }}", self.number)
    }
}

/// The desks of a new node, each with one of these handles.
fn desks_of(handles: Vec<Handle>, origin: Lineage) -> Vec<Desk> {
    let (node, count) = (fresh(), handles.len());
    let desk_of = |(handle, number)| Desk { handle: Held::new(handle), node, number, count, origin };
    handles.into_iter().zip(0..).map(desk_of).collect()
}

/// Opens a node: its desks, in order, without processes and with empty journals.
///
/// # Errors
///
/// [`Fault::BadDesks`], [`Fault::BadSlots`], [`Fault::BadTopVersion`], [`Fault::BadLane`] or [`Fault::BadStart`] names the
/// first setting that is out of its range. [`Fault::Memory`], if there is none.
pub fn open(count: usize, config: Config) -> Result<Vec<Desk>, Fault> {
    // (so many that no desk's number counts them would need memory for their handles first)
    if count > usize::from(u8::MAX) {
        return Err(Fault::BadDesks);
    }
    let mut handles: Vec<Handle> = (0..count).map(|_| NONE).collect();
    // SAFETY: the handles are empty, and as many as are told.
    told(unsafe { raw::pt_open(handles.as_mut_ptr(), count, config) })?;
    Ok(desks_of(handles, Lineage { opened: fresh(), slots: config.slots }))
}

/// The desks that were not gathered, as they were, and why.
#[derive(Debug)]
pub struct DesksBack {
    /// Why they were not gathered.
    pub fault: Fault,
    /// The desks, as they were.
    pub desks: Vec<Desk>,
}

impl fmt::Display for DesksBack {
    fn fmt(&self, f: &mut fmt::Formatter<'_>) -> fmt::Result {
        write!(f, "the desks come back: {}", self.fault)
    }
}

impl std::error::Error for DesksBack {}

/// So that `?` passes it on where a [`Fault`] is returned: the desks are given up then.
impl From<DesksBack> for Fault {
    fn from(back: DesksBack) -> Fault {
        back.fault
    }
}

/// Whether these are all desks of one node, each once and in order.
fn is_whole(desks: &[Desk]) -> bool {
    desks.first().is_some_and(|first| {
        let (node, count) = (first.node, first.count);
        desks.len() == count && desks.iter().zip(0..).all(|(desk, number)| desk.node == node && desk.number == number)
    })
}

/// Brings all desks of one [`open`] or one [`resume`](Quiet::resume) together, each once and in order.
///
/// # Errors
///
/// The desks come back as they were, with [`Fault::NotOneNode`] if they are not that, or with [`Fault::Memory`].
pub fn gather(mut desks: Vec<Desk>) -> Result<Gathered, DesksBack> {
    if !is_whole(&desks) {
        return Err(DesksBack { fault: Fault::NotOneNode, desks });
    }
    let mut handles: Vec<Handle> = desks.iter_mut().map(|desk| std::mem::replace(desk.handle.own(), NONE)).collect();
    let mut handle = NONE;
    // SAFETY: these are all desks of one node, each once and in order, and the handle of the node is empty.
    let code = unsafe { raw::pt_gather(handles.as_mut_ptr(), handles.len(), &mut handle) };
    if code == OK {
        return Ok(Gathered { handle: Held::new(handle), origin: desks[0].origin });
    }
    for (desk, handle) in desks.iter_mut().zip(handles) {
        *desk.handle.own() = handle;
    }
    Err(DesksBack { fault: fault_of(code), desks })
}

// SAFETY of the calls below: the handle is the only one of what it has, and this call alone has it, by `&mut self` or
// by its lock; the references are to separate values.
impl Desk {
    /// The number of the desk in its node.
    #[inline]
    pub fn number(&self) -> u8 {
        self.number
    }

    /// Spawns a process without a parent: Erlang's `spawn/1`, called from outside of the desk. Its pid is the one that
    /// [`vacant`](Desk::vacant) returns, which no process had before.
    ///
    /// # Errors
    ///
    /// [`Fault::Worn`], else [`Fault::Full`] if no slot is free, else [`Fault::Memory`].
    #[inline]
    pub fn spawn(&mut self) -> Result<Pid, Fault> {
        let mut out = Pid::default();
        told(unsafe { raw::pt_spawn(self.handle.own(), &mut out) })?;
        Ok(out)
    }

    /// Spawns a child of the parent, linked with it if `linked` is true: Erlang's `spawn/1` and `spawn_link/1`. Both halves of
    /// the link are made at once, without a letter.
    ///
    /// # Errors
    ///
    /// [`Fault::Gone`] if the parent is not alive here, else [`Fault::Worn`], else [`Fault::Full`] if no slot is free, else
    /// [`Fault::Memory`].
    #[inline]
    pub fn spawn_child(&mut self, parent: Pid, linked: bool) -> Result<Pid, Fault> {
        let mut out = Pid::default();
        told(unsafe { raw::pt_spawn_child(self.handle.own(), parent, linked, &mut out) })?;
        Ok(out)
    }

    /// Sends a message: Erlang's `!`. It arrives after all that the sender sent this receiver before. If the receiver is not
    /// alive then, it is lost, and no process is notified.
    ///
    /// # Errors
    ///
    /// [`Fault::Gone`] if the sender is not alive here, [`Fault::Unknown`], [`Fault::NoProc`] if the desk sees that the receiver
    /// has exited, [`Fault::Worn`] or [`Fault::Memory`].
    #[inline]
    pub fn send(&mut self, from: Pid, to: Pid, body: Body) -> Result<(), Fault> {
        told(unsafe { raw::pt_send(self.handle.own(), from, to, body.into()) })
    }

    /// Sends an exit signal that no link carries: Erlang's `exit/2`.
    ///
    /// [`Reason::Kill`] makes its receiver exit with [`Reason::Killed`], whether it traps exits or not. A receiver that traps
    /// exits gets any other reason as an item. Any other receiver exits with that reason, except that [`Reason::Normal`] has
    /// this effect only if it is the sender itself.
    ///
    /// # Errors
    ///
    /// [`Fault::Gone`] if the sender is not alive here, [`Fault::Unknown`], [`Fault::Worn`] or [`Fault::Memory`].
    #[inline]
    pub fn exit_signal(&mut self, from: Pid, to: Pid, reason: Reason) -> Result<(), Fault> {
        told(unsafe { raw::pt_exit_signal(self.handle.own(), from, to, reason.into()) })
    }

    /// Links p with another process: Erlang's `link/1`. Nothing happens if p is the other one, or holds a link with it. If the
    /// other is not alive when the link arrives, an exit signal with [`Reason::Noproc`] goes back.
    ///
    /// # Errors
    ///
    /// [`Fault::Gone`] if p is not alive here, [`Fault::Unknown`]; if there is a link to make, [`Fault::NoProc`] if the desk sees
    /// that the other has exited, [`Fault::Worn`] or [`Fault::Memory`].
    #[inline]
    pub fn link(&mut self, p: Pid, to: Pid) -> Result<(), Fault> {
        told(unsafe { raw::pt_link(self.handle.own(), p, to) })
    }

    /// Removes the link of p with another process: Erlang's `unlink/1`. Nothing happens if there is none. From here on an exit
    /// signal that the link carries has no effect on p: it may still arrive, and is dropped.
    ///
    /// # Errors
    ///
    /// [`Fault::Gone`] if p is not alive here, [`Fault::Unknown`], [`Fault::Worn`] or [`Fault::Memory`].
    #[inline]
    pub fn unlink(&mut self, p: Pid, to: Pid) -> Result<(), Fault> {
        told(unsafe { raw::pt_unlink(self.handle.own(), p, to) })
    }

    /// Monitors another process, and returns the reference that its one [`Item::Down`] will have: Erlang's `monitor/2`. If the
    /// target is not alive when the monitor arrives, a `DOWN` with [`Reason::Noproc`] goes back.
    ///
    /// # Errors
    ///
    /// [`Fault::Gone`] if the watcher is not alive here, [`Fault::Unknown`], [`Fault::Myself`] if it is the target,
    /// [`Fault::NoProc`] if the desk sees that the target has exited, [`Fault::Worn`] or [`Fault::Memory`].
    #[inline]
    pub fn monitor(&mut self, watcher: Pid, target: Pid) -> Result<Ref, Fault> {
        let mut out = RawRef::default();
        told(unsafe { raw::pt_monitor(self.handle.own(), watcher, target, &mut out) })?;
        Ok(out.into())
    }

    /// Cancels a monitor, and returns whether that wrote an event: Erlang's `demonitor/2`.
    ///
    /// A monitor is open until its `DOWN` arrives, or its watcher cancels it or exits. If it is open, its `DOWN` enters the
    /// mailbox no more. If it is not, its `DOWN` is taken out of the mailbox if `flush` is true and it waits there.
    ///
    /// # Errors
    ///
    /// [`Fault::Gone`] if the watcher is not alive here; if there is an event to write, [`Fault::Worn`] or [`Fault::Memory`].
    #[inline]
    pub fn demonitor(&mut self, watcher: Pid, monitor: Ref, flush: bool) -> Result<bool, Fault> {
        let mut wrote = false;
        told(unsafe { raw::pt_demonitor(self.handle.own(), watcher, monitor.into(), flush, &mut wrote) })?;
        Ok(wrote)
    }

    /// Asks whether another process is alive, and returns the reference that the answer will have: Erlang's
    /// `is_process_alive/1`. The [`Item::Alive`] arrives after all that the target sent p before. The target may be p.
    ///
    /// # Errors
    ///
    /// [`Fault::Gone`] if p is not alive here, [`Fault::Unknown`], [`Fault::Worn`] or [`Fault::Memory`].
    #[inline]
    pub fn ask_alive(&mut self, p: Pid, target: Pid) -> Result<Ref, Fault> {
        let mut out = RawRef::default();
        told(unsafe { raw::pt_ask_alive(self.handle.own(), p, target, &mut out) })?;
        Ok(out.into())
    }

    /// Sets whether p traps exits, and returns whether it did before: Erlang's `process_flag(trap_exit, On)`.
    ///
    /// # Errors
    ///
    /// [`Fault::Gone`] if p is not alive here, [`Fault::Worn`] or [`Fault::Memory`].
    #[inline]
    pub fn trap(&mut self, p: Pid, on: bool) -> Result<bool, Fault> {
        let mut was = false;
        told(unsafe { raw::pt_trap(self.handle.own(), p, on, &mut was) })?;
        Ok(was)
    }

    /// Sets whether what this desk loses from now on is kept until [`Desk::next_loss`] tells of it. It is not at first.
    ///
    /// A desk loses what waits in a mailbox as its process exits, and each message that comes to a process that is not
    /// alive. Each exit is a loss, also if nothing waited: its `items` are empty then. What was not told takes memory. A
    /// resumed desk goes on as it was set, with all that was not told.
    #[inline]
    pub fn keep_losses(&mut self, on: bool) {
        unsafe { raw::pt_keep_losses(self.handle.own(), on) };
    }

    /// The oldest loss that was not told. Each is told once.
    pub fn next_loss(&mut self) -> Option<Loss> {
        let loss = self.first_loss()?;
        Some(self.take_loss(loss))
    }

    /// The oldest loss, which stays. (mostly there is none)
    #[inline]
    pub(crate) fn first_loss(&mut self) -> Option<RawLoss> {
        let mut out = RawLoss::default();
        let code = unsafe { raw::pt_loss_at(self.handle.own(), 0, &mut out) };
        found(code, out)
    }

    /// Passes over the oldest loss.
    #[inline]
    pub(crate) fn pass_loss(&mut self) {
        unsafe { raw::pt_next_loss(self.handle.own()) };
    }

    /// Takes the oldest loss, which is this one.
    pub(crate) fn take_loss(&mut self, out: RawLoss) -> Loss {
        let mut items = Vec::with_capacity(out.items);
        for place in 0..out.items {
            let mut item = RawItem::default();
            unsafe { raw::pt_loss_item(self.handle.own(), 0, place, &mut item) };
            items.push(item.into());
        }
        self.pass_loss();
        Loss { pid: out.pid, reason: out.has_exited.then(|| out.reason.into()), items }
    }

    /// Takes the first item that matches out of the mailbox of p, and `None` if none does: Erlang's `receive .. after 0`.
    ///
    /// # Errors
    ///
    /// [`Fault::Gone`] if p is not alive here; if an item matches, [`Fault::Worn`] or [`Fault::Memory`].
    #[inline]
    pub fn receive(&mut self, p: Pid, pick: Pick) -> Result<Option<Item>, Fault> {
        let mut out = RawItem::default();
        match unsafe { raw::pt_receive(self.handle.own(), p, pick.into(), &mut out) } {
            OK => Ok(Some(out.into())),
            NOTHING => Ok(None),
            code => Err(fault_of(code)),
        }
    }

    /// Makes p exit with this reason: Erlang's `exit/1`. Its links and monitors fire, and its mailbox is dropped.
    ///
    /// # Errors
    ///
    /// [`Fault::Gone`] if p is not alive here, [`Fault::Worn`] or [`Fault::Memory`].
    #[inline]
    pub fn exit(&mut self, p: Pid, reason: Reason) -> Result<(), Fault> {
        told(unsafe { raw::pt_exit(self.handle.own(), p, reason.into()) })
    }

    /// Posts the letters that wait, and then handles at most `budget` of those that came. It never fails: what it did so far
    /// stays, and [`Turned::stopped`] says why it stopped at a letter, which is handled by a later turn.
    #[inline]
    pub fn turn(&mut self, budget: u32) -> Turned {
        let mut out = RawTurned::default();
        unsafe { raw::pt_turn(self.handle.own(), budget, &mut out) };
        out.into()
    }

    /// The stamp of the newest event, or the start of the clock.
    #[inline]
    pub fn clock(&self) -> u64 {
        let mut out = 0;
        unsafe { raw::pt_clock(&mut self.handle.lent(), &mut out) };
        out
    }

    /// Whether p is alive here.
    #[inline]
    pub fn alive(&self, p: Pid) -> bool {
        let mut out = false;
        unsafe { raw::pt_alive(&mut self.handle.lent(), p, &mut out) };
        out
    }

    /// Whether p may be the target of a call. If it may not, the call fails with [`Fault::Unknown`]: its numbers are out of the
    /// node's ranges, or it would be a process of this desk that was never spawned.
    #[inline]
    pub fn knows(&self, p: Pid) -> bool {
        let mut out = false;
        unsafe { raw::pt_knows(&mut self.handle.lent(), p, &mut out) };
        out
    }

    /// The number of letters that wait in the outbox and the hold.
    #[inline]
    pub fn pending(&self) -> u64 {
        let mut out = 0;
        unsafe { raw::pt_pending(&mut self.handle.lent(), &mut out) };
        out
    }

    /// The pid that the next process spawned here will have, or `None` if no slot is free.
    #[inline]
    pub fn vacant(&self) -> Option<Pid> {
        let mut out = Pid::default();
        let code = unsafe { raw::pt_vacant(&mut self.handle.lent(), &mut out) };
        found(code, out)
    }

    /// The items that wait in the mailbox of p, oldest first, or `None` if p is not alive here.
    #[inline]
    pub fn waiting(&self, p: Pid) -> Option<Waiting<'_>> {
        let mut count = 0;
        let code = unsafe { raw::pt_waiting(&mut self.handle.lent(), p, &mut count) };
        found(code, count).map(|count| Waiting::new(&self.handle, p, 0..count))
    }

    /// The links of p, oldest first, or `None` if p is not alive here: Erlang's `process_info(P, links)`. This is p's own half
    /// of each.
    ///
    /// ```
    /// use pundewo::{Config, open};
    ///
    /// let mut desks = open(1, Config::default())?;
    /// let desk = &mut desks[0];
    /// let parent = desk.spawn()?;
    /// let child = desk.spawn_child(parent, true)?;
    /// let peers: Vec<_> = desk.links(parent).into_iter().flatten().map(|(peer, _)| peer).collect();
    /// assert_eq!(peers, [child]);
    /// # Ok::<(), pundewo::Fault>(())
    /// ```
    #[inline]
    pub fn links(&self, p: Pid) -> Option<Links<'_>> {
        let mut count = 0;
        let code = unsafe { raw::pt_link_count(&mut self.handle.lent(), p, &mut count) };
        found(code, count).map(|count| Links::new(&self.handle, p, 0..count))
    }

    /// The open monitors of p, oldest first, each with its target, or `None` if p is not alive here: Erlang's
    /// `process_info(P, monitors)`.
    #[inline]
    pub fn monitors(&self, p: Pid) -> Option<Monitors<'_>> {
        let mut count = 0;
        let code = unsafe { raw::pt_monitor_count(&mut self.handle.lent(), p, &mut count) };
        found(code, count).map(|count| Monitors::new(&self.handle, p, 0..count))
    }

    /// The monitors that others have of p, oldest first, each with its owner, or `None` if p is not alive here: Erlang's
    /// `process_info(P, monitored_by)`.
    #[inline]
    pub fn watchers(&self, p: Pid) -> Option<Watchers<'_>> {
        let mut count = 0;
        let code = unsafe { raw::pt_watcher_count(&mut self.handle.lent(), p, &mut count) };
        found(code, count).map(|count| Watchers::new(&self.handle, p, 0..count))
    }

    /// Whether p traps exits, or `None` if p is not alive here.
    #[inline]
    pub fn traps(&self, p: Pid) -> Option<bool> {
        let mut out = false;
        let code = unsafe { raw::pt_traps(&mut self.handle.lent(), p, &mut out) };
        found(code, out)
    }

    /// The live process in this slot, or `None` if there is none.
    #[inline]
    pub fn lives_in(&self, slot: u32) -> Option<Pid> {
        let mut out = Pid::default();
        let code = unsafe { raw::pt_lives_in(&mut self.handle.lent(), slot, &mut out) };
        found(code, out)
    }

    /// The live processes of the desk, by slot: Erlang's `processes/0`. It looks into each slot.
    #[inline]
    pub fn pids(&self) -> Living<'_> {
        Living::new(self, 0..self.origin.slots)
    }

    /// The ids under which p is linked with another process, or `None` if there is no link, or p is not alive here. This is p's
    /// own half of the link: that of the other may differ while letters of the two are on their way.
    #[inline]
    pub fn linked(&self, p: Pid, peer: Pid) -> Option<Ids> {
        let mut out = RawIds::default();
        let code = unsafe { raw::pt_linked(&mut self.handle.lent(), p, peer, &mut out) };
        found(code, out.into())
    }

    /// The number of events of the journal.
    #[inline]
    pub fn event_count(&self) -> usize {
        let mut out = 0;
        unsafe { raw::pt_event_count(&mut self.handle.lent(), &mut out) };
        out
    }

    /// The same as [`event_count`](Desk::event_count), without a lock.
    #[inline]
    pub(crate) fn events_now(&mut self) -> usize {
        let mut out = 0;
        unsafe { raw::pt_event_count(self.handle.own(), &mut out) };
        out
    }

    /// The events of the journal from this place on, oldest first.
    #[inline]
    pub fn events(&self, from: usize) -> Journal<'_> {
        let count = self.event_count();
        Journal::new(&self.handle, (), from.min(count)..count)
    }

    /// The next process that got a signal, or exited by its own call, from the event at place `at` on. `at` is then the place
    /// after that event, so a caller that keeps `at` gets each such event once.
    ///
    /// No process that got an item or exited is missed. A returned one may have got no item: a signal that queues nothing, such
    /// as a link, names its receiver too.
    // (a scheduler calls this for each event, with the desk for itself: so without a lock)
    #[inline]
    pub fn next_woken(&mut self, at: &mut usize) -> Option<Pid> {
        let mut out = Pid::default();
        let code = unsafe { raw::pt_next_woken(self.handle.own(), at, &mut out) };
        found(code, out)
    }
}

/// The desks of a node at rest, and the letters left over. Dropped, it is given up.
pub struct Gathered {
    handle: Held,
    origin: Lineage,
}

impl fmt::Debug for Gathered {
    fn fmt(&self, f: &mut fmt::Formatter<'_>) -> fmt::Result {
        f.write_str("Gathered { .. }")
    }
}

impl Drop for Gathered {
    fn drop(&mut self) {
        unsafe { raw::pt_gathered_give_up(self.handle.own()) };
    }
}

/// A node that was not settled, with what was handled so far, and why. It may be settled again.
#[derive(Debug)]
pub struct Unsettled {
    /// Why settling stopped.
    pub fault: Fault,
    /// The node, with what was handled so far.
    pub gathered: Gathered,
}

impl fmt::Display for Unsettled {
    fn fmt(&self, f: &mut fmt::Formatter<'_>) -> fmt::Result {
        write!(f, "the node is not settled: {}", self.fault)
    }
}

impl std::error::Error for Unsettled {}

/// So that `?` passes it on where a [`Fault`] is returned: the node is given up then.
impl From<Unsettled> for Fault {
    fn from(back: Unsettled) -> Fault {
        back.fault
    }
}

impl Gathered {
    /// The number of desks of the node.
    #[inline]
    pub fn desks(&self) -> u8 {
        let mut out = 0;
        unsafe { raw::pt_gathered_desks(&mut self.handle.lent(), &mut out) };
        out
    }

    /// The events of all desks in one legal order, and the letters left over.
    ///
    /// # Errors
    ///
    /// [`Fault::Memory`], if there is none.
    pub fn history(&self) -> Result<History, Fault> {
        let mut handle = NONE;
        told(unsafe { raw::pt_gathered_history(&mut self.handle.lent(), &mut handle) })?;
        Ok(History { handle: Held::new(handle) })
    }

    /// Delivers the letters left over, until there are none. The settled node has the list of its pids.
    ///
    /// # Errors
    ///
    /// The node comes back with what was handled so far, and may be settled again: with [`Fault::Worn`] if a clock is at its
    /// limit, or with [`Fault::Memory`].
    pub fn settle(mut self) -> Result<Quiet, Unsettled> {
        let mut handle = NONE;
        match unsafe { raw::pt_settle(self.handle.own(), &mut handle) } {
            OK => Ok(Quiet { handle: Held::new(handle), origin: self.origin }),
            code => Err(Unsettled { fault: fault_of(code), gathered: self }),
        }
    }

    /// The same without the list of all pids that ever were, for a program that pauses often: it costs what happened
    /// since the last pause. [`Quiet::pids`] makes the list if it is asked for.
    ///
    /// # Errors
    ///
    /// As [`settle`](Gathered::settle).
    pub fn settle_unlisted(mut self) -> Result<Quiet, Unsettled> {
        let mut handle = NONE;
        match unsafe { raw::pt_settle_unlisted(self.handle.own(), &mut handle) } {
            OK => Ok(Quiet { handle: Held::new(handle), origin: self.origin }),
            code => Err(Unsettled { fault: fault_of(code), gathered: self }),
        }
    }
}

/// A node in which no letter is left over. Dropped, it is given up.
pub struct Quiet {
    handle: Held,
    origin: Lineage,
}

impl fmt::Debug for Quiet {
    fn fmt(&self, f: &mut fmt::Formatter<'_>) -> fmt::Result {
        f.write_str("Quiet { .. }")
    }
}

impl Drop for Quiet {
    fn drop(&mut self) {
        unsafe { raw::pt_quiet_give_up(self.handle.own()) };
    }
}

/// A settled node that has not resumed, as it was, and why.
#[derive(Debug)]
pub struct Resting {
    /// Why the node has not resumed.
    pub fault: Fault,
    /// The settled node, as it was.
    pub quiet: Quiet,
}

impl fmt::Display for Resting {
    fn fmt(&self, f: &mut fmt::Formatter<'_>) -> fmt::Result {
        write!(f, "the settled node comes back: {}", self.fault)
    }
}

impl std::error::Error for Resting {}

/// So that `?` passes it on where a [`Fault`] is returned: the settled node is given up then.
impl From<Resting> for Fault {
    fn from(back: Resting) -> Fault {
        back.fault
    }
}

impl Quiet {
    /// The events of all desks in one legal order.
    ///
    /// # Errors
    ///
    /// [`Fault::Memory`], if there is none.
    pub fn history(&self) -> Result<History, Fault> {
        let mut handle = NONE;
        told(unsafe { raw::pt_quiet_history(&mut self.handle.lent(), &mut handle) })?;
        Ok(History { handle: Held::new(handle) })
    }

    /// The number of desks of the node.
    #[inline]
    pub fn desks(&self) -> u8 {
        let mut out = 0;
        unsafe { raw::pt_quiet_desks(&mut self.handle.lent(), &mut out) };
        out
    }

    /// Resumes the node: returns its desks, in order, with empty journals. Take the [`history`](Quiet::history) before, if you
    /// want to keep it.
    ///
    /// A live process keeps its links, monitors, flag and waiting items. An exited process stays exited. Clocks and the versions
    /// of slots continue.
    ///
    /// # Errors
    ///
    /// The settled node comes back as it was, with [`Fault::Memory`], if there is none.
    ///
    /// ```
    /// use pundewo::{Config, Reason, gather, open};
    ///
    /// let mut desks = open(1, Config::default())?;
    /// let (first, other) = (desks[0].spawn()?, desks[0].spawn()?);
    /// desks[0].exit(first, Reason::Normal)?;
    /// let mut desks = gather(desks)?.settle()?.resume()?;
    /// assert_eq!((desks[0].event_count(), desks[0].clock()), (0, 3));
    /// assert!(desks[0].alive(other) && !desks[0].alive(first));
    /// assert_eq!(desks[0].spawn()?.version, 2);
    /// # Ok::<(), pundewo::Fault>(())
    /// ```
    pub fn resume(mut self) -> Result<Vec<Desk>, Resting> {
        let count = usize::from(self.desks());
        let mut handles: Vec<Handle> = (0..count).map(|_| NONE).collect();
        // SAFETY: the handles are empty, and as many as are told.
        match unsafe { raw::pt_resume(self.handle.own(), handles.as_mut_ptr(), count) } {
            OK => Ok(desks_of(handles, self.origin)),
            code => Err(Resting { fault: fault_of(code), quiet: self }),
        }
    }

    /// The number of letters that settling handled.
    #[inline]
    pub fn handled(&self) -> u64 {
        let mut out = 0;
        unsafe { raw::pt_quiet_handled(&mut self.handle.lent(), &mut out) };
        out
    }

    /// The pids of all processes that were ever spawned, by shard, slot and version. The list of them is made if the node has
    /// none ([`settle_unlisted`](Gathered::settle_unlisted)); nothing else here needs it.
    ///
    /// ```
    /// use pundewo::{Config, gather, open};
    ///
    /// let mut desks = open(1, Config::default())?;
    /// let first = desks[0].spawn()?;
    /// let quiet = gather(desks)?.settle_unlisted()?;
    /// assert_eq!(quiet.pids()?.collect::<Vec<_>>(), [first]);
    /// # Ok::<(), pundewo::Fault>(())
    /// ```
    ///
    /// # Errors
    ///
    /// [`Fault::Memory`], if there is none for the list. The node is as it was.
    pub fn pids(&self) -> Result<Pids<'_>, Fault> {
        let mut count = 0;
        told(unsafe { raw::pt_quiet_list(&mut self.handle.lent()) })?;
        unsafe { raw::pt_quiet_pid_count(&mut self.handle.lent(), &mut count) };
        Ok(Pids::new(&self.handle, (), 0..count))
    }

    /// What became of p, or `None` if it was never spawned.
    #[inline]
    pub fn account(&self, p: Pid) -> Option<Account> {
        let mut out = RawAccount::default();
        let code = unsafe { raw::pt_quiet_account(&mut self.handle.lent(), p, &mut out) };
        found(code, out.into())
    }

    /// The ids under which p is linked with another process, or was just after its own exit.
    #[inline]
    pub fn linked(&self, p: Pid, peer: Pid) -> Option<Ids> {
        let mut out = RawIds::default();
        let code = unsafe { raw::pt_quiet_linked(&mut self.handle.lent(), p, peer, &mut out) };
        found(code, out.into())
    }

    /// Whether a process keeps a watch of this reference, or did just after its own exit.
    #[inline]
    pub fn kept(&self, target: Pid, monitor: Ref) -> bool {
        let mut out = false;
        unsafe { raw::pt_quiet_kept(&mut self.handle.lent(), target, monitor.into(), &mut out) };
        out
    }

    /// Whether a process's monitor of this reference is open.
    #[inline]
    pub fn watching(&self, watcher: Pid, monitor: Ref) -> bool {
        let mut out = false;
        unsafe { raw::pt_quiet_watching(&mut self.handle.lent(), watcher, monitor.into(), &mut out) };
        out
    }
}

/// The events of all desks of a node in one legal order, and the letters that are on their way at its end.
pub struct History {
    handle: Held,
}

impl fmt::Debug for History {
    fn fmt(&self, f: &mut fmt::Formatter<'_>) -> fmt::Result {
        f.write_str("History { .. }")
    }
}

impl Drop for History {
    fn drop(&mut self) {
        unsafe { raw::pt_history_give_up(self.handle.own()) };
    }
}

impl History {
    /// The number of events.
    #[inline]
    pub fn count(&self) -> usize {
        let mut out = 0;
        unsafe { raw::pt_history_count(&mut self.handle.lent(), &mut out) };
        out
    }

    /// The events, the first one first.
    #[inline]
    pub fn events(&self) -> Events<'_> {
        Events::new(&self.handle, (), 0..self.count())
    }

    /// The letters left over, by sending desk, then by receiving desk.
    #[inline]
    pub fn left_over(&self) -> LeftOvers<'_> {
        let mut count = 0;
        unsafe { raw::pt_history_left_count(&mut self.handle.lent(), &mut count) };
        LeftOvers::new(&self.handle, (), 0..count)
    }
}

impl<'a> IntoIterator for &'a History {
    type Item = Event;
    type IntoIter = Events<'a>;

    #[inline]
    fn into_iter(self) -> Events<'a> {
        self.events()
    }
}
