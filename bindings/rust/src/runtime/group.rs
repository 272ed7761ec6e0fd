//! Groups of processes. The library keeps which process is in which group, in a table for each desk. The processes are found
//! among those that live on the desk.

use super::address::Address;
use super::hub::Hub;
use super::inbox::{Place, locked};
use super::paces::{NAMES, touch};
use super::payloads::Values;
use super::run::Handle;
use super::target::Target;
use crate::{Fault, Groups, Left, Pid, Ref};
use std::any::Any;
use std::fmt;
use std::marker::PhantomData;
use std::sync::atomic::{AtomicU64, Ordering::SeqCst};
use std::sync::{Arc, MutexGuard};

/// The monitor that each join passes. (the thread of a desk hears of all exits by itself)
const NO_MONITOR: Ref = Ref { desk: 0, number: 0 };

/// The table of a desk, once a process of it has joined a group.
#[derive(Default)]
pub(crate) struct Table(Option<Groups>);

impl Table {
    fn of(&mut self) -> Result<&mut Groups, Fault> {
        if self.0.is_none() {
            self.0 = Some(Groups::new()?);
        }
        Ok(self.0.as_mut().expect("the groups of a desk"))
    }
}

/// Processes to which a program sends together, as a group of Erlang's `pg`, with the type of their messages.
///
/// A process may be in many groups. It may join a group several times, and is in it until it has left as often, or has exited. A
/// group may be cloned and go to any thread. It keeps no process alive. All of its processes are of the run that it was made for.
///
/// Two groups are equal if one is a clone of the other.
///
/// ```
/// use pundewo::runtime::{Behaviour, Context, Event, Group, Next, Runtime};
///
/// struct Line;
///
/// impl Behaviour for Line {
///     type Message = u32;
///
///     fn handle(&mut self, _: &mut Context<'_, u32>, _: Event<u32>) -> Next {
///         Next::DONE
///     }
/// }
///
/// let runtime = Runtime::builder().desks(2).start()?;
/// let lines = Group::new(&runtime, "lines");
/// for _ in 0..3 {
///     lines.join(&runtime.spawn(Line)?)?;
/// }
/// assert_eq!((lines.len(), lines.send_all(|_| 1)), (3, 3));
/// // each exits by that, and with that it leaves
/// while !lines.is_empty() {}
/// runtime.wait()?;
/// # Ok::<(), Box<dyn std::error::Error>>(())
/// ```
pub struct Group<M> {
    number: u64,
    text: Arc<str>,
    hub: Arc<Hub>,
    of: PhantomData<fn(M)>,
}

impl<M: Send + 'static> Group<M> {
    /// A group of a run, in which there is no process. The text is for those who print it.
    #[must_use]
    pub fn new(run: &Handle, text: impl Into<Arc<str>>) -> Group<M> {
        static NUMBERS: AtomicU64 = AtomicU64::new(0);
        let (number, hub) = (NUMBERS.fetch_add(1, SeqCst), run.hub().clone());
        Group { number, text: text.into(), hub, of: PhantomData }
    }

    /// Its text.
    #[must_use]
    pub fn text(&self) -> &str {
        &self.text
    }

    /// Adds a process, once more if it is there already: `pg:join`. It has joined when this returns, on any thread.
    ///
    /// # Errors
    ///
    /// [`Fault::OtherRun`]; [`Fault::NoProc`] if the process has exited; [`Fault::Memory`]; [`Fault::Full`] after 2^64 - 1 times.
    pub fn join(&self, process: &Address<M>) -> Result<(), Fault> {
        let pid = Target::from(process).pid_in(&self.hub)?;
        let mut table = self.hub.place(pid).table();
        // (first, so that one that exits meanwhile leaves)
        process.mailbox.is_in_groups.store(true, SeqCst);
        if !process.mailbox.is_open() {
            return Err(Fault::NoProc);
        }
        table.of()?.join(self.number, pid, NO_MONITOR).map(drop)
    }

    /// Takes a process out, once: `pg:leave`. It returns `false` if the process was not in the group.
    pub fn leave(&self, process: &Address<M>) -> bool {
        let Ok(pid) = Target::from(process).pid_in(&self.hub) else { return false };
        let mut table = self.hub.place(pid).table();
        table.0.as_mut().is_some_and(|groups| groups.leave(self.number, pid) != Left::NotThere)
    }

    /// How often a process is in the group: 0 if it is not.
    #[must_use]
    pub fn times(&self, process: &Address<M>) -> u64 {
        let Ok(pid) = Target::from(process).pid_in(&self.hub) else { return 0 };
        self.hub.place(pid).table().0.as_ref().map_or(0, |groups| groups.times(self.number, pid))
    }

    /// The processes that are in the group, each once, in no order: `pg:get_members`.
    #[must_use]
    pub fn members(&self) -> Vec<Address<M>> {
        self.hub.places.iter().flat_map(|place| self.members_of(place)).collect()
    }

    /// The same of one desk: `pg:get_local_members`. There are none if there is no such desk.
    #[must_use]
    pub fn members_on(&self, desk: u8) -> Vec<Address<M>> {
        self.hub.places.get(usize::from(desk)).map_or_else(Vec::new, |place| self.members_of(place))
    }

    fn members_of(&self, place: &Place) -> Vec<Address<M>> {
        let table = place.table();
        let pids: Vec<Pid> = table.0.iter().flat_map(|groups| groups.members(self.number)).collect();
        drop(table);
        // (one that has exited since is none)
        let found = pids.into_iter().filter_map(|pid| place.slot(pid)).map(|slot| slot.any().downcast::<Values<M>>());
        let address = |mailbox| Address { mailbox, hub: self.hub.clone() };
        found.map(|values| address(values.expect("the messages of the group"))).collect()
    }

    /// How many processes are in the group, each counted once.
    #[must_use]
    pub fn len(&self) -> usize {
        let table = |place: &Arc<Place>| place.table().0.as_ref().map_or(0, |groups| groups.len(self.number));
        self.hub.places.iter().map(table).sum()
    }

    /// Whether no process is in the group.
    #[must_use]
    pub fn is_empty(&self) -> bool {
        self.len() == 0
    }

    /// Sends each member the message that is made for it, from outside, from any thread, as [`Address::send`]. It returns how many
    /// were sent. A behaviour takes [`Context::send_all`](super::Context::send_all).
    pub fn send_all(&self, mut make: impl FnMut(&Address<M>) -> M) -> usize {
        self.members().iter().filter(|member| member.send(make(member))).count()
    }
}

impl Place {
    fn table(&self) -> MutexGuard<'_, Table> {
        touch(NAMES);
        locked(&self.groups)
    }

    /// A process has exited: it leaves all its groups.
    pub(crate) fn leave_groups(&self, pid: Pid) {
        let mut table = self.table();
        table.0.as_mut().map(|groups| groups.forget(pid));
    }
}

/// A mailbox as a value whose type is not known.
pub(crate) type AnyMailbox = Arc<dyn Any + Send + Sync>;

impl<M> Clone for Group<M> {
    fn clone(&self) -> Group<M> {
        Group { number: self.number, text: self.text.clone(), hub: self.hub.clone(), of: PhantomData }
    }
}

impl<M> PartialEq for Group<M> {
    fn eq(&self, other: &Group<M>) -> bool {
        self.number == other.number
    }
}

impl<M> Eq for Group<M> {}

impl<M> fmt::Debug for Group<M> {
    fn fmt(&self, f: &mut fmt::Formatter<'_>) -> fmt::Result {
        write!(f, "Group({:?})", self.text)
    }
}

impl<M> fmt::Display for Group<M> {
    fn fmt(&self, f: &mut fmt::Formatter<'_>) -> fmt::Result {
        f.write_str(&self.text)
    }
}
