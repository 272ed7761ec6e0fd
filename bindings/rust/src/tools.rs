//! Timers, names and groups: what comes back at a time, which process has which name, and which are in which group.

use crate::raw::{self, Handle, RawFired, RawHolder, RawName, RawRef, RawTimer};
use crate::{Fault, Held, NONE, OK, Pid, Ref, fault_of, found, told};
use std::fmt;

/// The name of a timer: when it is due, and the number of timers that were started before it.
///
/// No other timer of its [`Timers`] has the same.
#[derive(Clone, Copy, Debug, PartialEq, Eq, PartialOrd, Ord, Hash)]
pub struct Timer {
    /// When it is due.
    pub at: u64,
    /// The number of timers that were started before it.
    pub number: u64,
}

impl From<Timer> for RawTimer {
    fn from(timer: Timer) -> RawTimer {
        RawTimer { at: timer.at, number: timer.number }
    }
}

impl From<RawTimer> for Timer {
    fn from(raw: RawTimer) -> Timer {
        Timer { at: raw.at, number: raw.number }
    }
}

/// A timer that is due, and the number that it was started with.
#[derive(Clone, Copy, Debug, PartialEq, Eq, PartialOrd, Ord, Hash)]
pub struct Fired {
    /// The timer.
    pub timer: Timer,
    /// What it was started with.
    pub body: u64,
}

impl From<RawFired> for Fired {
    fn from(raw: RawFired) -> Fired {
        Fired { timer: raw.timer.into(), body: raw.body }
    }
}

/// Numbers of the program's own, each due at a time: Erlang's `send_after` and `cancel_timer` without the sending.
///
/// No call reads a clock: the program passes the time, in a unit of its own and in any order. A timer that was started is
/// pending, has fired or was cancelled, and the last two are for ever.
///
/// ```
/// use pundewo::{Fired, Timers};
///
/// let mut timers = Timers::new()?;
/// let ring = timers.start(30, 1)?;
/// let poll = timers.start(10, 2)?;
/// assert_eq!(timers.next(), Some(10));
/// assert!(timers.cancel(ring));
/// assert_eq!(timers.pop_due(9), None);
/// assert_eq!(timers.pop_due(12), Some(Fired { timer: poll, body: 2 }));
/// # Ok::<(), pundewo::Fault>(())
/// ```
pub struct Timers {
    handle: Held,
}

impl fmt::Debug for Timers {
    fn fmt(&self, f: &mut fmt::Formatter<'_>) -> fmt::Result {
        write!(f, "Timers {{ pending: {} }}", self.len())
    }
}

impl Drop for Timers {
    fn drop(&mut self) {
        // SAFETY: the handle is the only one of its timers.
        unsafe { raw::pt_timers_give_up(self.handle.own()) };
    }
}

// SAFETY of the calls below: the handle is the only one of its timers, and this call alone has it, by `&mut self` or by
// its lock; the references are to separate values.
impl Timers {
    /// Begins timers, of which none is pending.
    ///
    /// # Errors
    ///
    /// [`Fault::Memory`], if there is none.
    pub fn new() -> Result<Timers, Fault> {
        let mut handle: Handle = NONE;
        told(unsafe { raw::pt_timers_open(&mut handle) })?;
        Ok(Timers { handle: Held::new(handle) })
    }

    /// Starts a timer that is due at this time, which may have passed already, with this number.
    ///
    /// # Errors
    ///
    /// [`Fault::Memory`]; [`Fault::Worn`] after 2^64 - 1 timers. Nothing has changed then.
    pub fn start(&mut self, at: u64, body: u64) -> Result<Timer, Fault> {
        let mut out = RawTimer::default();
        told(unsafe { raw::pt_timers_start(self.handle.own(), at, body, &mut out) })?;
        Ok(out.into())
    }

    /// Cancels a timer, and returns whether it was pending. It never fires then.
    pub fn cancel(&mut self, timer: Timer) -> bool {
        found(unsafe { raw::pt_timers_cancel(self.handle.own(), timer.into()) }, ()).is_some()
    }

    /// Fires one timer that is due by `now`: the one with the earliest time, and the one started first among those. `None`
    /// if none is due.
    pub fn pop_due(&mut self, now: u64) -> Option<Fired> {
        let mut out = RawFired::default();
        let code = unsafe { raw::pt_timers_pop_due(self.handle.own(), now, &mut out) };
        found(code, out.into())
    }

    /// The timer that [`pop_due`](Timers::pop_due) would fire. It stays pending.
    pub fn peek_due(&self, now: u64) -> Option<Fired> {
        let mut out = RawFired::default();
        let code = unsafe { raw::pt_timers_peek_due(&mut self.handle.lent(), now, &mut out) };
        found(code, out.into())
    }

    /// The earliest time of a pending timer, or `None` if none is pending.
    pub fn next(&self) -> Option<u64> {
        let mut out = 0;
        let code = unsafe { raw::pt_timers_next(&mut self.handle.lent(), &mut out) };
        found(code, out)
    }

    /// The number that a pending timer was started with, or `None` if the timer is not pending.
    pub fn get(&self, timer: Timer) -> Option<u64> {
        let mut out = 0;
        let code = unsafe { raw::pt_timers_get(&mut self.handle.lent(), timer.into(), &mut out) };
        found(code, out)
    }

    /// How many are pending.
    pub fn len(&self) -> usize {
        let mut out = 0;
        unsafe { raw::pt_timers_len(&mut self.handle.lent(), &mut out) };
        out
    }

    /// Whether none is pending.
    pub fn is_empty(&self) -> bool {
        self.len() == 0
    }
}

/// Why a name was not given or not looked for. Nothing has changed.
#[derive(Clone, Copy, Debug, PartialEq, Eq, Hash)]
pub enum NameFault {
    /// The text is no name: 1 to 32 ASCII letters, digits and `_`, beginning with a letter.
    BadName,
    /// A process has the name.
    Taken,
    /// The process has a name.
    HasName,
    /// There was no memory.
    Memory,
}

impl fmt::Display for NameFault {
    fn fmt(&self, f: &mut fmt::Formatter<'_>) -> fmt::Result {
        f.write_str(match self {
            NameFault::BadName => "the text is no name",
            NameFault::Taken => "a process has the name",
            NameFault::HasName => "the process has a name",
            NameFault::Memory => "there was no memory",
        })
    }
}

impl std::error::Error for NameFault {}

fn named(code: u32) -> Result<(), NameFault> {
    match code {
        OK => Ok(()),
        raw::PT_MEMORY => Err(NameFault::Memory),
        raw::PT_BAD_NAME => Err(NameFault::BadName),
        raw::PT_TAKEN => Err(NameFault::Taken),
        raw::PT_HAS_NAME => Err(NameFault::HasName),
        _ => unreachable!("the library answered {code}"),
    }
}

/// The value that a call for a name wrote, or `None` if it says that there is nothing.
fn found_by_name<T>(code: u32, value: T) -> Result<Option<T>, NameFault> {
    if code == raw::PT_BAD_NAME { Err(NameFault::BadName) } else { Ok(found(code, value)) }
}

/// The process that has a name, and the monitor that it was registered with.
#[derive(Clone, Copy, Debug, PartialEq, Eq, PartialOrd, Ord, Hash)]
pub struct Holder {
    /// The process.
    pub pid: Pid,
    /// The monitor that tells of its exit.
    pub monitor: Ref,
}

/// Which process has which name: Erlang's `register`, `whereis` and `unregister`.
///
/// A name is of one process, and a process has one name at most. Names know no desk: monitor each process that has one,
/// and call [`forget`](Names::forget) for its `DOWN`.
///
/// ```
/// use pundewo::{Config, Names, open};
///
/// let mut desks = open(1, Config::default())?;
/// let (keeper, line) = (desks[0].spawn()?, desks[0].spawn()?);
/// let monitor = desks[0].monitor(keeper, line)?;
/// let mut names = Names::new()?;
/// names.register("line_12", line, monitor).unwrap();
/// assert_eq!(names.whereis("line_12"), Ok(Some(line)));
/// assert_eq!(names.forget(line).as_deref(), Some("line_12"));
/// # Ok::<(), pundewo::Fault>(())
/// ```
pub struct Names {
    handle: Held,
}

impl fmt::Debug for Names {
    fn fmt(&self, f: &mut fmt::Formatter<'_>) -> fmt::Result {
        write!(f, "Names {{ len: {} }}", self.len())
    }
}

impl Drop for Names {
    fn drop(&mut self) {
        // SAFETY: the handle is the only one of its names.
        unsafe { raw::pt_names_give_up(self.handle.own()) };
    }
}

fn text_of(name: RawName) -> String {
    name.letters.into_iter().take_while(|letter| *letter != 0).map(char::from).collect()
}

// SAFETY of the calls below: as those of `Timers`; a text is as many bytes as its length.
impl Names {
    /// Begins names, of which no process has one.
    ///
    /// # Errors
    ///
    /// [`Fault::Memory`], if there is none.
    pub fn new() -> Result<Names, Fault> {
        let mut handle: Handle = NONE;
        match unsafe { raw::pt_names_open(&mut handle) } {
            OK => Ok(Names { handle: Held::new(handle) }),
            code => Err(fault_of(code)),
        }
    }

    /// Gives a process a name, and keeps the monitor with it.
    ///
    /// # Errors
    ///
    /// [`NameFault::BadName`], else [`NameFault::Taken`], else [`NameFault::HasName`], else [`NameFault::Memory`].
    pub fn register(&mut self, name: &str, p: Pid, monitor: Ref) -> Result<(), NameFault> {
        named(unsafe { raw::pt_names_register(self.handle.own(), name.as_ptr(), name.len(), p, monitor.into()) })
    }

    /// Checks whether the process can have the name. If so, [`register`](Names::register) fails only without memory.
    ///
    /// # Errors
    ///
    /// Those of [`register`](Names::register), but for [`NameFault::Memory`].
    pub fn check(&self, name: &str, p: Pid) -> Result<(), NameFault> {
        named(unsafe { raw::pt_names_check(&mut self.handle.lent(), name.as_ptr(), name.len(), p) })
    }

    /// The process that has the name, or `None` if no process has it.
    ///
    /// # Errors
    ///
    /// [`NameFault::BadName`].
    pub fn whereis(&self, name: &str) -> Result<Option<Pid>, NameFault> {
        let mut out = Pid::default();
        let code = unsafe { raw::pt_names_whereis(&mut self.handle.lent(), name.as_ptr(), name.len(), &mut out) };
        found_by_name(code, out)
    }

    /// Removes a name, and returns who had it, or `None` if no process has it.
    ///
    /// # Errors
    ///
    /// [`NameFault::BadName`].
    pub fn unregister(&mut self, name: &str) -> Result<Option<Holder>, NameFault> {
        let mut out = RawHolder::default();
        let code = unsafe { raw::pt_names_unregister(self.handle.own(), name.as_ptr(), name.len(), &mut out) };
        found_by_name(code, Holder { pid: out.pid, monitor: out.monitor.into() })
    }

    /// Removes the name of a process that has exited, and returns it, or `None` if it has none.
    pub fn forget(&mut self, p: Pid) -> Option<String> {
        let mut out = RawName::default();
        let code = unsafe { raw::pt_names_forget(self.handle.own(), p, &mut out) };
        found(code, out).map(text_of)
    }

    /// The name of a process, or `None` if it has none.
    pub fn name_of(&self, p: Pid) -> Option<String> {
        let mut out = RawName::default();
        let code = unsafe { raw::pt_names_name_of(&mut self.handle.lent(), p, &mut out) };
        found(code, out).map(text_of)
    }

    /// How many names there are.
    pub fn len(&self) -> usize {
        let mut out = 0;
        unsafe { raw::pt_names_len(&mut self.handle.lent(), &mut out) };
        out
    }

    /// Whether no process has a name.
    pub fn is_empty(&self) -> bool {
        self.len() == 0
    }
}

/// What came of a [`Groups::leave`].
#[derive(Clone, Copy, Debug, PartialEq, Eq, Hash)]
pub enum Left {
    /// The process was not in the group.
    NotThere,
    /// It is in the group once less, and it is in some group still.
    Stays,
    /// It is in no group any more. It had this monitor.
    Last(Ref),
}

/// Which process is in which group, as Erlang's `pg` keeps it.
///
/// A group is a number to which the program gives a meaning. A process may be in many groups. It may join a group several
/// times, and is in it until it has left as often, or has exited. Groups know no desk: monitor each process that is in a group,
/// once, and call [`forget`](Groups::forget) for its `DOWN`.
///
/// ```
/// use pundewo::{Config, Groups, Left, open};
///
/// const LINES: u64 = 7;
///
/// let mut desks = open(1, Config::default())?;
/// let (keeper, line) = (desks[0].spawn()?, desks[0].spawn()?);
/// let mut groups = Groups::new()?;
/// let monitor = desks[0].monitor(keeper, line)?;
/// assert_eq!(groups.join(LINES, line, monitor), Ok(monitor));
/// assert_eq!(groups.members(LINES).collect::<Vec<_>>(), [line]);
/// assert_eq!(groups.leave(LINES, line), Left::Last(monitor));
/// # Ok::<(), pundewo::Fault>(())
/// ```
pub struct Groups {
    handle: Held,
}

impl fmt::Debug for Groups {
    fn fmt(&self, f: &mut fmt::Formatter<'_>) -> fmt::Result {
        f.write_str("Groups { .. }")
    }
}

impl Drop for Groups {
    fn drop(&mut self) {
        // SAFETY: the handle is the only one of its groups.
        unsafe { raw::pt_groups_give_up(self.handle.own()) };
    }
}

// SAFETY of the calls below: as those of `Timers`.
impl Groups {
    /// Begins groups, in which there is no process.
    ///
    /// # Errors
    ///
    /// [`Fault::Memory`], if there is none.
    pub fn new() -> Result<Groups, Fault> {
        let mut handle: Handle = NONE;
        told(unsafe { raw::pt_groups_open(&mut handle) })?;
        Ok(Groups { handle: Held::new(handle) })
    }

    /// Adds a process to a group, once more if it is there already. It returns the monitor of the process: the one that was
    /// passed if it was in no group, and otherwise the one that it had.
    ///
    /// # Errors
    ///
    /// [`Fault::Memory`]; [`Fault::Full`] if it is in the group 2^64 - 1 times. Nothing has changed then.
    pub fn join(&mut self, group: u64, p: Pid, monitor: Ref) -> Result<Ref, Fault> {
        let mut out = RawRef::default();
        told(unsafe { raw::pt_groups_join(self.handle.own(), group, p, monitor.into(), &mut out) })?;
        Ok(out.into())
    }

    /// Takes a process out of a group, once.
    pub fn leave(&mut self, group: u64, p: Pid) -> Left {
        let (mut last, mut out) = (false, RawRef::default());
        let code = unsafe { raw::pt_groups_leave(self.handle.own(), group, p, &mut last, &mut out) };
        match found(code, last) {
            None => Left::NotThere,
            Some(false) => Left::Stays,
            Some(true) => Left::Last(out.into()),
        }
    }

    /// Removes a process that has exited from all its groups, and returns its monitor, or `None` if it is in no group.
    pub fn forget(&mut self, p: Pid) -> Option<Ref> {
        let mut out = RawRef::default();
        let code = unsafe { raw::pt_groups_forget(self.handle.own(), p, &mut out) };
        found(code, out).map(Ref::from)
    }

    /// The monitor of a process, or `None` if it is in no group.
    pub fn monitor_of(&self, p: Pid) -> Option<Ref> {
        let mut out = RawRef::default();
        let code = unsafe { raw::pt_groups_monitor_of(&mut self.handle.lent(), p, &mut out) };
        found(code, out).map(Ref::from)
    }

    /// How often a process is in a group: 0 if it is not.
    pub fn times(&self, group: u64, p: Pid) -> u64 {
        let mut out = 0;
        unsafe { raw::pt_groups_times(&mut self.handle.lent(), group, p, &mut out) };
        out
    }

    /// How many processes are in a group, each counted once.
    pub fn len(&self, group: u64) -> usize {
        let mut out = 0;
        unsafe { raw::pt_groups_len(&mut self.handle.lent(), group, &mut out) };
        out
    }

    /// Whether no process is in a group.
    pub fn is_empty(&self, group: u64) -> bool {
        self.len(group) == 0
    }

    /// The member of a group at a place, counted from 0, or `None` if there is none. The order means nothing, and may change
    /// with each call that changes the group.
    pub fn member_at(&self, group: u64, place: usize) -> Option<Pid> {
        let mut out = Pid::default();
        let code = unsafe { raw::pt_groups_member_at(&mut self.handle.lent(), group, place, &mut out) };
        found(code, out)
    }

    /// The members of a group, each once.
    pub fn members(&self, group: u64) -> impl Iterator<Item = Pid> + '_ {
        (0..).map_while(move |place| self.member_at(group, place))
    }

    /// The group at a place of those that a process is in, counted from 0, or `None` if there is none.
    pub fn group_at(&self, p: Pid, place: usize) -> Option<u64> {
        let mut out = 0;
        let code = unsafe { raw::pt_groups_group_at(&mut self.handle.lent(), p, place, &mut out) };
        found(code, out)
    }

    /// The groups that a process is in, each once.
    pub fn groups_of(&self, p: Pid) -> impl Iterator<Item = u64> + '_ {
        (0..).map_while(move |place| self.group_at(p, place))
    }
}
