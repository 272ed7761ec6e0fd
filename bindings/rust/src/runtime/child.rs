//! The children of a supervisor: how they are made, when they are started again, and how they are ended.

use super::address::Address;
use super::asked::tell_dropped;
use super::behaviour::Behaviour;
use super::calls::Reply;
use super::hub::micros;
use super::name::Name;
use super::payloads::drop_quietly;
use super::report::Report;
use super::supervisor::is_supervisor;
use super::worker::{Parent, Setup, Worker, text_of};
use crate::supervisors::{self, ChildSpec};
use crate::{Fault, Pid, Reason};
use std::any::type_name;
use std::fmt;
use std::panic::{AssertUnwindSafe, catch_unwind};
use std::sync::Arc;
use std::time::Duration;

/// How long a child that is no supervisor has to exit, unless its specification says something else.
const PATIENCE: Duration = Duration::from_secs(5);

/// Whether a child is started again when it has exited by itself.
#[derive(Clone, Copy, Debug, PartialEq, Eq, Hash)]
pub enum Restart {
    /// Always.
    Permanent,
    /// Unless it exited with `normal` or `shutdown`.
    Transient,
    /// Never. Once it has exited, its supervisor forgets it.
    Temporary,
}

impl Restart {
    /// Whether a child that exited by itself with this reason is started again.
    #[must_use]
    pub fn starts_again(self, reason: Reason) -> bool {
        match self {
            Restart::Permanent => true,
            Restart::Transient => !matches!(reason, Reason::Normal | Reason::Shutdown),
            Restart::Temporary => false,
        }
    }
}

/// How a supervisor ends a child: `shutdown` of Erlang's child specification.
#[derive(Clone, Copy, Debug, PartialEq, Eq, Hash)]
pub enum Shutdown {
    /// By an exit signal `shutdown`. The supervisor waits for the exit however long that takes. So a child is ended that is
    /// a supervisor itself.
    Infinity,
    /// By an exit signal `shutdown`, and if the child has not exited after this time, by an exit signal `kill`. So any
    /// other child is ended, after five seconds.
    After(Duration),
    /// By an exit signal `kill`, which cannot be trapped.
    BrutalKill,
}

impl From<Shutdown> for supervisors::Shutdown {
    fn from(shutdown: Shutdown) -> supervisors::Shutdown {
        match shutdown {
            Shutdown::Infinity => supervisors::Shutdown::Infinity,
            // (the time of a crew is that of its step)
            Shutdown::After(time) => supervisors::Shutdown::After(micros(time).saturating_add(1)),
            Shutdown::BrutalKill => supervisors::Shutdown::BrutalKill,
        }
    }
}

/// Why a child was not started, ended or forgotten.
#[derive(Clone, Debug, PartialEq, Eq, Hash)]
#[non_exhaustive]
pub enum ChildFault {
    /// The desk refused it, as where no slot is free.
    Table(Fault),
    /// The closure that makes it panicked, with this text.
    Panicked(Arc<str>),
    /// The supervisor has no child at this place.
    NotFound,
    /// The child is alive.
    Running,
}

impl fmt::Display for ChildFault {
    fn fmt(&self, f: &mut fmt::Formatter<'_>) -> fmt::Result {
        match self {
            ChildFault::Table(fault) => write!(f, "the child is not started: {fault}"),
            ChildFault::Panicked(text) => write!(f, "the child was not made: {text}"),
            ChildFault::NotFound => f.write_str("the supervisor has no such child"),
            ChildFault::Running => f.write_str("the child is alive"),
        }
    }
}

impl std::error::Error for ChildFault {}

/// What a supervisor knows of a child: an entry of Erlang's `which_children`.
#[derive(Clone, Debug, PartialEq, Eq, Hash)]
#[non_exhaustive]
pub struct ChildInfo {
    /// Its number among all children that the supervisor ever had, in the order in which they were added. It stays.
    pub place: u64,
    /// The text of its name, if it has one.
    pub name: Option<String>,
    /// Its process, or `None` if it is not alive.
    pub pid: Option<Pid>,
    /// The name of the type of its behaviour.
    pub behaviour: &'static str,
    /// When it is started again.
    pub restart: Restart,
    /// How often it was started.
    pub started: u64,
}

impl ChildInfo {
    /// Whether it is alive, by all that its supervisor has heard.
    #[must_use]
    pub fn is_alive(&self) -> bool {
        self.pid.is_some()
    }
}

/// A child that was started at the request of a process or a thread.
#[non_exhaustive]
pub struct Started<M> {
    /// Its number among all children of the supervisor.
    pub place: u64,
    /// The process.
    pub address: Address<M>,
}

impl<M: Send + 'static> fmt::Debug for Started<M> {
    fn fmt(&self, f: &mut fmt::Formatter<'_>) -> fmt::Result {
        let Started { place, address } = self;
        f.debug_struct("Started").field("place", place).field("address", address).finish()
    }
}

/// As what a child is started: the process, its supervisor of the crew, and its place there.
pub(crate) struct Post {
    pub(crate) supervisor: Pid,
    pub(crate) place: u64,
    pub(crate) pid: Pid,
}

/// A behaviour that was made for a child: a process that was spawned gets it.
type Made<M> = Box<dyn FnOnce(&mut Worker, Pid, Parent) -> Address<M> + Send>;

/// Makes the behaviour of a child. It may panic.
type Make<M> = Box<dyn FnMut() -> Made<M> + Send>;

/// A child of a supervisor: a child specification of Erlang. Its process takes messages of the type `M`.
///
/// It has a closure that makes the behaviour, each time that the child is started.
pub struct Child<M> {
    make: Make<M>,
    name: Option<Name<M>>,
    restart: Restart,
    shutdown: Shutdown,
    desk: Option<u8>,
    behaviour: &'static str,
}

impl<M> fmt::Debug for Child<M> {
    fn fmt(&self, f: &mut fmt::Formatter<'_>) -> fmt::Result {
        write!(f, "Child({:?} {})", self.restart, self.behaviour)
    }
}

impl<M: Send + 'static> Child<M> {
    /// A child that is always started again.
    pub fn permanent<B: Behaviour<Message = M>>(make: impl FnMut() -> B + Send + 'static) -> Child<M> {
        Child::new(Restart::Permanent, make)
    }

    /// A child that is started again unless it exits with `normal` or `shutdown`.
    pub fn transient<B: Behaviour<Message = M>>(make: impl FnMut() -> B + Send + 'static) -> Child<M> {
        Child::new(Restart::Transient, make)
    }

    /// A child that is never started again.
    pub fn temporary<B: Behaviour<Message = M>>(make: impl FnMut() -> B + Send + 'static) -> Child<M> {
        Child::new(Restart::Temporary, make)
    }

    /// A temporary child whose behaviour is there already, as that of a connection.
    pub fn once<B: Behaviour<Message = M>>(behaviour: B) -> Child<M> {
        let mut behaviour = Some(behaviour);
        Child::temporary(move || behaviour.take().expect("a child that was made before"))
    }

    fn new<B: Behaviour<Message = M>>(restart: Restart, mut make: impl FnMut() -> B + Send + 'static) -> Child<M> {
        Child {
            make: Box::new(move || {
                let behaviour = make();
                let setup = Setup::of(&behaviour);
                Box::new(move |worker, pid, parent| worker.admit(pid, parent, behaviour, setup))
            }),
            name: None,
            restart,
            desk: None,
            shutdown: if is_supervisor::<B>() { Shutdown::Infinity } else { Shutdown::After(PATIENCE) },
            behaviour: type_name::<B>(),
        }
    }

    /// The same child, which has this name while it is alive.
    #[must_use]
    pub fn named(mut self, name: &Name<M>) -> Child<M> {
        self.name = Some(name.clone());
        self
    }

    /// The same child, ended in this way.
    #[must_use]
    pub fn shutdown(mut self, shutdown: Shutdown) -> Child<M> {
        self.shutdown = shutdown;
        self
    }

    /// The same child, on this desk of the node. Without this it is on the desk of its supervisor.
    ///
    /// The closure that makes its behaviour runs on the thread of that desk. Its supervisor starts those behind it once
    /// [`started`](Behaviour::started) of it has returned, and meanwhile does nothing else. If there is no such desk, the child is
    /// not started, with [`Fault::BadDesks`].
    ///
    /// ```
    /// use pundewo::runtime::{Behaviour, Child, Context, Event, Name, Next, Runtime, Supervisor};
    /// use std::time::Duration;
    ///
    /// struct Line;
    ///
    /// impl Behaviour for Line {
    ///     type Message = ();
    ///
    ///     fn handle(&mut self, _: &mut Context<'_, ()>, _: Event<()>) -> Next {
    ///         Next::Wait
    ///     }
    /// }
    ///
    /// let (runtime, lines) = (Runtime::builder().desks(3).start()?, [Name::new("first"), Name::new("second")]);
    /// let exchange = Supervisor::one_for_all()
    ///     .child(Child::permanent(|| Line).named(&lines[0]).on(1))
    ///     .child(Child::permanent(|| Line).named(&lines[1]).on(2));
    /// runtime.spawn_on(0, exchange)?;
    /// let desks = lines.map(|line| line.wait(Duration::from_secs(5)).expect("a line").pid().shard);
    /// assert_eq!(desks, [1, 2]);
    /// runtime.stop()?;
    /// # Ok::<(), Box<dyn std::error::Error>>(())
    /// ```
    #[must_use]
    pub fn on(mut self, desk: u8) -> Child<M> {
        self.desk = Some(desk);
        self
    }

    /// The same for a supervisor, whatever the messages are. Who waits for its first start is told of it. It is one of
    /// those that a supervisor begins with, if nobody does.
    pub(crate) fn listed(self, reply: Option<StartReply<M>>) -> Listed {
        let Child { make, name, restart, shutdown, desk, behaviour } = self;
        let is_first = reply.is_none();
        let starts = Box::new(Starts { make, made: None, name, address: None, reply });
        Listed { starts, restart, shutdown, desk, behaviour, started: 0, pid: None, why: None, is_first }
    }
}

pub(crate) type StartReply<M> = Reply<Result<Started<M>, ChildFault>>;

/// Tells the one who has asked for a child why it is not started.
pub(crate) type Refuses = Box<dyn FnOnce(&mut Worker, Pid, ChildFault)>;

/// How a child is started, whatever its messages are.
trait Start: Send {
    /// Its behaviour is made for a process that its supervisor has spawned.
    fn start(&mut self, worker: &mut Worker, post: &Post) -> Result<(), ChildFault>;
    /// Its behaviour is made, and then its process is spawned, on another desk than that of its supervisor.
    fn start_elsewhere(&mut self, worker: &mut Worker, supervisor: Pid, place: u64) -> Result<Pid, ChildFault>;
    /// That process begins.
    fn begins(&mut self);
    /// It was started. Who has asked for it is told so by the process in front of its supervisor.
    fn started(&mut self, worker: &mut Worker, front: Pid, place: u64);
    /// The process has exited.
    fn gone(&mut self);
    /// It is not started.
    fn refused(&mut self) -> Option<Refuses>;
    fn name(&self) -> Option<&str>;
}

struct Starts<M: Send + 'static> {
    make: Make<M>,
    /// What was made for the next process, if the desk had no memory or no stamp for that.
    made: Option<Made<M>>,
    name: Option<Name<M>>,
    address: Option<Address<M>>,
    /// Who waits for the first start.
    reply: Option<StartReply<M>>,
}

impl<M: Send + 'static> Starts<M> {
    fn make(&mut self) -> Result<Made<M>, ChildFault> {
        if let Some(made) = self.made.take() {
            return Ok(made);
        }
        catch_unwind(AssertUnwindSafe(&mut self.make)).map_err(|what| {
            let text = text_of(&*what).into();
            drop_quietly(what);
            tell_dropped();
            ChildFault::Panicked(text)
        })
    }
}

impl<M: Send + 'static> Start for Starts<M> {
    fn start(&mut self, worker: &mut Worker, post: &Post) -> Result<(), ChildFault> {
        let made = self.make()?;
        self.address = Some(made(worker, post.pid, Parent::Supervisor(post.supervisor)));
        self.begins();
        Ok(())
    }

    fn start_elsewhere(&mut self, worker: &mut Worker, supervisor: Pid, place: u64) -> Result<Pid, ChildFault> {
        let (made, parent) = (self.make()?, Parent::Elsewhere { supervisor, place });
        match worker.spawn_empty(parent) {
            Ok(pid) => {
                self.address = Some(made(worker, pid, parent));
                Ok(pid)
            }
            Err(fault) => {
                // (without memory or a stamp the run halts, and then it is tried again)
                if matches!(fault, Fault::Memory | Fault::Worn) {
                    self.made = Some(made);
                } else {
                    drop_quietly(made);
                }
                Err(ChildFault::Table(fault))
            }
        }
    }

    fn begins(&mut self) {
        if let (Some(name), Some(address)) = (&self.name, &self.address) {
            name.give(address.clone());
        }
    }

    fn started(&mut self, worker: &mut Worker, front: Pid, place: u64) {
        if let (Some(reply), Some(address)) = (self.reply.take(), self.address.clone()) {
            worker.reply(front, reply, Ok(Started { place, address }));
        }
    }

    fn gone(&mut self) {
        if let (Some(address), Some(name)) = (self.address.take(), &self.name) {
            name.take(&address);
        }
    }

    fn refused(&mut self) -> Option<Refuses> {
        let reply = self.reply.take()?;
        Some(Box::new(move |worker, front, fault| worker.reply(front, reply, Err(fault))))
    }

    fn name(&self) -> Option<&str> {
        self.name.as_ref().map(Name::text)
    }
}

/// A child among those of its supervisor.
pub(crate) struct Listed {
    starts: Box<dyn Start>,
    pub(crate) restart: Restart,
    shutdown: Shutdown,
    /// The desk that it is on, if that is not its supervisor's.
    pub(crate) desk: Option<u8>,
    behaviour: &'static str,
    started: u64,
    /// Its process, from when its behaviour is made until it has exited.
    pid: Option<Pid>,
    /// Why its process before exited, if it had one.
    why: Option<Reason>,
    /// Whether its supervisor is to begin with it, and its behaviour was not made yet.
    pub(crate) is_first: bool,
}

impl Listed {
    pub(crate) fn is_alive(&self) -> bool {
        self.pid.is_some()
    }

    pub(crate) fn pid(&self) -> Option<Pid> {
        self.pid
    }

    pub(crate) fn info(&self, place: u64) -> ChildInfo {
        let Listed { restart, behaviour, started, pid, .. } = *self;
        ChildInfo { place, name: self.starts.name().map(str::to_owned), pid, behaviour, restart, started }
    }

    /// What the library knows of it.
    pub(crate) fn spec(&self, tag: u64) -> ChildSpec {
        let (restart, shutdown) = (self.restart, self.shutdown.into());
        ChildSpec { restart, shutdown, elsewhere: self.desk.is_some(), ..ChildSpec::new(tag) }
    }

    /// Its supervisor is on this desk.
    pub(crate) fn settle(&mut self, desk: u8) {
        self.desk = self.desk.filter(|&it| it != desk);
    }

    /// Its behaviour is made for a process that its supervisor has spawned.
    pub(crate) fn start(&mut self, worker: &mut Worker, front: Pid, post: &Post) -> Result<(), ChildFault> {
        self.starts.start(worker, post)?;
        self.started(worker, front, post.place, post.pid);
        Ok(())
    }

    /// Its behaviour is made, and then its process is spawned, on this desk, which is not that of its supervisor.
    pub(crate) fn start_elsewhere(
        &mut self,
        worker: &mut Worker,
        supervisor: Pid,
        place: u64,
    ) -> Result<Pid, ChildFault> {
        self.starts.start_elsewhere(worker, supervisor, place)
    }

    /// Its process on another desk than its supervisor's begins.
    pub(crate) fn begins(&mut self) {
        self.starts.begins();
    }

    /// It was started as this process.
    pub(crate) fn started(&mut self, worker: &mut Worker, front: Pid, place: u64, pid: Pid) {
        self.pid = Some(pid);
        self.started += 1;
        self.starts.started(worker, front, place);
    }

    /// It has exited.
    pub(crate) fn gone(&mut self, why: Reason) {
        (self.pid, self.why) = (None, Some(why));
        self.starts.gone();
    }

    /// What is reported of it as its supervisor has started it again. `None` if this is its first start.
    pub(crate) fn restarted(&self, supervisor: Pid, place: u64) -> Option<Report<'_>> {
        let Listed { behaviour, started, pid, why, .. } = *self;
        let (name, pid, reason) = (self.starts.name(), pid?, why?);
        Some(Report::Restart { supervisor, place, name, behaviour, pid, reason, started })
    }

    /// It is not started at request.
    pub(crate) fn refused(&mut self) -> Option<Refuses> {
        self.starts.refused()
    }
}
