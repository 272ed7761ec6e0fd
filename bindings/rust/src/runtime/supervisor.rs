//! Supervisors: processes that start others, and start them again when they exit.

use super::behaviour::{Behaviour, Event, Next};
use super::calls::Reply;
use super::child::{Child, ChildFault, ChildInfo, Listed, Started};
use super::context::Context;
use super::hub::micros;
use crate::supervisors::{Strategy, SupervisorSpec};
use crate::{Fault, Pid, Reason};
use std::any::TypeId;
use std::fmt;
use std::time::Duration;

/// Whether the processes of a behaviour are supervisors.
pub(crate) fn is_supervisor<B: Behaviour>() -> bool {
    TypeId::of::<B>() == TypeId::of::<Supervisor>()
}

/// The most restarts that a limit counts.
const MOST: usize = 1 << 20;
/// How many restarts are allowed at one time if there is no limit.
const MANY: usize = 64;

/// A process that starts its children in order, and starts them again when they exit: Erlang's supervisor.
///
/// ```
/// use pundewo::runtime::{Behaviour, Child, Context, Event, Name, Next, Runtime, Supervisor, ToSupervisor};
/// use std::time::Duration;
///
/// struct Line(u32);
///
/// impl Behaviour for Line {
///     type Message = &'static str;
///
///     fn handle(&mut self, _: &mut Context<'_, &'static str>, event: Event<&'static str>) -> Next {
///         if let Event::Message("noise") = event {
///             panic!("line {} does not stand this", self.0);
///         }
///         Next::Wait
///     }
/// }
///
/// let runtime = Runtime::builder().desks(2).start()?;
/// let line = Name::new("line 11");
/// let lines = Supervisor::one_for_one()
///     .limit(3, Duration::from_secs(5))
///     .child(Child::permanent(|| Line(11)).named(&line))
///     .permanent(|| Line(12));
/// let lines = runtime.spawn(lines)?;
/// let limit = Duration::from_secs(5);
/// let first = line.wait(limit).expect("a process with this name");
/// first.send("noise");
/// // soon another process has the name
/// while line.wait(limit).expect("its successor") == first {}
/// let list = runtime.call(&lines, limit, ToSupervisor::which_children)?;
/// assert!(list.iter().all(|child| child.is_alive()));
/// assert_eq!((list.len(), list[0].started), (2, 2));
/// runtime.stop()?;
/// # Ok::<(), Box<dyn std::error::Error>>(())
/// ```
///
/// Its children are on its own desk, or on others ([`Child::on`]). If it is killed, they exit, too, but for those that
/// trap exits. A supervisor may be a child of another.
///
/// Behind it is a process of the library, one of [`supervisors`](crate::supervisors), whose functions are proved. That
/// one starts and ends the children, and is linked with them: so an exit signal that ends a child comes from that
/// process. An exit signal that a child sends the supervisor does not reach it, nor does a call that takes a link with
/// the supervisor away.
///
/// # When a child exits
///
/// It is started again as its [`Restart`](super::Restart) says. Then by [`one_for_one`](Supervisor::one_for_one) no
/// other is ended, by [`one_for_all`](Supervisor::one_for_all) all others, by
/// [`rest_for_one`](Supervisor::rest_for_one) those that were added after it. They are ended one after the other, from
/// the last to the first, each as its [`Shutdown`](super::Shutdown) says, and all are started again in order, but for
/// temporary ones. Among them are transient children that had exited well before, and those that were terminated.
///
/// If more restarts are made than the [`limit`](Supervisor::limit) says, it ends all its children and exits with
/// `shutdown`.
///
/// # When a child is not made
///
/// The process of a child is spawned first, and then the closure makes its behaviour. On another desk the behaviour is made
/// first. A start fails if the closure panics, or no slot of the desk is free:
/// - **As the supervisor begins**: it ends those that it has started, and exits with `shutdown`.
/// - **As a child is started again**: the process that was spawned exits, and the child is tried again, as after any
///   exit. On another desk there is no process, and it is tried again, too.
///   Each try counts for the limit, and the strategy holds for it.
/// - **At the request of [`ToSupervisor::start_child`]** or `restart_child`: the one who asked is told, and it is not
///   tried again.
///
/// If a child panics in [`started`](Behaviour::started), it was made, and has exited. If the desk has no memory or no
/// stamp, the run halts, and as it goes on the supervisor does, too.
///
/// # When it ends
///
/// An exit signal of its parent, or of those outside ([`Handle::exit`](super::Handle::exit)), ends its children from
/// the last to the first, and then the supervisor exits with the same reason. The parent is the process that spawned
/// it. As the runtime is told to stop, it tells supervisors, and no child of one: its supervisor ends it in its turn.
/// Exit signals of others change nothing, but for `kill`.
///
/// # What is proved, and what is not
///
/// The library decides who is ended and started again, in which order, how often, and by when a child is killed. That
/// is proved, also of children on other desks. How a child is made, also on another desk, and how what is asked is passed
/// on and answered, is tested.
pub struct Supervisor {
    spec: SupervisorSpec,
    /// The children that it begins with, in the order in which they were added.
    children: Vec<Listed>,
    /// The process of the crew that starts and ends the children.
    behind: Option<Pid>,
}

impl fmt::Debug for Supervisor {
    fn fmt(&self, f: &mut fmt::Formatter<'_>) -> fmt::Result {
        let Supervisor { spec, children, .. } = self;
        write!(f, "Supervisor {{ strategy: {:?}, children: {}, .. }}", spec.strategy, children.len())
    }
}

impl Supervisor {
    /// A supervisor without a child, which starts a child that has exited again, and no other.
    #[must_use]
    pub fn one_for_one() -> Supervisor {
        Supervisor::new(Strategy::OneForOne)
    }

    /// A supervisor without a child, which starts all children again if one has exited.
    #[must_use]
    pub fn one_for_all() -> Supervisor {
        Supervisor::new(Strategy::OneForAll)
    }

    /// A supervisor without a child, which starts a child that has exited again, and those that were added after it.
    #[must_use]
    pub fn rest_for_one() -> Supervisor {
        Supervisor::new(Strategy::RestForOne)
    }

    fn new(strategy: Strategy) -> Supervisor {
        let spec = SupervisorSpec { strategy, ..SupervisorSpec::default() };
        Supervisor { spec, children: Vec::new(), behind: None }.limit(3, Duration::from_secs(5))
    }

    /// How many restarts it makes at most in a time: Erlang's `intensity` and `period`. Without this 3 in five seconds.
    /// A restart counts until more than this time has gone by since. More than 1,048,576 is no limit.
    #[must_use]
    pub fn limit(mut self, most: usize, within: Duration) -> Supervisor {
        // (a supervisor has memory for so many; and no step has a second restart)
        let (most, span) = if most > MOST { (MANY, 0) } else { (most, micros(within)) };
        self.spec = SupervisorSpec { most, span, timed: true, ..self.spec };
        self
    }

    /// Adds a child, after those that were added before.
    #[must_use]
    pub fn child<M: Send + 'static>(mut self, child: Child<M>) -> Supervisor {
        self.children.push(child.listed(None));
        self
    }

    /// Adds a child that is always started again, made by this closure each time.
    #[must_use]
    pub fn permanent<B: Behaviour>(self, make: impl FnMut() -> B + Send + 'static) -> Supervisor {
        self.child(Child::permanent(make))
    }

    /// Adds a child that is started again unless it exits with `normal` or `shutdown`.
    #[must_use]
    pub fn transient<B: Behaviour>(self, make: impl FnMut() -> B + Send + 'static) -> Supervisor {
        self.child(Child::transient(make))
    }

    /// Adds a child that is never started again.
    #[must_use]
    pub fn temporary<B: Behaviour>(self, make: impl FnMut() -> B + Send + 'static) -> Supervisor {
        self.child(Child::temporary(make))
    }

    /// Begins: it traps exits, and the process behind it starts the children. Nothing is begun twice.
    fn begin(&mut self, cx: &mut Context<'_, ToSupervisor>) -> Next {
        let begun = match self.behind {
            Some(_) => return Next::Wait,
            None => cx.trap_exits(true).and_then(|()| cx.supervise(self.spec, &mut self.children)),
        };
        match begun {
            Ok(pid) => {
                self.behind = Some(pid);
                Next::Wait
            }
            // (the run halts, and then it is tried again)
            Err(Fault::Memory | Fault::Worn) => Next::Proceed,
            Err(_) => Next::Stop(Reason::Shutdown),
        }
    }
}

impl Behaviour for Supervisor {
    type Message = ToSupervisor;

    fn started(&mut self, cx: &mut Context<'_, ToSupervisor>) -> Next {
        self.begin(cx)
    }

    fn handle(&mut self, cx: &mut Context<'_, ToSupervisor>, event: Event<ToSupervisor>) -> Next {
        match (event, self.behind) {
            (Event::Message(ToSupervisor(request)), Some(pid)) => cx.worker.ask_supervisor(pid, request),
            (Event::Exit(exit), Some(pid)) if cx.is_of_parent(exit.pid) => cx.worker.end_supervisor(pid, exit.reason),
            (Event::Exit(exit), None) if cx.is_of_parent(exit.pid) => return Next::Stop(exit.reason),
            _ => {}
        }
        self.begin(cx)
    }
}

pub(crate) enum Request {
    Which(Reply<Vec<ChildInfo>>),
    Start(Listed),
    Terminate(u64, Reply<Result<(), ChildFault>>),
    Restart(u64, Reply<Result<Pid, ChildFault>>),
    Delete(u64, Reply<Result<(), ChildFault>>),
}

/// What a supervisor is asked: by [`Handle::call`](super::Handle::call) from any thread, or by
/// [`Context::call`](super::Context::call) by a behaviour. While it waits for the exit of a child, it answers nothing.
///
/// ```no_run
/// # use pundewo::runtime::{Address, Behaviour, Child, Handle, Supervisor, ToSupervisor};
/// # use std::time::Duration;
/// # fn ask<B: Behaviour>(runtime: &Handle, supervisor: &Address<ToSupervisor>, make: fn() -> B)
/// # -> Result<(), Box<dyn std::error::Error>> {
/// let limit = Duration::from_secs(5);
/// for child in runtime.call(supervisor, limit, ToSupervisor::which_children)? {
///     println!("{} {:?} {:?}", child.place, child.pid, child.name);
/// }
/// let child = runtime.call(supervisor, limit, ToSupervisor::start_child(Child::temporary(make)))??;
/// runtime.call(supervisor, limit, ToSupervisor::terminate_child(child.place))??;
/// # Ok(())
/// # }
/// ```
pub struct ToSupervisor(Request);

impl fmt::Debug for ToSupervisor {
    fn fmt(&self, f: &mut fmt::Formatter<'_>) -> fmt::Result {
        match &self.0 {
            Request::Which(_) => f.write_str("which_children"),
            Request::Start(_) => f.write_str("start_child"),
            Request::Terminate(place, _) => write!(f, "terminate_child({place})"),
            Request::Restart(place, _) => write!(f, "restart_child({place})"),
            Request::Delete(place, _) => write!(f, "delete_child({place})"),
        }
    }
}

impl ToSupervisor {
    /// Which children it has, in the order in which they were added.
    #[must_use]
    pub fn which_children(reply: Reply<Vec<ChildInfo>>) -> ToSupervisor {
        ToSupervisor(Request::Which(reply))
    }

    /// Adds a child after all others, and starts it. If that fails, the child is forgotten.
    pub fn start_child<M: Send + 'static>(
        child: Child<M>,
    ) -> impl FnOnce(Reply<Result<Started<M>, ChildFault>>) -> ToSupervisor {
        move |reply| ToSupervisor(Request::Start(child.listed(Some(reply))))
    }

    /// Ends the child with this place, as its [`Shutdown`](super::Shutdown) says. The answer comes when it has exited.
    /// A temporary child is forgotten then. Any other is kept, and started again by `restart_child`, or with others as
    /// the strategy says.
    pub fn terminate_child(place: u64) -> impl FnOnce(Reply<Result<(), ChildFault>>) -> ToSupervisor {
        move |reply| ToSupervisor(Request::Terminate(place, reply))
    }

    /// Starts a child that is not alive. This counts for no limit.
    pub fn restart_child(place: u64) -> impl FnOnce(Reply<Result<Pid, ChildFault>>) -> ToSupervisor {
        move |reply| ToSupervisor(Request::Restart(place, reply))
    }

    /// Forgets a child that is not alive.
    pub fn delete_child(place: u64) -> impl FnOnce(Reply<Result<(), ChildFault>>) -> ToSupervisor {
        move |reply| ToSupervisor(Request::Delete(place, reply))
    }
}
