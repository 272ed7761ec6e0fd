//! Processes that run code, on a thread for each desk.
//!
//! A [`Behaviour`] is what a process does with what it is told, and its state. A [`Runtime`] has a thread for each desk of
//! a node, which runs the handlers of the desk's processes, rests while they have nothing to do, and goes on by itself: it
//! empties the journals, and hands the history of each epoch to a [`Sink`].
//!
//! ```
//! use pundewo::runtime::{Behaviour, Context, Event, Next, Reply, Runtime};
//! use std::time::Duration;
//!
//! struct Counter(u64);
//!
//! enum Request {
//!     Add(u64),
//!     Read(Reply<u64>),
//! }
//!
//! impl Behaviour for Counter {
//!     type Message = Request;
//!
//!     fn handle(&mut self, cx: &mut Context<'_, Request>, event: Event<Request>) -> Next {
//!         match event {
//!             Event::Message(Request::Add(more)) => self.0 += more,
//!             Event::Message(Request::Read(reply)) => cx.reply(reply, self.0),
//!             _ => {}
//!         }
//!         Next::Wait
//!     }
//! }
//!
//! let runtime = Runtime::builder().desks(2).start()?;
//! let counter = runtime.spawn(Counter(0))?;
//! counter.send(Request::Add(3));
//! counter.send(Request::Add(4));
//! assert_eq!(runtime.call(&counter, Duration::from_secs(5), Request::Read)?, 7);
//! assert_eq!(runtime.stop()?.spawned, 1);
//! # Ok::<(), Box<dyn std::error::Error>>(())
//! ```
//!
//! # Messages
//!
//! A message is any value that may go to another thread. It moves to its receiver once. It is dropped once if it does not
//! arrive: as the receiver exits, or at once if that has exited. The table carries the number of a message; the value is
//! kept beside it, with the receiver's others.
//!
//! In a history a message has the kind [`MESSAGE`], or [`FIRST_KIND`] and its own kind, if that is not 0
//! ([`Behaviour::kind`]). The answer of a call has [`ANSWER`], and the end of a call's time [`OVER`]; the process of a
//! [`Mailbox`] is told by one of the kind [`MORE`] that it was read. One of the kind [`GONE`] is the news of a monitor of a
//! process that had exited, and one of the kind [`GONE_LINK`] is the exit signal of a link with one. Each desk has one process
//! more, which sends what comes from outside: the first that was born on it.
//!
//! # Panics
//!
//! A handler that panics has crashed its process, and no other: see [`PANIC`]. The panic's text is beside the news of it:
//! [`Down::panic`], [`Exit::panic`] and [`CallFault::Down`].
//!
//! # Tasks
//!
//! Tasks of whatever executor take part by futures of the standard library: [`Address::ask`], [`Handle::call_async`],
//! [`Handle::spawn_async`], [`Address::send_async`], and a [`Mailbox`], which they are sent messages to.
//!
//! # Supervisors
//!
//! A [`Supervisor`] starts its children, and starts them again when they exit. A [`Name`] leads to the child that runs now.
//!
//! # Trials
//!
//! [`trial`](crate::trial) runs the same behaviours under every schedule, on one thread.
//!
//! # Watching
//!
//! [`Handle::view`] is what a run is at a moment, [`Handle::tap`] has its events as they come, and [`Handle::observe`] serves a
//! page of it.
//!
//! # What is proved, and what is not
//!
//! Proved is what is below: the table, and the crew that says which process is told what ([`Crew`](crate::Crew)), with its
//! [`supervisors`](crate::supervisors), and the [`Timers`](crate::Timers) of each desk. So messages arrive in order and
//! once, no wake-up of a crew is lost, each exit is told once, children are ended and started again as their supervisor's
//! strategy and limit say, and a timer is due once, not early, and not after it was cancelled.
//!
//! Not proved, since nothing checks Rust, but tested: the threads and their rest, the values beside the table, calls,
//! futures, how a child is made, the clock, and how the threads meet. `unsafe` is not used here.

mod address;
mod archive;
mod aside;
mod asked;
mod behaviour;
mod calls;
mod child;
mod context;
mod elsewhere;
mod ending;
mod gone;
mod group;
pub(crate) mod hub;
pub(crate) mod inbox;
pub(crate) mod mailbox;
pub(crate) mod meeting;
mod name;
mod numbers;
mod observing;
pub(crate) mod paces;
pub(crate) mod payloads;
mod process;
mod promise;
mod report;
mod room;
mod run;
mod seats;
mod selection;
mod sending;
pub(crate) mod spawning;
pub(crate) mod start;
mod supervision;
mod supervisor;
mod target;
mod timing;
pub(crate) mod worker;

pub use crate::{Pick, Pid, Reason, Ref};
pub use address::Address;
pub use archive::{HistoryFile, Refusal, Sink};
pub use asked::Asking;
pub use behaviour::{Behaviour, Bound, Down, Event, Exit, Next};
pub use calls::{Answer, Call, CallFault, Reply};
pub use child::{Child, ChildFault, ChildInfo, Restart, Shutdown, Started};
pub use context::Context;
pub use ending::{Halted, StopFault, Summary};
pub use group::Group;
pub use mailbox::Mailbox;
pub use name::Name;
pub use observing::{
    DeskView, First, Longest, Look, Observer, Place, ProcessView, SilentDesk, SupervisorView, Tap, Tapped, View,
    WaitsFor,
};
pub use report::Report;
pub use run::{Handle, Runtime, SpawnFault};
pub use selection::Selection;
pub use sending::{SendFault, Sending};
pub use spawning::Spawning;
pub use start::{Builder, StartFault};
pub use supervisor::{Supervisor, ToSupervisor};
pub use target::Target;
pub use timing::Timer;

/// The reason of a process whose handler has panicked. No behaviour should stop with it.
pub const PANIC: Reason = Reason::Other(u32::MAX);

/// The kind of a message from behaviour to behaviour.
pub const MESSAGE: u32 = 1;
/// The kind of the answer of a call.
pub const ANSWER: u32 = 2;
/// The kind of the news that the time of a call is over.
pub const OVER: u32 = 3;
/// The kind of the news that a [`Mailbox`] was read.
pub const MORE: u32 = 4;
/// The kind of the news that a process which is monitored had exited before.
pub const GONE: u32 = 5;
/// The kind of the exit signal that a process traps as it links itself with one that had exited before.
pub const GONE_LINK: u32 = 6;
/// What the kind of a message has beside its own number, unless that is 0: see [`Behaviour::kind`].
pub const FIRST_KIND: u32 = 16;
