//! What a process does, and what it is told.

use super::calls::Answer;
use super::context::Context;
use super::gone::Gone;
use super::hub::Hub;
use super::selection::{Selection, Wanted, pick_of};
use crate::{Pick, Pid, Reason, Ref, crew};
use std::sync::Arc;
use std::time::Duration;

/// What a process does with what it is told. Its state is the value itself.
///
/// A panic in [`started`](Behaviour::started) or [`handle`](Behaviour::handle) is a crash: the process exits with
/// [`PANIC`](super::PANIC), its monitors and links hear of it, and the thread goes on. A handler should not wait: while it
/// does, all processes of its desk do.
pub trait Behaviour: Sized + Send + 'static {
    /// What is sent to it.
    type Message: Send + 'static;

    /// It begins. It waits for whatever comes, unless this says something else.
    fn started(&mut self, cx: &mut Context<'_, Self::Message>) -> Next {
        let _ = cx;
        Next::Wait
    }

    /// The kind of a message, by which [`Next::Select`] chooses: a number of the behaviour's own, such as that of a variant.
    /// Without this all messages have the kind 0. It is asked once for each message, as that is sent, on the thread of the
    /// sender, and should not panic.
    fn kind(message: &Self::Message) -> u32 {
        let _ = message;
        0
    }

    /// It is told this, and says what it does next.
    fn handle(&mut self, cx: &mut Context<'_, Self::Message>, event: Event<Self::Message>) -> Next;

    /// How many messages may wait for it, and what happens if one more comes. It is asked once, as the process is spawned.
    ///
    /// ```
    /// use pundewo::runtime::{Behaviour, Bound, Context, Event, Next, Runtime};
    /// use std::time::Duration;
    ///
    /// /// Shows the newest of many pictures.
    /// struct Screen {
    ///     lost: u32,
    /// }
    ///
    /// impl Behaviour for Screen {
    ///     type Message = Vec<u8>;
    ///
    ///     fn handle(&mut self, _: &mut Context<'_, Vec<u8>>, event: Event<Vec<u8>>) -> Next {
    ///         match event {
    ///             Event::Message(picture) => assert_eq!(picture.len(), 640),
    ///             Event::Lost => self.lost += 1,
    ///             _ => {}
    ///         }
    ///         Next::Wait
    ///     }
    ///
    ///     fn most_waiting(&self) -> Bound {
    ///         Bound::DropOldest(8)
    ///     }
    /// }
    ///
    /// let runtime = Runtime::builder().desks(1).start()?;
    /// let screen = runtime.spawn(Screen { lost: 0 })?;
    /// for _ in 0..1_000 {
    ///     assert!(screen.send(vec![0; 640]) && screen.waiting() <= 8);
    /// }
    /// assert_eq!(runtime.drain(Duration::from_secs(60))?.panics, 0);
    /// # Ok::<(), Box<dyn std::error::Error>>(())
    /// ```
    fn most_waiting(&self) -> Bound {
        Bound::None
    }

    /// Whether it traps exits from the first, as if it had called [`Context::trap_exits`] before anybody knew its address. So no
    /// link with it is made before. It is asked once, as the process is spawned.
    fn traps_exits(&self) -> bool {
        false
    }

    /// A text of its state, for those who look at the run: see [`Handle::inspect`](super::Handle::inspect). It is asked between
    /// two of its handlers, on the thread of its desk, and should be short. Without this it is empty.
    fn inspect(&self) -> String {
        String::new()
    }

    /// The process has exited, in whatever way, with this reason: that of [`Next::Stop`], [`PANIC`](super::PANIC), or that
    /// which the exit signal gave that ended it.
    fn ended(self, why: Reason) {
        let _ = why;
    }
}

/// How many messages may wait for a process, and what happens if one more comes: what [`Behaviour::most_waiting`] returns. Only
/// messages count, from outside and from behaviours, and no other news.
#[derive(Clone, Copy, Debug, Default, PartialEq, Eq, Hash)]
#[non_exhaustive]
pub enum Bound {
    /// There is none.
    #[default]
    None,
    /// So many wait, and one more is refused: [`Address::send`](super::Address::send) and
    /// [`Context::send`](super::Context::send) return `false`, `try_send` fails with
    /// [`SendFault::Full`](super::SendFault::Full), and a call with [`CallFault::Dropped`](super::CallFault::Dropped).
    Refuse(usize),
    /// So many wait, and the oldest is dropped for one more. The process gets [`Event::Lost`] in its place.
    DropOldest(usize),
    /// So many may wait, and with one more the process crashes, as if its handler had panicked.
    Crash(usize),
}

/// What a process is told.
#[derive(Debug)]
#[non_exhaustive]
pub enum Event<M> {
    /// A message.
    Message(M),
    /// A process that it monitors has exited.
    Down(Down),
    /// An exit signal, which it traps.
    Exit(Exit),
    /// A call of its own has ended.
    Answer(Answer),
    /// The time for which it waited is over, and nothing else came.
    Timeout,
    /// It proceeds, as it said.
    Proceed,
    /// A message was dropped, since too many waited: see [`Bound::DropOldest`].
    Lost,
}

/// The one news of a monitor.
#[derive(Clone, Debug, PartialEq, Eq, Hash)]
pub struct Down {
    /// The monitor.
    pub monitor: Ref,
    /// The process that has exited.
    pub pid: Pid,
    /// Why. [`Reason::Noproc`], if it had exited before it was monitored.
    pub reason: Reason,
    /// The text of its panic, if that is how it exited.
    pub panic: Option<Arc<str>>,
}

/// An exit signal.
#[derive(Clone, Debug, PartialEq, Eq, Hash)]
pub struct Exit {
    /// Who sent it: a linked process that has exited, or one that told this one to.
    pub pid: Pid,
    /// Why.
    pub reason: Reason,
    /// The text of its panic, if that is how a linked process exited.
    pub panic: Option<Arc<str>>,
}

/// What a process does next.
#[derive(Clone, Copy, Debug, PartialEq, Eq, Hash)]
pub enum Next {
    /// It waits for whatever comes.
    Wait,
    /// The same, but no longer than for this time: then it gets [`Event::Timeout`].
    WaitFor(Duration),
    /// It waits for what this pick of the library takes. All else stays in its mailbox, in order.
    Only(Pick),
    /// The same, but no longer than for this time.
    OnlyFor(Pick, Duration),
    /// It waits for what this takes: Erlang's `receive Pattern`. All else waits, in order, until the process takes it.
    Select(Selection),
    /// The same, but no longer than for this time.
    SelectFor(Selection, Duration),
    /// It gets [`Event::Proceed`] as soon as the others of its desk have had their turn.
    Proceed,
    /// It exits with this reason.
    Stop(Reason),
}

impl Next {
    /// It exits, and all is well.
    pub const DONE: Next = Next::Stop(Reason::Normal);

    /// What it takes.
    pub(crate) fn wanted(self) -> Wanted {
        match self {
            Next::Only(pick) | Next::OnlyFor(pick, _) => Wanted::Pick(pick),
            Next::Select(selection) | Next::SelectFor(selection, _) => Wanted::Selection(selection),
            Next::Wait | Next::WaitFor(_) | Next::Proceed | Next::Stop(_) => Wanted::All,
        }
    }

    /// The same for a crew, whose times are points in time.
    #[inline(always)]
    pub(crate) fn for_crew(self, hub: &Hub, gone: &Gone) -> crew::Next {
        match self {
            Next::Wait => crew::Next::Wait(Pick::Any),
            Next::WaitFor(time) => crew::Next::WaitUntil(Pick::Any, hub.after(time)),
            Next::Only(pick) => crew::Next::Wait(pick_of(pick, gone)),
            Next::OnlyFor(pick, time) => crew::Next::WaitUntil(pick_of(pick, gone), hub.after(time)),
            Next::Select(selection) => crew::Next::Wait(selection.pick()),
            Next::SelectFor(selection, time) => crew::Next::WaitUntil(selection.pick(), hub.after(time)),
            Next::Proceed => crew::Next::Proceed,
            Next::Stop(reason) => crew::Next::Stop(reason),
        }
    }
}
