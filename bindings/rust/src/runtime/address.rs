//! Where messages of one type are sent.

use super::asked::Asking;
use super::behaviour::Bound;
use super::calls::Reply;
use super::hub::{Hub, Origin};
use super::inbox::Task;
use super::payloads::{Slot, Values};
use super::room::Ticket;
use super::sending::{SendFault, Sending};
use super::start::is_inside;
use super::worker::Worker;
use crate::{Pid, Reason};
use std::fmt;
use std::hash::{Hash, Hasher};
use std::sync::Arc;

/// Where to send a process messages of its type. It may be cloned and go to any thread. It keeps no process alive.
///
/// Two addresses are equal if they are of one process.
pub struct Address<M> {
    pub(crate) mailbox: Arc<Values<M>>,
    pub(crate) hub: Arc<Hub>,
}

impl<M: Send + 'static> Address<M> {
    pub(crate) fn new(values: Values<M>, hub: &Arc<Hub>) -> Address<M> {
        Address { mailbox: Arc::new(values), hub: hub.clone() }
    }

    /// The name of the process in the table. It says nothing of the run, and a process of another run may have the same:
    /// where a call takes a [`Target`](super::Target), give it the address.
    #[inline]
    #[must_use]
    pub fn pid(&self) -> Pid {
        self.mailbox.pid()
    }

    /// Sends a message from outside, from any thread. The desk of the process sends it on, so what one thread sends one
    /// process arrives in order. A behaviour takes [`Context::send`](super::Context::send).
    ///
    /// It returns `false`, and the message is dropped, if the process has exited, or takes no more ([`Bound::Refuse`]). If it
    /// exits later, the message is dropped then.
    ///
    /// If inboxes have a bound ([`Builder::inbox`](super::Builder::inbox)), the thread waits for room, but not that of a desk.
    /// Then it also returns `false` if the run halts or is over meanwhile.
    pub fn send(&self, message: M) -> bool {
        if self.hub.inbox_most == usize::MAX {
            return self.enter(message, Ticket::FREE, Origin::Outside).is_ok();
        }
        Sending::new(self, message, Origin::Outside).wait(None).is_some_and(|sent| sent.is_ok())
    }

    /// The same, but it never waits: the message comes back if it is not sent.
    ///
    /// # Errors
    ///
    /// [`SendFault::Full`], if inboxes have a bound and that of the desk is full or others wait for room, or if the process
    /// takes no more;
    /// [`SendFault::Exited`]; [`SendFault::Over`], if the run is over or drains.
    ///
    /// ```
    /// use pundewo::runtime::{Behaviour, Context, Event, Next, Runtime, SendFault};
    /// use std::time::Duration;
    ///
    /// struct Slow;
    ///
    /// impl Behaviour for Slow {
    ///     type Message = u32;
    ///
    ///     fn handle(&mut self, _: &mut Context<'_, u32>, _: Event<u32>) -> Next {
    ///         std::thread::sleep(Duration::from_millis(300));
    ///         Next::Wait
    ///     }
    /// }
    ///
    /// let runtime = Runtime::builder().desks(1).inbox(2).start()?;
    /// let slow = runtime.spawn(Slow)?;
    /// let refused = (0..).find_map(|number| slow.try_send(number).err()).expect("a full inbox");
    /// assert!(matches!(refused, SendFault::Full(_)));
    /// // this waits for room
    /// assert!(slow.send(refused.into_message()));
    /// runtime.stop()?;
    /// # Ok::<(), Box<dyn std::error::Error>>(())
    /// ```
    pub fn try_send(&self, message: M) -> Result<(), SendFault<M>> {
        if !self.mailbox.is_open() {
            return Err(SendFault::Exited(message));
        }
        match Ticket::of(&self.hub, self.pid().shard) {
            Some(ticket) => self.enter(message, ticket, Origin::Outside),
            None => Err(SendFault::Full(message)),
        }
    }

    /// The same as [`send`](Address::send) for a task: awaited, it waits for room.
    pub fn send_async(&self, message: M) -> Sending<M> {
        Sending::new(self, message, Origin::Outside)
    }

    /// Asks the process from outside, on any thread: it gets the message that `ask` makes of a [`Reply`]. A task awaits the
    /// answer, on whatever executor, and a thread [waits](Asking::wait) for it. A behaviour takes
    /// [`Context::call`](super::Context::call).
    ///
    /// ```
    /// use pundewo::runtime::{Address, Behaviour, CallFault, Context, Event, Next, PANIC, Reply, Runtime};
    /// use std::time::Duration;
    ///
    /// struct Halver;
    ///
    /// struct Halve(u32, Reply<u32>);
    ///
    /// impl Behaviour for Halver {
    ///     type Message = Halve;
    ///
    ///     fn handle(&mut self, cx: &mut Context<'_, Halve>, event: Event<Halve>) -> Next {
    ///         if let Event::Message(Halve(number, reply)) = event {
    ///             assert!(number % 2 == 0, "{number} is odd");
    ///             cx.reply(reply, number / 2);
    ///         }
    ///         Next::Wait
    ///     }
    /// }
    ///
    /// // on whatever executor: both are asked before the first is awaited
    /// async fn quarter(halver: &Address<Halve>, other: &Address<Halve>) -> Result<u32, CallFault> {
    ///     let (first, second) = (halver.ask(|reply| Halve(20, reply)), other.ask(|reply| Halve(4, reply)));
    ///     Ok(first.await? / 2 - second.await?)
    /// }
    ///
    /// let runtime = Runtime::builder().desks(2).start()?;
    /// let halver = runtime.spawn(Halver)?;
    /// let limit = Duration::from_secs(5);
    /// assert_eq!(halver.ask(|reply| Halve(8, reply)).wait(limit), Ok(4));
    /// let crashed = halver.ask(|reply| Halve(7, reply)).wait(limit);
    /// assert_eq!(crashed, Err(CallFault::Down(PANIC, Some("7 is odd".into()))));
    /// runtime.stop()?;
    /// # Ok::<(), Box<dyn std::error::Error>>(())
    /// ```
    pub fn ask<R: Send + 'static>(&self, ask: impl FnOnce(Reply<R>) -> M) -> Asking<R> {
        Asking::new(self, |asked| ask(Reply::to_outside(asked.clone())))
    }

    /// How many messages were sent to the process and it has not taken.
    #[must_use]
    pub fn waiting(&self) -> usize {
        self.mailbox.waiting()
    }

    /// Sends an exit signal `kill` from outside.
    pub(crate) fn kill(&self) {
        let pid = self.pid();
        let kills = move |worker: &mut Worker| worker.signal(pid, Reason::Kill);
        self.hub.place(pid).post(Task::Do(Box::new(kills)), Origin::Run);
    }

    /// Has the process crash if more messages wait than may.
    #[inline]
    pub(crate) fn look_at_bound(&self) {
        if self.mailbox.bound != Bound::None && self.mailbox.is_beyond() {
            let pid = self.pid();
            self.hub.place(pid).post(Task::Do(Box::new(move |worker| worker.overflow(pid))), Origin::Run);
        }
    }

    /// Puts a message that has room, and has the desk send it on.
    pub(crate) fn enter(&self, message: M, ticket: Ticket, origin: Origin) -> Result<(), SendFault<M>> {
        let kind = self.mailbox.letter_of(&message);
        let number = self.mailbox.put(message, ticket)?;
        // (what a handler sends in this way is nothing new to the run)
        let origin = if is_inside(&self.hub) { Origin::Run } else { origin };
        if self.hub.post(self.pid(), kind, number, origin) {
            self.look_at_bound();
            return Ok(());
        }
        // (if it is not there any more, the process has exited, and with that it was dropped)
        self.mailbox.take(number).map_or(Ok(()), |message| Err(SendFault::Over(message)))
    }
}

impl<M> Clone for Address<M> {
    fn clone(&self) -> Address<M> {
        Address { mailbox: self.mailbox.clone(), hub: self.hub.clone() }
    }
}

impl<M: Send + 'static> PartialEq for Address<M> {
    fn eq(&self, other: &Address<M>) -> bool {
        Arc::ptr_eq(&self.mailbox, &other.mailbox)
    }
}

impl<M: Send + 'static> Eq for Address<M> {}

impl<M: Send + 'static> Hash for Address<M> {
    fn hash<H: Hasher>(&self, state: &mut H) {
        self.pid().hash(state);
    }
}

impl<M: Send + 'static> fmt::Debug for Address<M> {
    fn fmt(&self, f: &mut fmt::Formatter<'_>) -> fmt::Result {
        write!(f, "Address({})", self.pid())
    }
}

impl<M: Send + 'static> fmt::Display for Address<M> {
    fn fmt(&self, f: &mut fmt::Formatter<'_>) -> fmt::Result {
        self.pid().fmt(f)
    }
}
