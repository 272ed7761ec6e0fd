//! What a process may do as it handles something.

use super::address::Address;
use super::aside::Told;
use super::behaviour::{Behaviour, Event};
use super::calls::{Call, CallFault, Open, Reply, fresh_number, number_of};
use super::child::Listed;
use super::gone::{gone_monitor, number_of_gone};
use super::group::Group;
use super::hub::Origin;
use super::inbox::Task;
use super::payloads::{News, Slot};
use super::process::{Own, keep_older};
use super::target::Target;
use super::timing::{Alarm, Key, Timer};
use super::worker::{Parent, Worker};
use super::{ANSWER, GONE, GONE_LINK};
use crate::supervisors::SupervisorSpec;
use crate::{Body, Fault, Pid, Reason, Ref};
use std::fmt;
use std::marker::PhantomData;
use std::sync::Arc;
use std::time::Duration;

/// What a process may do as it handles something: the calls of its desk. It takes messages of the type `M`.
///
/// If the desk has no memory or no stamp for a call, the run halts with that fault as the step is over.
pub struct Context<'a, M> {
    pub(crate) worker: &'a mut Worker,
    pub(crate) own: &'a mut Own<M>,
    /// The item that its handler is told, unless it has postponed that.
    pub(crate) told: Option<Told<'a>>,
}

impl<M: Send + 'static> fmt::Debug for Context<'_, M> {
    fn fmt(&self, f: &mut fmt::Formatter<'_>) -> fmt::Result {
        write!(f, "Context {{ me: {}, .. }}", self.pid())
    }
}

impl<M: Send + 'static> Context<'_, M> {
    /// The address of the process itself.
    #[must_use]
    pub fn me(&self) -> &Address<M> {
        &self.own.me
    }

    /// Its name in the table.
    #[must_use]
    pub fn pid(&self) -> Pid {
        self.own.me.pid()
    }

    /// How many messages were sent to this process and it has not taken.
    #[must_use]
    pub fn waiting(&self) -> usize {
        self.own.me.waiting()
    }

    /// How many desks the node has. A process is on the one that its pid names.
    #[must_use]
    pub fn desks(&self) -> usize {
        self.worker.hub.places.len()
    }

    /// Sends a message: Erlang's `!`. It comes after all that this process sent that one before.
    ///
    /// It returns `false`, and the message is dropped, if the receiver is known to have exited, or takes no more
    /// ([`Bound::Refuse`](super::Bound::Refuse)). If it exits later, the message is dropped then.
    ///
    /// A process of another run gets it as from outside: see [`Address::send`]. So it is with [`send_after`](Context::send_after).
    pub fn send<N: Send + 'static>(&mut self, to: &Address<N>, message: N) -> bool {
        self.worker.send(self.own.me.pid(), to, message)
    }

    /// Sends each member of a group the message that is made for it, as [`send`](Context::send), and returns how many were sent.
    /// This process may be one of the members. What it sends each comes after all that it sent that one before.
    pub fn send_all<N: Send + 'static>(&mut self, to: &Group<N>, mut make: impl FnMut(&Address<N>) -> N) -> usize {
        to.members().iter().filter(|member| self.send(member, make(member))).count()
    }

    /// Sends a message when so much time has gone by: Erlang's `send_after`. The desk sends it, not this process, so it
    /// comes also if this one has exited.
    pub fn send_after<N: Send + 'static>(&mut self, time: Duration, to: &Address<N>, message: N) -> Timer {
        let to = to.clone();
        let alarm = move |worker: &mut Worker| {
            worker.send(worker.porter, &to, message);
        };
        let key = self.worker.set_alarm(time, Alarm::Do(Box::new(alarm))).ok();
        Timer { run: self.worker.hub.run, desk: self.worker.number, key }
    }

    /// Takes back what was to be sent later. It returns `false` if that was sent or taken back before, or is another
    /// desk's or another run's.
    pub fn cancel(&mut self, timer: Timer) -> bool {
        let is_own = (timer.run, timer.desk) == (self.worker.hub.run, self.worker.number);
        is_own && timer.key.is_some_and(|key| self.worker.alarms.cancel(key))
    }

    /// Spawns a process on the same desk.
    ///
    /// # Errors
    ///
    /// [`Fault::Full`] if no slot is free, [`Fault::Worn`] or [`Fault::Memory`]. The behaviour is dropped.
    pub fn spawn<B: Behaviour>(&mut self, behaviour: B) -> Result<Address<B::Message>, Fault> {
        self.worker.spawn(Parent::Process { pid: self.own.me.pid(), linked: false }, behaviour)
    }

    /// Spawns a process on the same desk that is linked with this one from the first.
    ///
    /// # Errors
    ///
    /// As [`spawn`](Context::spawn).
    pub fn spawn_linked<B: Behaviour>(&mut self, behaviour: B) -> Result<Address<B::Message>, Fault> {
        self.worker.spawn(Parent::Process { pid: self.own.me.pid(), linked: true }, behaviour)
    }

    /// Spawns a process on a desk, through the inbox of that desk. Its address is the answer of the call.
    ///
    /// The answer is the fault of a spawn if that failed, or [`Fault::BadDesks`] if there is no such desk.
    pub fn spawn_on<B: Behaviour>(&mut self, desk: u8, behaviour: B) -> Call<Result<Address<B::Message>, Fault>> {
        let (call, reply) = self.open(fresh_number(), desk, None, None);
        match self.worker.hub.places.get(usize::from(desk)) {
            Some(place) => {
                let spawn = move |worker: &mut Worker| reply.send(worker.spawn(Parent::Outside, behaviour));
                place.post(Task::Do(Box::new(spawn)), Origin::Run);
            }
            None => reply.send(Err(Fault::BadDesks)),
        }
        call
    }

    /// Monitors a process: Erlang's `monitor`. It is told [`Event::Down`](super::Event::Down) once, when that has exited. If it
    /// had before, the reason is [`Reason::Noproc`].
    ///
    /// # Errors
    ///
    /// [`Fault::OtherRun`], [`Fault::Myself`], [`Fault::Unknown`], [`Fault::Worn`] or [`Fault::Memory`].
    pub fn monitor(&mut self, target: impl Into<Target>) -> Result<Ref, Fault> {
        let target = target.into().pid_in(&self.worker.hub)?;
        match self.monitor_living(target)? {
            Some(monitor) => Ok(monitor),
            None => self.monitor_gone(target),
        }
    }

    /// The same, or `None` if the process is known to have exited.
    fn monitor_living(&mut self, target: Pid) -> Result<Option<Ref>, Fault> {
        let made = self.worker.desk().monitor(self.own.me.pid(), target);
        match self.worker.noted(made) {
            Ok(monitor) => Ok(Some(monitor)),
            Err(Fault::NoProc) => Ok(None),
            Err(fault) => Err(fault),
        }
    }

    /// Has this process told that one which it monitors had exited.
    fn monitor_gone(&mut self, target: Pid) -> Result<Ref, Fault> {
        let number = self.tell_gone(GONE, target)?;
        self.own.gone.monitors(number, target);
        Ok(gone_monitor(number))
    }

    /// Sends the news of an exited process, and returns the number of the news.
    fn tell_gone(&mut self, kind: u32, target: Pid) -> Result<i64, Fault> {
        let num = fresh_number();
        self.worker.tell_itself(self.own.me.pid(), Body { kind, num, who: Some(target) })?;
        Ok(num)
    }

    /// Takes a monitor back. Nothing more is told of it.
    pub fn demonitor(&mut self, monitor: Ref) {
        if let Some(number) = number_of_gone(monitor) {
            self.own.gone.take_monitored(number);
            return;
        }
        self.own.aside.forget(monitor);
        demonitor(self.worker, &self.own.me, monitor);
    }

    /// Links this process with another: Erlang's `link`. If that had exited before, its exit signal comes with
    /// [`Reason::Noproc`]: this process exits by it, or gets it as [`Event::Exit`](super::Event::Exit) if it traps exits.
    ///
    /// # Errors
    ///
    /// [`Fault::OtherRun`], [`Fault::Outside`], [`Fault::Unknown`], [`Fault::Worn`] or [`Fault::Memory`].
    pub fn link(&mut self, to: impl Into<Target>) -> Result<(), Fault> {
        let (me, to) = (self.own.me.pid(), to.into().mortal_in(&self.worker.hub)?);
        let made = self.worker.desk().link(me, to);
        match self.worker.noted(made) {
            Err(Fault::NoProc) => self.link_gone(to),
            made => made,
        }
    }

    /// Has this process get the exit signal of one that had exited.
    fn link_gone(&mut self, to: Pid) -> Result<(), Fault> {
        let (me, porter) = (self.own.me.pid(), self.worker.porter);
        if self.worker.desk().traps(me) == Some(true) {
            let number = self.tell_gone(GONE_LINK, to)?;
            self.own.gone.links(number, to);
            return Ok(());
        }
        let sent = self.worker.desk().exit_signal(porter, me, Reason::Noproc);
        self.worker.noted(sent)?;
        // (it may trap exits before the signal comes)
        self.own.gone.sent(to);
        Ok(())
    }

    /// Takes the link with another process away: Erlang's `unlink`.
    ///
    /// # Errors
    ///
    /// [`Fault::OtherRun`], [`Fault::Unknown`], [`Fault::Worn`] or [`Fault::Memory`].
    pub fn unlink(&mut self, to: impl Into<Target>) -> Result<(), Fault> {
        let (me, to) = (self.own.me.pid(), to.into().pid_in(&self.worker.hub)?);
        self.own.me.mailbox.take_panic(News::Exit(to));
        self.own.gone.unlink(to);
        let done = self.worker.desk().unlink(me, to);
        self.worker.noted(done)
    }

    /// Sends an exit signal: Erlang's `exit/2`. [`Reason::Kill`] ends any process. Any other reason but
    /// [`Reason::Normal`] ends a process that does not trap exits.
    ///
    /// # Errors
    ///
    /// [`Fault::OtherRun`], [`Fault::Outside`], [`Fault::Unknown`], [`Fault::Worn`] or [`Fault::Memory`].
    pub fn exit(&mut self, to: impl Into<Target>, reason: Reason) -> Result<(), Fault> {
        let (me, to) = (self.own.me.pid(), to.into().mortal_in(&self.worker.hub)?);
        let sent = self.worker.desk().exit_signal(me, to, reason);
        self.worker.noted(sent)
    }

    /// Sets whether this process traps exits, and gets them as [`Event::Exit`](super::Event::Exit).
    ///
    /// # Errors
    ///
    /// [`Fault::Worn`] or [`Fault::Memory`].
    pub fn trap_exits(&mut self, on: bool) -> Result<(), Fault> {
        let me = self.own.me.pid();
        let set = self.worker.desk().trap(me, on).map(drop);
        self.worker.noted(set)
    }

    /// Asks a server: it gets the message that `ask` makes of a [`Reply`]. The call ends once, with
    /// [`Event::Answer`](super::Event::Answer): by the answer, by the exit of the server, or when so much time has gone by. If
    /// the server is known to have exited, nothing is asked, and the call ends with [`CallFault::Down`] and
    /// [`Reason::Noproc`].
    ///
    /// # Errors
    ///
    /// As [`monitor`](Context::monitor), and then nothing was asked.
    pub fn call<N: Send + 'static, R: Send + 'static>(
        &mut self,
        to: &Address<N>,
        limit: Duration,
        ask: impl FnOnce(Reply<R>) -> N,
    ) -> Result<Call<R>, Fault> {
        let server = Target::from(to).pid_in(&self.worker.hub)?;
        let monitor = if to.mailbox.is_open() { self.monitor_living(server)? } else { None };
        let Some(monitor) = monitor else { return self.call_gone(server.shard) };
        let number = number_of(monitor);
        let alarm = self.worker.set_alarm(limit, Alarm::Over(self.own.me.pid(), number));
        let alarm = alarm.inspect_err(|_| demonitor(self.worker, &self.own.me, monitor))?;
        let (call, reply) = self.open(number, to.pid().shard, Some(monitor), Some(alarm));
        self.send(to, ask(reply));
        Ok(call)
    }

    /// Puts what the handler was told back into its place: `postpone` of Erlang's `gen_statem`. It waits there, also if a later
    /// [`Next`](super::Next) would take it, until the process [retries](Context::retry) it.
    ///
    /// A message counts as one that waits then, also for [`Behaviour::most_waiting`]. It returns `false`, and the event is
    /// dropped, if it was not in the mailbox, as [`Event::Timeout`], [`Event::Proceed`] and what the handler has postponed
    /// before.
    pub fn postpone(&mut self, event: Event<M>) -> bool {
        let Some(told) = self.told.take() else { return false };
        let item = told.item(&self.worker.crew);
        if told.is_picked {
            keep_older(self.worker, self.own, &item);
        }
        self.own.aside.postpone(told.age, item, event, &self.own.me.mailbox);
        self.own.me.look_at_bound();
        true
    }

    /// All that was postponed may be taken from now on, in order, before what has come since: what `gen_statem` does as the
    /// state changes.
    pub fn retry(&mut self) {
        self.own.aside.retry();
    }

    /// A call of a server on this desk that had exited.
    fn call_gone<R: Send + 'static>(&mut self, desk: u8) -> Result<Call<R>, Fault> {
        let number = fresh_number();
        self.worker.tell_itself(self.own.me.pid(), Body { kind: ANSWER, num: number, who: None })?;
        self.own.me.mailbox.put_answer(number, Err(CallFault::Down(Reason::Noproc, None)));
        self.own.calls.insert(number, Open { desk, monitor: None, alarm: None });
        Ok(Call { number, of: PhantomData })
    }

    /// Answers a request. The answer comes after all that this process has sent the client.
    pub fn reply<R: Send + 'static>(&mut self, reply: Reply<R>, value: R) {
        self.worker.reply(self.own.me.pid(), reply, value);
    }

    /// Spawns the supervisor behind this process.
    pub(crate) fn supervise(&mut self, spec: SupervisorSpec, children: &mut Vec<Listed>) -> Result<Pid, Fault> {
        self.worker.supervise(self.own.me.pid(), spec, children)
    }

    /// Whether a signal of this process is one of the parent, which is the process that spawned this one, or of those
    /// outside.
    pub(crate) fn is_of_parent(&self, from: Pid) -> bool {
        self.own.parent == Some(from) || self.worker.porter == from
    }

    fn open<R: Send + 'static>(
        &mut self,
        number: i64,
        desk: u8,
        monitor: Option<Ref>,
        alarm: Option<Key>,
    ) -> (Call<R>, Reply<R>) {
        self.own.calls.insert(number, Open { desk, monitor, alarm });
        let reply = Reply::to_process(self.own.me.mailbox.clone(), self.own.me.hub.clone(), number);
        (Call { number, of: PhantomData }, reply)
    }
}

/// Takes a monitor of a process back, and what is known beside it.
pub(crate) fn demonitor<M: Send + 'static>(worker: &mut Worker, me: &Address<M>, monitor: Ref) {
    me.mailbox.take_panic(News::Down(monitor));
    let done = worker.desk().demonitor(me.pid(), monitor, true);
    let _ = worker.noted(done);
}

impl Worker {
    /// Answers a request in the name of a process of this desk.
    pub(crate) fn reply<R: Send + 'static>(&mut self, from: Pid, mut reply: Reply<R>, value: R) {
        let Some((slot, hub, call)) = reply.put(value) else { return };
        if Arc::ptr_eq(&hub, &self.hub) {
            self.say(from, slot.pid(), ANSWER, call);
        } else {
            hub.post(slot.pid(), ANSWER, call, Origin::Run);
        }
    }

    /// Sends a message in the name of a process of this desk.
    pub(crate) fn send<N: Send + 'static>(&mut self, from: Pid, to: &Address<N>, message: N) -> bool {
        // (a process of another run is told as from outside)
        if !Arc::ptr_eq(&self.hub, &to.hub) {
            return to.send(message);
        }
        let kind = to.mailbox.letter_of(&message);
        let number = match to.mailbox.put_free(message) {
            Ok(number) => number,
            Err(_message) => return false,
        };
        let sent = self.say(from, to.pid(), kind, number);
        if sent {
            to.look_at_bound();
        } else {
            to.mailbox.take(number);
        }
        sent
    }
}
