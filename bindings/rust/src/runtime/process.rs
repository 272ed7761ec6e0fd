//! A process with its behaviour, whatever the type of that is.

use super::address::Address;
use super::aside::{Aside, Held, Telling, Told, older};
use super::behaviour::{self, Behaviour, Bound, Down, Event, Exit};
use super::calls::{Answer, CallFault, Calls, number_of};
use super::context::{Context, demonitor};
use super::gone::{Gone, gone_monitor};
use super::observing::Outline;
use super::payloads::{Slot, quietly};
use super::selection::{Wanted, is_message};
use super::supervisor::is_supervisor;
use super::worker::{Worker, news_of};
use super::{ANSWER, GONE, GONE_LINK, MORE, OVER};
use crate::crew::{Next, What};
use crate::{Body, Item, Pick, Pid, Reason};
use std::any::Any;
use std::mem;
use std::sync::Arc;
use std::sync::atomic::Ordering::SeqCst;

/// A process of a desk.
pub(crate) trait Actor: Send {
    /// It is told this, by which its handler may panic. It returns what it does next, or `None` if it waits for whatever comes.
    fn told(&mut self, worker: &mut Worker, what: &What) -> Option<Next>;
    /// The same of one that begins.
    fn starts(&mut self, worker: &mut Worker) -> Option<Next>;
    /// The same of the letter of the job in this place, which has this kind and this number.
    fn letter(&mut self, worker: &mut Worker, place: usize, kind: u32, num: i64) -> Option<Next>;
    /// The same of this item.
    fn item(&mut self, worker: &mut Worker, item: &Item) -> Option<Next>;
    /// It has exited.
    fn ended(self: Box<Self>, worker: &mut Worker, why: Reason);
    /// Whether it is a supervisor.
    fn supervises(&self) -> bool;
    /// How many calls of it are open.
    fn owed(&self) -> usize;
    /// Its mailbox.
    fn slot(&self) -> &dyn Slot;
    /// What it waits for.
    fn outline(&self) -> Outline;
    /// What its behaviour says of its state, by which it may panic.
    fn inspect(&self) -> String;
    /// Its behaviour, as a value whose type is not known.
    fn behaviour(&self) -> &dyn Any;
}

/// What a process has beside its behaviour.
pub(crate) struct Own<M> {
    pub(crate) me: Address<M>,
    pub(crate) calls: Calls,
    /// What it was handed and did not take.
    pub(crate) aside: Aside<M>,
    pub(crate) gone: Gone,
    /// The process that spawned it.
    pub(crate) parent: Option<Pid>,
}

pub(crate) struct Process<B: Behaviour> {
    behaviour: B,
    own: Own<B::Message>,
    /// What it does next, and what it takes then.
    next: Next,
    wanted: Wanted,
    /// Whether that is to wait for whatever comes.
    waits: bool,
    /// Whether it is to take some of what it did not take first.
    takes_aside: bool,
}

impl<B: Behaviour> Process<B> {
    pub(crate) fn new(behaviour: B, me: Address<B::Message>, parent: Option<Pid>) -> Process<B> {
        let own = Own { me, calls: Calls::default(), aside: Aside::new(), gone: Gone::default(), parent };
        let (next, wanted) = (Next::Wait(Pick::Any), Wanted::All);
        Process { behaviour, own, next, wanted, waits: true, takes_aside: false }
    }

    /// Runs a handler, and returns what the process does next, or `None` if it waits for whatever comes.
    #[inline(always)]
    fn run(
        &mut self,
        worker: &mut Worker,
        told: Option<Told<'_>>,
        handles: impl FnOnce(&mut B, &mut Context<'_, B::Message>) -> behaviour::Next,
    ) -> Option<Next> {
        worker.record.handles();
        let next = handles(&mut self.behaviour, &mut Context { worker, own: &mut self.own, told });
        if matches!(next, behaviour::Next::Wait) && self.waits && self.own.aside.is_empty() {
            return None;
        }
        self.does(next)
    }

    /// Is told the answer of a call, by the letter of the job in this place. (what waits for whatever comes needs no more)
    #[inline(never)]
    fn answered(&mut self, worker: &mut Worker, place: usize, number: i64) -> Option<Next> {
        let Some(answer) = self.answer_of(worker, number) else { return Some(self.next) };
        let told = Some(Told { item: Telling::Job(place), age: None, is_picked: false });
        self.run(worker, told, |behaviour, cx| behaviour.handle(cx, Event::Answer(answer)))
    }

    /// The answer of a call, which ends with that. `None` if it had ended.
    #[inline(always)]
    fn answer_of(&mut self, worker: &mut Worker, number: i64) -> Option<Answer> {
        let given = self.own.me.mailbox.take_answer(number)?;
        self.close(worker, number).then_some(Answer { number, given })
    }

    /// Is told a letter, which may be an answer. (what waits for whatever comes needs no more than what the item is to it)
    #[inline(never)]
    fn letter_of_others(&mut self, worker: &mut Worker, item: &Item) -> Option<Next> {
        if !self.waits {
            return self.item_told(worker, item);
        }
        let Some(event) = self.event_of(worker, item, None) else { return Some(self.next) };
        let told = Some(Told { item: Telling::Item(item), age: None, is_picked: false });
        self.run(worker, told, |behaviour, cx| behaviour.handle(cx, event))
    }

    /// Is told an item that the library has handed out.
    fn item_told(&mut self, worker: &mut Worker, item: &Item) -> Option<Next> {
        let panic = news_of(item).and_then(|news| self.own.me.mailbox.take_panic(news));
        let Some(item) = self.own.gone.name(worker.porter, item) else { return Some(self.next) };
        let told = Some(Told { item: Telling::Item(&item), age: None, is_picked: self.picks() });
        match self.event_from_table(worker, &item, panic) {
            Some(event) => self.run(worker, told, |behaviour, cx| behaviour.handle(cx, event)),
            None => Some(self.next),
        }
    }

    /// Notes what the process does next, and returns it as `run` does.
    #[inline(never)]
    fn does(&mut self, next: behaviour::Next) -> Option<Next> {
        self.waits = matches!(next, behaviour::Next::Wait);
        self.wanted = next.wanted();
        self.next = next.for_crew(&self.own.me.hub, &self.own.gone);
        if !self.own.aside.is_empty() {
            return Some(self.next_with_aside());
        }
        if self.waits { None } else { Some(self.next) }
    }

    /// Whether the library picks out what the process takes.
    fn picks(&self) -> bool {
        !matches!(self.next, Next::Wait(Pick::Any) | Next::WaitUntil(Pick::Any, _))
    }

    /// What the handler is told of an item that the library has handed out. `None` if it is told nothing, also since the
    /// process does not take the item now.
    fn event_from_table(
        &mut self,
        worker: &mut Worker,
        item: &Item,
        panic: Option<Arc<str>>,
    ) -> Option<Event<B::Message>> {
        if !matches!(self.wanted, Wanted::All) && !self.wanted.takes(item, ends_call(&self.own.calls, item)) {
            self.own.aside.keep(*item, panic);
            return None;
        }
        self.event_of(worker, item, panic)
    }

    /// What the handler is told of what was kept aside, the oldest that it takes, with the item and its number.
    fn event_from_aside(&mut self, worker: &mut Worker) -> Option<(Event<B::Message>, Item, u64)> {
        while self.own.aside.has(self.wanted, |item| ends_call(&self.own.calls, item)) {
            let Held { age, item, panic, event, .. } = self.own.aside.take()?;
            if let Some(event) = event.or_else(|| self.event_of(worker, &item, panic)) {
                return Some((event, item, age));
            }
        }
        None
    }

    /// What an item is to the handler, with the text of the panic that it is the news of. `None` if it is nothing to it, such as
    /// an answer that comes too late.
    fn event_of(&mut self, worker: &mut Worker, item: &Item, panic: Option<Arc<str>>) -> Option<Event<B::Message>> {
        match *item {
            Item::User(_, Body { kind: ANSWER, num: number, .. }) => self.answer_of(worker, number).map(Event::Answer),
            Item::User(_, Body { kind: OVER, num: number, .. }) => {
                let given = Err(CallFault::Timeout(self.holder(worker, number)));
                self.close(worker, number).then_some(Event::Answer(Answer { number, given }))
            }
            Item::User(_, Body { kind: GONE, num: number, .. }) => {
                let (monitor, pid) = (gone_monitor(number), self.own.gone.take_monitored(number)?);
                Some(Event::Down(Down { monitor, pid, reason: Reason::Noproc, panic: None }))
            }
            Item::User(_, Body { kind: GONE_LINK, num: number, .. }) => {
                let pid = self.own.gone.take_linked(number)?;
                Some(Event::Exit(Exit { pid, reason: Reason::Noproc, panic: None }))
            }
            // (a mailbox was read)
            Item::User(_, Body { kind: MORE, .. }) => Some(Event::Proceed),
            Item::User(_, Body { num, .. }) => match self.own.me.mailbox.take(num) {
                Some(message) => Some(Event::Message(message)),
                None => matches!(self.own.me.mailbox.bound, Bound::DropOldest(_)).then_some(Event::Lost),
            },
            Item::Down(monitor, pid, reason) => Some(self.down(worker, Down { monitor, pid, reason, panic })),
            Item::Exit(pid, reason) => Some(Event::Exit(Exit { pid, reason, panic })),
            Item::Alive(..) => None,
        }
    }

    /// What it does next if something was kept aside: it takes that first, if it waits for it.
    fn next_with_aside(&mut self) -> Next {
        let waits = matches!(self.next, Next::Wait(_) | Next::WaitUntil(..));
        self.takes_aside = waits && self.own.aside.has(self.wanted, |item| ends_call(&self.own.calls, item));
        // (so the others of its desk have their turn, too)
        if self.takes_aside { Next::Proceed } else { self.next }
    }

    /// The process whose handler runs on the desk that was asked, if that is another desk than this one.
    fn holder(&self, worker: &Worker, number: i64) -> Option<(Pid, &'static str)> {
        let desk = self.own.calls.get(number)?.desk;
        if desk == worker.number { None } else { worker.hub.running(usize::from(desk)) }
    }

    /// The news of a monitor, which may be that of a call.
    fn down(&mut self, worker: &mut Worker, down: Down) -> Event<B::Message> {
        let number = number_of(down.monitor);
        if self.close(worker, number) {
            Event::Answer(Answer { number, given: Err(CallFault::Down(down.reason, down.panic)) })
        } else {
            Event::Down(down)
        }
    }

    /// Ends a call, and returns whether it was open.
    fn close(&mut self, worker: &mut Worker, number: i64) -> bool {
        let Some(open) = self.own.calls.remove(number) else { return false };
        self.own.aside.look_again();
        if let Some(alarm) = open.alarm {
            worker.alarms.cancel(alarm);
        }
        if let Some(monitor) = open.monitor {
            self.own.aside.forget(monitor);
            demonitor(worker, &self.own.me, monitor);
        }
        true
    }
}

/// Keeps what waits and is older than an item that the library has picked out, so that it comes first later.
pub(crate) fn keep_older<M: Send + 'static>(worker: &mut Worker, own: &mut Own<M>, picked: &Item) {
    let Own { me, aside, gone, .. } = own;
    let pid = me.pid();
    let waiting = worker.desk().waiting(pid);
    let count = waiting.map_or(0, |waiting| older(&me.mailbox, waiting, picked));
    for _ in 0..count {
        let taken = worker.desk().receive(pid, Pick::Any);
        let Ok(Some(item)) = worker.noted(taken) else { return };
        worker.record.took(&item);
        let panic = news_of(&item).and_then(|news| me.mailbox.take_panic(news));
        if let Some(item) = gone.name(worker.porter, &item) {
            aside.keep(item, panic);
        }
    }
}

/// Whether an item ends a call that is open.
fn ends_call(calls: &Calls, item: &Item) -> bool {
    match *item {
        Item::User(_, Body { kind: ANSWER | OVER, num, .. }) => calls.contains(num),
        Item::Down(monitor, ..) => calls.contains(number_of(monitor)),
        Item::User(..) | Item::Exit(..) | Item::Alive(..) => false,
    }
}

impl<B: Behaviour> Actor for Process<B> {
    fn told(&mut self, worker: &mut Worker, what: &What) -> Option<Next> {
        let (held, told, event);
        match what {
            What::Start(_) | What::Exit(..) => return self.starts(worker),
            What::Item(item) => return self.item_told(worker, item),
            What::Proceed if mem::take(&mut self.takes_aside) => {
                let Some((of, item, age)) = self.event_from_aside(worker) else { return Some(self.next) };
                held = item;
                (told, event) = (Some(Told { item: Telling::Item(&held), age: Some(age), is_picked: false }), of);
            }
            What::Proceed => (told, event) = (None, Event::Proceed),
            What::Timeout => (told, event) = (None, Event::Timeout),
        }
        self.run(worker, told, |behaviour, cx| behaviour.handle(cx, event))
    }

    fn starts(&mut self, worker: &mut Worker) -> Option<Next> {
        self.run(worker, None, Behaviour::started)
    }

    fn letter(&mut self, worker: &mut Worker, place: usize, kind: u32, num: i64) -> Option<Next> {
        if self.waits && is_message(kind) {
            if let Some(message) = self.own.me.mailbox.take_here(num) {
                let told = Some(Told { item: Telling::Job(place), age: None, is_picked: false });
                return self.run(worker, told, |behaviour, cx| behaviour.handle(cx, Event::Message(message)));
            }
        }
        if self.waits && kind == ANSWER {
            return self.answered(worker, place, num);
        }
        let item = worker.crew.item_of(place);
        self.letter_of_others(worker, &item)
    }

    fn item(&mut self, worker: &mut Worker, item: &Item) -> Option<Next> {
        if matches!(item, Item::User(..)) { self.letter_of_others(worker, item) } else { self.item_told(worker, item) }
    }

    fn ended(self: Box<Self>, worker: &mut Worker, why: Reason) {
        let Process { behaviour, own: Own { me, calls, .. }, .. } = *self;
        if !calls.is_empty() {
            for alarm in calls.into_values().filter_map(|open| open.alarm) {
                worker.alarms.cancel(alarm);
            }
        }
        me.mailbox.close(Some(why));
        if me.mailbox.is_in_groups.load(SeqCst) {
            me.hub.place(me.pid()).leave_groups(me.pid());
        }
        quietly(|| behaviour.ended(why));
    }

    fn supervises(&self) -> bool {
        is_supervisor::<B>()
    }

    fn owed(&self) -> usize {
        self.own.calls.len()
    }

    fn slot(&self) -> &dyn Slot {
        &*self.own.me.mailbox
    }

    fn outline(&self) -> Outline {
        Outline { next: self.next, wanted: self.wanted, aside: self.own.aside.len(), calls: self.own.calls.len() }
    }

    fn inspect(&self) -> String {
        self.behaviour.inspect()
    }

    fn behaviour(&self) -> &dyn Any {
        &self.behaviour
    }
}
