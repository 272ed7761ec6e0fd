//! What was sent to a process and it has not taken. The table carries a number; the value is kept here under it.
//!
//! A value is put before its letter is sent, and taken as the letter's item is. If the process exits, all of its values
//! are dropped, and one that is put later comes back: a pid is never used again, so no letter can ask for them.

use super::asked::{Fails, tell_dropped};
use super::behaviour::Bound;
use super::calls::CallFault;
use super::group::AnyMailbox;
use super::name::Names;
use super::numbers::{Few, Numbered, Row};
use super::paces::touch;
use super::room::Ticket;
use super::selection::letter;
use super::sending::SendFault;
use super::{ANSWER, GONE, GONE_LINK, MORE, OVER, PANIC};
use crate::{Body, Item, Pid, Reason, Ref};
use std::any::Any;
use std::collections::HashMap;
use std::panic::{AssertUnwindSafe, catch_unwind};
use std::sync::atomic::{AtomicBool, Ordering::SeqCst};
use std::sync::{Arc, Mutex, MutexGuard, PoisonError};

/// The texts of panics, each with the epoch in which it was put.
type Panics = HashMap<News, (u64, Arc<str>)>;

/// What a call was answered, whatever its type: an option of that is in the box.
pub(crate) type Given = Result<Box<dyn Any + Send>, CallFault>;

/// The news of an exit, by which the text of a panic is found.
#[derive(Clone, Copy, Debug, PartialEq, Eq, Hash)]
pub(crate) enum News {
    Down(Ref),
    Exit(Pid),
}

/// The values of one process.
pub(crate) struct Values<M> {
    pid: Pid,
    name: &'static str,
    pub(crate) bound: Bound,
    /// The kind of a message.
    kind: fn(&M) -> u32,
    // `None` once the process has exited
    kept: Mutex<Option<Kept<M>>>,
    /// Whether it has exited. (it is asked without the lock)
    is_closed: AtomicBool,
    /// Whether there may be the text of a panic.
    has_panics: AtomicBool,
    /// Whether the process may be in a group.
    pub(crate) is_in_groups: AtomicBool,
    /// The names that it has.
    pub(crate) names: Names,
}

struct Kept<M> {
    /// No message has a smaller number. (it is known only where the oldest is dropped)
    oldest: i64,
    messages: Row<M>,
    /// What most processes never have.
    beside: Option<Box<Beside>>,
}

/// What a process may have beside its messages.
#[derive(Default)]
struct Beside {
    /// The room that messages take in an inbox with a bound, if there ever was one.
    tickets: Option<Numbered<Ticket>>,
    /// The open calls from outside.
    calls: Few<Arc<dyn Fails>>,
    /// The text of its own panic.
    crash: Option<Arc<str>>,
    /// The answers of calls, each with the number of the last message before it.
    answers: Few<(i64, Given)>,
    /// The texts of panics.
    panics: Panics,
}

impl<M> Kept<M> {
    /// Takes the oldest message out, with its room.
    fn take_oldest(&mut self) -> Option<(M, Option<Ticket>)> {
        while self.oldest < self.messages.last() {
            self.oldest += 1;
            if let Some(message) = self.messages.remove(self.oldest) {
                return Some((message, self.take_ticket(self.oldest)));
            }
        }
        None
    }

    /// Whether there is nothing that a program has made, or waits for.
    fn is_bare(&self) -> bool {
        self.messages.len() == 0 && self.beside.is_none()
    }

    #[inline(always)]
    fn beside(&mut self) -> &mut Beside {
        if self.beside.is_none() {
            self.begin_beside();
        }
        self.beside.as_mut().expect("what was begun")
    }

    #[cold]
    fn begin_beside(&mut self) {
        self.beside = Some(Box::default());
    }

    /// Whether messages may have room. (an inbox without a bound has none)
    #[inline]
    fn has_tickets(&self) -> bool {
        self.beside.as_ref().is_some_and(|beside| beside.tickets.is_some())
    }

    /// Takes the room of a message out.
    #[inline]
    fn take_ticket(&mut self, number: i64) -> Option<Ticket> {
        self.beside.as_mut()?.tickets.as_mut()?.remove(&number)
    }
}

/// A mailbox, whatever its messages are.
pub(crate) trait Slot: Send + Sync {
    fn pid(&self) -> Pid;
    /// The name of the type of the behaviour.
    fn name(&self) -> &'static str;
    /// The names that the process has.
    fn names(&self) -> Vec<String>;
    /// Puts the answer of a call. It returns `false`, and the answer is dropped, if the process has exited.
    fn put_answer(&self, call: i64, given: Given) -> bool;
    /// Puts the text of a panic in this epoch beside the news of it.
    fn put_panic(&self, news: News, text: Arc<str>, epoch: u64);
    /// Whether there is the text of a panic beside some news.
    fn has_panics(&self) -> bool;
    /// Drops the texts that were put before this epoch, beside all other news than these.
    fn keep_panics(&self, epoch: u64, of: &dyn Fn(&News) -> bool);
    /// How many messages it has not taken.
    fn waiting(&self) -> usize;
    /// Whether a call from outside is open.
    fn is_asked(&self) -> bool;
    /// A call from outside has ended.
    fn forget_call(&self, number: i64);
    /// The calls from outside fail, since the run halts.
    fn fail_calls(&self, fault: &CallFault);
    /// Its handler has panicked: the calls from outside fail with the text.
    fn crashed(&self, text: &Arc<str>);
    /// Drops all that is kept, since the process has exited for this reason, or `None` if the run is over. The calls from
    /// outside fail.
    fn close(&self, why: Option<Reason>);
    /// It as a value whose type is not known.
    fn any(self: Arc<Self>) -> AnyMailbox;
}

impl<M> Values<M> {
    pub(crate) fn new(pid: Pid, name: &'static str, bound: Bound, kind: fn(&M) -> u32) -> Values<M> {
        let kept = Kept { oldest: 0, messages: Row::new(), beside: None };
        let (kept, is_in_groups) = (Mutex::new(Some(kept)), AtomicBool::new(false));
        let (is_closed, has_panics) = (AtomicBool::new(false), AtomicBool::new(false));
        Values { pid, name, bound, kind, kept, is_closed, has_panics, is_in_groups, names: Names::default() }
    }

    /// (nothing of the program's own runs under the lock: values are moved, and dropped outside of it)
    #[inline]
    fn lock(&self) -> MutexGuard<'_, Option<Kept<M>>> {
        touch(1 << self.pid.shard);
        self.kept.lock().unwrap_or_else(PoisonError::into_inner)
    }

    /// Puts a message, and returns its number. The message comes back if the process has exited, or takes no more.
    pub(crate) fn put(&self, message: M, ticket: Ticket) -> Result<i64, SendFault<M>> {
        let mut state = self.lock();
        let Some(kept) = &mut *state else { return Err(SendFault::Exited(message)) };
        let oldest = match self.bound {
            Bound::Refuse(most) if kept.messages.len() >= most => return Err(SendFault::Full(message)),
            Bound::DropOldest(most) if kept.messages.len() >= most => kept.take_oldest(),
            _ => None,
        };
        let number = kept.messages.push(message);
        if !ticket.is_free() {
            kept.beside().tickets.get_or_insert_default().insert(number, ticket);
        }
        drop(state);
        if let Some((message, ticket)) = oldest {
            drop_quietly(message);
            drop(ticket);
        }
        Ok(number)
    }

    /// The same of a message that needs no room in an inbox. (most mailboxes have no bound either)
    #[inline]
    pub(crate) fn put_free(&self, message: M) -> Result<i64, M> {
        if self.bound != Bound::None {
            return self.put(message, Ticket::FREE).map_err(SendFault::into_message);
        }
        match &mut *self.lock() {
            Some(kept) => Ok(kept.messages.push(message)),
            None => Err(message),
        }
    }

    /// The kind of the letter of a message.
    #[inline]
    pub(crate) fn letter_of(&self, message: &M) -> u32 {
        letter((self.kind)(message))
    }

    /// Puts a message back that was taken, under its number. It is dropped if the process has exited, and the oldest is if too
    /// many wait then.
    pub(crate) fn put_back(&self, number: i64, message: M) {
        let mut state = self.lock();
        let dropped = match &mut *state {
            Some(kept) => {
                kept.oldest = kept.oldest.min(number - 1);
                kept.messages.put_back(number, message);
                match self.bound {
                    Bound::DropOldest(most) if kept.messages.len() > most => kept.take_oldest(),
                    _ => None,
                }
            }
            None => Some((message, None)),
        };
        drop(state);
        drop(dropped.map(|(message, ticket)| (drop_quietly(message), ticket)));
    }

    /// Whether more messages wait than may, by which the process is to crash.
    pub(crate) fn is_beyond(&self) -> bool {
        matches!(self.bound, Bound::Crash(most) if self.waiting_now() > most)
    }

    fn waiting_now(&self) -> usize {
        self.lock().as_ref().map_or(0, |kept| kept.messages.len())
    }

    /// A call from outside begins. It returns `false` if the process has exited.
    pub(crate) fn open_call(&self, number: i64, call: Arc<dyn Fails>) -> bool {
        let mut state = self.lock();
        // (one that has crashed is still here until its exit is told)
        let living = state.as_mut().map(Kept::beside).filter(|beside| beside.crash.is_none());
        living.map(|beside| beside.calls.insert(number, call)).is_some()
    }

    /// Whether the process has not exited.
    pub(crate) fn is_open(&self) -> bool {
        touch(1 << self.pid.shard);
        !self.is_closed.load(SeqCst)
    }

    #[inline(never)]
    pub(crate) fn take(&self, number: i64) -> Option<M> {
        self.take_here(number)
    }

    /// The same, within its caller.
    #[inline(always)]
    pub(crate) fn take_here(&self, number: i64) -> Option<M> {
        let mut state = self.lock();
        match &mut *state {
            Some(kept) if !kept.has_tickets() => kept.messages.remove(number),
            _ => Self::take_with_ticket(state, number),
        }
    }

    /// The same of a message that may have room.
    #[inline(never)]
    fn take_with_ticket(mut state: MutexGuard<'_, Option<Kept<M>>>, number: i64) -> Option<M> {
        let kept = state.as_mut()?;
        let (message, ticket) = (kept.messages.remove(number), kept.take_ticket(number));
        drop(state);
        drop(ticket);
        message
    }

    pub(crate) fn take_answer(&self, call: i64) -> Option<Given> {
        self.lock().as_mut()?.beside.as_mut()?.answers.remove(call).map(|(_, given)| given)
    }

    /// The age of a message or of an answer: what a process has sent later has a greater one.
    pub(crate) fn age_of(&self, item: &Item) -> Option<i64> {
        match *item {
            Item::User(_, Body { kind: ANSWER, num, .. }) => {
                self.lock().as_ref()?.beside.as_ref()?.answers.get(num).map(|(age, _)| *age)
            }
            Item::User(_, Body { kind: OVER | MORE | GONE | GONE_LINK, .. }) => None,
            Item::User(_, Body { num, .. }) => Some(num),
            Item::Down(..) | Item::Exit(..) | Item::Alive(..) => None,
        }
    }

    #[inline]
    pub(crate) fn take_panic(&self, news: News) -> Option<Arc<str>> {
        touch(1 << self.pid.shard);
        if self.has_panics.load(SeqCst) { self.take_panic_now(news) } else { None }
    }

    #[cold]
    fn take_panic_now(&self, news: News) -> Option<Arc<str>> {
        self.lock().as_mut()?.beside.as_mut()?.panics.remove(&news).map(|(_, text)| text)
    }
}

impl<M: Send + 'static> Slot for Values<M> {
    fn pid(&self) -> Pid {
        self.pid
    }

    fn name(&self) -> &'static str {
        self.name
    }

    fn names(&self) -> Vec<String> {
        self.names.list()
    }

    fn put_answer(&self, call: i64, given: Given) -> bool {
        let back = match &mut *self.lock() {
            Some(kept) => {
                let age = kept.messages.last();
                kept.beside().answers.insert(call, (age, given));
                None
            }
            None => Some(given),
        };
        back.is_none()
    }

    fn put_panic(&self, news: News, text: Arc<str>, epoch: u64) {
        if let Some(kept) = &mut *self.lock() {
            kept.beside().panics.insert(news, (epoch, text));
            self.has_panics.store(true, SeqCst);
        }
    }

    fn has_panics(&self) -> bool {
        let has = |kept: &Kept<M>| kept.beside.as_ref().is_some_and(|beside| !beside.panics.is_empty());
        self.has_panics.load(SeqCst) && self.lock().as_ref().is_some_and(has)
    }

    fn keep_panics(&self, epoch: u64, of: &dyn Fn(&News) -> bool) {
        if let Some(Kept { beside: Some(beside), .. }) = &mut *self.lock() {
            beside.panics.retain(|news, (put, _)| *put >= epoch || of(news));
        }
    }

    fn waiting(&self) -> usize {
        self.waiting_now()
    }

    fn is_asked(&self) -> bool {
        let is_asked = |kept: &Kept<M>| kept.beside.as_ref().is_some_and(|beside| !beside.calls.is_empty());
        self.lock().as_ref().is_some_and(is_asked)
    }

    fn forget_call(&self, number: i64) {
        let call = self.lock().as_mut().and_then(|kept| kept.beside.as_mut()?.calls.remove(number));
        drop(call);
    }

    fn fail_calls(&self, fault: &CallFault) {
        let calls = self.lock().as_mut().and_then(|kept| Some(std::mem::take(&mut kept.beside.as_mut()?.calls)));
        calls.into_iter().flat_map(Few::into_values).for_each(|call| call.fail(fault.clone()));
    }

    fn crashed(&self, text: &Arc<str>) {
        if let Some(kept) = &mut *self.lock() {
            kept.beside().crash = Some(text.clone());
        }
        self.fail_calls(&CallFault::Down(PANIC, Some(text.clone())));
    }

    fn close(&self, why: Option<Reason>) {
        let mut state = self.lock();
        self.is_closed.store(true, SeqCst);
        if state.as_ref().is_some_and(Kept::is_bare) {
            *state = None;
            return;
        }
        let kept = state.take();
        drop(state);
        if let Some(Kept { messages, beside, .. }) = kept {
            let Beside { calls, crash, answers, .. } = beside.map(|beside| *beside).unwrap_or_default();
            let fault = why.map_or(CallFault::Over, |why| CallFault::Down(why, crash));
            calls.into_values().for_each(|call| call.fail(fault.clone()));
            messages.into_values().for_each(drop_quietly);
            answers.into_values().for_each(|(_, given)| drop_quietly(given));
        }
    }

    fn any(self: Arc<Self>) -> AnyMailbox {
        self
    }
}

/// Does something of the program's own that returns nothing, and returns whether it panicked.
pub(crate) fn quietly(work: impl FnOnce()) -> bool {
    match catch_unwind(AssertUnwindSafe(work)) {
        Ok(()) => false,
        Err(what) => {
            // (a value that a panic carried may panic as it is dropped)
            std::mem::forget(catch_unwind(AssertUnwindSafe(|| drop(what))));
            tell_dropped();
            true
        }
    }
}

pub(crate) fn drop_quietly<T>(value: T) {
    quietly(|| drop(value));
}
