//! What the library has handed out to a process that does not take it now: it waits here, in order, until the process
//! takes it. The values of messages stay with the others that the process has not taken.

use super::behaviour::Event;
use super::payloads::{Values, drop_quietly};
use super::selection::Wanted;
use super::{ANSWER, OVER};
use crate::crew::Crew;
use crate::{Body, Item, Pid, Ref};
use std::collections::VecDeque;
use std::sync::Arc;

/// An item that waits.
pub(crate) struct Held<M> {
    /// A number: those that the library has handed out later have greater ones.
    pub(crate) age: u64,
    pub(crate) item: Item,
    /// The text of the panic of which it is the news.
    pub(crate) panic: Option<Arc<str>>,
    /// What the handler was told and has postponed, unless that is a message.
    pub(crate) event: Option<Event<M>>,
    /// Whether it waits until the process retries what it has postponed.
    is_postponed: bool,
}

/// The item that a handler is told now.
#[derive(Clone, Copy)]
pub(crate) struct Told<'a> {
    pub(crate) item: Telling<'a>,
    /// Its number, if it has one already.
    pub(crate) age: Option<u64>,
    /// Whether the library has picked it out of what waits, so that older items may wait.
    pub(crate) is_picked: bool,
}

/// Where the item is that a handler is told now.
#[derive(Clone, Copy)]
pub(crate) enum Telling<'a> {
    Item(&'a Item),
    /// In the job in this place of those that the crew has handed out last.
    Job(usize),
}

impl Told<'_> {
    pub(crate) fn item(&self, crew: &Crew) -> Item {
        match self.item {
            Telling::Item(item) => *item,
            Telling::Job(place) => crew.item_of(place),
        }
    }
}

/// Who has sent an item, or of whom it tells.
fn sender(item: &Item) -> Option<Pid> {
    match *item {
        Item::User(pid, _) | Item::Exit(pid, _) | Item::Down(_, pid, _) => Some(pid),
        Item::Alive(..) => None,
    }
}

/// How many of the items that wait are to come before one that was picked out from among them: those that its sender has sent
/// before, and what is before these. Behind them what others have sent before comes first, too.
pub(crate) fn older<M>(values: &Values<M>, waiting: impl Iterator<Item = Item>, picked: &Item) -> usize {
    let (from, age) = (sender(picked), values.age_of(picked));
    let mut count = 0;
    for (place, item) in waiting.enumerate() {
        let is_of_sender = sender(&item) == from;
        let is_older = match (values.age_of(&item), age) {
            (Some(age), Some(than)) => age < than,
            (None, Some(_)) => !is_of_sender || matches!(item, Item::User(..)),
            (Some(_), None) => true,
            (None, None) => !is_of_sender,
        };
        match (is_of_sender, is_older) {
            (true, false) => break,
            (true, true) => count = place + 1,
            (false, is_older) => count += usize::from(is_older && count == place),
        }
    }
    count
}

/// The items that wait for one process. (most processes never have one)
pub(crate) struct Aside<M>(Option<Box<Row<M>>>);

/// The items, the oldest first.
struct Row<M> {
    held: VecDeque<Held<M>>,
    /// The greatest number of an item.
    last: u64,
    /// How many of the first are not taken by `looked`, for which the process has looked last.
    seen: usize,
    looked: Wanted,
    /// Whether there may be an item that ends a call.
    has_answers: bool,
}

impl<M> Aside<M> {
    pub(crate) fn new() -> Aside<M> {
        Aside(None)
    }

    pub(crate) fn is_empty(&self) -> bool {
        self.0.as_ref().is_none_or(|row| row.held.is_empty())
    }

    pub(crate) fn len(&self) -> usize {
        self.0.as_ref().map_or(0, |row| row.held.len())
    }

    fn row(&mut self) -> &mut Row<M> {
        let (held, looked) = (VecDeque::new(), Wanted::All);
        self.0.get_or_insert_with(|| Box::new(Row { held, last: 0, seen: 0, looked, has_answers: false }))
    }

    /// Keeps an item that the library has just handed out.
    pub(crate) fn keep(&mut self, item: Item, panic: Option<Arc<str>>) {
        let row = self.row();
        let age = row.count();
        row.has_answers |= matches!(item, Item::User(_, Body { kind: ANSWER | OVER, .. }));
        row.held.push_back(Held { age, item, panic, event: None, is_postponed: false });
    }

    /// Looks for the oldest item that is taken now, and returns whether there is one.
    pub(crate) fn has(&mut self, wanted: Wanted, ends_call: impl Fn(&Item) -> bool) -> bool {
        self.0.as_mut().is_some_and(|row| row.has(wanted, ends_call))
    }

    /// Takes the item out that the last look has found.
    pub(crate) fn take(&mut self) -> Option<Held<M>> {
        let row = self.0.as_mut()?;
        row.held.remove(row.seen)
    }

    /// Keeps what the handler is told now, in its place, until the process retries it.
    pub(crate) fn postpone(&mut self, age: Option<u64>, item: Item, event: Event<M>, values: &Values<M>) {
        self.row().postpone(age, item, event, values);
    }

    /// All that was postponed may be taken.
    pub(crate) fn retry(&mut self) {
        if let Some(row) = &mut self.0 {
            row.held.iter_mut().for_each(|held| held.is_postponed = false);
            row.seen = 0;
        }
    }

    /// A call has ended: the next look is at all items, among which others of the call may be. They are nothing to the handler.
    #[inline]
    pub(crate) fn look_again(&mut self) {
        if let Some(row) = self.0.as_mut().filter(|row| row.has_answers) {
            row.seen = 0;
        }
    }

    /// Drops the news of a monitor that was taken back.
    #[inline]
    pub(crate) fn forget(&mut self, monitor: Ref) {
        if let Some(row) = &mut self.0 {
            row.forget(monitor);
        }
    }
}

impl<M> Drop for Row<M> {
    /// The process has exited: what it had postponed is dropped, one by one, as some of it may panic by that.
    fn drop(&mut self) {
        self.held.drain(..).for_each(drop_quietly);
    }
}

impl<M> Row<M> {
    /// The number of the item that the library has just handed out.
    fn count(&mut self) -> u64 {
        self.last += 1;
        self.last
    }

    fn has(&mut self, wanted: Wanted, ends_call: impl Fn(&Item) -> bool) -> bool {
        if self.looked != wanted {
            (self.looked, self.seen) = (wanted, 0);
        }
        let ends = |held: &Held<M>| matches!(held.event, Some(Event::Answer(_))) || ends_call(&held.item);
        let is_taken = |held: &Held<M>| !held.is_postponed && wanted.takes(&held.item, ends(held));
        let found = self.held.iter().skip(self.seen).position(is_taken);
        self.seen += found.unwrap_or(self.held.len() - self.seen);
        found.is_some()
    }

    fn postpone(&mut self, age: Option<u64>, item: Item, event: Event<M>, values: &Values<M>) {
        let age = age.unwrap_or_else(|| self.count());
        let event = match (event, item) {
            (Event::Message(message), Item::User(_, Body { num, .. })) => {
                values.put_back(num, message);
                None
            }
            (event, _) => Some(event),
        };
        let place = self.held.partition_point(|held| held.age < age);
        self.held.insert(place, Held { age, item, panic: None, event, is_postponed: true });
        self.seen += usize::from(place < self.seen);
    }

    fn forget(&mut self, monitor: Ref) {
        let is_of = |held: &Held<M>| matches!(held.item, Item::Down(of, ..) if of == monitor);
        if let Some(place) = self.held.iter().position(is_of) {
            self.held.remove(place);
            self.seen -= usize::from(place < self.seen);
        }
    }
}
