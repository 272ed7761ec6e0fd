//! What a desk counts of itself: plain numbers, which its own thread alone reads and writes.

use super::tap::Feed;
use super::view::Longest;
use crate::crew::What;
use crate::{Item, Pid};
use std::time::Instant;

/// What the thread of a desk has counted since the run began.
#[derive(Default)]
pub(crate) struct Record {
    pub(super) messages: u64,
    pub(super) handlers: u64,
    pub(super) restarts: u64,
    pub(super) losses: u64,
    /// Whether handlers are timed. (each costs two readings of the clock)
    pub(super) times: bool,
    pub(super) longest: Option<Longest>,
    /// Where the events of the desk go as they come.
    pub(super) feeds: Vec<Feed>,
}

/// Whether an item is a message, or the answer of a call.
fn is_message(item: &Item) -> bool {
    matches!(item, Item::User(..))
}

impl Record {
    /// A process is told something. It returns when, if that is asked.
    #[inline]
    pub(crate) fn begin(&mut self, what: &What) -> Option<Instant> {
        if let What::Item(item) = what { self.begin_item(item) } else { self.begin_other() }
    }

    /// The same of a letter.
    #[inline]
    pub(crate) fn begin_letter(&mut self) -> Option<Instant> {
        self.messages += 1;
        self.begin_other()
    }

    /// The same of an item.
    #[inline]
    pub(crate) fn begin_item(&mut self, item: &Item) -> Option<Instant> {
        self.took(item);
        self.begin_other()
    }

    /// The same of something that is no item.
    #[inline]
    pub(crate) fn begin_other(&mut self) -> Option<Instant> {
        self.times.then(Instant::now)
    }

    /// The process that was told something then has done with it.
    #[inline]
    pub(crate) fn end(&mut self, begun: Option<Instant>, pid: Pid, behaviour: impl FnOnce() -> &'static str) {
        if let Some(begun) = begun {
            self.took_since(begun, pid, behaviour());
        }
    }

    #[cold]
    fn took_since(&mut self, begun: Instant, pid: Pid, behaviour: &'static str) {
        let time = begun.elapsed();
        if self.longest.is_none_or(|longest| longest.time < time) {
            self.longest = Some(Longest { pid, behaviour, time });
        }
    }

    /// A handler runs.
    #[inline]
    pub(crate) fn handles(&mut self) {
        self.handlers += 1;
    }

    /// A process has taken an item by itself, beside the one that its handler is told.
    #[inline]
    pub(crate) fn took(&mut self, item: &Item) {
        self.messages += u64::from(is_message(item));
    }

    /// These items are lost.
    pub(crate) fn lost(&mut self, items: &[Item]) {
        self.losses += items.iter().filter(|item| is_message(item)).count() as u64;
    }

    /// How many messages and answers were lost so far.
    pub(crate) fn losses(&self) -> u64 {
        self.losses
    }

    /// Whether somebody gets the events of the desk as they come.
    pub(crate) fn is_tapped(&self) -> bool {
        !self.feeds.is_empty()
    }

    /// A supervisor has started a child again by itself.
    pub(crate) fn restarted(&mut self) {
        self.restarts += 1;
    }
}
