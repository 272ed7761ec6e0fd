//! Values of a scenario that are looked at once a run is at rest.

use crate::runtime::{Asking, CallFault};
use std::cell::RefCell;
use std::fmt;
use std::sync::Arc;
use std::sync::atomic::{AtomicU64, Ordering::SeqCst};

/// The answer of a call from outside, which is read once the run is at rest: what [`World::ask`](super::World::ask) returns.
pub struct Later<R: Send + 'static>(RefCell<State<R>>);

enum State<R: Send + 'static> {
    Open(Asking<R>),
    Ended(Result<R, CallFault>),
}

impl<R: Send + 'static> Later<R> {
    pub(crate) fn new(asking: Asking<R>) -> Later<R> {
        Later(RefCell::new(State::Open(asking)))
    }

    /// How the call has ended: `None` if it has not.
    pub fn get(&self) -> Option<Result<R, CallFault>>
    where
        R: Clone,
    {
        let mut state = self.0.borrow_mut();
        if let State::Open(asking) = &*state {
            *state = State::Ended(asking.ended()?);
        }
        match &*state {
            State::Ended(ended) => Some(ended.clone()),
            State::Open(_) => None,
        }
    }
}

impl<R: Send + 'static> fmt::Debug for Later<R> {
    fn fmt(&self, f: &mut fmt::Formatter<'_>) -> fmt::Result {
        f.write_str("Later(..)")
    }
}

/// How many tokens of a run were made, and what became of them.
#[derive(Clone, Copy, Debug, Default, PartialEq, Eq, Hash)]
pub struct Tokens {
    /// All of them, clones too.
    pub made: u64,
    /// Those that were [handled](Token::handle).
    pub handled: u64,
    /// Those that were dropped without that.
    pub dropped: u64,
}

impl Tokens {
    /// How many are still somewhere.
    #[must_use]
    pub fn kept(&self) -> u64 {
        self.made - self.handled - self.dropped
    }
}

#[derive(Debug, Default)]
pub(crate) struct Counts {
    made: AtomicU64,
    handled: AtomicU64,
    dropped: AtomicU64,
}

impl Counts {
    pub(crate) fn tokens(&self) -> Tokens {
        let [made, handled, dropped] = [&self.made, &self.handled, &self.dropped].map(|count| count.load(SeqCst));
        Tokens { made, handled, dropped }
    }
}

/// A value that a run counts: as a part of a message, of a behaviour or of an answer it says whether that was handled or
/// dropped, and whether it is kept for ever.
#[derive(Debug)]
pub struct Token {
    counts: Arc<Counts>,
    is_handled: bool,
}

impl Token {
    pub(crate) fn new(counts: &Arc<Counts>) -> Token {
        counts.made.fetch_add(1, SeqCst);
        Token { counts: counts.clone(), is_handled: false }
    }

    /// Says that it has come to where it was to come.
    pub fn handle(mut self) {
        self.is_handled = true;
    }
}

impl Clone for Token {
    fn clone(&self) -> Token {
        Token::new(&self.counts)
    }
}

impl Drop for Token {
    fn drop(&mut self) {
        let count = if self.is_handled { &self.counts.handled } else { &self.counts.dropped };
        count.fetch_add(1, SeqCst);
    }
}
