//! A value that one side gives once, and for which a thread or a task waits on the other.

use super::inbox::locked;
use super::payloads::quietly;
use std::sync::Mutex;
use std::task::{Context, Poll, Waker};
use std::thread::{self, Thread};
use std::time::Instant;

/// A value that is given once.
pub(crate) struct Promise<T>(Mutex<State<T>>);

enum State<T> {
    Open(Waiting),
    Kept(T),
    /// The value was taken, or nobody wants it.
    Over,
}

/// Who waits.
#[derive(Default)]
pub(crate) enum Waiting {
    #[default]
    Nobody,
    Thread(Thread),
    Task(Waker),
}

impl Waiting {
    /// Wakes who waits. (a waker is the program's own: it runs while nothing is locked, and its panic ends here)
    pub(crate) fn wake(self) {
        match self {
            Waiting::Nobody => {}
            Waiting::Thread(thread) => thread.unpark(),
            Waiting::Task(waker) => drop(quietly(|| waker.wake())),
        }
    }

    /// Has this task woken. It returns the one that was to be woken, if that is another.
    #[must_use]
    pub(crate) fn by(&mut self, cx: &Context<'_>) -> Option<Waiting> {
        match self {
            Waiting::Task(waker) if waker.will_wake(cx.waker()) => None,
            _ => Some(std::mem::replace(self, Waiting::Task(cx.waker().clone()))),
        }
    }
}

impl<T> Promise<T> {
    pub(crate) fn new() -> Promise<T> {
        Promise(Mutex::new(State::Open(Waiting::Nobody)))
    }

    /// Gives the value. It comes back if one was given before, or nobody wants it any more.
    pub(crate) fn give(&self, value: T) -> Result<(), T> {
        let mut state = locked(&self.0);
        if !matches!(*state, State::Open(_)) {
            return Err(value);
        }
        let before = std::mem::replace(&mut *state, State::Kept(value));
        drop(state);
        if let State::Open(waiting) = before {
            waiting.wake();
        }
        Ok(())
    }

    /// Takes the value if it was given, and wants none from here on.
    pub(crate) fn give_up(&self) -> Option<T> {
        match std::mem::replace(&mut *locked(&self.0), State::Over) {
            State::Kept(value) => Some(value),
            State::Open(_) | State::Over => None,
        }
    }

    /// Whether no value was given, and one is wanted.
    pub(crate) fn is_open(&self) -> bool {
        matches!(*locked(&self.0), State::Open(_))
    }

    /// Takes the value, or has the task woken as it is given.
    pub(crate) fn poll(&self, cx: &Context<'_>) -> Poll<T> {
        let mut state = locked(&self.0);
        if let State::Open(waiting) = &mut *state {
            // (a waker may run code of the program as it is dropped)
            let before = waiting.by(cx);
            drop(state);
            drop(before);
            return Poll::Pending;
        }
        let before = std::mem::replace(&mut *state, State::Over);
        drop(state);
        match before {
            State::Kept(value) => Poll::Ready(value),
            State::Open(_) | State::Over => panic!("a future was polled after its end"),
        }
    }

    /// Waits for the value in this thread, until then at most. After that no value is wanted.
    pub(crate) fn wait(&self, until: Option<Instant>) -> Option<T> {
        loop {
            let before = match &mut *locked(&self.0) {
                State::Open(waiting) => std::mem::replace(waiting, Waiting::Thread(thread::current())),
                State::Kept(_) | State::Over => break,
            };
            drop(before);
            match until.map(|until| until.saturating_duration_since(Instant::now())) {
                None => thread::park(),
                Some(left) if left.is_zero() => break,
                Some(left) => thread::park_timeout(left),
            }
        }
        self.give_up()
    }
}
