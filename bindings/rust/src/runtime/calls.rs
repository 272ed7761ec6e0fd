//! Requests with answers.

use super::ANSWER;
use super::asked::{Asked, request_dropped};
use super::hub::{Hub, Origin};
use super::numbers::Few;
use super::payloads::{Given, Slot};
use super::timing::Key;
use crate::{Fault, Pid, Reason, Ref};
use std::any::Any;
use std::cell::Cell;
use std::fmt;
use std::marker::PhantomData;
use std::sync::Arc;
use std::sync::atomic::{AtomicI64, Ordering::Relaxed};

/// Why a call has no answer.
#[derive(Clone, Debug, PartialEq, Eq, Hash)]
#[non_exhaustive]
pub enum CallFault {
    /// The server exited for this reason, with the text of its panic if that is how it exited. If it was seen to have exited
    /// before the call, the reason is [`Reason::Noproc`].
    Down(Reason, Option<Arc<str>>),
    /// There was no answer in time: the process whose handler was running on the server's desk then, if one was, and the
    /// name of the type of its behaviour. It may be the server. There is none to name if the server waits itself, or is on
    /// the desk of the process that asked.
    Timeout(Option<(Pid, &'static str)>),
    /// The request was dropped unanswered: its [`Reply`] was.
    Dropped,
    /// The run is over, drains, or has halted: nobody answers. If a halted run goes on, what was asked is asked all the same.
    Over,
    /// The address is of another run than the one that was to call. Nothing was asked.
    OtherRun,
    /// A trial would wait, which has one thread: it takes `World::ask`, whose answer is read once the run is at rest
    /// ([`trial`](crate::trial)).
    Trial,
}

impl fmt::Display for CallFault {
    fn fmt(&self, f: &mut fmt::Formatter<'_>) -> fmt::Result {
        match self {
            CallFault::Down(_, Some(text)) => write!(f, "the server panicked: {text}"),
            CallFault::Down(reason, None) => write!(f, "the server exited: {reason}"),
            CallFault::Timeout(Some((pid, behaviour))) => {
                write!(f, "there was no answer in time: the desk of the server is held up by {pid}, a {behaviour}")
            }
            CallFault::Timeout(None) => f.write_str("there was no answer in time"),
            CallFault::Dropped => f.write_str("the request was dropped unanswered"),
            CallFault::Over => f.write_str("the run is over, or has halted"),
            CallFault::OtherRun => Fault::OtherRun.fmt(f),
            CallFault::Trial => f.write_str("a trial takes World::ask, whose answer is read once the run is at rest"),
        }
    }
}

impl std::error::Error for CallFault {}

/// A call that a process has made, by which it knows the [`Answer`].
pub struct Call<R> {
    pub(crate) number: i64,
    pub(crate) of: PhantomData<fn() -> R>,
}

impl<R> Clone for Call<R> {
    fn clone(&self) -> Call<R> {
        *self
    }
}

impl<R> Copy for Call<R> {}

impl<R> PartialEq for Call<R> {
    fn eq(&self, other: &Call<R>) -> bool {
        self.number == other.number
    }
}

impl<R> Eq for Call<R> {}

impl<R> fmt::Debug for Call<R> {
    fn fmt(&self, f: &mut fmt::Formatter<'_>) -> fmt::Result {
        write!(f, "Call({})", self.number)
    }
}

thread_local! {
    /// The empty box of an answer that was taken on this thread, for the next one. (most are of the type of the one before)
    static SPARE: Cell<Option<Box<dyn Any + Send>>> = const { Cell::new(None) };
}

/// How many bytes such a box has at most.
const MOST_SPARE: usize = 256;

/// An answer, as a value whose type is not known.
fn boxed<R: Send + 'static>(answer: R) -> Box<dyn Any + Send> {
    let mut spare = SPARE.try_with(Cell::take).ok().flatten();
    match spare.as_mut().and_then(|spare| spare.downcast_mut::<Option<R>>()) {
        Some(place) => *place = Some(answer),
        None => return Box::new(Some(answer)),
    }
    spare.expect("the box")
}

/// Keeps the box of an answer that was taken out of it.
fn keep_spare(spare: Box<dyn Any + Send>) {
    if size_of_val(&*spare) <= MOST_SPARE {
        let _ = SPARE.try_with(|kept| kept.set(Some(spare)));
    }
}

/// How a call ended.
#[derive(Debug)]
pub struct Answer {
    pub(crate) number: i64,
    pub(crate) given: Given,
}

impl Answer {
    /// Whether it is the answer of this call.
    #[must_use]
    pub fn is_of<R>(&self, call: &Call<R>) -> bool {
        self.number == call.number
    }

    /// What this call was answered, or the answer as it was if it is another's.
    ///
    /// # Errors
    ///
    /// The answer, if it is that of another call.
    pub fn to<R: 'static>(self, call: &Call<R>) -> Result<Result<R, CallFault>, Answer> {
        let Answer { number, given } = self;
        if number != call.number {
            return Err(Answer { number, given });
        }
        match given {
            Ok(mut value) => match value.downcast_mut().and_then(Option::take) {
                Some(answer) => {
                    keep_spare(value);
                    Ok(Ok(answer))
                }
                // (the number of a call of another process)
                None => Err(Answer { number, given: Ok(value) }),
            },
            Err(fault) => Ok(Err(fault)),
        }
    }
}

/// How a server answers a request: a part of the message that asks. Dropped, it tells the client that no answer comes.
pub struct Reply<R: Send + 'static> {
    to: Option<To<R>>,
}

enum To<R> {
    Process { slot: Arc<dyn Slot>, hub: Arc<Hub>, call: i64 },
    Outside(Arc<Asked<R>>),
}

impl<R: Send + 'static> Reply<R> {
    pub(crate) fn to_process(slot: Arc<dyn Slot>, hub: Arc<Hub>, call: i64) -> Reply<R> {
        Reply { to: Some(To::Process { slot, hub, call }) }
    }

    pub(crate) fn to_outside(asked: Arc<Asked<R>>) -> Reply<R> {
        Reply { to: Some(To::Outside(asked)) }
    }

    /// Answers from outside, from any thread. In a behaviour take [`Context::reply`](super::Context::reply): then the
    /// answer comes after all that the server has sent the client, and before the news of its exit.
    pub fn send(mut self, value: R) {
        if let Some((slot, hub, call)) = self.put(value) {
            hub.post(slot.pid(), ANSWER, call, Origin::Run);
        }
    }

    /// Puts the value where the client finds it, and returns whom to tell, if that is a process that has not exited.
    pub(crate) fn put(&mut self, value: R) -> Option<(Arc<dyn Slot>, Arc<Hub>, i64)> {
        match self.to.take()? {
            To::Process { slot, hub, call } => slot.put_answer(call, Ok(boxed(value))).then_some((slot, hub, call)),
            To::Outside(asked) => {
                asked.end(Ok(value));
                None
            }
        }
    }
}

impl<R: Send + 'static> Drop for Reply<R> {
    fn drop(&mut self) {
        match self.to.take() {
            Some(To::Process { slot, hub, call }) if slot.put_answer(call, Err(CallFault::Dropped)) => {
                hub.post(slot.pid(), ANSWER, call, Origin::Run);
            }
            Some(To::Outside(asked)) => request_dropped(asked),
            Some(To::Process { .. }) | None => {}
        }
    }
}

impl<R: Send + 'static> fmt::Debug for Reply<R> {
    fn fmt(&self, f: &mut fmt::Formatter<'_>) -> fmt::Result {
        match &self.to {
            Some(To::Process { slot, call, .. }) => write!(f, "Reply({} of {})", call, slot.pid()),
            _ => f.write_str("Reply(..)"),
        }
    }
}

/// A call that has not ended.
pub(crate) struct Open {
    /// The desk of the server.
    pub(crate) desk: u8,
    pub(crate) monitor: Option<Ref>,
    pub(crate) alarm: Option<Key>,
}

/// The open calls of a process, by their numbers: those of their monitors, or numbers that no monitor has.
pub(crate) type Calls = Few<Open>;

/// The number of the call with this monitor. (a stamp is at most 2^62)
pub(crate) fn number_of(monitor: Ref) -> i64 {
    monitor.number as i64
}

/// A number for a call without a monitor, which no monitor has.
pub(crate) fn fresh_number() -> i64 {
    static NUMBERS: AtomicI64 = AtomicI64::new(-1);
    NUMBERS.fetch_sub(1, Relaxed)
}
