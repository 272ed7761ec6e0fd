//! Messages on their way in from outside, which wait for room if an inbox has a bound.

use super::address::Address;
use super::hub::Origin;
use super::room::{Ticket, Turn};
use super::start::is_worker;
use std::fmt;
use std::future::Future;
use std::pin::Pin;
use std::sync::Arc;
use std::task::{Context, Poll, ready};
use std::time::Instant;

/// Why a message was not sent, with the message.
#[derive(Clone, Copy, PartialEq, Eq, Hash)]
#[non_exhaustive]
pub enum SendFault<M> {
    /// The inbox of the receiver's desk is full: see [`Builder::inbox`](super::Builder::inbox).
    Full(M),
    /// The receiver has exited.
    Exited(M),
    /// The run is over, drains, or has halted while the message waited for room.
    Over(M),
}

impl<M> SendFault<M> {
    /// The message.
    pub fn into_message(self) -> M {
        match self {
            SendFault::Full(message) | SendFault::Exited(message) | SendFault::Over(message) => message,
        }
    }
}

impl<M> fmt::Debug for SendFault<M> {
    fn fmt(&self, f: &mut fmt::Formatter<'_>) -> fmt::Result {
        f.write_str(match self {
            SendFault::Full(_) => "Full(..)",
            SendFault::Exited(_) => "Exited(..)",
            SendFault::Over(_) => "Over(..)",
        })
    }
}

impl<M> fmt::Display for SendFault<M> {
    fn fmt(&self, f: &mut fmt::Formatter<'_>) -> fmt::Result {
        f.write_str(match self {
            SendFault::Full(_) => "the message is not sent: the inbox of the desk is full",
            SendFault::Exited(_) => "the message is not sent: the receiver has exited",
            SendFault::Over(_) => "the message is not sent: the run is over",
        })
    }
}

impl<M> std::error::Error for SendFault<M> {}

/// A message that is sent as this is awaited, once there is room for it: what [`Address::send_async`] returns. It is `false`,
/// and the message is dropped, if the receiver has exited, the run is over, or it halts meanwhile.
///
/// Dropped before its end, it drops the message, which was not sent.
#[must_use = "a future does nothing unless it is awaited"]
pub struct Sending<M: Send + 'static> {
    to: Address<M>,
    message: Option<M>,
    origin: Origin,
    turn: Option<Arc<Turn>>,
}

impl<M: Send + 'static> fmt::Debug for Sending<M> {
    fn fmt(&self, f: &mut fmt::Formatter<'_>) -> fmt::Result {
        write!(f, "Sending(to {})", self.to)
    }
}

impl<M: Send + 'static> Unpin for Sending<M> {}

impl<M: Send + 'static> Sending<M> {
    pub(crate) fn new(to: &Address<M>, message: M, origin: Origin) -> Sending<M> {
        Sending { to: to.clone(), message: Some(message), origin, turn: None }
    }

    fn enter(&mut self, ticket: Ticket) -> Result<(), SendFault<M>> {
        self.turn = None;
        let message = self.message.take().expect("a message that was not sent");
        self.to.enter(message, ticket, self.origin)
    }

    /// The run is over or halts before there is room.
    fn refuse(&mut self) -> Result<(), SendFault<M>> {
        self.turn = None;
        Err(SendFault::Over(self.message.take().expect("a message that was not sent")))
    }

    /// Sends the message if nothing has to be waited for, and returns what came of that, or takes a turn.
    pub(crate) fn begin(&mut self) -> Option<Result<(), SendFault<M>>> {
        // (a handler holds up its desk, which may be the one that makes room)
        if is_worker() || !self.to.mailbox.is_open() {
            return Some(self.enter(Ticket::FREE));
        }
        match Ticket::or_turn(&self.to.hub, self.to.pid().shard) {
            Ok(ticket) => Some(self.enter(ticket)),
            Err(turn) => {
                self.turn = Some(turn);
                None
            }
        }
    }

    /// Sends the message, or has the task woken when there is room.
    pub(crate) fn poll_enter(&mut self, cx: &Context<'_>) -> Poll<Result<(), SendFault<M>>> {
        if self.turn.is_none() {
            if let Some(sent) = self.begin() {
                return Poll::Ready(sent);
            }
        }
        let turn = self.turn.as_ref().expect("a turn");
        Poll::Ready(match ready!(turn.poll(cx)) {
            Some(ticket) => self.enter(ticket),
            None => self.refuse(),
        })
    }

    /// Sends the message once there is room, and waits for that until then at most: `None` if there was none by then.
    pub(crate) fn wait(&mut self, until: Option<Instant>) -> Option<Result<(), SendFault<M>>> {
        if self.turn.is_none() {
            if let Some(sent) = self.begin() {
                return Some(sent);
            }
        }
        let turn = self.turn.as_ref().expect("a turn");
        match turn.wait(until)? {
            Some(ticket) => Some(self.enter(ticket)),
            None => Some(self.refuse()),
        }
    }
}

impl<M: Send + 'static> Future for Sending<M> {
    type Output = bool;

    fn poll(mut self: Pin<&mut Self>, cx: &mut Context<'_>) -> Poll<bool> {
        self.poll_enter(cx).map(|sent| sent.is_ok())
    }
}

impl<M: Send + 'static> Drop for Sending<M> {
    fn drop(&mut self) {
        if let Some(turn) = self.turn.take() {
            self.to.hub.place(self.to.pid()).room.leave(&turn);
        }
    }
}
