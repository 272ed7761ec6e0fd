//! How many messages from outside a desk takes in that no process has taken yet, and who waits for room.

use super::hub::Hub;
use super::inbox::locked;
use super::promise::Promise;
use std::collections::VecDeque;
use std::sync::{Arc, Mutex};

/// The room of a desk for messages from outside.
#[derive(Default)]
pub(crate) struct Room(Mutex<State>);

#[derive(Default)]
struct State {
    taken: usize,
    /// Those who wait, the first one first. While there is room nobody does.
    waiting: VecDeque<Arc<Turn>>,
    /// Whether nobody makes room: the run halts, or is over.
    shut: bool,
}

/// The turn of one who waits: room, or `None` if the run halts or is over.
pub(crate) type Turn = Promise<Option<Ticket>>;

/// The room of one message, which is free again as this is dropped. It is none's if the inbox has no bound.
pub(crate) struct Ticket(Option<(Arc<Hub>, u8)>);

impl Ticket {
    /// That of a message for which no room is needed.
    pub(crate) const FREE: Ticket = Ticket(None);

    pub(crate) fn is_free(&self) -> bool {
        self.0.is_none()
    }

    /// Room for a message, if there is some.
    pub(crate) fn of(hub: &Arc<Hub>, desk: u8) -> Option<Ticket> {
        if hub.inbox_most == usize::MAX {
            return Some(Ticket::FREE);
        }
        let taken = locked(&hub.places[usize::from(desk)].room.0).take(hub.inbox_most);
        taken.then(|| Ticket(Some((hub.clone(), desk))))
    }

    /// The same, or a turn.
    pub(crate) fn or_turn(hub: &Arc<Hub>, desk: u8) -> Result<Ticket, Arc<Turn>> {
        if hub.inbox_most == usize::MAX {
            return Ok(Ticket::FREE);
        }
        let mut state = locked(&hub.places[usize::from(desk)].room.0);
        if state.take(hub.inbox_most) {
            return Ok(Ticket(Some((hub.clone(), desk))));
        }
        let turn = Arc::new(Turn::new());
        if state.shut {
            let _ = turn.give(None);
        } else {
            state.waiting.push_back(turn.clone());
        }
        Err(turn)
    }
}

impl Drop for Ticket {
    #[inline]
    fn drop(&mut self) {
        if let Some((hub, desk)) = self.0.take() {
            Ticket::give_back(&hub, desk);
        }
    }
}

impl Ticket {
    fn give_back(hub: &Arc<Hub>, desk: u8) {
        let room = &hub.places[usize::from(desk)].room;
        while let Some(next) = room.next() {
            match next.give(Some(Ticket(Some((hub.clone(), desk))))) {
                Ok(()) => return,
                // (it does not wait any more, and the next one is asked)
                Err(ticket) => ticket.into_iter().for_each(|mut ticket| ticket.0 = None),
            }
        }
    }
}

impl State {
    fn take(&mut self, most: usize) -> bool {
        let some = self.taken < most;
        self.taken += usize::from(some);
        some
    }
}

impl Room {
    /// The one who waits first, who gets the room of a message that needs none any more. If nobody waits, it is free.
    fn next(&self) -> Option<Arc<Turn>> {
        let mut state = locked(&self.0);
        let next = state.waiting.pop_front();
        if next.is_none() {
            state.taken -= 1;
        }
        next
    }

    /// Somebody does not wait any more. What room it was given meanwhile is free again.
    pub(crate) fn leave(&self, turn: &Arc<Turn>) {
        let given = turn.give_up();
        locked(&self.0).waiting.retain(|it| !Arc::ptr_eq(it, turn));
        drop(given);
    }

    /// Says whether nobody makes room. Those who wait are told so.
    pub(crate) fn shut(&self, shut: bool) {
        let mut state = locked(&self.0);
        state.shut = shut;
        let waiting = if shut { std::mem::take(&mut state.waiting) } else { VecDeque::new() };
        drop(state);
        for turn in waiting {
            let _ = turn.give(None);
        }
    }
}
