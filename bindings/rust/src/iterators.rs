//! Iterators over what a desk, a settled node and a history have by place. Each knows how much is left, and goes from
//! both ends. While one borrows its desk nothing changes there, so what it returns is one state.

use crate::raw::{self, Handle, RawEvent, RawIds, RawItem, RawLeftOver, RawRef};
use crate::{Desk, Event, Held, Ids, Item, LeftOver, Pid, Ref, found};
use std::fmt;
use std::iter::FusedIterator;
use std::ops::Range;

/// Two values that one call reads.
#[derive(Default)]
struct Both<T, U>(T, U);

impl From<Both<Pid, RawIds>> for (Pid, Ids) {
    fn from(both: Both<Pid, RawIds>) -> (Pid, Ids) {
        (both.0, both.1.into())
    }
}

impl From<Both<RawRef, Pid>> for (Ref, Pid) {
    fn from(both: Both<RawRef, Pid>) -> (Ref, Pid) {
        (both.0.into(), both.1)
    }
}

/// An iterator over places, each of which a call of the library reads into a `$raw`. `$of` is what the call asks for
/// besides.
macro_rules! by_place {
    ($(#[$about:meta])* $name:ident of $item:ty, $raw:ty, $of:ty, $call:expr) => {
        $(#[$about])*
        #[derive(Clone)]
        #[must_use = "an iterator reads nothing until it is used"]
        pub struct $name<'a> {
            held: &'a Held,
            of: $of,
            places: Range<usize>,
        }

        impl<'a> $name<'a> {
            pub(crate) fn new(held: &'a Held, of: $of, places: Range<usize>) -> $name<'a> {
                $name { held, of, places }
            }

            #[inline]
            fn read(&self, place: usize) -> Option<$item> {
                let mut out = <$raw>::default();
                let call: fn(&mut Handle, $of, usize, &mut $raw) -> u32 = $call;
                let code = call(&mut self.held.lent(), self.of, place, &mut out);
                found(code, out.into())
            }
        }

        impl Iterator for $name<'_> {
            type Item = $item;

            #[inline]
            fn next(&mut self) -> Option<$item> {
                let place = self.places.next()?;
                self.read(place)
            }

            #[inline]
            fn nth(&mut self, n: usize) -> Option<$item> {
                let place = self.places.nth(n)?;
                self.read(place)
            }

            #[inline]
            fn size_hint(&self) -> (usize, Option<usize>) {
                self.places.size_hint()
            }

            #[inline]
            fn count(self) -> usize {
                self.places.len()
            }

            #[inline]
            fn last(mut self) -> Option<$item> {
                self.next_back()
            }
        }

        impl DoubleEndedIterator for $name<'_> {
            #[inline]
            fn next_back(&mut self) -> Option<$item> {
                let place = self.places.next_back()?;
                self.read(place)
            }

            #[inline]
            fn nth_back(&mut self, n: usize) -> Option<$item> {
                let place = self.places.nth_back(n)?;
                self.read(place)
            }
        }

        impl ExactSizeIterator for $name<'_> {}
        impl FusedIterator for $name<'_> {}

        /// Prints what is left.
        impl fmt::Debug for $name<'_> {
            fn fmt(&self, f: &mut fmt::Formatter<'_>) -> fmt::Result {
                f.debug_list().entries(self.clone()).finish()
            }
        }
    };
}

// SAFETY of the calls below: `read` has the handle alone, by its lock; the references are to separate values.
by_place! {
    /// The events of a desk's journal, oldest first: [`Desk::events`](crate::Desk::events).
    Journal of Event, RawEvent, (), |handle, (), place, out| unsafe { raw::pt_event_at(handle, place, out) }
}

by_place! {
    /// The items that wait in a mailbox, oldest first: [`Desk::waiting`](crate::Desk::waiting). They stay there.
    Waiting of Item, RawItem, Pid, |handle, pid, place, out| unsafe { raw::pt_peek(handle, pid, place, out) }
}

by_place! {
    /// The links of a process, oldest first, each with the other process and the ids of the link:
    /// [`Desk::links`](crate::Desk::links).
    Links of (Pid, Ids), Both<Pid, RawIds>, Pid,
    |handle, pid, place, out| unsafe { raw::pt_link_at(handle, pid, place, &mut out.0, &mut out.1) }
}

by_place! {
    /// The open monitors of a process, oldest first, each with its target: [`Desk::monitors`](crate::Desk::monitors).
    Monitors of (Ref, Pid), Both<RawRef, Pid>, Pid,
    |handle, pid, place, out| unsafe { raw::pt_monitor_at(handle, pid, place, &mut out.0, &mut out.1) }
}

by_place! {
    /// The monitors that others have of a process, oldest first, each with its owner:
    /// [`Desk::watchers`](crate::Desk::watchers).
    Watchers of (Ref, Pid), Both<RawRef, Pid>, Pid,
    |handle, pid, place, out| unsafe { raw::pt_watcher_at(handle, pid, place, &mut out.0, &mut out.1) }
}

/// The live processes of a desk, by slot: [`Desk::pids`](crate::Desk::pids).
#[derive(Clone)]
#[must_use = "an iterator reads nothing until it is used"]
pub struct Living<'a> {
    desk: &'a Desk,
    slots: Range<u32>,
}

impl<'a> Living<'a> {
    pub(crate) fn new(desk: &'a Desk, slots: Range<u32>) -> Living<'a> {
        Living { desk, slots }
    }
}

impl Iterator for Living<'_> {
    type Item = Pid;

    fn next(&mut self) -> Option<Pid> {
        self.slots.find_map(|slot| self.desk.lives_in(slot))
    }

    fn size_hint(&self) -> (usize, Option<usize>) {
        (0, Some(self.slots.len()))
    }
}

impl DoubleEndedIterator for Living<'_> {
    fn next_back(&mut self) -> Option<Pid> {
        while let Some(slot) = self.slots.next_back() {
            if let Some(pid) = self.desk.lives_in(slot) {
                return Some(pid);
            }
        }
        None
    }
}

impl FusedIterator for Living<'_> {}

/// Prints what is left.
impl fmt::Debug for Living<'_> {
    fn fmt(&self, f: &mut fmt::Formatter<'_>) -> fmt::Result {
        f.debug_list().entries(self.clone()).finish()
    }
}

by_place! {
    /// The pids of a settled node: [`Quiet::pids`](crate::Quiet::pids).
    Pids of Pid, Pid, (), |handle, (), place, out| unsafe { raw::pt_quiet_pid_at(handle, place, out) }
}

by_place! {
    /// The events of a history, the first one first: [`History::events`](crate::History::events).
    Events of Event, RawEvent, (), |handle, (), place, out| unsafe { raw::pt_history_at(handle, place, out) }
}

by_place! {
    /// The letters left over at the end of a history: [`History::left_over`](crate::History::left_over).
    LeftOvers of LeftOver, RawLeftOver, (), |handle, (), place, out| unsafe { raw::pt_history_left_at(handle, place, out) }
}
