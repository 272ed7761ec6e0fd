//! Exit reasons: a term of Erlang's, and a number of the table's.

use crate::term::Term;
use pundewo::Reason;
use pundewo::runtime::PANIC;
use std::sync::{Mutex, PoisonError};

/// The exit reason of each process of Erlang's as the connection with its node breaks: `noconnection`.
pub const NOCONNECTION: Reason = Reason::Other(0xE000_0000);
/// An exit reason that is none of those which the gateway keeps, since it keeps so many.
pub const ANOTHER: Reason = Reason::Other(0xE000_0001);

/// The number of the first reason that is kept, and how many are.
const FIRST: u32 = 0xE000_0010;
const MOST: usize = 4_096;
/// How many bytes a reason that is kept has at most, as it is printed.
const LONGEST: usize = 1_024;

/// What the table's own reasons are called.
const NAMES: [(&str, Reason); 6] = [
    ("normal", Reason::Normal),
    ("kill", Reason::Kill),
    ("killed", Reason::Killed),
    ("noproc", Reason::Noproc),
    ("shutdown", Reason::Shutdown),
    ("noconnection", NOCONNECTION),
];

/// The reasons that came from Erlang. The table has a number for each, so the same term is always the same number.
#[derive(Default)]
pub(crate) struct Reasons(Mutex<Vec<(String, Term)>>);

impl Reasons {
    /// The table's reason for a term.
    pub(crate) fn of(&self, term: &Term) -> Reason {
        if let Some((_, reason)) = NAMES.iter().find(|(name, _)| term.is_atom(name)) {
            return *reason;
        }
        if let Some([number]) = term.tagged("pundewo") {
            let number = number.as_integer().and_then(|number| u32::try_from(number).ok());
            return number.map_or(ANOTHER, Reason::Other);
        }
        let text = term.to_string();
        let mut kept = self.0.lock().unwrap_or_else(PoisonError::into_inner);
        let place = kept.iter().position(|(known, _)| *known == text);
        let place = place.or_else(|| {
            let has_room = kept.len() < MOST && text.len() <= LONGEST;
            has_room.then(|| {
                kept.push((text, term.clone()));
                kept.len() - 1
            })
        });
        place.map_or(ANOTHER, |place| Reason::Other(FIRST + place as u32))
    }

    /// The term for one of the table's reasons: that which came with it, `{pundewo, Number}` for a number of the program's,
    /// and `{panic, Text}`.
    pub(crate) fn term(&self, reason: Reason, panic: Option<&str>) -> Term {
        if let Some((name, _)) = NAMES.iter().find(|(_, known)| *known == reason) {
            return Term::atom(name);
        }
        let Reason::Other(number) = reason else { return Term::atom("unknown") };
        if reason == PANIC {
            return Term::tuple([Term::atom("panic"), Term::from(panic.unwrap_or_default())]);
        }
        let kept = self.0.lock().unwrap_or_else(PoisonError::into_inner);
        let place = number.checked_sub(FIRST).map(|place| place as usize);
        match place.and_then(|place| kept.get(place)) {
            Some((_, term)) => term.clone(),
            None => Term::tuple([Term::atom("pundewo"), Term::from(i64::from(number))]),
        }
    }
}
