//! What a process takes now of what it is sent.

use super::gone::{Gone, number_of_gone};
use super::{ANSWER, FIRST_KIND, GONE, GONE_LINK, MESSAGE, MORE, OVER};
use crate::{Item, Pick};
use std::fmt;

/// A kind from which on a selection takes all kinds as one.
const LAST: u32 = 63;

/// What a process takes now: a pattern of Erlang's `receive`. All else waits, in order: see [`Next::Select`](super::Next::Select).
///
/// The messages are chosen by their kinds ([`Behaviour::kind`](super::Behaviour::kind)), and the news of monitors, exit signals
/// and answers of calls apart from them. The kinds from 63 on are as one kind. [`Event::Lost`](super::Event::Lost) is chosen as
/// the message in whose place it is.
///
/// ```
/// use pundewo::runtime::Selection;
///
/// const OPENED: u32 = 1;
/// const WRITE: u32 = 2;
///
/// let opening = Selection::kinds(&[OPENED]).downs(true);
/// assert!(opening.takes_kind(OPENED) && !opening.takes_kind(WRITE));
/// assert_eq!(Selection::all_but(&[WRITE]).exits(false), Selection::ALL.exits(false).without(&[WRITE]));
/// ```
#[derive(Clone, Copy, Debug, PartialEq, Eq, Hash)]
pub struct Selection {
    /// The kinds of messages, a bit each.
    kinds: u64,
    downs: bool,
    exits: bool,
    answers: bool,
}

/// The bits of these kinds.
const fn bits(kinds: &[u32]) -> u64 {
    let (mut bits, mut at) = (0, 0);
    while at < kinds.len() {
        bits |= bit(kinds[at]);
        at += 1;
    }
    bits
}

const fn bit(kind: u32) -> u64 {
    1 << if kind < LAST { kind } else { LAST }
}

/// The kind that the letter of a message has in the table.
pub(crate) const fn letter(kind: u32) -> u32 {
    if kind == 0 { MESSAGE } else { kind.saturating_add(FIRST_KIND) }
}

/// Whether the letter of a message has this kind.
pub(crate) const fn is_message(kind: u32) -> bool {
    kind == MESSAGE || kind > FIRST_KIND
}

impl Selection {
    /// It takes whatever comes.
    pub const ALL: Selection = Selection { kinds: u64::MAX, downs: true, exits: true, answers: true };
    /// It takes nothing.
    pub const NONE: Selection = Selection { kinds: 0, downs: false, exits: false, answers: false };

    /// It takes messages of these kinds, and nothing else.
    #[must_use]
    pub const fn kinds(kinds: &[u32]) -> Selection {
        Selection { kinds: bits(kinds), ..Selection::NONE }
    }

    /// It takes all but messages of these kinds.
    #[must_use]
    pub const fn all_but(kinds: &[u32]) -> Selection {
        Selection::ALL.without(kinds)
    }

    /// The same, and messages of these kinds, too.
    #[must_use]
    pub const fn with(self, kinds: &[u32]) -> Selection {
        Selection { kinds: self.kinds | bits(kinds), ..self }
    }

    /// The same, but no messages of these kinds.
    #[must_use]
    pub const fn without(self, kinds: &[u32]) -> Selection {
        Selection { kinds: self.kinds & !bits(kinds), ..self }
    }

    /// The same, and it takes the news of monitors or not.
    #[must_use]
    pub const fn downs(self, on: bool) -> Selection {
        Selection { downs: on, ..self }
    }

    /// The same, and it takes exit signals or not.
    #[must_use]
    pub const fn exits(self, on: bool) -> Selection {
        Selection { exits: on, ..self }
    }

    /// The same, and it takes the answers of calls or not, however the calls ended.
    #[must_use]
    pub const fn answers(self, on: bool) -> Selection {
        Selection { answers: on, ..self }
    }

    /// Whether it takes messages of this kind.
    #[must_use]
    pub const fn takes_kind(self, kind: u32) -> bool {
        self.kinds & bit(kind) != 0
    }

    /// What the library is to hand out: the one kind that it takes, if it takes no other and nothing else, or nothing, or else
    /// whatever comes.
    pub(crate) fn pick(self) -> Pick {
        if self.downs || self.exits || self.answers {
            return Pick::Any;
        }
        match (self.kinds.count_ones(), self.kinds.trailing_zeros()) {
            // (no letter has this kind)
            (0, _) => Pick::Kind(0),
            (1, kind) if kind < LAST => Pick::Kind(letter(kind)),
            _ => Pick::Any,
        }
    }
}

/// What it takes, in words: `all`, or such as `kinds 1 2, downs`.
impl fmt::Display for Selection {
    fn fmt(&self, f: &mut fmt::Formatter<'_>) -> fmt::Result {
        if *self == Selection::ALL {
            return f.write_str("all");
        }
        let (kinds, others): (Vec<_>, Vec<_>) = (0..=LAST).partition(|&kind| self.takes_kind(kind));
        let texts = |kinds: Vec<u32>| kinds.iter().map(u32::to_string).collect::<Vec<_>>().join(" ");
        let messages = match (kinds.is_empty(), others.is_empty()) {
            (true, _) => None,
            (_, true) => Some("messages".to_owned()),
            _ if kinds.len() > others.len() => Some(format!("all kinds but {}", texts(others))),
            _ => Some(format!("kinds {}", texts(kinds))),
        };
        let rest = [(self.downs, "downs"), (self.exits, "exits"), (self.answers, "answers")];
        let rest = rest.iter().filter(|(on, _)| *on).map(|(_, text)| (*text).to_owned());
        let parts: Vec<String> = messages.into_iter().chain(rest).collect();
        if parts.is_empty() { f.write_str("nothing") } else { f.write_str(&parts.join(", ")) }
    }
}

/// What a process waits for.
#[derive(Clone, Copy, Debug, PartialEq, Eq)]
pub(crate) enum Wanted {
    All,
    Pick(Pick),
    Selection(Selection),
}

impl Wanted {
    /// Whether it takes an item. It says whether the item ends a call that is open.
    pub(crate) fn takes(self, item: &Item, ends_call: bool) -> bool {
        match self {
            Wanted::All => true,
            Wanted::Pick(pick) => fits(pick, item),
            Wanted::Selection(selection) => match *item {
                _ if ends_call => selection.answers,
                Item::Down(..) => selection.downs,
                Item::Exit(..) => selection.exits,
                Item::User(_, body) => match body.kind {
                    MESSAGE => selection.takes_kind(0),
                    GONE => selection.downs,
                    GONE_LINK => selection.exits,
                    // (an answer of no open call is nothing)
                    ANSWER | OVER | MORE => true,
                    kind => selection.takes_kind(kind.saturating_sub(FIRST_KIND)),
                },
                Item::Alive(..) => true,
            },
        }
    }
}

/// What the library is to hand out for a pick. The news of a monitor of a process that had exited is a message to it, and the
/// exit signal of a link with one is a message or of the desk.
pub(crate) fn pick_of(pick: Pick, gone: &Gone) -> Pick {
    match pick {
        Pick::DownOf(monitor) if number_of_gone(monitor).is_some() => Pick::Kind(GONE),
        Pick::ExitOf(pid) if gone.has_link(pid) => Pick::Any,
        pick => pick,
    }
}

/// Whether a pick takes an item, as the library says of what is in its mailboxes.
pub(crate) fn fits(pick: Pick, item: &Item) -> bool {
    match (pick, *item) {
        (Pick::Any, _) => true,
        (Pick::Kind(kind), Item::User(_, body)) => body.kind == kind,
        (Pick::From(pid), Item::User(from, _)) => pid == from,
        (Pick::ExitOf(pid), Item::Exit(from, _)) => pid == from,
        (Pick::ExitOf(pid), Item::User(_, body)) => body.kind == GONE_LINK && body.who == Some(pid),
        (Pick::DownOf(monitor), Item::Down(answered, ..)) => monitor == answered,
        (Pick::DownOf(monitor), Item::User(_, body)) => body.kind == GONE && number_of_gone(monitor) == Some(body.num),
        (Pick::AliveOf(question), Item::Alive(answered, ..)) => question == answered,
        _ => false,
    }
}
