//! Reads the texts that `Display` prints. Of each value there is one text: no other is read.

use crate::{Body, Event, Happened, Ids, Item, LeftOver, LinkId, Pick, Pid, Reason, Ref, Signal};
use std::fmt;
use std::str::FromStr;

/// A text that is not the printed text of such a value.
#[derive(Clone, Copy, Debug, PartialEq, Eq, Hash)]
pub struct NotRead {
    wanted: &'static str,
}

impl fmt::Display for NotRead {
    fn fmt(&self, f: &mut fmt::Formatter<'_>) -> fmt::Result {
        write!(f, "the text is not {}", self.wanted)
    }
}

impl std::error::Error for NotRead {}

/// A number as it is printed: without a plus, and without zeros before it.
fn number<T: FromStr>(text: &str) -> Option<T> {
    let digits = text.strip_prefix('-').unwrap_or(text);
    let printed = text == "0" || !digits.starts_with('0') && digits.bytes().all(|byte| byte.is_ascii_digit());
    if printed { text.parse().ok() } else { None }
}

/// The desk and the number of a text like `#0.7`, behind the sign.
fn desk_and_number(text: &str, sign: char) -> Option<(u8, u64)> {
    let (desk, stamp) = text.strip_prefix(sign)?.split_once('.')?;
    Some((number(desk)?, number(stamp)?))
}

/// Splits a text at the first blank: a word, and what follows it.
fn word(text: &str) -> Option<(&str, &str)> {
    text.split_once(' ')
}

/// A first word, read as a value, and what follows it.
fn first<T: FromStr>(text: &str) -> Option<(T, &str)> {
    let (first, rest) = word(text)?;
    Some((first.parse().ok()?, rest))
}

/// Two values, a word each, and nothing else.
fn pair<T: FromStr, U: FromStr>(text: &str) -> Option<(T, U)> {
    let (one, rest) = first(text)?;
    Some((one, rest.parse().ok()?))
}

/// `<0.0.1> -> <0.1.1>`, and what follows it, if anything.
fn route(text: &str) -> Option<(Pid, Pid, Option<&str>)> {
    let (from, rest) = first(text)?;
    let rest = rest.strip_prefix("-> ")?;
    let (to, rest) = rest.split_once(' ').map_or((rest, None), |(to, rest)| (to, Some(rest)));
    Some((from, to.parse().ok()?, rest))
}

fn sent(text: &str) -> Option<(Pid, Pid, Signal)> {
    let (from, to, rest) = route(text)?;
    Some((from, to, rest?.parse().ok()?))
}

fn yes_or_no(text: &str) -> Option<bool> {
    match text {
        "yes" => Some(true),
        "no" => Some(false),
        _ => None,
    }
}

fn pid(text: &str) -> Option<Pid> {
    let (shard, rest) = text.strip_prefix('<')?.strip_suffix('>')?.split_once('.')?;
    let (slot, version) = rest.split_once('.')?;
    Some(Pid { shard: number(shard)?, slot: number(slot)?, version: number(version)? })
}

fn reference(text: &str) -> Option<Ref> {
    desk_and_number(text, '#').map(|(desk, number)| Ref { desk, number })
}

fn link_id(text: &str) -> Option<LinkId> {
    desk_and_number(text, '~').map(|(desk, number)| LinkId { desk, number })
}

fn ids(text: &str) -> Option<Ids> {
    match text.split_once('+') {
        Some((one, two)) => Some(Ids { one: link_id(one)?, two: Some(link_id(two)?) }),
        None => Some(Ids { one: link_id(text)?, two: None }),
    }
}

fn reason(text: &str) -> Option<Reason> {
    match text {
        "normal" => Some(Reason::Normal),
        "kill" => Some(Reason::Kill),
        "killed" => Some(Reason::Killed),
        "noproc" => Some(Reason::Noproc),
        "shutdown" => Some(Reason::Shutdown),
        _ => text.strip_prefix("other:").and_then(number).map(Reason::Other),
    }
}

fn body(text: &str) -> Option<Body> {
    let (kind, rest) = word(text)?;
    let (num, who) = match rest.split_once(" who ") {
        Some((num, who)) => (num, Some(pid(who)?)),
        None => (rest, None),
    };
    Some(Body { kind: number(kind)?, num: number(num)?, who })
}

fn item(text: &str) -> Option<Item> {
    let (name, rest) = word(text)?;
    match name {
        "user" => pair(rest).map(|(from, body)| Item::User(from, body)),
        "exit" => pair(rest).map(|(from, reason)| Item::Exit(from, reason)),
        "down" => {
            let (monitor, rest) = first(rest)?;
            pair(rest).map(|(from, reason)| Item::Down(monitor, from, reason))
        }
        "alive" => {
            let (question, rest) = first(rest)?;
            let (pid, alive) = first(rest)?;
            yes_or_no(alive).map(|alive| Item::Alive(question, pid, alive))
        }
        _ => None,
    }
}

fn pick(text: &str) -> Option<Pick> {
    if text == "any" {
        return Some(Pick::Any);
    }
    let (name, what) = word(text)?;
    match name {
        "kind" => number(what).map(Pick::Kind),
        "from" => pid(what).map(Pick::From),
        "exit-of" => pid(what).map(Pick::ExitOf),
        "down-of" => reference(what).map(Pick::DownOf),
        "alive-of" => reference(what).map(Pick::AliveOf),
        _ => None,
    }
}

fn signal(text: &str) -> Option<Signal> {
    let (name, rest) = word(text)?;
    match name {
        "message" => body(rest).map(Signal::Message),
        "link" => link_id(rest).map(Signal::Link),
        "unlink" => ids(rest).map(Signal::Unlink),
        "exit" => reason(rest).map(Signal::Exit),
        "link-exit" => pair(rest).map(|(ids, reason)| Signal::LinkExit(ids, reason)),
        "monitor" => reference(rest).map(Signal::Monitor),
        "demonitor" => reference(rest).map(Signal::Demonitor),
        "down" => pair(rest).map(|(monitor, reason)| Signal::Down(monitor, reason)),
        "alive-ask" => reference(rest).map(Signal::AliveAsk),
        "alive-say" => {
            let (question, alive) = first(rest)?;
            yes_or_no(alive).map(|alive| Signal::AliveSay(question, alive))
        }
        _ => None,
    }
}

/// `<0.1.1> by <0.0.1> link ~0.7`, of which the parent and the link may be missing.
fn born(text: &str) -> Option<Happened> {
    let (text, link) = text.split_once(" link ").map_or((text, None), |(text, link)| (text, Some(link)));
    let (child, parent) = text.split_once(" by ").map_or((text, None), |(child, parent)| (child, Some(parent)));
    let parent = parent.map(str::parse).transpose().ok()?;
    let link = link.map(str::parse).transpose().ok()?;
    Some(Happened::Born(pid(child)?, parent, link))
}

/// `<0.0.1> any = user <0.1.1> 1 7`.
fn took(text: &str) -> Option<Happened> {
    let (pid, rest) = first(text)?;
    let (pick, item) = rest.split_once(" = ")?;
    Some(Happened::Took(pid, pick.parse().ok()?, item.parse().ok()?))
}

fn flag(text: &str) -> Option<Happened> {
    let (pid, on) = first(text)?;
    match on {
        "on" => Some(Happened::Flag(pid, true)),
        "off" => Some(Happened::Flag(pid, false)),
        _ => None,
    }
}

fn happened(text: &str) -> Option<Happened> {
    let (name, rest) = word(text)?;
    match name {
        "born" => born(rest),
        "said" => sent(rest).map(|(from, to, signal)| Happened::Said(from, to, signal)),
        "came" => sent(rest).map(|(from, to, signal)| Happened::Came(from, to, signal)),
        "took" => took(rest),
        "flag" => flag(rest),
        "left" => pair(rest).map(|(pid, reason)| Happened::Left(pid, reason)),
        "refused" => match route(rest)? {
            (from, to, None) => Some(Happened::Refused(from, to)),
            _ => None,
        },
        _ => None,
    }
}

fn event(text: &str) -> Option<Event> {
    let (place, happened) = word(text)?;
    let (stamp, desk) = place.split_once('@')?;
    Some(Event { stamp: number(stamp)?, desk: number(desk)?, happened: happened.parse().ok()? })
}

fn left_over(text: &str) -> Option<LeftOver> {
    let (from_desk, rest) = word(text.strip_prefix("left-over ")?)?;
    let (to_desk, rest) = word(rest.strip_prefix("-> ")?)?;
    let (sent_text, stamp) = rest.rsplit_once(" @")?;
    let (from, to, signal) = sent(sent_text)?;
    Some(LeftOver { from_desk: number(from_desk)?, to_desk: number(to_desk)?, from, to, signal, stamp: number(stamp)? })
}

/// `FromStr` by a function of this module, and what an error says that the text is not.
macro_rules! reads {
    ($($(#[$about:meta])* $name:ty, $read:ident, $wanted:literal;)*) => {
        $($(#[$about])*
        impl FromStr for $name {
            type Err = NotRead;

            fn from_str(text: &str) -> Result<$name, NotRead> {
                $read(text).ok_or(NotRead { wanted: $wanted })
            }
        })*
    };
}

reads! {
    /// Reads what `Display` prints, and no other text.
    ///
    /// ```
    /// assert_eq!("<0.7.1>".parse(), Ok(pundewo::Pid { shard: 0, slot: 7, version: 1 }));
    /// let refused = "<0.07.1>".parse::<pundewo::Pid>().unwrap_err();
    /// assert_eq!(refused.to_string(), "the text is not a pid, as <0.7.1>");
    /// ```
    Pid, pid, "a pid, as <0.7.1>";

    /// Reads what `Display` prints, and no other text.
    Ref, reference, "a reference, as #0.7";

    /// Reads what `Display` prints, and no other text.
    LinkId, link_id, "the id of a link, as ~0.7";

    /// Reads what `Display` prints, and no other text.
    Ids, ids, "the ids of a link, as ~0.7 or ~0.7+1.9";

    /// Reads what `Display` prints, and no other text.
    Reason, reason, "an exit reason: normal, kill, killed, noproc, shutdown, or other with a number, as other:7";

    /// Reads what `Display` prints, and no other text.
    Body, body, "what a message holds: a kind, a number, and perhaps a process, as 1 7 who <0.7.1>";

    /// Reads what `Display` prints, and no other text.
    Item, item, "an item: user, exit, down or alive with its words, as exit <0.7.1> normal";

    /// Reads what `Display` prints, and no other text.
    Pick, pick, "a pick: any, or kind, from, exit-of, down-of or alive-of with its word, as kind 1";

    /// Reads what `Display` prints, and no other text.
    Signal, signal, "a signal with its words, as message 1 7 or exit normal";

    /// Reads what `Display` prints, and no other text.
    Happened, happened, "what happened: born, said, came, took, flag, left or refused with its words, as born <0.7.1>";

    /// Reads what `Display` prints, and no other text, so a stored history is read back line by line.
    ///
    /// ```
    /// use pundewo::{Event, Happened, Reason};
    ///
    /// let event: Event = "5@0 left <0.1.1> other:7".parse()?;
    /// assert_eq!((event.stamp, event.desk), (5, 0));
    /// assert_eq!(event.happened, Happened::Left("<0.1.1>".parse()?, Reason::Other(7)));
    /// # Ok::<(), pundewo::NotRead>(())
    /// ```
    Event, event, "an event: its stamp, its desk and what happened, as 5@0 left <0.1.1> normal";

    /// Reads what `Display` prints, and no other text.
    LeftOver, left_over, "a letter left over, as left-over 0 -> 1 <0.0.1> -> <1.0.1> message 1 7 @3";
}
