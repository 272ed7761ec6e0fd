//! Printed texts read back: random values of each type, and each text with a random slip in it, which is refused or is
//! the printed text of another value.

use pundewo::{Body, Event, Happened, Ids, Item, LeftOver, LinkId, NotRead, Pick, Pid, Reason, Ref, Signal};
use std::fmt::{Debug, Display};
use std::str::FromStr;

const ROUNDS: usize = 2_000;
const SLIPS: usize = 20;

/// Random numbers by xorshift, the same in each run.
struct Draw(u64);

impl Draw {
    fn number(&mut self) -> u64 {
        self.0 ^= self.0 << 13;
        self.0 ^= self.0 >> 7;
        self.0 ^= self.0 << 17;
        self.0
    }

    fn below(&mut self, most: usize) -> usize {
        (self.number() % most as u64) as usize
    }

    fn flip(&mut self) -> bool {
        self.below(2) == 0
    }

    fn option<T>(&mut self, value: impl FnOnce(&mut Draw) -> T) -> Option<T> {
        self.flip().then(|| value(self))
    }

    /// A number of any length, often at a bound.
    fn long(&mut self) -> u64 {
        match self.below(6) {
            0 => 0,
            1 => u64::MAX,
            _ => self.number() >> self.below(64),
        }
    }

    fn word(&mut self) -> u32 {
        let long = self.long();
        if long == u64::MAX { u32::MAX } else { long as u32 }
    }

    fn byte(&mut self) -> u8 {
        self.long() as u8
    }
}

/// A type of values, of which one can be drawn.
trait Drawn: Copy + Debug + Display + PartialEq + FromStr<Err = NotRead> {
    fn draw(draw: &mut Draw) -> Self;
}

impl Drawn for Pid {
    fn draw(draw: &mut Draw) -> Pid {
        Pid { shard: draw.byte(), slot: draw.word(), version: draw.word() }
    }
}

impl Drawn for Ref {
    fn draw(draw: &mut Draw) -> Ref {
        Ref { desk: draw.byte(), number: draw.long() }
    }
}

impl Drawn for LinkId {
    fn draw(draw: &mut Draw) -> LinkId {
        LinkId { desk: draw.byte(), number: draw.long() }
    }
}

impl Drawn for Ids {
    fn draw(draw: &mut Draw) -> Ids {
        Ids { one: LinkId::draw(draw), two: draw.option(LinkId::draw) }
    }
}

impl Drawn for Reason {
    fn draw(draw: &mut Draw) -> Reason {
        match draw.below(6) {
            0 => Reason::Normal,
            1 => Reason::Kill,
            2 => Reason::Killed,
            3 => Reason::Noproc,
            4 => Reason::Shutdown,
            _ => Reason::Other(draw.word()),
        }
    }
}

impl Drawn for Body {
    fn draw(draw: &mut Draw) -> Body {
        let num = draw.long() as i64;
        let num = if draw.below(20) == 0 { i64::MIN } else { num };
        Body { kind: draw.word(), num, who: draw.option(Pid::draw) }
    }
}

impl Drawn for Item {
    fn draw(draw: &mut Draw) -> Item {
        match draw.below(4) {
            0 => Item::User(Pid::draw(draw), Body::draw(draw)),
            1 => Item::Exit(Pid::draw(draw), Reason::draw(draw)),
            2 => Item::Down(Ref::draw(draw), Pid::draw(draw), Reason::draw(draw)),
            _ => Item::Alive(Ref::draw(draw), Pid::draw(draw), draw.flip()),
        }
    }
}

impl Drawn for Pick {
    fn draw(draw: &mut Draw) -> Pick {
        match draw.below(6) {
            0 => Pick::Any,
            1 => Pick::Kind(draw.word()),
            2 => Pick::From(Pid::draw(draw)),
            3 => Pick::ExitOf(Pid::draw(draw)),
            4 => Pick::DownOf(Ref::draw(draw)),
            _ => Pick::AliveOf(Ref::draw(draw)),
        }
    }
}

impl Drawn for Signal {
    fn draw(draw: &mut Draw) -> Signal {
        match draw.below(10) {
            0 => Signal::Message(Body::draw(draw)),
            1 => Signal::Link(LinkId::draw(draw)),
            2 => Signal::Unlink(Ids::draw(draw)),
            3 => Signal::Exit(Reason::draw(draw)),
            4 => Signal::LinkExit(Ids::draw(draw), Reason::draw(draw)),
            5 => Signal::Monitor(Ref::draw(draw)),
            6 => Signal::Demonitor(Ref::draw(draw)),
            7 => Signal::Down(Ref::draw(draw), Reason::draw(draw)),
            8 => Signal::AliveAsk(Ref::draw(draw)),
            _ => Signal::AliveSay(Ref::draw(draw), draw.flip()),
        }
    }
}

impl Drawn for Happened {
    fn draw(draw: &mut Draw) -> Happened {
        let (one, other) = (Pid::draw(draw), Pid::draw(draw));
        match draw.below(7) {
            0 => Happened::Born(one, draw.option(Pid::draw), draw.option(LinkId::draw)),
            1 => Happened::Said(one, other, Signal::draw(draw)),
            2 => Happened::Came(one, other, Signal::draw(draw)),
            3 => Happened::Took(one, Pick::draw(draw), Item::draw(draw)),
            4 => Happened::Flag(one, draw.flip()),
            5 => Happened::Left(one, Reason::draw(draw)),
            _ => Happened::Refused(one, other),
        }
    }
}

impl Drawn for Event {
    fn draw(draw: &mut Draw) -> Event {
        Event { stamp: draw.long(), desk: draw.byte(), happened: Happened::draw(draw) }
    }
}

impl Drawn for LeftOver {
    fn draw(draw: &mut Draw) -> LeftOver {
        LeftOver {
            from_desk: draw.byte(),
            to_desk: draw.byte(),
            from: Pid::draw(draw),
            to: Pid::draw(draw),
            signal: Signal::draw(draw),
            stamp: draw.long(),
        }
    }
}

/// The text with a slip: a letter that is missing, doubled or another one, or a part that is missing, doubled or of
/// another text.
fn slip(draw: &mut Draw, text: &str, other: &str) -> String {
    const LETTERS: [char; 18] =
        ['0', '1', '9', '+', '-', '.', '<', '>', '#', '~', ' ', '@', ':', '=', 'a', 'A', '\n', '\u{661}'];
    let mut letters: Vec<char> = text.chars().collect();
    let at = draw.below(letters.len());
    match draw.below(6) {
        0 => drop(letters.remove(at)),
        1 => letters.insert(at, letters[at]),
        2 => letters[at] = LETTERS[draw.below(LETTERS.len())],
        3 => letters.insert(at, LETTERS[draw.below(LETTERS.len())]),
        4 => letters.truncate(at),
        _ => {
            let mut words: Vec<&str> = text.split(' ').collect();
            let place = draw.below(words.len());
            match draw.below(3) {
                0 => drop(words.remove(place)),
                1 => words.insert(place, words[place]),
                _ => words[place] = other.split(' ').next_back().unwrap_or("any"),
            }
            return words.join(" ");
        }
    }
    letters.into_iter().collect()
}

/// Reads each drawn value's text back, and each text with a slip. Returns how many of those were refused.
fn play<T: Drawn>(draw: &mut Draw) -> usize {
    let mut refused = 0;
    for _ in 0..ROUNDS {
        let value = T::draw(draw);
        let text = value.to_string();
        assert_eq!(text.parse(), Ok(value), "{text}");
        let other = T::draw(draw).to_string();
        for _ in 0..SLIPS {
            let slipped = slip(draw, &text, &other);
            match slipped.parse::<T>() {
                Ok(read) => assert_eq!(read.to_string(), slipped, "another text was read"),
                Err(why) => {
                    assert!(why.to_string().starts_with("the text is not "), "{why}");
                    refused += 1;
                }
            }
        }
    }
    refused
}

#[test]
fn random_values_read_back_and_slips_are_refused() {
    let mut draw = Draw(0x9E37_79B9_7F4A_7C15);
    let refused = [
        play::<Pid>(&mut draw),
        play::<Ref>(&mut draw),
        play::<LinkId>(&mut draw),
        play::<Ids>(&mut draw),
        play::<Reason>(&mut draw),
        play::<Body>(&mut draw),
        play::<Item>(&mut draw),
        play::<Pick>(&mut draw),
        play::<Signal>(&mut draw),
        play::<Happened>(&mut draw),
        play::<Event>(&mut draw),
        play::<LeftOver>(&mut draw),
    ];
    for count in refused {
        assert!(count > ROUNDS * SLIPS / 10, "{refused:?}");
    }
}

#[test]
fn an_error_says_what_the_text_is_not() {
    let why = |text: &str| text.parse::<Event>().unwrap_err().to_string();
    assert_eq!(
        why("5@0 gone <0.0.1>"),
        "the text is not an event: its stamp, its desk and what happened, as 5@0 left <0.1.1> normal"
    );
    assert_eq!(
        "any 1".parse::<Pick>().unwrap_err().to_string(),
        "the text is not a pick: any, or kind, from, exit-of, down-of or alive-of with its word, as kind 1"
    );
}
