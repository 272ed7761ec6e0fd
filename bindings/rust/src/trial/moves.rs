//! The moves of a run, and how a schedule is written.

use crate::Pid;
use std::fmt;
use std::str::FromStr;

/// A choice of a schedule.
#[derive(Clone, Copy, Debug, PartialEq, Eq, PartialOrd, Ord, Hash)]
pub enum Move {
    /// The next move of a desk. Where its thread may be in several places, this is the number of the move among those.
    Desk(u8, u8),
    /// Time goes on, though something is to be done.
    Time,
    /// A process is killed.
    Kill(Pid),
}

impl fmt::Display for Move {
    fn fmt(&self, f: &mut fmt::Formatter<'_>) -> fmt::Result {
        match self {
            Move::Desk(desk, place) => {
                write!(f, "{desk}")?;
                (0..*place).try_for_each(|_| f.write_str("'"))
            }
            Move::Time => f.write_str("t"),
            Move::Kill(pid) => write!(f, "k{pid}"),
        }
    }
}

/// A text that is no schedule.
#[derive(Clone, Debug, PartialEq, Eq, Hash)]
pub struct NotSchedule(String);

impl fmt::Display for NotSchedule {
    fn fmt(&self, f: &mut fmt::Formatter<'_>) -> fmt::Result {
        write!(f, "'{}' is no move of a schedule, such as 0, 1', t or k<0.1.1>", self.0)
    }
}

impl std::error::Error for NotSchedule {}

impl FromStr for Move {
    type Err = NotSchedule;

    fn from_str(text: &str) -> Result<Move, NotSchedule> {
        let wrong = || NotSchedule(text.into());
        if text == "t" {
            return Ok(Move::Time);
        }
        if let Some(pid) = text.strip_prefix('k') {
            return pid.parse().map(Move::Kill).map_err(|_| wrong());
        }
        let desk = text.trim_end_matches('\'');
        let place = u8::try_from(text.len() - desk.len()).map_err(|_| wrong())?;
        desk.parse().map(|desk| Move::Desk(desk, place)).map_err(|_| wrong())
    }
}

/// The moves of a run, in order. Behind them a run goes on by itself: with the desk of the last move while it has something to
/// do, and then with the first desk that has.
#[derive(Clone, Debug, Default, PartialEq, Eq, PartialOrd, Ord, Hash)]
pub struct Schedule(pub Vec<Move>);

impl fmt::Display for Schedule {
    fn fmt(&self, f: &mut fmt::Formatter<'_>) -> fmt::Result {
        for (place, it) in self.0.iter().enumerate() {
            write!(f, "{}{it}", if place == 0 { "" } else { " " })?;
        }
        Ok(())
    }
}

impl FromStr for Schedule {
    type Err = NotSchedule;

    fn from_str(text: &str) -> Result<Schedule, NotSchedule> {
        text.split_whitespace().map(str::parse).collect::<Result<_, _>>().map(Schedule)
    }
}
