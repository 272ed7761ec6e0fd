//! What is to be done on a desk at a time. The library's timers say what is due, and are proved; what is to be done lies
//! beside them.

use super::OVER;
use super::hub::micros;
use super::payloads::{drop_quietly, quietly};
use super::worker::Worker;
use crate::{Fault, Fired, Pid, Timers, tools};
use std::time::Duration;

/// A message that is to be sent later: what [`Context::cancel`](super::Context::cancel) takes.
#[derive(Clone, Copy, Debug, PartialEq, Eq, Hash)]
pub struct Timer {
    pub(crate) run: u64,
    pub(crate) desk: u8,
    /// `None` if it was not set.
    pub(crate) key: Option<Key>,
}

/// An alarm: its number among those of its desk, and the place of what is to be done.
#[derive(Clone, Copy, Debug, PartialEq, Eq, Hash)]
pub(crate) struct Key {
    number: u64,
    place: usize,
}

/// What is to be done.
pub(crate) enum Alarm {
    /// To tell a process that the time of its call is over.
    Over(Pid, i64),
    Do(Box<dyn FnOnce(&mut Worker) + Send>),
}

/// An alarm that has not gone off.
struct Waiting {
    number: u64,
    what: Alarm,
    /// Its timer, once the library has it.
    timer: Option<tools::Timer>,
}

/// How many alarms wait for the library at most.
const MOST_NEW: usize = 64;

/// The alarms of a desk.
pub(crate) struct Alarms {
    timers: Timers,
    /// What is to be done, in the places that the timers have as their numbers.
    waiting: Vec<Option<Waiting>>,
    free: Vec<usize>,
    /// Those that the library does not have yet, with their times, in the order in which they were set. It gets them before it
    /// is asked for anything. (most are those of calls, which are cancelled before)
    new: Vec<(u64, Key)>,
    /// How many of these have a time. The others have how long it is from when the clock is read next: so none is early.
    dated: usize,
    /// The number of the last one.
    last: u64,
    /// None is due before this time. (it is asked in each step, and a timer of a call is mostly cancelled)
    none_before: u64,
}

impl Alarms {
    pub(crate) fn new() -> Result<Alarms, Fault> {
        let (timers, waiting, free, new) = (Timers::new()?, Vec::new(), Vec::new(), Vec::new());
        Ok(Alarms { timers, waiting, free, new, dated: 0, last: 0, none_before: u64::MAX })
    }

    /// Sets an alarm, which is so long after the clock is read next.
    fn set(&mut self, after: u64, what: Alarm) -> Key {
        self.last += 1;
        let (number, place) = (self.last, self.free.pop().unwrap_or(self.waiting.len()));
        let (waiting, key) = (Some(Waiting { number, what, timer: None }), Key { number, place });
        match self.waiting.get_mut(place) {
            Some(free) => *free = waiting,
            None => self.waiting.push(waiting),
        }
        self.new.push((after, key));
        key
    }

    /// Whether some have no time yet.
    #[inline]
    pub(crate) fn has_undated(&self) -> bool {
        self.dated < self.new.len()
    }

    /// The clock was read: those that have no time get one.
    pub(crate) fn date(&mut self, now: u64) {
        for (time, _) in &mut self.new[self.dated..] {
            *time = now.saturating_add(*time).saturating_add(1);
            self.none_before = self.none_before.min(*time);
        }
        self.dated = self.new.len();
    }

    /// Gives the library those that it does not have and that have a time.
    fn enter(&mut self) -> Result<(), Fault> {
        let (mut count, mut entered) = (0, Ok(()));
        for &(at, Key { number, place }) in &self.new[..self.dated] {
            if let Some(waiting) = self.waiting[place].as_mut().filter(|it| it.number == number) {
                match self.timers.start(at, place as u64) {
                    Ok(timer) => waiting.timer = Some(timer),
                    Err(fault) => {
                        entered = Err(fault);
                        break;
                    }
                }
            }
            count += 1;
        }
        self.new.drain(..count);
        self.dated -= count;
        entered
    }

    fn take(&mut self, place: usize) -> Option<Waiting> {
        self.free.push(place);
        self.waiting[place].take()
    }

    /// Takes an alarm back, and returns whether it had not gone off.
    pub(crate) fn cancel(&mut self, key: Key) -> bool {
        let is_it = |waiting: &Waiting| waiting.number == key.number;
        if !self.waiting.get(key.place).and_then(Option::as_ref).is_some_and(is_it) {
            return false;
        }
        let timer = self.take(key.place).and_then(|waiting| waiting.timer);
        match timer {
            Some(timer) => _ = self.timers.cancel(timer),
            // (of the others each is passed over as the library gets them)
            None if self.new.last().is_some_and(|(_, last)| *last == key) => _ = self.new.pop(),
            None => {}
        }
        if self.free.len() == self.waiting.len() {
            self.new.clear();
            self.none_before = u64::MAX;
        }
        self.dated = self.dated.min(self.new.len());
        true
    }

    /// Whether there may be one. (else the clock need not be read)
    #[inline]
    pub(crate) fn any(&self) -> bool {
        self.none_before != u64::MAX || self.has_undated()
    }

    /// The time of the earliest that has one.
    pub(crate) fn next(&mut self) -> Option<u64> {
        match self.enter() {
            Ok(()) => self.timers.next(),
            // (without memory those that the library does not have are looked through)
            Err(_) => self.timers.next().into_iter().chain(self.new[..self.dated].iter().map(|&(at, _)| at)).min(),
        }
    }

    /// Takes out the earliest, if its time has come: the one that was set first among those.
    #[inline]
    fn pop_due(&mut self, now: u64) -> Result<Option<Alarm>, Fault> {
        if now < self.none_before { Ok(None) } else { self.pop_if_due(now) }
    }

    fn pop_if_due(&mut self, now: u64) -> Result<Option<Alarm>, Fault> {
        self.enter()?;
        if let Some(Fired { body, .. }) = self.timers.pop_due(now) {
            let waiting = self.take(usize::try_from(body).expect("a place"));
            return Ok(waiting.map(|waiting| waiting.what));
        }
        self.none_before = self.timers.next().unwrap_or(u64::MAX);
        Ok(None)
    }
}

impl Drop for Alarms {
    /// The run is over: what was to be sent is dropped, value by value, as some may panic by that.
    fn drop(&mut self) {
        self.waiting.drain(..).for_each(drop_quietly);
    }
}

impl Worker {
    /// Sets an alarm, which goes off when so much has gone by, at the earliest. If there is no memory for those that were set
    /// before, the run halts.
    pub(crate) fn set_alarm(&mut self, time: Duration, alarm: Alarm) -> Result<Key, Fault> {
        if self.alarms.new.len() >= MOST_NEW {
            self.read_clock();
            let entered = self.alarms.enter();
            self.noted(entered)?;
        }
        let key = self.alarms.set(micros(time), alarm);
        self.alarm_set();
        Ok(key)
    }

    /// Does what was to be done by this time.
    #[inline(always)]
    pub(crate) fn go_off(&mut self, now: u64) -> bool {
        let mut some = false;
        while self.go_off_one(now) {
            some = true;
        }
        some
    }

    /// Does the earliest of what was to be done by this time, if there is some.
    #[inline]
    pub(super) fn go_off_one(&mut self, now: u64) -> bool {
        let due = self.alarms.pop_due(now);
        match self.noted(due) {
            Ok(Some(Alarm::Over(pid, number))) => self.tell_process(pid, OVER, number),
            Ok(Some(Alarm::Do(work))) => _ = quietly(|| work(self)),
            Ok(None) | Err(_) => return false,
        }
        true
    }
}

#[cfg(test)]
mod tests {
    use super::{Alarm, Alarms, MOST_NEW};
    use crate::Pid;

    #[test]
    fn alarms_go_off_as_those_of_a_list() {
        let (mut alarms, mut list, mut seed, mut now) = (Alarms::new().expect("memory"), Vec::new(), 7_u64, 0);
        // (those that were set since the clock was read)
        let mut undated = Vec::new();
        for step in 0_i64..20_000 {
            seed = seed.wrapping_mul(6_364_136_223_846_793_005).wrapping_add(1);
            let number = (seed >> 33) as usize;
            match seed >> 60 {
                0..=6 => {
                    if alarms.new.len() >= MOST_NEW {
                        alarms.date(now);
                        list.append(&mut undated);
                        alarms.enter().expect("memory");
                    }
                    let after = (number % 50) as u64;
                    let key = alarms.set(after, Alarm::Over(Pid::default(), step));
                    undated.push((now + after + 1, step, key));
                }
                7..=9 if !list.is_empty() => {
                    let (_, _, key) = list.remove(number % list.len());
                    assert!(alarms.cancel(key) && !alarms.cancel(key));
                }
                10..=11 if !undated.is_empty() => {
                    let (_, _, key) = undated.remove(number % undated.len());
                    assert!(alarms.cancel(key) && !alarms.cancel(key));
                }
                12 => assert_eq!(alarms.next(), list.iter().map(|(at, ..)| *at).min()),
                _ => {
                    // (time goes by only once the clock was read, so that the list knows the times)
                    alarms.date(now);
                    list.append(&mut undated);
                    now += (number % 8) as u64;
                    let first = (0..list.len()).min_by_key(|&place| (list[place].0, list[place].1));
                    let first = first.filter(|&place| list[place].0 <= now).map(|place| list.remove(place));
                    match (alarms.pop_due(now).expect("memory"), first) {
                        (Some(Alarm::Over(_, it)), Some((_, step, key))) => assert!(it == step && !alarms.cancel(key)),
                        (due, first) => assert_eq!((due.is_some(), first), (false, None)),
                    }
                }
            }
            assert!(list.iter().all(|(at, ..)| alarms.any() && alarms.none_before <= *at));
            assert!(undated.is_empty() || alarms.any() && alarms.has_undated());
            let count = list.len() + undated.len();
            assert!(alarms.new.len() <= MOST_NEW && alarms.waiting.len() - alarms.free.len() == count);
        }
    }
}
