//! The thread of a desk, one pace at a time: what [`trial`](crate::trial) runs in its place. Each pace is what a thread takes as
//! one, and does it by the same calls.

use super::hub::{END, Hub};
use super::inbox::Task;
use super::worker::{MOST, Worker};
use crate::crew::Job;
use crate::{Desk, Happened, Item, Pid, Signal, Turned};
use std::any::Any;
use std::cell::Cell;
use std::collections::VecDeque;
use std::hash::{Hash, Hasher};
use std::sync::Arc;
use std::sync::atomic::{AtomicBool, Ordering::Relaxed};

thread_local! {
    /// Whether this thread runs a trial.
    static IN_TRIAL: Cell<bool> = const { Cell::new(false) };
    /// What was touched by the pace that is taken.
    static TOUCHED: Cell<u64> = const { Cell::new(0) };
}

/// Whether there was a trial. (so that nothing else is asked of a thread without one)
static TRIALS: AtomicBool = AtomicBool::new(false);

/// The bit of names and groups. Below it each desk has one.
pub(crate) const NAMES: u64 = 1 << 63;
/// All that there is.
pub(crate) const ALL: u64 = u64::MAX;

/// Whether this thread runs a trial, in which nothing may wait.
pub(crate) fn is_trial() -> bool {
    TRIALS.load(Relaxed) && IN_TRIAL.get()
}

/// A call of a trial would wait for what its own thread has to do.
pub(crate) fn no_wait(call: &str, instead: &str) -> ! {
    panic!("a trial has one thread, and {call} would wait: take {instead}")
}

/// Says whether this thread runs a trial, and returns whether it did.
pub(crate) fn set_trial(on: bool) -> bool {
    TRIALS.fetch_or(on, Relaxed);
    IN_TRIAL.replace(on)
}

/// Notes what is touched beside the table, if that is a trial's.
#[inline]
pub(crate) fn touch(what: u64) {
    if TRIALS.load(Relaxed) {
        note_touched(what);
    }
}

#[cold]
fn note_touched(what: u64) {
    TOUCHED.set(TOUCHED.get() | what);
}

/// What a thread does next, in the order in which it does it.
#[derive(Clone, Copy, Debug, PartialEq, Eq, PartialOrd, Ord, Hash)]
pub(crate) enum Pace {
    /// One task of the inbox. With the first of them it takes all that are there.
    Task,
    /// One alarm that is due, or an order of those outside.
    Alarm,
    /// It posts its letters.
    Post,
    /// It handles one letter: the oldest that came from this desk.
    Letter(u8),
    /// It runs one handler. With the first of them it has the crew say who has something to do.
    Job,
    /// One task of those that the scenario has given: the thread outside may be slow.
    Outside,
}

const LOOP: [Pace; 5] = [Pace::Task, Pace::Alarm, Pace::Post, Pace::Letter(0), Pace::Job];

impl Pace {
    /// Where in the loop a thread takes it.
    const fn place(self) -> usize {
        match self {
            Pace::Task | Pace::Outside => 0,
            Pace::Alarm => 1,
            Pace::Post => 2,
            Pace::Letter(_) => LETTER,
            Pace::Job => 4,
        }
    }
}

/// The place of letters in the loop.
const LETTER: usize = 3;

/// What a pace did.
#[derive(Clone, Copy, Debug, PartialEq, Eq)]
pub(crate) struct Paced {
    /// The desks and other things that it changed or that two may not touch in either order, a bit for each.
    pub(crate) touched: u64,
    /// The desks to which it posted, or where it looked whether a process lives.
    pub(crate) met: u64,
    /// Whether it handled a letter, by which a lane has room.
    pub(crate) made_room: bool,
    /// A number for what happened, by which two runs are compared.
    pub(crate) print: u64,
}

/// The thread of a desk.
pub(crate) struct Paces {
    pub(crate) worker: Worker,
    /// The tasks that it took out of the inbox.
    taken: VecDeque<Task>,
    outside: VecDeque<Task>,
    jobs: VecDeque<Job>,
    /// Where in its loop the thread may be, a bit for each pace: an idle thread is anywhere.
    may: u8,
    /// Whether it has posted all that the lanes have room for.
    pub(crate) is_short: bool,
    /// The desks that have posted here and elsewhere by one pace, and have done nothing since: their threads may not have come to
    /// this desk yet.
    pub(crate) fresh: u64,
    /// The desks whose letters were in their lanes when it was last looked.
    lanes: u64,
    /// Whether it did something in this round of its loop.
    did: bool,
    /// How many rounds it has done.
    pub(crate) rounds: u64,
}

impl Paces {
    pub(crate) fn new(worker: Worker) -> Paces {
        let (taken, outside, jobs) = (VecDeque::new(), VecDeque::new(), VecDeque::new());
        Paces { worker, taken, outside, jobs, may: 1, is_short: false, fresh: 0, lanes: 0, did: false, rounds: 0 }
    }

    /// What the scenario has given the desk to do comes at any time from here on.
    pub(crate) fn hold_outside(&mut self) {
        self.outside.append(&mut self.worker.place().take());
    }

    /// Whether a pace is to be taken, where the thread comes to it.
    fn is_there(&mut self, pace: Pace) -> bool {
        let worker = &mut self.worker;
        match pace {
            Pace::Task => !self.taken.is_empty() || worker.place().tasks() > 0,
            Pace::Alarm => worker.next_alarm().is_some_and(|at| at <= worker.hub.now()) || is_told(worker),
            // (a desk in which no letter waits is asked no more)
            Pace::Post => !self.is_short && worker.desk().pending() != 0 && worker.desk().letters_out() != 0,
            Pace::Letter(_) => {
                self.lanes = self.lanes();
                self.lanes & !self.fresh != 0
            }
            Pace::Job => !self.jobs.is_empty() || self.has_to_deal(self.worker.hub.now()),
            Pace::Outside => !self.outside.is_empty() && self.taken.is_empty(),
        }
    }

    /// Whether the crew may have something to do, a supervisor was asked, or a child waits for its link.
    fn has_to_deal(&mut self, now: u64) -> bool {
        let worker = &mut self.worker;
        let is_idle = worker.desk.as_ref().is_none_or(|desk| worker.crew.is_idle(desk).expect("the crew of this desk"));
        let is_due = worker.crew.next_time().is_some_and(|at| at <= now);
        let has_family = !(worker.supervisions.is_empty() && worker.left.is_empty() && worker.arriving.is_empty());
        !is_idle || is_due || self.did && has_family
    }

    /// The desks whose letters are in their lanes to this one.
    pub(crate) fn lanes(&mut self) -> u64 {
        let Some(first) = self.worker.desk().next_from() else { return 0 };
        let (desks, mut lanes, mut from) = (self.worker.hub.places.len() as u8, 0, 0);
        while from < desks {
            self.worker.desk().look_from(from);
            match self.worker.desk().next_from() {
                Some(lane) if lane >= from => (lanes, from) = (lanes | 1 << lane, lane + 1),
                _ => break,
            }
        }
        lanes | 1 << first
    }

    /// The paces that the thread may take now, wherever it is. Of what it passes over nothing is there.
    pub(crate) fn ready(&mut self, ready: &mut Vec<Pace>) {
        ready.clear();
        self.lanes = 0;
        let mut there = [None; LOOP.len()];
        // (a letter that was sent as one was handled is posted before the next one is)
        if self.may & bit(LETTER) != 0 && self.finds(&mut there, Pace::Post) {
            self.may |= bit(Pace::Post.place());
        }
        for pace in LOOP.into_iter().chain(LOOP) {
            if self.may & bit(pace.place()) != 0 && !self.finds(&mut there, pace) {
                self.may |= bit((pace.place() + 1) % LOOP.len());
            }
        }
        let posts = there[Pace::Post.place()] == Some(true);
        for pace in LOOP.into_iter().filter(|pace| self.may & bit(pace.place()) != 0) {
            match pace {
                Pace::Letter(_) if posts => {}
                Pace::Letter(_) => ready.extend((0..64).filter(|lane| self.lanes >> lane & 1 == 1).map(Pace::Letter)),
                _ if there[pace.place()] == Some(true) => ready.push(pace),
                _ => {}
            }
        }
        if self.may & bit(Pace::Task.place()) != 0 && self.is_there(Pace::Outside) {
            ready.push(Pace::Outside);
        }
    }

    /// Whether a pace is to be taken, which is asked once.
    fn finds(&mut self, there: &mut [Option<bool>; LOOP.len()], pace: Pace) -> bool {
        *there[pace.place()].get_or_insert_with(|| self.is_there(pace))
    }

    /// The earliest time at which something is to be done.
    pub(crate) fn next_time(&mut self) -> Option<u64> {
        [self.worker.crew.next_time(), self.worker.next_alarm()].into_iter().flatten().min()
    }

    /// Takes a pace.
    pub(crate) fn take(&mut self, pace: Pace) -> Paced {
        TOUCHED.set(0);
        let from = self.worker.desk().event_count();
        let out = if self.worker.desk().pending() != 0 { self.worker.desk().letters_out() } else { 0 };
        let turned = self.take_as(pace);
        // (a turn or a step posts what waited as it began)
        let out = if turned.posted > 0 { out } else { 0 };
        self.post_to_itself();
        let touched = TOUCHED.get() | 1 << self.worker.number;
        let (seen, print) = self.seen(from);
        Paced { touched, met: seen | out, made_room: turned.handled > 0, print }
    }

    /// Posts its letters if all are for processes of its own, as it does before it looks for one: nobody else sees that.
    fn post_to_itself(&mut self) {
        let worker = &mut self.worker;
        if !self.is_short && worker.desk().pending() != 0 && worker.desk().letters_out() == 1 << worker.number {
            worker.desk().turn(0);
            self.is_short = worker.desk().letters_out() != 0;
        }
    }

    fn take_as(&mut self, pace: Pace) -> Turned {
        let mut turned = Turned { posted: 0, handled: 0, stopped: None };
        match pace {
            Pace::Task => self.task(),
            Pace::Alarm => self.alarm(),
            Pace::Post => {
                turned = self.worker.desk().turn(0);
                self.is_short = self.worker.desk().letters_out() != 0;
                self.may = bit(LETTER);
            }
            Pace::Letter(from) => {
                self.worker.desk().look_from(from);
                turned = self.worker.desk().turn(1);
                self.may = bit(LETTER);
            }
            Pace::Job => turned = self.job(),
            Pace::Outside => {
                let task = self.outside.pop_front().expect("a task of the scenario");
                _ = self.worker.perform_one(task);
            }
        }
        self.did |= pace != Pace::Job;
        turned
    }

    fn task(&mut self) {
        if self.taken.is_empty() {
            self.taken = self.worker.place().take();
        }
        let task = self.taken.pop_front().expect("a task");
        _ = self.worker.perform_one(task);
        self.may = bit(if self.taken.is_empty() { Pace::Alarm.place() } else { Pace::Task.place() });
    }

    fn alarm(&mut self) {
        if !self.worker.go_off_one(self.worker.hub.now()) {
            self.worker.tell_order();
        }
        self.may = bit(Pace::Alarm.place());
    }

    /// Runs the next handler. If there is none, the crew says who has something to do.
    fn job(&mut self) -> Turned {
        let mut turned = Turned { posted: 0, handled: 0, stopped: None };
        if self.jobs.is_empty() {
            self.worker.crew.set_time(self.worker.hub.now());
            // (each of the crew has one job at most)
            let most = MOST.min(self.worker.crew.len() + 1);
            let (stepped, count) = self.worker.hand_out(0, most);
            turned = stepped;
            self.jobs.extend(self.worker.handed(count));
        }
        if let Some(job) = self.jobs.pop_front() {
            self.worker.tell(&job);
        }
        self.may = bit(Pace::Job.place());
        if self.jobs.is_empty() {
            self.worker.answer();
            self.worker.begin_linked();
            self.worker.serve_all();
            (self.may, self.did) = (bit(Pace::Task.place()), false);
            self.rounds += 1;
        }
        turned
    }

    /// The desks after whose processes the table looked in the events from this one on, and a number for these events.
    fn seen(&mut self, from: usize) -> (u64, u64) {
        let mut hasher = Print::new();
        let mut seen = 0;
        for event in self.worker.desk().events(from) {
            if let Happened::Said(_, to, _) | Happened::Refused(_, to) = event.happened {
                seen |= 1 << to.shard;
            }
            (event.stamp, nameless(event.happened)).hash(&mut hasher);
        }
        (seen, hasher.finish())
    }

    /// The behaviour of a process of this desk, unless its handler runs.
    pub(crate) fn behaviour(&self, pid: Pid) -> Option<&dyn Any> {
        let seat = self.worker.seats.iter().flatten().find(|seat| seat.pid == pid)?;
        seat.actor.as_deref().map(|actor| actor.behaviour())
    }

    /// The desk, until the history of the run was taken.
    pub(crate) fn desk(&self) -> Option<&Desk> {
        self.worker.desk.as_ref()
    }

    /// Whether the desk had no memory or no stamp.
    pub(crate) fn has_fault(&self) -> bool {
        self.worker.fault.is_some()
    }
}

const fn bit(place: usize) -> u8 {
    1 << place
}

/// Whether there is an order that the processes of the desk were not told.
fn is_told(worker: &Worker) -> bool {
    let order = worker.hub.order();
    order > worker.told && order > END
}

/// How many tasks wait in each inbox.
pub(crate) fn count_tasks(hub: &Arc<Hub>, counts: &mut Vec<usize>) {
    counts.clear();
    counts.extend(hub.places.iter().map(|place| place.tasks()));
}

/// A number for what happens, made in little time: FNV-1a over words.
struct Print(u64);

impl Print {
    fn new() -> Print {
        Print(0xcbf2_9ce4_8422_2325)
    }
}

impl Hasher for Print {
    fn finish(&self) -> u64 {
        self.0
    }

    fn write(&mut self, bytes: &[u8]) {
        bytes.iter().for_each(|&byte| self.write_u64(byte.into()));
    }

    fn write_u8(&mut self, number: u8) {
        self.write_u64(number.into());
    }

    fn write_u32(&mut self, number: u32) {
        self.write_u64(number.into());
    }

    fn write_u64(&mut self, number: u64) {
        self.0 = (self.0 ^ number).wrapping_mul(0x0000_0100_0000_01b3);
    }

    fn write_i64(&mut self, number: i64) {
        self.write_u64(u64::from_ne_bytes(number.to_ne_bytes()));
    }

    fn write_usize(&mut self, number: usize) {
        self.write_u64(number as u64);
    }
}

/// What happened, without the numbers that calls have in all of the program.
fn nameless(mut happened: Happened) -> Happened {
    match &mut happened {
        Happened::Said(.., Signal::Message(body)) | Happened::Came(.., Signal::Message(body)) if body.num < 0 => {
            body.num = -1;
        }
        Happened::Took(.., Item::User(_, body)) if body.num < 0 => body.num = -1,
        _ => {}
    }
    happened
}
