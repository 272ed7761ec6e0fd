//! The thread of a desk: it runs the handlers of the desk's processes, and rests while nothing is to be done.

use super::PANIC;
use super::address::Address;
use super::asked::tell_dropped;
use super::behaviour::{Behaviour, Bound};
use super::elsewhere::Sent;
use super::hub::{END, GO_ON, Hub, KILL, Origin};
use super::inbox::{Place, Task};
use super::observing::Record;
use super::payloads::{News, Values, drop_quietly, quietly};
use super::process::{Actor, Process};
use super::report::Report;
use super::supervision::Supervision;
use super::timing::Alarms;
use crate::crew::{Crew, Job, Next, What};
use crate::{Body, Desk, Fault, Item, Pid, Reason, Turned};
use std::any::Any;
use std::collections::HashMap;
use std::panic::{AssertUnwindSafe, catch_unwind};
use std::sync::Arc;
use std::sync::atomic::Ordering::SeqCst;
use std::time::Instant;

/// How many letters a turn handles at most, and how many jobs a step has.
const BUDGET: u32 = 256;
pub(super) const MOST: usize = 256;
/// After how many rounds at most a thread looks for what is seldom there, and how long a journal may be at least for that.
const ROUNDS: u32 = 8;
const LONG: usize = 4_096;
/// For how many jobs at most a reading of the clock serves a thread that does not rest meanwhile, and as how many a round counts
/// besides.
const SERVES: usize = 64;
const ROUND: usize = 8;
/// For how long it should serve at most, in microseconds. (where jobs take longer, the clock is read in each round)
const STALE: u64 = 5_000;

/// The tag of a supervisor that the library runs.
pub(crate) const SUPERVISOR: u64 = 1 << 62;
/// What the tag of a child of a supervisor has beside its place there.
pub(crate) const CHILD: u64 = 1 << 63;
/// The tag of a process that stands for a child on another desk than its supervisor's, which was not made.
pub(crate) const HOLLOW: u64 = SUPERVISOR + 1;

/// Who spawned a process.
#[derive(Clone, Copy)]
pub(crate) enum Parent {
    Outside,
    Process {
        pid: Pid,
        linked: bool,
    },
    /// A supervisor of the crew.
    Supervisor(Pid),
    /// A supervisor of the crew of another desk, which lives. It has the process in this place.
    Elsewhere {
        supervisor: Pid,
        place: u64,
    },
}

impl Parent {
    pub(super) fn pid(self) -> Option<Pid> {
        match self {
            Parent::Outside => None,
            Parent::Process { pid, .. } | Parent::Supervisor(pid) => Some(pid),
            Parent::Elsewhere { supervisor, .. } => Some(supervisor),
        }
    }
}

/// What a behaviour says of its process before it begins.
pub(crate) struct Setup {
    bound: Bound,
    traps_exits: bool,
}

impl Setup {
    /// It may panic, as the behaviour does.
    pub(crate) fn of<B: Behaviour>(behaviour: &B) -> Setup {
        Setup { bound: behaviour.most_waiting(), traps_exits: behaviour.traps_exits() }
    }
}

/// A process of the desk. Its tag is its place among the seats, unless a supervisor has spawned it.
pub(super) struct Seat {
    pub(super) pid: Pid,
    pub(super) parent: Parent,
    /// The order that it was told.
    pub(super) told: u8,
    /// Whether its handler has panicked.
    pub(super) crashed: bool,
    /// `None` while its handler runs.
    pub(super) actor: Option<Box<dyn Actor>>,
}

/// What the thread of a desk has.
pub(crate) struct Worker {
    pub(crate) hub: Arc<Hub>,
    pub(crate) number: u8,
    /// Whether the node has other desks.
    has_others: bool,
    /// The place of the desk, which is among those of the hub.
    home: Arc<Place>,
    /// The process in whose name things are sent from outside.
    pub(crate) porter: Pid,
    pub(crate) alarms: Alarms,
    // `None` only in a meeting and when the run is over
    pub(super) desk: Option<Desk>,
    pub(super) crew: Crew,
    /// How many slots the desk has for those that are known outside.
    pub(super) slots: usize,
    pub(super) seats: Vec<Option<Seat>>,
    pub(super) free: Vec<usize>,
    /// The versions and the places of those that have or had a seat, by their slots: the last one of each slot.
    pub(super) by_slot: Vec<(u32, usize)>,
    /// The places of those whose slot another one has already, since they have exited, and their exits were not told.
    pub(super) before: Vec<usize>,
    /// The supervisors that live.
    pub(super) supervisions: HashMap<Pid, Supervision>,
    /// Those of which something was asked that is not done.
    pub(super) asked: Vec<Pid>,
    /// Those that have exited.
    pub(super) left: Vec<Supervision>,
    /// Those that may want a child on another desk.
    pub(super) wanting: Vec<Pid>,
    /// What is told to children once one in front of them, which is on another desk, has begun.
    pub(super) early: Vec<Job>,
    /// The children of supervisors of other desks that have not begun yet.
    pub(super) arriving: HashMap<Pid, Sent>,
    /// The order that all processes were told.
    pub(super) told: u8,
    pub(super) fault: Option<Fault>,
    /// After how many more rounds it looks for what is seldom there, and how many these are at most.
    rounds: u32,
    most_rounds: u32,
    /// How many jobs the last step had. If these are as many as a step has at most, there may be more.
    told_last: usize,
    /// Whether a process has exited of which the crew has not told, and whether none is to do so before the threads meet.
    has_left: bool,
    meets: bool,
    /// Whether the desk is that of a node that has just gone on.
    pub(super) resumed: bool,
    /// Whether a round is to do more than its step. (else it looks for nothing else, unless it was rung)
    pub(super) looks: bool,
    /// Whether anything may be to do at a time.
    pub(super) is_timed: bool,
    /// Whether a process may wait until a time. (else the crew need not be told what time it is)
    timed: bool,
    /// What the clock said as it was read last, and for how many jobs more that is what time it is.
    read: u64,
    serves: usize,
    /// For how many jobs that reading served from the first: fewer where they take long.
    most_serves: usize,
    /// The exits of which the losses tell that were taken since the last step, in order, and the place of the next one that is
    /// asked for.
    pub(super) exits: Vec<(Pid, Reason)>,
    pub(super) next_exit: usize,
    /// What it counts.
    pub(crate) record: Record,
}

impl Worker {
    pub(crate) fn new(hub: &Arc<Hub>, mut desk: Desk, slots: u32) -> Result<Worker, Fault> {
        let (number, crew, porter) = (desk.number(), Crew::new(&desk)?, desk.spawn()?);
        desk.keep_losses(true);
        let _ = hub.places[usize::from(number)].porter.set(porter);
        Ok(Worker {
            hub: hub.clone(),
            number,
            has_others: hub.places.len() > 1,
            home: hub.places[usize::from(number)].clone(),
            porter,
            alarms: Alarms::new()?,
            desk: Some(desk),
            crew,
            slots: slots as usize,
            seats: Vec::new(),
            free: Vec::new(),
            by_slot: Vec::new(),
            before: Vec::new(),
            supervisions: HashMap::new(),
            asked: Vec::new(),
            left: Vec::new(),
            wanting: Vec::new(),
            early: Vec::new(),
            arriving: HashMap::new(),
            told: GO_ON,
            fault: None,
            rounds: 1,
            // (a run whose epochs are short ends each in the round in which it is to)
            most_rounds: if hub.every < LONG { 1 } else { ROUNDS },
            told_last: 0,
            has_left: false,
            meets: false,
            resumed: false,
            looks: true,
            is_timed: false,
            timed: false,
            read: 0,
            serves: 0,
            most_serves: 0,
            exits: Vec::new(),
            next_exit: 0,
            record: Record::default(),
        })
    }

    #[inline]
    pub(crate) fn desk(&mut self) -> &mut Desk {
        self.desk.as_mut().expect("a desk, outside of a meeting")
    }

    pub(crate) fn take_desk(&mut self) -> Option<Desk> {
        self.desk.take()
    }

    pub(super) fn place(&self) -> &Place {
        &self.home
    }

    /// Runs until the run is over or halts, and returns what the thread had.
    pub(crate) fn run(mut self) -> Worker {
        let mut listens = false;
        loop {
            let busy = if listens { self.round() } else { self.do_rounds() };
            if self.may_meet(!busy) && self.has_to_meet(!busy) {
                if !self.meet() {
                    self.place().halt(true);
                    return self;
                }
            } else if !busy && listens {
                self.rest();
            }
            // (it rests behind a round that found nothing since it said that it is to be rung)
            if listens == busy {
                listens = !busy;
                self.place().listen(listens);
            }
        }
    }

    /// Does rounds until one finds nothing, or is to do more than its step. It returns whether the last one has found something.
    #[inline(never)]
    fn do_rounds(&mut self) -> bool {
        // (most rounds of a busy thread have steps alone)
        while !self.looks && self.rounds > 1 && !self.place().is_rung() {
            let alarms = self.is_timed && self.look_at_clock();
            let some = self.step(MOST) || alarms;
            if self.looks {
                // (a handler has begun something)
                return self.end_round(some);
            }
            if !some {
                return false;
            }
            self.rounds -= 1;
        }
        self.round()
    }

    /// Does what is to be done, and returns whether anything was.
    #[inline(never)]
    fn round(&mut self) -> bool {
        self.looks |= self.place().is_rung();
        let begun = self.looks && self.begin_round();
        let alarms = self.is_timed && self.look_at_clock();
        let some = if self.resumed { self.step_again(MOST) } else { self.step(MOST) };
        let some = some || alarms || begun;
        if self.looks { self.end_round(some) } else { some }
    }

    /// Does what those outside want, and returns whether anything was to be done.
    #[inline(never)]
    fn begin_round(&mut self) -> bool {
        let tasks = self.place().is_rung() && self.perform();
        self.tell_order();
        tasks
    }

    /// Does what is no step and comes after one, and returns whether anything was done in this round.
    #[inline(never)]
    fn end_round(&mut self, some: bool) -> bool {
        let some = !self.arriving.is_empty() && self.begin_linked() || some;
        self.pass_on();
        // (a supervisor may have something to do of which nobody is told)
        self.serve_all() && self.crew.queued() > 0 || some
    }

    /// Whether there is more to do in each round than steps.
    fn has_more(&self) -> bool {
        let has_family = !(self.supervisions.is_empty() && self.left.is_empty() && self.arriving.is_empty());
        has_family || self.record.is_tapped() || self.hub.order() > END
    }

    /// Whether anything may be to do at a time. (else the clock need not be read)
    fn has_times(&self) -> bool {
        self.timed || self.alarms.any() || !self.supervisions.is_empty()
    }

    /// Looks what time it is, and does what was to be done by then. It returns whether anything was. The clock may have been read
    /// some rounds before.
    #[inline(always)]
    fn look_at_clock(&mut self) -> bool {
        let work = ROUND + self.told_last;
        if self.serves < work {
            self.read_clock();
        }
        self.serves = self.serves.saturating_sub(work);
        // (an alarm is nothing to the crew)
        if self.timed || !self.supervisions.is_empty() {
            self.crew.set_time(self.read);
        }
        self.go_off(self.read)
    }

    /// Reads the clock. The alarms that were set since it was read before get their times.
    #[inline(never)]
    pub(super) fn read_clock(&mut self) -> u64 {
        let now = self.hub.now();
        // (where jobs take long, one more reading is little beside them: it serves for more again once some were quick)
        let was_long = now.saturating_sub(self.read) > STALE;
        self.most_serves = if was_long { 0 } else { SERVES.min(2 * self.most_serves + ROUND - 1) };
        (self.read, self.serves) = (now, self.most_serves);
        self.alarms.date(now);
        now
    }

    /// An alarm was set. It gets its time when the clock is read next, or now if that may be long from now.
    pub(super) fn alarm_set(&mut self) {
        self.is_timed = true;
        if self.most_serves < SERVES {
            self.alarms.date(self.hub.now());
        }
    }

    /// The time of the earliest alarm.
    pub(super) fn next_alarm(&mut self) -> Option<u64> {
        if self.alarms.has_undated() {
            self.read_clock();
        }
        self.alarms.next()
    }

    /// Serves the supervisors, and returns whether there is one.
    #[inline]
    pub(super) fn serve_all(&mut self) -> bool {
        let some = !(self.supervisions.is_empty() && self.left.is_empty());
        if some {
            self.serve();
            self.send_children();
        }
        some
    }

    /// Does what those outside want. What the desk had no memory or no stamp for stays in the inbox.
    fn perform(&mut self) -> bool {
        let mut tasks = self.place().take();
        let some = !tasks.is_empty();
        while self.fault.is_none() {
            let Some(task) = tasks.pop_front() else { return some };
            if let Some(task) = self.perform_one(task) {
                tasks.push_front(task);
            }
        }
        self.place().put_back(tasks);
        some
    }

    /// Does what one of those outside wants. It comes back if the desk had no memory or no stamp for it.
    pub(super) fn perform_one(&mut self, task: Task) -> Option<Task> {
        match task {
            Task::Do(work) | Task::Ask(work) => drop(quietly(|| work(self))),
            Task::Send { to, kind, num } => {
                let refused = !self.say(self.porter, to, kind, num) && self.fault.is_some();
                return refused.then_some(Task::Send { to, kind, num });
            }
        }
        None
    }

    /// A step that comes to all who have something to do.
    #[inline(never)]
    fn step_wholly(&mut self) {
        let now = self.read_clock();
        self.crew.set_time(now);
        let most = self.crew.len() + 1;
        self.meets = true;
        if self.resumed {
            self.step_again(most);
        } else {
            self.step(most);
        }
        self.meets = false;
    }

    /// A step of the crew: a turn, and then the handlers of those who have something to do.
    #[inline(always)]
    fn step(&mut self, most: usize) -> bool {
        let (turned, count) = self.turn(most);
        for place in 0..count {
            self.tell_in(place);
        }
        self.answer();
        count > 0 || turned
    }

    /// The same on the desk of a node that has just gone on.
    #[cold]
    fn step_again(&mut self, most: usize) -> bool {
        let (turned, count) = self.turn(most);
        self.handed(count).iter().for_each(|job| self.tell(job));
        self.answer();
        count > 0 || turned
    }

    /// Has the crew hand out jobs, and returns whether a letter was posted or handled, and how many jobs there are.
    #[inline(always)]
    fn turn(&mut self, most: usize) -> (bool, usize) {
        let (turned, count) = if self.has_others { self.turn_and_ring(most) } else { self.hand_out(BUDGET, most) };
        if turned.stopped.is_some() {
            (self.fault, self.looks) = (turned.stopped, true);
        }
        (self.told_last, self.has_left) = (count, false);
        (turned.posted | turned.handled != 0, count)
    }

    /// The same among other desks, which are rung for what was posted to them, and for the room that was made.
    #[inline(never)]
    fn turn_and_ring(&mut self, most: usize) -> (Turned, usize) {
        let out = self.posts_to();
        let (turned, count) = self.hand_out(BUDGET, most);
        if turned.posted | turned.handled != 0 {
            self.hub.ring_others(if turned.posted > 0 { out } else { 0 }, turned.handled > 0);
        }
        (turned, count)
    }

    /// The other desks to which the next turn posts, or all of them if none is to be rung: the call costs as much as some letters
    /// do. (who says only later that it is to be rung may be rung for nothing)
    fn posts_to(&mut self) -> u64 {
        let others = !(1 << self.number);
        if self.hub.listens(others) { self.desk().letters_out() & others } else { others }
    }

    /// Turns the desk, and has the crew say who has something to do. It returns how many jobs these are.
    #[inline(always)]
    pub(super) fn hand_out(&mut self, budget: u32, most: usize) -> (Turned, usize) {
        let desk = self.desk.as_mut().expect("a desk, outside of a meeting");
        let stepped = self.crew.step_over(desk, budget, most).expect("the crew of this desk");
        // (on the desk of a node that has just gone on those before the meeting come first)
        if !self.exits.is_empty() && !self.resumed {
            self.exits.clear();
            self.next_exit = 0;
        }
        stepped
    }

    /// The job in this place of those that the crew has handed out.
    #[inline(always)]
    pub(super) fn job(&mut self, place: usize) -> Job {
        let mut job = self.crew.job(place);
        if let What::Exit(reason, _) = &mut job.what {
            *reason = self.reason_of(job.pid, *reason);
        }
        job
    }

    /// Tells the process of the job in this place what it is to be told.
    #[inline(always)]
    fn tell_in(&mut self, place: usize) {
        // (most jobs are letters: these do not become a job first)
        match self.crew.letter(place) {
            Some((pid, tag, kind, num)) if tag < SUPERVISOR => {
                self.work(pid, tag as usize, Record::begin_letter, |actor, worker| {
                    actor.letter(worker, place, kind, num)
                })
            }
            _ => self.tell_other(place),
        }
    }

    /// The same of a job that is no letter. (of these, too, most do not become one)
    #[inline(never)]
    fn tell_other(&mut self, place: usize) {
        if let Some((pid, tag, item)) = self.crew.item(place) {
            if tag < SUPERVISOR {
                self.work(
                    pid,
                    tag as usize,
                    |record| record.begin_item(&item),
                    |actor, worker| actor.item(worker, &item),
                );
                return;
            }
        } else if let Some((pid, tag, why)) = self.crew.exit(place) {
            if tag < SUPERVISOR {
                let why = self.reason_of(pid, why);
                self.unseat(pid, tag, tag as usize, why);
                return;
            }
        } else if let Some((pid, tag)) = self.crew.start(place) {
            if tag < SUPERVISOR && self.arriving.is_empty() {
                self.work(pid, tag as usize, Record::begin_other, |actor, worker| actor.starts(worker));
                return;
            }
        }
        let job = self.job(place);
        self.tell(&job);
    }

    /// Tells a process of the crew what it is to be told. A child that was not made is told nothing.
    #[inline(never)]
    pub(super) fn tell(&mut self, job: &Job) {
        let Some(place) = (if job.tag < SUPERVISOR { usize::try_from(job.tag).ok() } else { self.supervised(job) })
        else {
            return;
        };
        match &job.what {
            What::Exit(why, _) => self.unseat(job.pid, job.tag, place, *why),
            What::Start(_) if !self.arriving.is_empty() && self.waits_for_link(job.pid) => {}
            what => self.handle(job.pid, place, what),
        }
    }

    /// The seat of a child of a supervisor. `None` if the child was not made, or the process is the supervisor, which
    /// is told that it has exited.
    #[inline(never)]
    fn supervised(&mut self, job: &Job) -> Option<usize> {
        let Job { pid, tag, what } = *job;
        match what {
            What::Exit(why, _) if tag == SUPERVISOR => {
                self.supervisor_left(pid, why);
                return None;
            }
            What::Exit(..) if !self.early.is_empty() => self.early.retain(|early| early.pid != pid),
            What::Start(Some(origin)) if self.is_early(origin.supervisor, tag & !CHILD) => {
                self.early.push(*job);
                return None;
            }
            What::Start(Some(origin)) if !self.begin_child(pid, origin.supervisor, tag & !CHILD) => return None,
            _ => {}
        }
        self.seat_of(pid)
    }

    /// Runs the handler of a process.
    #[inline]
    pub(super) fn handle(&mut self, pid: Pid, place: usize, what: &What) {
        self.work(pid, place, |record| record.begin(what), |actor, worker| actor.told(worker, what));
    }

    /// Has a process work: it runs its handler, which may panic.
    #[inline(always)]
    fn work(
        &mut self,
        pid: Pid,
        place: usize,
        begin: impl FnOnce(&mut Record) -> Option<Instant>,
        works: impl FnOnce(&mut dyn Actor, &mut Worker) -> Option<Next>,
    ) {
        let mut actor = self.seats[place].as_mut().and_then(|seat| seat.actor.take()).expect("a process of this desk");
        self.runs(Some(pid));
        let begun = begin(&mut self.record);
        match catch_unwind(AssertUnwindSafe(|| works(&mut *actor, self))) {
            Ok(None) => self.crew.note_wait(pid),
            Ok(Some(next)) => return self.goes_on(pid, place, next, actor, begun),
            Err(what) => self.panicked(pid, place, what),
        }
        self.has_worked(pid, place, actor, begun);
    }

    /// The handler of a process has returned.
    #[inline(always)]
    fn has_worked(&mut self, pid: Pid, place: usize, actor: Box<dyn Actor>, begun: Option<Instant>) {
        self.runs(None);
        self.record.end(begun, pid, || actor.slot().name());
        if let Some(seat) = &mut self.seats[place] {
            seat.actor = Some(actor);
        }
    }

    /// The handler of a process has returned, and it does not wait for whatever comes. If it exits, it does so now, and all that
    /// it had goes before somebody hears of it.
    #[inline(never)]
    fn goes_on(&mut self, pid: Pid, place: usize, next: Next, actor: Box<dyn Actor>, begun: Option<Instant>) {
        let left = match next {
            Next::Stop(why) if self.exits(pid, place, &*actor, why) => Some(why),
            next => {
                if matches!(next, Next::WaitUntil(..)) {
                    (self.timed, self.is_timed) = (true, true);
                }
                self.crew.note_answer(pid, next);
                None
            }
        };
        self.has_worked(pid, place, actor, begun);
        if let Some(why) = left {
            self.unseat(pid, place as u64, place, why);
        }
    }

    /// Has a process exit, unless it has to do with a supervisor: then the crew does that, and the same if there is no memory or
    /// no stamp. It returns whether it has exited. (the crew tells so later)
    fn exits(&mut self, pid: Pid, place: usize, actor: &dyn Actor, why: Reason) -> bool {
        let is_plain = |seat: &Seat| matches!(seat.parent, Parent::Outside | Parent::Process { .. });
        if self.meets || actor.supervises() || !self.seats[place].as_ref().is_some_and(is_plain) {
            return false;
        }
        let exited = self.desk().exit(pid, why);
        self.has_left |= self.noted(exited).is_ok();
        exited.is_ok()
    }

    /// The handler of a process has panicked with this value.
    #[cold]
    fn panicked(&mut self, pid: Pid, place: usize, what: Box<dyn Any + Send>) {
        let text = text_of(&*what).into();
        if self.crash(pid, place, text).is_err() {
            self.crew.note_answer(pid, Next::Stop(PANIC));
        }
        drop_quietly(what);
        tell_dropped();
    }

    /// Notes whose handler runs.
    pub(super) fn runs(&self, pid: Option<Pid>) {
        self.place().runs(pid);
    }

    /// A process has exited: all that it had goes, unless it went before. (then its place may be another one's)
    fn unseat(&mut self, pid: Pid, tag: u64, place: usize, why: Reason) {
        let is_its_own = self.seats.get(place).and_then(Option::as_ref).is_some_and(|seat| seat.pid == pid);
        if !is_its_own {
            return;
        }
        let Seat { parent, crashed, actor, .. } = self.vacate(place).expect("a process of this desk");
        let actor = actor.expect("a process whose handler does not run");
        let why = if crashed { PANIC } else { why };
        if actor.supervises() {
            self.front_left(pid);
        }
        if let Parent::Supervisor(supervisor) = parent {
            self.child_left(supervisor, tag & !CHILD, pid, why);
        }
        self.place().dismiss(pid);
        self.one_less();
        actor.ended(self, why);
        if let Parent::Elsewhere { supervisor, place } = parent {
            self.left_elsewhere(supervisor, place, pid, why);
        }
    }

    /// One process less lives. (after the last one the run may be over)
    pub(super) fn one_less(&mut self) {
        self.looks |= self.hub.alive.fetch_sub(1, SeqCst) == 1;
    }

    #[inline(always)]
    pub(super) fn answer(&mut self) {
        self.crew.answer_noted().expect("each of them was told something");
    }

    /// A process crashes: it exits at once, and those who hear of it find the text. If that is refused, there is no
    /// memory.
    fn crash(&mut self, pid: Pid, place: usize, text: Arc<str>) -> Result<(), Fault> {
        self.hub.panics.fetch_add(1, SeqCst);
        if let Some(seat) = &mut self.seats[place] {
            seat.crashed = true;
        }
        let epoch = self.hub.epochs();
        let desk = self.desk.as_mut().expect("a desk, outside of a meeting");
        for (monitor, owner) in desk.watchers(pid).into_iter().flatten() {
            if let Some(slot) = self.hub.slot(owner) {
                slot.put_panic(News::Down(monitor), text.clone(), epoch);
            }
        }
        for (peer, _) in desk.links(pid).into_iter().flatten() {
            if let Some(slot) = self.hub.slot(peer) {
                slot.put_panic(News::Exit(pid), text.clone(), epoch);
            }
        }
        let exited = desk.exit(pid, PANIC);
        if let Some(slot) = self.hub.slot(pid) {
            // (first, so that a request that the panic has dropped fails with its text)
            slot.crashed(&text);
            self.hub.report(&Report::Crash { pid, behaviour: slot.name(), text: &text });
        }
        self.noted(exited)
    }

    /// More messages wait for a process than may: it crashes, unless it has exited.
    pub(crate) fn overflow(&mut self, pid: Pid) {
        let has_crashed = |&place: &usize| self.seats[place].as_ref().is_some_and(|seat| seat.crashed);
        let Some(place) = self.seat_of(pid).filter(|place| !has_crashed(place)) else { return };
        if self.desk().alive(pid) && self.crash(pid, place, "more messages wait than may".into()).is_err() {
            // (without memory the run halts, and it crashes as the run goes on)
            if let Some(seat) = &mut self.seats[place] {
                seat.crashed = false;
            }
            self.place().post(Task::Do(Box::new(move |worker| worker.overflow(pid))), Origin::Run);
        }
    }

    /// Tells each process that was not told yet what those outside want.
    #[inline]
    pub(super) fn tell_order(&mut self) {
        let order = self.hub.order();
        if order > self.told && order > END {
            self.tell_all(order);
        }
    }

    /// Tells each process that was not told yet this order.
    #[inline(never)]
    fn tell_all(&mut self, order: u8) {
        let reason = if order == KILL { Reason::Kill } else { Reason::Shutdown };
        for place in 0..self.seats.len() {
            let ends = |seat: &&Seat| seat.told < order && (order == KILL || !self.is_supervised(seat));
            if let Some(pid) = self.seats[place].as_ref().filter(ends).map(|seat| seat.pid) {
                self.signal(pid, reason);
                self.seats[place].as_mut().expect("this seat").told = order;
            }
        }
        self.told = order;
    }

    /// Whether a supervisor lives that ends this process.
    fn is_supervised(&self, seat: &Seat) -> bool {
        match seat.parent {
            Parent::Supervisor(pid) => self.supervisions.contains_key(&pid),
            Parent::Elsewhere { .. } => true,
            Parent::Outside | Parent::Process { .. } => false,
        }
    }

    /// All that were not told the order are told it.
    pub(super) fn retell(&mut self) {
        self.told = GO_ON;
    }

    /// Sends a message in the name of a process of this desk. It returns `false` if the desk refuses that.
    #[inline]
    pub(crate) fn say(&mut self, from: Pid, to: Pid, kind: u32, num: i64) -> bool {
        let sent = self.desk().send(from, to, Body { kind, num, who: None });
        self.noted(sent).is_ok()
    }

    /// Sends an exit signal in the desk's own name.
    pub(crate) fn signal(&mut self, to: Pid, reason: Reason) {
        let porter = self.porter;
        let sent = self.desk().exit_signal(porter, to, reason);
        let _ = self.noted(sent);
    }

    /// Sends a process of this desk a message in the desk's own name.
    pub(crate) fn tell_process(&mut self, to: Pid, kind: u32, num: i64) {
        self.say(self.porter, to, kind, num);
    }

    /// The same for the process whose handler runs. It fails if there is no memory or no stamp.
    pub(crate) fn tell_itself(&mut self, me: Pid, body: Body) -> Result<(), Fault> {
        let porter = self.porter;
        let sent = self.desk().send(porter, me, body);
        self.noted(sent)
    }

    /// The answer of a call of the desk, of which it is noted if there was no memory or no stamp: then the run halts.
    #[inline]
    pub(crate) fn noted<T>(&mut self, answer: Result<T, Fault>) -> Result<T, Fault> {
        if let Err(fault @ (Fault::Memory | Fault::Worn)) = answer {
            (self.fault, self.looks) = (Some(fault), true);
        }
        answer
    }

    /// Spawns a process, perhaps as a child of one of this desk.
    pub(crate) fn spawn<B: Behaviour>(&mut self, parent: Parent, behaviour: B) -> Result<Address<B::Message>, Fault> {
        if self.is_full() {
            return Err(Fault::Full);
        }
        let setup = Setup::of(&behaviour);
        let pid = self.spawn_empty(parent)?;
        Ok(self.admit(pid, parent, behaviour, setup))
    }

    /// Spawns a process, which is to be given its behaviour next.
    pub(super) fn spawn_empty(&mut self, parent: Parent) -> Result<Pid, Fault> {
        let place = self.free.last().copied().unwrap_or(self.seats.len()) as u64;
        let desk = self.desk.as_mut().expect("a desk, outside of a meeting");
        let spawned = match parent {
            Parent::Outside | Parent::Elsewhere { .. } => self.crew.spawn(desk, place, Next::Proceed),
            Parent::Process { pid, linked } => self.crew.spawn_child(desk, pid, linked, place, Next::Proceed),
            Parent::Supervisor(_) => unreachable!("a supervisor spawns its children itself"),
        };
        self.noted(spawned)
    }

    /// Gives a process that was spawned its behaviour.
    pub(crate) fn admit<B: Behaviour>(
        &mut self,
        pid: Pid,
        parent: Parent,
        behaviour: B,
        setup: Setup,
    ) -> Address<B::Message> {
        let values = Values::new(pid, std::any::type_name::<B>(), setup.bound, B::kind);
        let address = Address::new(values, &self.hub);
        self.place().admit(address.mailbox.clone());
        self.hub.alive.fetch_add(1, SeqCst);
        self.hub.spawned.fetch_add(1, SeqCst);
        if setup.traps_exits {
            let set = self.desk().trap(pid, true).map(drop);
            let _ = self.noted(set);
        }
        let process = Process::new(behaviour, address.clone(), parent.pid());
        self.seat(Seat { pid, parent, told: GO_ON, crashed: false, actor: Some(Box::new(process)) });
        address
    }

    /// Looks for what is seldom there: what was lost, and whether the crew had no memory or no stamp for a process. It returns
    /// whether the journal is full.
    #[inline(never)]
    fn look_over(&mut self) -> bool {
        self.rounds = self.most_rounds;
        self.take_losses();
        if self.crew.was_refused() && self.fault.is_none() {
            self.fault = Some(Fault::Memory);
        }
        self.desk().events_now() > self.hub.every
    }

    /// Counts a round, and returns whether it may be that all threads are to meet.
    #[inline(always)]
    fn may_meet(&mut self, was_idle: bool) -> bool {
        self.rounds = self.rounds.saturating_sub(1);
        self.looks || was_idle || self.rounds == 0
    }

    /// Whether all threads are to meet, of which this one tells the others if it wants to.
    #[inline(never)]
    fn has_to_meet(&mut self, was_idle: bool) -> bool {
        (self.looks, self.is_timed) = (self.has_more(), self.has_times());
        let full = (was_idle || self.rounds == 0) && self.look_over();
        if full || self.fault.is_some() || self.hub.is_over() {
            self.hub.meet();
        }
        self.hub.meeting.is_wanted()
    }

    /// Meets the other threads, and goes on over the desk of a node that has gone on. It returns `false` if the run is
    /// over or halts.
    fn meet(&mut self) -> bool {
        // (a crew goes on over another journal once it has told all exits that it knows of)
        if self.told_last >= MOST || self.has_left {
            self.step_wholly();
        }
        // (the others may be long in coming)
        self.serves = 0;
        let desk = self.desk.take().expect("a desk, outside of a meeting");
        let fault = self.fault.take();
        let hub = self.hub.clone();
        match hub.meeting.attend(&hub, desk, fault) {
            Some(desk) => {
                self.begin_again(desk);
                true
            }
            None => false,
        }
    }

    /// Goes on after a halt.
    pub(crate) fn go_on(&mut self, desk: Desk) {
        self.begin_again(desk);
        self.place().halt(false);
    }

    /// Goes on over the desk of a node that has gone on.
    fn begin_again(&mut self, desk: Desk) {
        let again = self.crew.begin_again(&desk);
        let _ = self.noted(again);
        (self.resumed, self.looks) = (true, true);
        // in settling all news came: a text beside news that does not wait is beside none, unless a thread that was
        // faster has put it since
        let epoch = self.hub.epochs();
        // (what waits may be much, and few have a text)
        for slot in self.place().slots().into_iter().filter(|slot| slot.has_panics()) {
            let waiting: Vec<News> =
                desk.waiting(slot.pid()).into_iter().flatten().filter_map(|item| news_of(&item)).collect();
            slot.keep_panics(epoch, &|news| waiting.contains(news));
        }
        self.desk = Some(desk);
    }

    /// Rests until somebody rings or a time comes.
    fn rest(&mut self) {
        // letters wait, so a lane is full: it is looked at once more, and then who makes room rings
        if self.desk().pending() == 0 {
            self.place().has_room();
        } else if !self.place().is_short() {
            return;
        }
        let times = [self.crew.next_time(), self.next_alarm()];
        // (those who wait until a time have a timer of the crew, as nobody is in its queue)
        self.timed = times[0].is_some();
        self.is_timed = self.has_times();
        let until = times.into_iter().flatten().min();
        let seats = || self.seats.iter().flatten().filter_map(|seat| seat.actor.as_ref());
        let owed = if self.place().drains() { seats().map(|actor| actor.owed()).sum() } else { 0 };
        self.place().rest(until.map(|at| self.hub.until(at)), owed);
        self.serves = 0;
        self.place().has_room();
    }
}

/// What a panic says.
pub(crate) fn text_of(what: &(dyn Any + Send)) -> &str {
    let text = what.downcast_ref::<&str>().copied();
    text.or_else(|| what.downcast_ref::<String>().map(String::as_str)).unwrap_or("a panic without a text")
}

/// The news that an item is.
pub(crate) fn news_of(item: &Item) -> Option<News> {
    match *item {
        Item::Down(monitor, ..) => Some(News::Down(monitor)),
        Item::Exit(pid, _) => Some(News::Exit(pid)),
        Item::User(..) | Item::Alive(..) => None,
    }
}
