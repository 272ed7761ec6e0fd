//! A run of a scenario: the desks, the clock, and what is seen of the processes.

use super::moves::Move;
use super::settings::Settings;
use super::values::{Counts, Later, Token, Tokens};
use crate::runtime::hub::Hub;
use crate::runtime::inbox::{Task, locked};
use crate::runtime::mailbox::Reader;
use crate::runtime::meeting::Meeting;
use crate::runtime::paces::{ALL, Pace, Paces, count_tasks};
use crate::runtime::start::{Closing, go_inside};
use crate::runtime::worker::{Parent, Worker};
use crate::runtime::{Address, Behaviour, Handle, Mailbox, Reply, Report};
use crate::{Config, Desk, Fault, Pid, Reason, gather, open};
use std::fmt;
use std::ops::Deref;
use std::sync::atomic::{AtomicU64, Ordering::SeqCst};
use std::sync::{Arc, Mutex};
use std::time::Duration;

/// How many desks a trial has at most.
const MOST_DESKS: usize = 60;

/// A panic of a behaviour.
#[derive(Clone, Debug, PartialEq, Eq, Hash)]
pub struct Panic {
    /// The process.
    pub pid: Pid,
    /// The name of the type of its behaviour.
    pub behaviour: &'static str,
    /// The text of the panic.
    pub text: String,
}

impl fmt::Display for Panic {
    fn fmt(&self, f: &mut fmt::Formatter<'_>) -> fmt::Result {
        write!(f, "{}, a {}: {}", self.pid, self.behaviour, self.text)
    }
}

/// A run of a scenario. A scenario spawns its processes here, and the closures of a [`Trial`](super::Trial) look at them.
///
/// It is a [`Handle`] too: what that does works here, but for calls that wait. Those fail at once:
/// - `spawn` of a clone of the handle with `SpawnFault::Trial`: take [`World::spawn`] or [`World::spawn_on`];
/// - `call` and `Asking::wait` with `CallFault::Trial`: take [`World::ask`], and read the answer once the run is at rest;
/// - `Name::wait`, `Handle::wait` and `Mailbox::recv_within` panic where they would wait, with a text that says what to take.
pub struct World {
    // (the processes go first, and then what was sent to them)
    desks: Vec<Paces>,
    hub: Closing,
    handle: Handle,
    panics: Arc<Mutex<Vec<Panic>>>,
    counts: Arc<Counts>,
    mortal: Vec<Pid>,
    kills: u32,
    times: u32,
    is_coarse: bool,
    /// The moves of each desk, and the desks that may have other ones by now, a bit for each.
    paces: Vec<Vec<Pace>>,
    stale: u64,
    /// How many tasks each inbox had before a move and behind it.
    tasks: [Vec<usize>; 2],
    /// How often time went on since nothing else was to be done.
    rested: u32,
}

impl fmt::Debug for World {
    fn fmt(&self, f: &mut fmt::Formatter<'_>) -> fmt::Result {
        write!(f, "World {{ desks: {}, .. }}", self.desks.len())
    }
}

impl Deref for World {
    type Target = Handle;

    fn deref(&self) -> &Handle {
        &self.handle
    }
}

/// What a move did.
#[derive(Clone, Copy, Debug)]
pub(crate) struct Step {
    /// The bit of the desk whose move it was.
    pub(crate) own: u64,
    pub(crate) touched: u64,
    /// The desks to which it posted, or where it looked whether a process lives.
    pub(crate) met: u64,
    /// A number for what happened, by which two runs are compared.
    pub(crate) print: u64,
    /// How often all desks have rested before.
    pub(crate) rested: u32,
}

impl Step {
    const ALL: Step = Step { own: ALL, touched: ALL, met: ALL, print: 0, rested: 0 };

    /// Whether the order of two moves may matter.
    pub(crate) fn meets(self, other: Step) -> bool {
        self.touched & other.touched | self.met & other.own | other.met & self.own != 0
    }
}

impl World {
    pub(crate) fn new(settings: &Settings) -> Result<World, Fault> {
        let panics: Arc<Mutex<Vec<Panic>>> = Arc::default();
        let told = panics.clone();
        let reporter = move |what: &Report<'_>| {
            if let Report::Crash { pid, behaviour, text } = *what {
                locked(&told).push(Panic { pid, behaviour, text: text.into() });
            }
        };
        let config =
            Config { slots: settings.slots.saturating_mul(2).min(65_536), lane: settings.lane, ..Config::default() };
        // (each desk has a bit beside those of what all share)
        let desks = open(if settings.desks > MOST_DESKS { 0 } else { settings.desks }, config)?;
        let meeting = Meeting::new(desks.len(), None);
        let mut hub = Hub::new(desks.len(), usize::MAX, usize::MAX, meeting, Some(Box::new(reporter)));
        hub.trial = Some(AtomicU64::new(0));
        let hub = Closing(Some(Arc::new(hub)));
        let worker = |desk| Worker::new(hub.of(), desk, settings.slots).map(Paces::new);
        let desks: Result<Vec<_>, Fault> = desks.into_iter().map(worker).collect();
        let (handle, counts, mortal) = (Handle::of(hub.of()), Arc::default(), Vec::new());
        let Settings { kills, times, is_coarse, .. } = *settings;
        let (desks, stale) = (desks?, ALL);
        let paces = desks.iter().map(|_| Vec::new()).collect();
        Ok(World {
            desks,
            hub,
            handle,
            panics,
            counts,
            mortal,
            kills,
            times,
            is_coarse,
            paces,
            stale,
            tasks: Default::default(),
            rested: 0,
        })
    }

    /// A handle, for behaviours that keep one.
    #[must_use]
    pub fn handle(&self) -> Handle {
        self.handle.clone()
    }

    /// Spawns a process, on one desk after the other, as [`Handle::spawn`] does.
    ///
    /// # Panics
    ///
    /// If the desk has no slot for it.
    pub fn spawn<B: Behaviour>(&mut self, behaviour: B) -> Address<B::Message> {
        let desk = self.hub.of().next_desk();
        self.spawn_at(desk, behaviour)
    }

    /// Spawns a process on this desk, as [`Handle::spawn_on`] does. It begins as the desk comes to it.
    ///
    /// # Panics
    ///
    /// If there is no such desk, or it has no slot for the process.
    pub fn spawn_on<B: Behaviour>(&mut self, desk: u8, behaviour: B) -> Address<B::Message> {
        self.spawn_at(usize::from(desk), behaviour)
    }

    fn spawn_at<B: Behaviour>(&mut self, desk: usize, behaviour: B) -> Address<B::Message> {
        let paces = self.desks.get_mut(desk).unwrap_or_else(|| panic!("the trial has no desk {desk}: say .desks(..)"));
        match paces.worker.spawn(Parent::Outside, behaviour) {
            Ok(address) => address,
            Err(fault) => panic!("the process is not spawned on desk {desk}: {fault}"),
        }
    }

    /// Spawns a process whose messages the scenario reads by `Mailbox::try_recv` once the run is at rest.
    ///
    /// # Panics
    ///
    /// As [`World::spawn`].
    pub fn mailbox<M: Send + 'static>(&mut self) -> Mailbox<M> {
        let reader = Reader::new();
        let mailbox = reader.of();
        mailbox(self.spawn(reader))
    }

    /// Asks a server from outside, as [`Handle::call`] does. The answer is read once the run is at rest.
    pub fn ask<M: Send + 'static, R: Send + 'static>(
        &self,
        server: &Address<M>,
        ask: impl FnOnce(Reply<R>) -> M,
    ) -> Later<R> {
        Later::new(self.call_async(server, ask))
    }

    /// Says that this process may be killed at any step: see [`Trial::kills`](super::Trial::kills).
    pub fn may_be_killed<M: Send + 'static>(&mut self, process: &Address<M>) {
        self.mortal.push(process.pid());
    }

    /// A value that this run counts.
    #[must_use]
    pub fn token(&self) -> Token {
        Token::new(&self.counts)
    }

    /// What became of the tokens.
    #[must_use]
    pub fn tokens(&self) -> Tokens {
        self.counts.tokens()
    }

    pub(crate) fn counts(&self) -> Arc<Counts> {
        self.counts.clone()
    }

    /// The time since the run began. It goes on once nothing is to be done before the next timer is due.
    #[must_use]
    pub fn now(&self) -> Duration {
        Duration::from_micros(self.hub.of().now())
    }

    /// The processes that live, each with the name of the type of its behaviour.
    #[must_use]
    pub fn living(&self) -> Vec<(Pid, &'static str)> {
        let slots = self.hub.of().places.iter().flat_map(|place| place.slots());
        slots.map(|slot| (slot.pid(), slot.name())).collect()
    }

    /// Whether a process lives, by the table.
    #[must_use]
    pub fn is_alive<M: Send + 'static>(&self, process: &Address<M>) -> bool {
        self.desk(process.pid()).is_some_and(|desk| desk.alive(process.pid()))
    }

    /// How many messages and answers were lost so far: they waited for a process as it exited, or came after that.
    #[must_use]
    pub fn lost(&self) -> u64 {
        self.desks.iter().map(|paces| paces.worker.record.losses()).sum()
    }

    /// The panics of behaviours so far.
    #[must_use]
    pub fn panics(&self) -> Vec<Panic> {
        locked(&self.panics).clone()
    }

    pub(crate) fn panic(&self) -> Option<Panic> {
        locked(&self.panics).first().cloned()
    }

    /// What a closure says of the behaviour of a process: `None` if the process has exited or its behaviour is of another type.
    pub fn behaviour<B: Behaviour, T>(&self, process: &Address<B::Message>, look: impl FnOnce(&B) -> T) -> Option<T> {
        let pid = process.pid();
        self.desks[usize::from(pid.shard)].behaviour(pid)?.downcast_ref().map(look)
    }

    /// The names that a process has, in the order in which they were given: none if it has exited.
    #[must_use]
    pub fn names(&self, pid: Pid) -> Vec<String> {
        let place = self.hub.of().places.get(usize::from(pid.shard));
        place.and_then(|place| place.slot(pid)).map_or_else(Vec::new, |slot| slot.names())
    }

    /// The desk of a process, which says its links, its monitors and what waits in its mailbox.
    #[must_use]
    pub fn desk(&self, pid: Pid) -> Option<&Desk> {
        self.desks.get(usize::from(pid.shard)).and_then(Paces::desk)
    }

    /// The scenario is done: what it has sent from outside comes at any time from here on.
    pub(crate) fn begin(&mut self) {
        self.desks.iter_mut().for_each(Paces::hold_outside);
    }

    /// The moves of desks that may come next, and with them what else may be chosen.
    pub(crate) fn ready(&mut self, ready: &mut Vec<(Move, Option<Pace>)>) {
        ready.clear();
        for (desk, (paces, all)) in (0..).zip(self.desks.iter_mut().zip(&mut self.paces)) {
            if self.stale >> desk & 1 == 1 {
                paces.ready(all);
                if self.is_coarse {
                    all.dedup_by_key(|pace| *pace != Pace::Outside);
                }
            }
            let all = (0..).zip(all.iter());
            ready.extend(all.map(|(place, &pace)| (Move::Desk(desk, place), Some(pace))));
        }
        self.stale = 0;
        if ready.is_empty() {
            return;
        }
        if self.times > 0 && self.next_time().is_some() {
            ready.push((Move::Time, None));
        }
        if self.kills > 0 {
            let alive = |pid: &&Pid| self.desk(**pid).is_some_and(|desk| desk.alive(**pid));
            ready.extend(self.mortal.iter().filter(alive).map(|&pid| (Move::Kill(pid), None)));
        }
    }

    /// The time of the next timer, after now.
    fn next_time(&mut self) -> Option<u64> {
        let now = self.hub.of().now();
        self.desks.iter_mut().filter_map(Paces::next_time).filter(|&at| at > now).min()
    }

    /// Lets time go on until the next timer is due. It returns `false` if there is none.
    fn advance(&mut self) -> bool {
        let Some(at) = self.next_time() else { return false };
        self.hub.of().trial.as_ref().expect("the time of a trial").store(at, SeqCst);
        self.stale = ALL;
        true
    }

    /// Nothing is to be done now: time goes on until something is. It returns `false` if nothing ever is.
    pub(crate) fn rest(&mut self) -> bool {
        self.rested += 1;
        self.advance()
    }

    pub(crate) fn take(&mut self, next: (Move, Option<Pace>)) -> Step {
        Step { rested: self.rested, ..self.taken(next) }
    }

    fn taken(&mut self, (it, pace): (Move, Option<Pace>)) -> Step {
        let hub = self.hub.of().clone();
        match (it, pace) {
            (Move::Desk(desk, _), Some(pace)) => self.pace(&hub, usize::from(desk), pace),
            (Move::Kill(pid), _) => {
                self.kills -= 1;
                let work = move |worker: &mut Worker| worker.signal(pid, Reason::Kill);
                hub.place(pid).post(Task::Do(Box::new(work)), crate::runtime::hub::Origin::Run);
                self.stale = ALL;
                Step::ALL
            }
            _ => {
                self.times -= 1;
                self.advance();
                Step::ALL
            }
        }
    }

    fn pace(&mut self, hub: &Arc<Hub>, desk: usize, pace: Pace) -> Step {
        let order = hub.order();
        let [mut before, mut after] = std::mem::take(&mut self.tasks);
        count_tasks(hub, &mut before);
        go_inside(Some(hub));
        let rounds = self.desks[desk].rounds;
        let mut step = self.take_pace(desk, pace);
        if self.is_coarse && pace != Pace::Outside {
            step = self.rest_of_round(desk, rounds, step);
        }
        go_inside(None);
        count_tasks(hub, &mut after);
        let more = after.iter().zip(&before).zip(0..).filter(|((now, before), _)| now > before);
        step.touched |= more.fold(0, |more, (_, desk)| more | 1 << desk);
        self.tasks = [before, after];
        if hub.order() != order {
            step.touched = ALL;
        }
        self.stale |= step.own | step.touched | step.met;
        step
    }

    fn take_pace(&mut self, desk: usize, pace: Pace) -> Step {
        let (empty, mut met) = (self.before_pace(desk, pace), 0);
        let took = self.desks[desk].take(pace);
        let mut touched = took.touched;
        for (to, paces) in self.desks.iter_mut().enumerate() {
            if took.made_room && paces.is_short {
                (touched, paces.is_short) = (ALL, false);
            }
            // (a thread that has moved on has posted everywhere)
            met |= (paces.fresh >> desk & 1) << to;
            paces.fresh = paces.fresh & !(1 << desk) | (empty >> to & 1) << desk;
        }
        Step { own: 1 << desk, touched, met: met | took.met, print: took.print, rested: 0 }
    }

    /// The desks to which a pace posts by and by, and in whose lanes from there is no letter yet.
    fn before_pace(&mut self, desk: usize, pace: Pace) -> u64 {
        let out = if pace == Pace::Post { self.desks[desk].worker.desk().letters_out() & !(1 << desk) } else { 0 };
        if out.count_ones() < 2 {
            return 0;
        }
        let is_empty = |(to, paces): &mut (usize, &mut Paces)| out >> *to & 1 == 1 && paces.lanes() >> desk & 1 == 0;
        self.desks.iter_mut().enumerate().filter_map(|mut it| is_empty(&mut it).then_some(1 << it.0)).sum()
    }

    /// Goes on until the desk has come round, if it has done so many rounds.
    fn rest_of_round(&mut self, desk: usize, rounds: u64, mut step: Step) -> Step {
        let mut all = Vec::new();
        while self.desks[desk].rounds == rounds {
            self.desks[desk].ready(&mut all);
            let Some(&next) = all.iter().find(|pace| **pace != Pace::Outside) else { break };
            let more = self.take_pace(desk, next);
            let print = step.print.rotate_left(1) ^ more.print;
            step = Step { touched: step.touched | more.touched, met: step.met | more.met, print, ..step };
        }
        step
    }

    /// Whether a desk had no memory or no stamp.
    pub(crate) fn has_fault(&self) -> bool {
        self.desks.iter().any(Paces::has_fault)
    }

    /// What happened, a line an event.
    pub(crate) fn history(&mut self) -> Vec<String> {
        let desks = self.desks.iter_mut().filter_map(|paces| paces.worker.take_desk()).collect();
        let history = gather(desks).map_err(|back| back.fault).and_then(|node| node.history());
        match history {
            Ok(history) => history.events().map(|event| event.to_string()).collect(),
            Err(fault) => vec![format!("there is no history: {fault}")],
        }
    }
}
