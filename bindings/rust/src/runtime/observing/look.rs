//! How a run is looked at: each desk answers between two of its steps.

use super::super::calls::CallFault;
use super::super::hub::{Hub, Origin};
use super::super::inbox::Task;
use super::super::paces::{is_trial, no_wait};
use super::super::run::Handle;
use super::super::selection::Wanted;
use super::super::target::Target;
use super::super::worker::{Seat, Worker};
use super::view::{DeskView, First, Look, Place, ProcessView, SilentDesk, SupervisorView, View, WaitsFor};
use crate::crew::Next;
use crate::{Desk, Pick, Pid, Reason};
use std::collections::{HashMap, HashSet};
use std::sync::Arc;
use std::sync::atomic::Ordering::SeqCst;
use std::sync::mpsc::{Receiver, RecvTimeoutError, sync_channel};
use std::time::{Duration, Instant};

/// What a process says of itself, whatever its behaviour is.
pub(crate) struct Outline {
    pub(crate) next: Next,
    pub(crate) wanted: Wanted,
    pub(crate) aside: usize,
    pub(crate) calls: usize,
}

/// What a desk answers.
struct Answer {
    desk: DeskView,
    /// Its processes of the page, with their seats.
    processes: Vec<(usize, ProcessView)>,
    /// Whether it has more of them.
    has_more: bool,
    supervisors: Vec<SupervisorView>,
}

impl Handle {
    /// What the run is now, with the first 1,000 processes: [`look`](Handle::look) with [`Look::default`].
    ///
    /// ```
    /// use pundewo::runtime::{Behaviour, Context, Event, Next, Runtime};
    ///
    /// struct Clerk;
    ///
    /// impl Behaviour for Clerk {
    ///     type Message = &'static str;
    ///
    ///     fn handle(&mut self, _: &mut Context<'_, &'static str>, _: Event<&'static str>) -> Next {
    ///         Next::Wait
    ///     }
    /// }
    ///
    /// let runtime = Runtime::builder().desks(2).start()?;
    /// let clerk = runtime.spawn(Clerk)?;
    /// let view = runtime.view();
    /// assert_eq!((view.desks.len(), view.silent.len()), (2, 0));
    /// let process = view.process(clerk.pid()).expect("a live process");
    /// assert!(process.behaviour.ends_with("Clerk") && process.mailbox.count == 0);
    /// runtime.stop()?;
    /// # Ok::<(), Box<dyn std::error::Error>>(())
    /// ```
    #[must_use]
    pub fn view(&self) -> View {
        self.look(&Look::default())
    }

    /// Looks at the run. Each desk answers between two of its steps, for which it is stopped no longer than it takes to read
    /// it. A desk that does not answer in time is among [`View::silent`].
    ///
    /// It is for threads outside. In a handler it waits for its own desk until the time is over.
    #[must_use]
    pub fn look(&self, look: &Look) -> View {
        if is_trial() {
            no_wait("Handle::look", "World::living, World::behaviour or World::desk");
        }
        let (begun, hub) = (Instant::now(), self.hub());
        let is_over = self.is_over();
        // (a run that has halted keeps what it is asked until it goes on)
        let asked = if is_over { Vec::new() } else { ask(hub, look) };
        let until = begun.checked_add(look.limit);
        let left = || until.map_or(Duration::MAX, |until| until.saturating_duration_since(Instant::now()));
        let answers: Vec<_> = asked.into_iter().filter_map(|asked| asked.recv_timeout(left()).ok()).collect();
        let summary = self.summary();
        let mut view = View {
            uptime: Duration::from_micros(hub.now()),
            took: Duration::ZERO,
            is_over,
            alive: hub.alive.load(SeqCst),
            spawned: summary.spawned,
            panics: summary.panics,
            epochs: summary.epochs,
            archived: summary.archived,
            desks: Vec::new(),
            silent: Vec::new(),
            processes: Vec::new(),
            next: None,
            supervisors: Vec::new(),
        };
        view.fill(answers, look.processes);
        view.silent = silent(hub, &view.desks);
        view.took = begun.elapsed();
        view
    }

    /// What a behaviour says of its own state: the text of [`Behaviour::inspect`](crate::runtime::Behaviour::inspect),
    /// asked between two steps of its desk.
    ///
    /// # Errors
    ///
    /// [`CallFault::OtherRun`]; [`CallFault::Down`] with [`Reason::Noproc`], if the process has exited;
    /// [`CallFault::Timeout`], if its desk does not answer in time; [`CallFault::Dropped`], if the behaviour panics as it is
    /// asked, which does not end its process; [`CallFault::Over`].
    pub fn inspect(&self, process: impl Into<Target>, limit: Duration) -> Result<String, CallFault> {
        if is_trial() {
            no_wait("Handle::inspect", "World::behaviour");
        }
        let hub = self.hub();
        let pid = process.into().pid_in(hub).map_err(|_| CallFault::OtherRun)?;
        let gone = CallFault::Down(Reason::Noproc, None);
        let desk = usize::from(pid.shard);
        let place = hub.places.get(desk).ok_or(gone.clone())?;
        if self.is_over() {
            return Err(CallFault::Over);
        }
        let (give, get) = sync_channel(2);
        let asks = move |worker: &mut Worker| {
            // (the second answer is taken if the first one is not given, since the behaviour panics)
            let fails = give.clone();
            if super::super::payloads::quietly(|| _ = give.send(worker.inspect(pid).ok_or(gone))) {
                let _ = fails.send(Err(CallFault::Dropped));
            }
        };
        place.post(Task::Ask(Box::new(asks)), Origin::Run);
        match get.recv_timeout(limit) {
            Ok(answer) => answer,
            Err(RecvTimeoutError::Timeout) => Err(CallFault::Timeout(hub.running(desk))),
            Err(RecvTimeoutError::Disconnected) => Err(CallFault::Over),
        }
    }
}

/// Asks all desks.
fn ask(hub: &Hub, look: &Look) -> Vec<Receiver<Answer>> {
    let asks = |place: &Arc<super::super::inbox::Place>| {
        let ((give, get), look) = (sync_channel(1), *look);
        let work = move |worker: &mut Worker| _ = give.send(worker.look(&look));
        place.post(Task::Ask(Box::new(work)), Origin::Run);
        get
    };
    hub.places.iter().map(asks).collect()
}

/// The desks that did not answer, and whose handlers run there.
fn silent(hub: &Hub, answered: &[DeskView]) -> Vec<SilentDesk> {
    let numbers = (0..).zip(&hub.places).map(|(desk, _)| desk);
    let is_silent = |desk: &u8| answered.iter().all(|answered| answered.desk != *desk);
    let of = |desk: u8| SilentDesk { desk, running: hub.running(usize::from(desk)) };
    numbers.filter(is_silent).map(of).collect()
}

impl View {
    /// Puts the answers of the desks together, with so many processes.
    fn fill(&mut self, answers: Vec<Answer>, most: usize) {
        let mut last = None;
        for Answer { desk, processes, has_more, supervisors } in answers {
            let room = most - self.processes.len();
            // (the page ends with a desk that has more, or as it is full)
            let is_cut = has_more || processes.len() > room;
            if self.next.is_none() {
                let taken = processes.into_iter().take(room);
                for (seat, process) in taken {
                    last = Some(Place { desk: desk.desk, seat });
                    self.processes.push(process);
                }
                self.next = if is_cut { last } else { None };
            }
            self.desks.push(desk);
            self.supervisors.extend(supervisors);
        }
        self.processes.sort_by_key(|process| process.pid);
    }
}

/// How many there are, and the first of them.
fn first<T>(all: impl ExactSizeIterator<Item = T>, most: usize) -> First<T> {
    First { count: all.len(), first: all.take(most).collect() }
}

/// The same of a list that the desk has of a process. (one that is not alive has none)
fn listed<I: ExactSizeIterator, T>(all: Option<I>, most: usize, of: impl FnMut(I::Item) -> T) -> First<T> {
    all.map_or_else(|| First { count: 0, first: Vec::new() }, |all| first(all.map(of), most))
}

impl Worker {
    /// What the desk is now.
    fn look(&mut self, look: &Look) -> Answer {
        self.record.times = true;
        self.take_losses();
        let (processes, has_more) = self.page(look);
        let supervisors = self.tree(look.processes);
        Answer { desk: self.counts(), processes, has_more, supervisors }
    }

    fn counts(&self) -> DeskView {
        let (record, desk) = (&self.record, self.desk.as_ref().expect("a desk, outside of a meeting"));
        DeskView {
            desk: self.number,
            processes: self.seats.len() - self.free.len(),
            supervisors: self.supervisions.len(),
            messages: record.messages,
            handlers: record.handlers,
            restarts: record.restarts,
            losses: record.losses,
            longest: record.longest,
            queue: self.crew.queued(),
            waiting_for_room: desk.pending(),
            journal: desk.event_count(),
            clock: desk.clock(),
        }
    }

    /// The processes of a page that are on this desk, with their seats, and whether there are more.
    fn page(&self, look: &Look) -> (Vec<(usize, ProcessView)>, bool) {
        let from = match look.after {
            Some(after) if after.desk > self.number => return (Vec::new(), false),
            Some(after) if after.desk == self.number => after.seat + 1,
            _ => 0,
        };
        let desk = self.desk.as_ref().expect("a desk, outside of a meeting");
        let seats = (from..).zip(self.seats.get(from..).unwrap_or_default());
        let living = seats.filter_map(|(place, seat)| Some((place, seat.as_ref()?)));
        let mut living = living.filter(|(_, seat)| desk.alive(seat.pid));
        let seen = |(place, seat): (usize, &Seat)| Some((place, self.process(desk, seat, look.first)?));
        let page: Vec<_> = living.by_ref().take(look.processes).filter_map(seen).collect();
        (page, living.next().is_some())
    }

    /// A process. `None` while its handler runs, which is never between two steps.
    fn process(&self, desk: &Desk, seat: &Seat, most: usize) -> Option<ProcessView> {
        let pid = seat.pid;
        let Outline { next, wanted, aside, calls } = seat.actor.as_ref()?.outline();
        let (waits_for, until) = waits_for(next, wanted);
        let slot = seat.actor.as_ref()?.slot();
        Some(ProcessView {
            pid,
            behaviour: slot.name(),
            parent: seat.parent.pid().map(|parent| self.front_of(parent)),
            names: slot.names(),
            waits_for,
            time_left: until.map(|at| self.hub.until(at)),
            mailbox: listed(desk.waiting(pid), most, |item| item),
            aside,
            calls,
            links: listed(desk.links(pid), most, |(peer, _)| self.front_of(peer)),
            monitors: listed(desk.monitors(pid), most, |(_, target)| target),
            watchers: listed(desk.watchers(pid), most, |(_, owner)| owner),
            traps_exits: desk.traps(pid).unwrap_or(false),
        })
    }

    /// The process that others know as the supervisor, if this one is behind it.
    fn front_of(&self, pid: Pid) -> Pid {
        self.supervisions.get(&pid).map_or(pid, |supervision| supervision.front())
    }

    /// The supervisors of the desk, each before those below it.
    fn tree(&self, most: usize) -> Vec<SupervisorView> {
        let mut left = most;
        let mut all: HashMap<Pid, SupervisorView> = HashMap::new();
        for supervision in self.supervisions.values() {
            let children = first(supervision.infos(), left);
            left -= children.first.len();
            let view = SupervisorView {
                pid: supervision.front(),
                parent: None,
                depth: 0,
                strategy: supervision.strategy(),
                restarts: supervision.infos().map(|child| child.started.saturating_sub(1)).sum(),
                children,
            };
            all.insert(view.pid, view);
        }
        for seat in self.seats.iter().flatten() {
            if let (Some(view), Some(parent)) = (all.get_mut(&seat.pid), seat.parent.pid()) {
                view.parent = self.supervisions.get(&parent).map(|supervision| supervision.front());
            }
        }
        in_order(all)
    }

    /// The text of a process's state. `None` if it has exited.
    fn inspect(&self, pid: Pid) -> Option<String> {
        let desk = self.desk.as_ref().filter(|desk| desk.alive(pid));
        let seat = desk.and_then(|_| self.seats.iter().flatten().find(|seat| seat.pid == pid))?;
        Some(seat.actor.as_ref()?.inspect())
    }
}

/// What a process waits for, and until when.
fn waits_for(next: Next, wanted: Wanted) -> (WaitsFor, Option<u64>) {
    let (pick, until) = match next {
        Next::Wait(pick) => (pick, None),
        Next::WaitUntil(pick, at) => (pick, Some(at)),
        _ => return (WaitsFor::Nothing, None),
    };
    let waits_for = match (wanted, pick) {
        (Wanted::Selection(selection), _) => WaitsFor::Selection(selection),
        (Wanted::Pick(Pick::Any), _) | (Wanted::All, Pick::Any) => WaitsFor::Anything,
        (Wanted::Pick(pick), _) | (Wanted::All, pick) => WaitsFor::Pick(pick),
    };
    (waits_for, until)
}

/// Supervisors as a tree: each before those below it, by pid.
fn in_order(all: HashMap<Pid, SupervisorView>) -> Vec<SupervisorView> {
    let known: HashSet<Pid> = all.keys().copied().collect();
    let mut below: HashMap<Option<Pid>, Vec<SupervisorView>> = HashMap::new();
    for view in all.into_values() {
        below.entry(view.parent.filter(|parent| known.contains(parent))).or_default().push(view);
    }
    // (those of the greatest pid first: they are taken from the end)
    below.values_mut().for_each(|views| views.sort_by_key(|view| std::cmp::Reverse(view.pid)));
    let mut open: Vec<(usize, SupervisorView)> = Vec::new();
    let mut next = |parent| below.remove(&parent).unwrap_or_default();
    let mut tree = Vec::new();
    open.extend(next(None).into_iter().map(|view| (0, view)));
    while let Some((depth, view)) = open.pop() {
        open.extend(next(Some(view.pid)).into_iter().map(|view| (depth + 1, view)));
        tree.push(SupervisorView { depth, ..view });
    }
    tree
}
