//! The children of supervisors that are on other desks. A supervisor of the library says which one it wants started. On the other
//! desk the behaviour of that one is made, and its process is spawned, which does not begin yet. The supervisor is told of it and
//! links with it. Then it begins, and those behind it are started once it has.

use super::child::{ChildFault, Listed};
use super::hub::Origin;
use super::inbox::Task;
use super::payloads::drop_quietly;
use super::supervision::Supervision;
use super::worker::{CHILD, HOLLOW, Worker};
use crate::crew::{Next, What};
use crate::{Fault, Pick, Pid, Reason};
use std::mem;

/// How far the start of a child on another desk has come.
#[derive(Clone, Copy)]
pub(super) enum Away {
    /// The supervisor waits for the child in this place, which may not be started yet.
    Wanted(u64),
    /// The other desk was asked to start it.
    Sent,
    /// The supervisor links with this process, which begins then. A hollow one does nothing.
    Joins { place: u64, pid: Pid, is_hollow: bool },
}

/// A child that another desk is to start.
pub(crate) struct Sent {
    supervisor: Pid,
    /// The process in front of the supervisor.
    front: Pid,
    place: u64,
    /// `None` if it is not made, since its supervisor is about to end it: a process that does nothing is in its place.
    child: Option<Listed>,
}

impl Supervision {
    /// The child in this place has no process now, by all that was told.
    pub(super) fn misses(&mut self, place: u64) {
        if self.children.get(&place).is_some_and(|child| child.desk.is_some()) {
            self.is_abroad = true;
            self.absent.insert(place);
        }
    }

    /// Whether a child in front of this place was started on another desk, and has not begun.
    pub(super) fn is_early(&self, place: u64) -> bool {
        match self.away {
            Some(Away::Joins { place: before, .. }) => before < place,
            Some(Away::Wanted(_) | Away::Sent) | None => false,
        }
    }
}

/// What the desk of a supervisor does.
impl Worker {
    /// Notes that a supervisor may want a child on another desk.
    pub(super) fn may_want(&mut self, supervisor: Pid) {
        let wants = self.supervisions.get(&supervisor).is_some_and(|it| !it.absent.is_empty());
        if wants && !self.wanting.contains(&supervisor) {
            self.wanting.push(supervisor);
        }
    }

    /// Goes on with the starts of children on other desks.
    pub(super) fn send_children(&mut self) {
        for supervisor in mem::take(&mut self.wanting) {
            if let Some(Away::Joins { place, pid, is_hollow: true }) = self.away(supervisor) {
                self.see_joined(supervisor, place, pid);
            }
            self.ask_for_child(supervisor);
            if let Some(Away::Wanted(place)) = self.away(supervisor) {
                self.send_child(supervisor, place);
            }
            self.may_want(supervisor);
        }
    }

    fn away(&self, supervisor: Pid) -> Option<Away> {
        self.supervisions.get(&supervisor).and_then(|it| it.away)
    }

    /// Asks a supervisor which child it wants on another desk, unless one is being started there. It tells of each start once.
    pub(super) fn ask_for_child(&mut self, supervisor: Pid) {
        let Some(supervision) = self.supervisions.get_mut(&supervisor) else { return };
        if supervision.is_abroad && supervision.away.is_none() {
            supervision.away = self.crew.child_to_start(supervisor).map(|tag| Away::Wanted(tag & !CHILD));
        }
    }

    /// Has another desk start the child that a supervisor waits for, if that may be started.
    fn send_child(&mut self, supervisor: Pid, place: u64) {
        if !self.may_start(supervisor, place) {
            return;
        }
        let supervision = self.supervisions.get_mut(&supervisor).expect("a supervisor of this desk");
        supervision.away = Some(Away::Sent);
        let desk = supervision.children.get(&place).and_then(|child| child.desk);
        let (front, child) = (supervision.front, supervision.take_to_make(place));
        let sent = Sent { supervisor, front, place, child };
        match desk.and_then(|desk| self.hub.places.get(usize::from(desk))) {
            Some(there) => {
                there.post(Task::Do(Box::new(move |worker| worker.take_in(sent))), Origin::Run);
            }
            None => self.not_started(sent, &ChildFault::Table(Fault::BadDesks)),
        }
    }

    /// Whether a child may be started now: those in front of it have begun, and all is told of its process before. One that
    /// is not made need not wait.
    fn may_start(&self, supervisor: Pid, place: u64) -> bool {
        let supervision = &self.supervisions[&supervisor];
        let has_begun = |(at, before): (usize, &u64)| {
            let known = self.crew.child(supervisor, at).and_then(|child| child.pid);
            known.is_none() || known == supervision.children.get(before).and_then(Listed::pid)
        };
        let mut in_front = supervision.listed.iter().enumerate().take_while(|(_, it)| **it < place);
        self.is_held(supervisor, place) || !supervision.is_alive(place) && in_front.all(has_begun)
    }

    /// Whether a child is not made, since one in front of it was not. (that may have been started again, and not told so)
    fn is_held(&self, supervisor: Pid, place: u64) -> bool {
        let supervision = &self.supervisions[&supervisor];
        let is_last = |(failed, pid)| self.child(supervisor, failed).is_none_or(|it| it.pid.is_none_or(|it| it == pid));
        supervision.holds(place) && supervision.failed().is_none_or(is_last)
    }

    /// Another desk has spawned the process of a child: its supervisor is to link with it. If the supervisor has exited, the
    /// process does, too.
    fn spawned_elsewhere(&mut self, supervisor: Pid, place: u64, pid: Pid, is_hollow: bool) {
        let told = self.crew.child_started(supervisor, place | CHILD, pid);
        match self.supervisions.get_mut(&supervisor) {
            Some(supervision) if told.is_ok() => supervision.away = Some(Away::Joins { place, pid, is_hollow }),
            _ => self.lose_child(pid, is_hollow),
        }
    }

    /// Goes on if a supervisor has linked with a hollow process.
    fn see_joined(&mut self, supervisor: Pid, place: u64, pid: Pid) {
        if self.child(supervisor, place).is_some_and(|child| child.pid == Some(pid)) {
            self.came_home(supervisor);
        }
    }

    /// Nothing is being started on another desk for this supervisor now.
    fn came_home(&mut self, supervisor: Pid) {
        if let Some(supervision) = self.supervisions.get_mut(&supervisor) {
            supervision.away = None;
        }
        for job in mem::take(&mut self.early) {
            self.tell(&job);
        }
        self.answer();
        self.may_want(supervisor);
    }

    /// A child on another desk has begun.
    fn begun_elsewhere(&mut self, sent: Sent, pid: Pid) {
        let Sent { supervisor, front, place, child: Some(mut child) } = sent else { return };
        if !self.supervisions.contains_key(&supervisor) {
            self.came_late(front, place, child);
            return;
        }
        let is_first = mem::take(&mut child.is_first);
        child.started(self, front, place, pid);
        let supervision = self.supervisions.get_mut(&supervisor).expect("a supervisor of this desk");
        supervision.unbegun -= usize::from(is_first);
        supervision.absent.remove(&place);
        supervision.children.insert(place, child);
        self.made(supervisor, place, pid);
        self.came_home(supervisor);
    }

    /// A child was not started on another desk, or its process exited before it began.
    fn not_started(&mut self, sent: Sent, fault: &ChildFault) {
        let Sent { supervisor, front, place, child } = sent;
        // (if its supervisor knows of the process, it hears of the exit)
        let is_awaited = self.crew.child_not_started(supervisor, place | CHILD).is_ok();
        match (self.supervisions.get_mut(&supervisor), child) {
            (Some(supervision), Some(child)) => {
                let is_first = child.is_first;
                supervision.children.insert(place, child);
                // (without its first start the supervisor gives up)
                if is_awaited && !is_first {
                    self.has_refused(supervisor, place, fault);
                }
            }
            (None, Some(child)) => self.came_late(front, place, child),
            (_, None) => {}
        }
        self.came_home(supervisor);
    }

    /// A child comes back whose supervisor has exited.
    fn came_late(&mut self, front: Pid, place: u64, mut child: Listed) {
        child.gone(Reason::Killed);
        // (who has asked for it hears of the exit first)
        match self.left.iter_mut().find(|it| it.front == front) {
            Some(supervision) => {
                supervision.children.insert(place, child);
            }
            None => drop_quietly(child),
        }
    }

    /// A supervisor has exited: the run tells its children on other desks the order now.
    pub(super) fn lose_children(&mut self, supervision: &Supervision) {
        if let Some(Away::Joins { pid, is_hollow, .. }) = supervision.away {
            self.lose_child(pid, is_hollow);
        }
        let abroad = supervision.children.values().filter(|child| child.desk.is_some());
        abroad.filter_map(Listed::pid).for_each(|pid| self.lose_child(pid, false));
    }

    /// A process on another desk has no supervisor any more. It is killed if it has not begun.
    fn lose_child(&self, pid: Pid, is_hollow: bool) {
        self.tell_desk_of(pid, move |worker| {
            if is_hollow || worker.arriving.contains_key(&pid) {
                worker.signal_surely(pid, Reason::Kill);
            } else {
                worker.lose_parent(pid);
            }
        });
    }
}

/// What the desk of a child does.
impl Worker {
    /// Starts a child of a supervisor of another desk.
    fn take_in(&mut self, mut sent: Sent) {
        let (supervisor, place) = (sent.supervisor, sent.place);
        let started = match &mut sent.child {
            Some(_) if self.is_full() => Err(ChildFault::Table(Fault::Full)),
            Some(child) => child.start_elsewhere(self, supervisor, place),
            None => self.spawn_hollow(),
        };
        match started {
            // (the run halts, and it is tried again as the run goes on)
            Err(ChildFault::Table(Fault::Memory | Fault::Worn)) => self.later(move |worker| worker.take_in(sent)),
            Err(fault) => self.tell_desk_of(supervisor, move |worker| worker.not_started(sent, &fault)),
            Ok(pid) if sent.child.is_some() => {
                self.arriving.insert(pid, sent);
            }
            Ok(pid) => {
                self.tell_desk_of(supervisor, move |worker| worker.spawned_elsewhere(supervisor, place, pid, true));
            }
        }
    }

    /// Spawns a process that does nothing, in the place of a child that is not made.
    fn spawn_hollow(&mut self) -> Result<Pid, ChildFault> {
        let desk = self.desk.as_mut().expect("a desk, outside of a meeting");
        let spawned = self.crew.spawn(desk, HOLLOW, Next::Wait(Pick::Any));
        self.noted(spawned).map_err(ChildFault::Table)
    }

    /// Whether this process, which is to begin, waits until its supervisor on another desk has linked with it. That is told of
    /// it.
    pub(super) fn waits_for_link(&self, pid: Pid) -> bool {
        let Some(&Sent { supervisor, place, .. }) = self.arriving.get(&pid) else { return false };
        self.tell_desk_of(supervisor, move |worker| worker.spawned_elsewhere(supervisor, place, pid, false));
        true
    }

    /// The children begin whose supervisors have linked with them. It returns whether any did.
    pub(super) fn begin_linked(&mut self) -> bool {
        let is_linked = |(pid, sent): &(&Pid, &Sent)| self.has_link(**pid, sent.supervisor);
        let mut linked: Vec<Pid> = self.arriving.iter().filter(is_linked).map(|(&pid, _)| pid).collect();
        // (in one order, so that a run can be made again)
        linked.sort_unstable();
        for &pid in &linked {
            let (Some(mut sent), Some(place)) = (self.arriving.remove(&pid), self.seat_of(pid)) else { continue };
            sent.child.iter_mut().for_each(Listed::begins);
            self.handle(pid, place, &What::Start(None));
            self.answer();
            self.tell_desk_of(sent.supervisor, move |worker| worker.begun_elsewhere(sent, pid));
        }
        !linked.is_empty()
    }

    fn has_link(&self, pid: Pid, with: Pid) -> bool {
        let links = self.desk.as_ref().and_then(|desk| desk.links(pid));
        links.into_iter().flatten().any(|(peer, _)| peer == with)
    }

    /// A child of a supervisor of another desk has exited, and all of it is gone.
    pub(super) fn left_elsewhere(&mut self, supervisor: Pid, place: u64, pid: Pid, why: Reason) {
        match self.arriving.remove(&pid) {
            Some(sent) => {
                let fault = ChildFault::Table(Fault::NoProc);
                self.tell_desk_of(supervisor, move |worker| worker.not_started(sent, &fault));
            }
            None => self.tell_desk_of(supervisor, move |worker| worker.child_left(supervisor, place, pid, why)),
        }
    }

    /// Has the desk of a process do this, after all that it was told before.
    fn tell_desk_of(&self, pid: Pid, work: impl FnOnce(&mut Worker) + Send + 'static) {
        self.hub.place(pid).post(Task::Do(Box::new(work)), Origin::Run);
    }
}
