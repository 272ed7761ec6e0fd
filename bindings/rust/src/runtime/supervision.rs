//! The supervisors of a desk. Each is a process of the crew that the library runs: it starts the children, ends them,
//! and starts them again. What is here makes the behaviour of a child as it is started, and passes on what is asked.
//!
//! The process that others know as the supervisor stands in front of that one. It has the messages and the exit
//! signals, and exits once that one has.

use super::PANIC;
use super::calls::Reply;
use super::child::{ChildFault, ChildInfo, Listed, Post, Restart};
use super::elsewhere::Away;
use super::hub::Origin;
use super::inbox::Task;
use super::payloads::drop_quietly;
use super::supervisor::Request;
use super::worker::{CHILD, SUPERVISOR, Worker};
use crate::crew::Next;
use crate::supervisors::{self, ChildSpec, Strategy, SupervisorSpec};
use crate::{Fault, Pick, Pid, Reason};
use std::collections::{BTreeMap, BTreeSet, VecDeque};
use std::mem;
use std::sync::atomic::Ordering::SeqCst;

/// Which children are not made as they are started, since their supervisor is about to end them.
enum Held {
    Nobody,
    /// Those behind the one in this place, which was not made for this process.
    Behind(u64, Pid),
    All,
}

/// What a supervisor was asked and has not done.
enum Asked {
    /// To start the child in this place. It is a new one if nobody is to be told here. It was tried before that, or
    /// not.
    Start { place: u64, reply: Option<Reply<Result<Pid, ChildFault>>>, tried: bool },
    /// To end the child in this place, and perhaps to forget it.
    End { place: u64, reply: Option<Reply<Result<(), ChildFault>>>, forget: bool },
}

/// What is known of a supervisor of the crew.
pub(crate) struct Supervision {
    /// The process that others know as the supervisor.
    pub(super) front: Pid,
    strategy: Strategy,
    /// Its children by their places: the numbers in which they were added. (one that another desk starts is not here)
    pub(super) children: BTreeMap<u64, Listed>,
    added: u64,
    /// The places of those that the library knows, in its order.
    pub(super) listed: Vec<u64>,
    /// The places of those that it has to forget.
    forgotten: Vec<u64>,
    /// How many of those that it begins with were not made yet.
    pub(super) unbegun: usize,
    held: Held,
    /// Whether there were children on other desks, and the places of those that have no process now.
    pub(super) is_abroad: bool,
    pub(super) absent: BTreeSet<u64>,
    /// The child that is being started on another desk.
    pub(super) away: Option<Away>,
    requests: VecDeque<Request>,
    asked: Option<Asked>,
}

impl Supervision {
    fn new(front: Pid, strategy: Strategy, children: Vec<Listed>) -> Supervision {
        let (unbegun, added) = (children.len(), children.len() as u64);
        let mut supervision = Supervision {
            front,
            strategy,
            children: (0..).zip(children).collect(),
            added,
            listed: (0..added).collect(),
            forgotten: Vec::new(),
            unbegun,
            held: Held::Nobody,
            is_abroad: false,
            absent: BTreeSet::new(),
            away: None,
            requests: VecDeque::new(),
            asked: None,
        };
        (0..added).for_each(|place| supervision.misses(place));
        supervision
    }

    /// Whether the child in this place is not made.
    pub(super) fn holds(&self, place: u64) -> bool {
        match self.held {
            Held::All => true,
            Held::Behind(failed, _) => place > failed,
            Held::Nobody => false,
        }
    }

    /// The place and the process of the child that was not made, behind which others are not made.
    pub(super) fn failed(&self) -> Option<(u64, Pid)> {
        match self.held {
            Held::Behind(failed, pid) => Some((failed, pid)),
            Held::All | Held::Nobody => None,
        }
    }

    /// Takes the child in this place, which is started, so that it is made. `None` if it is not made. One that is not
    /// behind a child that was not made is started again once those behind have exited.
    pub(super) fn take_to_make(&mut self, place: u64) -> Option<Listed> {
        if self.holds(place) {
            return None;
        }
        self.held = Held::Nobody;
        self.children.remove(&place)
    }

    /// The process that others know as the supervisor.
    pub(crate) fn front(&self) -> Pid {
        self.front
    }

    pub(crate) fn strategy(&self) -> Strategy {
        self.strategy
    }

    /// What is known of the children, in the order in which they were added.
    pub(crate) fn infos(&self) -> impl ExactSizeIterator<Item = ChildInfo> + '_ {
        self.children.iter().map(|(&place, child)| child.info(place))
    }

    pub(super) fn is_alive(&self, place: u64) -> bool {
        self.children.get(&place).is_some_and(Listed::is_alive)
    }

    /// Says of a child that it is there and not alive, or why not.
    fn is_idle(&self, place: u64) -> Result<(), ChildFault> {
        match self.children.get(&place) {
            Some(child) if child.is_alive() => Err(ChildFault::Running),
            Some(_) => Ok(()),
            None => Err(ChildFault::NotFound),
        }
    }

    /// Forgets a child. The library forgets it once it may.
    fn forget(&mut self, place: u64) {
        if let Some(child) = self.children.remove(&place) {
            self.absent.remove(&place);
            self.forgotten.push(place);
            drop_quietly(child);
        }
    }

    fn is_asked(&self) -> bool {
        self.asked.is_some() || !self.requests.is_empty() || !self.forgotten.is_empty()
    }
}

impl Worker {
    /// Spawns the supervisor behind this process. It takes the children.
    pub(crate) fn supervise(
        &mut self,
        front: Pid,
        spec: SupervisorSpec,
        children: &mut Vec<Listed>,
    ) -> Result<Pid, Fault> {
        children.iter_mut().for_each(|child| child.settle(self.number));
        let specs: Vec<ChildSpec> = (0..).zip(&*children).map(|(place, child)| child.spec(place | CHILD)).collect();
        let spec = SupervisorSpec { parent: Some(front), ..spec };
        let desk = self.desk.as_mut().expect("a desk, outside of a meeting");
        let spawned = self.crew.spawn_supervisor(desk, SUPERVISOR, spec, &specs);
        let pid = self.noted(spawned)?;
        self.hub.alive.fetch_add(1, SeqCst);
        self.supervisions.insert(pid, Supervision::new(front, spec.strategy, mem::take(children)));
        (self.looks, self.is_timed) = (true, true);
        self.may_want(pid);
        Ok(pid)
    }

    /// A supervisor is to end its children, and to exit with this reason.
    pub(crate) fn end_supervisor(&mut self, pid: Pid, reason: Reason) {
        let Some(front) = self.supervisions.get(&pid).map(|it| it.front) else { return };
        // (a `kill` of a link can be trapped, and one of a signal cannot)
        let told = if reason == Reason::Kill { Reason::Killed } else { reason };
        let sent = self.desk().exit_signal(front, pid, told);
        if let Err(Fault::Memory | Fault::Worn) = self.noted(sent) {
            // (the run halts, and it is told as the run goes on)
            self.later(move |worker| worker.end_supervisor(pid, reason));
        }
    }

    /// What was asked of supervisors that have exited is dropped, once the process in front has exited: who has asked
    /// hears of that first.
    fn drop_left(&mut self) {
        let (kept, left) = mem::take(&mut self.left).into_iter().partition(|it| self.is_seated(it.front));
        self.left = kept;
        let left: Vec<Supervision> = left;
        left.into_iter().for_each(drop_quietly);
    }

    /// The process in front of a supervisor has exited: that one is killed if it has not.
    pub(crate) fn front_left(&mut self, front: Pid) {
        let behind = self.supervisions.iter().find(|(_, it)| it.front == front).map(|(&pid, _)| pid);
        let Some(pid) = behind else { return };
        self.signal_surely(pid, Reason::Kill);
    }

    /// Sends an exit signal in the desk's own name, also if the run halts meanwhile.
    pub(super) fn signal_surely(&mut self, to: Pid, reason: Reason) {
        let porter = self.porter;
        let sent = self.desk().exit_signal(porter, to, reason);
        if let Err(Fault::Memory | Fault::Worn) = self.noted(sent) {
            self.later(move |worker| worker.signal_surely(to, reason));
        }
    }

    /// A supervisor has exited, and with it the process in front.
    pub(crate) fn supervisor_left(&mut self, pid: Pid, why: Reason) {
        let Some(mut supervision) = self.supervisions.remove(&pid) else { return };
        self.one_less();
        self.lose_children(&supervision);
        supervision.children.values_mut().for_each(|child| child.gone(why));
        self.exit_front(supervision.front, why);
        self.left.push(supervision);
        // (children that live are told the order by nobody else now)
        self.retell();
    }

    fn exit_front(&mut self, front: Pid, why: Reason) {
        let exited = self.desk().exit(front, why);
        if let Err(Fault::Memory | Fault::Worn) = self.noted(exited) {
            self.later(move |worker| worker.exit_front(front, why));
        }
    }

    pub(super) fn later(&self, work: impl FnOnce(&mut Worker) + Send + 'static) {
        self.hub.places[usize::from(self.number)].post(Task::Do(Box::new(work)), Origin::Run);
    }

    /// Whether a child in front of this place was started on another desk, and has not begun.
    pub(super) fn is_early(&self, supervisor: Pid, place: u64) -> bool {
        self.supervisions.get(&supervisor).is_some_and(|it| it.is_early(place))
    }

    /// A child is started as this process: its behaviour is made. It returns whether it was.
    pub(crate) fn begin_child(&mut self, pid: Pid, supervisor: Pid, place: u64) -> bool {
        let Some(supervision) = self.supervisions.get_mut(&supervisor) else { return false };
        let (front, Some(mut child)) = (supervision.front, supervision.take_to_make(place)) else { return false };
        let made = self.make(&mut child, front, &Post { supervisor, place, pid });
        let (is_made, is_first) = (made.is_ok(), child.is_first);
        child.is_first &= !is_made;
        let supervision = self.supervisions.get_mut(&supervisor).expect("a supervisor of this desk");
        supervision.children.insert(place, child);
        match made {
            Ok(()) => {
                supervision.unbegun -= usize::from(is_first);
                self.made(supervisor, place, pid);
            }
            Err(_) if is_first => {
                supervision.held = Held::All;
                self.end_supervisor(supervisor, Reason::Shutdown);
            }
            Err(fault) => self.not_made(supervisor, place, pid, &fault),
        }
        is_made
    }

    /// Makes the behaviour of a child, unless the desk has more processes than it may.
    fn make(&mut self, child: &mut Listed, front: Pid, post: &Post) -> Result<(), ChildFault> {
        if self.is_full() {
            return Err(ChildFault::Table(Fault::Full));
        }
        self.runs(Some(front));
        let made = child.start(self, front, post);
        self.runs(None);
        made
    }

    /// A child was made. Who has asked for it is told. If nobody has, the program is told that it was started again.
    pub(super) fn made(&mut self, supervisor: Pid, place: u64, pid: Pid) {
        let supervision = self.supervisions.get_mut(&supervisor).expect("a supervisor of this desk");
        let front = supervision.front;
        match supervision.asked.take() {
            Some(Asked::Start { place: asked, reply, tried: false }) if asked == place => {
                reply.into_iter().for_each(|reply| self.reply(front, reply, Ok(pid)));
                return;
            }
            Some(Asked::Start { place: asked, reply, tried: true }) if asked == place => {
                reply.into_iter().for_each(|reply| self.reply(front, reply, Ok(pid)));
            }
            asked => supervision.asked = asked,
        }
        let child = self.supervisions.get(&supervisor).and_then(|it| it.children.get(&place));
        if let Some(report) = child.and_then(|child| child.restarted(front, place)) {
            self.hub.report(&report);
            self.record.restarted();
        }
    }

    /// A child was not made. If it was asked for, its supervisor does not want it any more, and ends its process.
    /// Otherwise the process exits, so its supervisor tries again, with those that the strategy names.
    fn not_made(&mut self, supervisor: Pid, place: u64, pid: Pid, fault: &ChildFault) {
        if self.has_refused(supervisor, place, fault) {
            return;
        }
        let supervision = self.supervisions.get_mut(&supervisor).expect("a supervisor of this desk");
        if supervision.strategy != Strategy::OneForOne {
            supervision.held = Held::Behind(place, pid);
        }
        self.crew.note_answer(pid, Next::Stop(PANIC));
    }

    /// Tells the one who has asked for a child that it was not started. It returns whether its supervisor does not want it any
    /// more.
    pub(super) fn has_refused(&mut self, supervisor: Pid, place: u64, fault: &ChildFault) -> bool {
        let supervision = self.supervisions.get_mut(&supervisor).expect("a supervisor of this desk");
        let front = supervision.front;
        match supervision.asked.take() {
            Some(Asked::Start { place: asked, reply, tried: false }) if asked == place => {
                self.refuse(supervisor, place, reply, fault.clone());
                return true;
            }
            Some(Asked::Start { place: asked, reply, tried: true }) if asked == place => {
                reply.into_iter().for_each(|reply| self.reply(front, reply, Err(fault.clone())));
            }
            asked => supervision.asked = asked,
        }
        false
    }

    /// A child that was asked for is not started. A new one is forgotten.
    fn refuse(
        &mut self,
        supervisor: Pid,
        place: u64,
        reply: Option<Reply<Result<Pid, ChildFault>>>,
        fault: ChildFault,
    ) {
        // (a child that it does not have, or has ended, is ended)
        let _ = self.crew.terminate_child(supervisor, place | CHILD);
        let supervision = self.supervisions.get_mut(&supervisor).expect("a supervisor of this desk");
        let (front, forget) = (supervision.front, reply.is_none());
        supervision.asked = Some(Asked::End { place, reply: None, forget });
        let child = supervision.children.get_mut(&place).and_then(Listed::refused);
        match (reply, child) {
            (Some(reply), _) => self.reply(front, reply, Err(fault)),
            (None, Some(tell)) => tell(self, front, fault),
            (None, None) => {}
        }
    }

    /// A child has exited as this process.
    pub(crate) fn child_left(&mut self, supervisor: Pid, place: u64, pid: Pid, why: Reason) {
        let Some(supervision) = self.supervisions.get_mut(&supervisor) else { return };
        let Some(child) = supervision.children.get_mut(&place).filter(|child| child.pid() == Some(pid)) else { return };
        child.gone(why);
        supervision.misses(place);
        if supervision.children[&place].restart == Restart::Temporary {
            supervision.forget(place);
            self.is_asked(supervisor);
        }
        self.may_want(supervisor);
    }

    /// Asks a supervisor.
    pub(crate) fn ask_supervisor(&mut self, supervisor: Pid, request: Request) {
        if let Some(supervision) = self.supervisions.get_mut(&supervisor) {
            supervision.requests.push_back(request);
            self.is_asked(supervisor);
        }
    }

    fn is_asked(&mut self, supervisor: Pid) {
        if !self.asked.contains(&supervisor) {
            self.asked.push(supervisor);
        }
    }

    /// Serves the supervisors that were asked for something, and drops those that have exited.
    pub(crate) fn serve(&mut self) {
        if !self.left.is_empty() {
            self.drop_left();
        }
        for supervisor in mem::take(&mut self.asked) {
            self.serve_one(supervisor);
            if self.supervisions.get(&supervisor).is_some_and(Supervision::is_asked) {
                self.is_asked(supervisor);
            }
        }
    }

    /// Does what a supervisor was asked, one after the other, until it has to do something first.
    fn serve_one(&mut self, supervisor: Pid) {
        while self.is_settled(supervisor) {
            self.forget_children(supervisor);
            let supervision = self.supervisions.get_mut(&supervisor).expect("a supervisor of this desk");
            if let Some(asked) = supervision.asked.take() {
                if !self.is_done(supervisor, asked) {
                    return;
                }
            } else if let Some(request) = supervision.requests.pop_front() {
                if let Some(request) = self.begin_request(supervisor, request) {
                    let supervision = self.supervisions.get_mut(&supervisor).expect("a supervisor of this desk");
                    supervision.requests.push_front(request);
                    return;
                }
            } else {
                return;
            }
        }
    }

    /// Whether a supervisor has begun, and neither ends a child nor is to start one.
    fn is_settled(&mut self, supervisor: Pid) -> bool {
        self.ask_for_child(supervisor);
        let has_begun = |it: &Supervision| it.unbegun == 0 && it.away.is_none() && matches!(it.held, Held::Nobody);
        self.supervisions.get(&supervisor).is_some_and(has_begun)
            && matches!(self.crew.next(supervisor), Some(Next::Wait(Pick::Any) | Next::WaitUntil(Pick::Any, _)))
    }

    /// Has the library forget the children that are forgotten here, if it has heard that they have exited.
    fn forget_children(&mut self, supervisor: Pid) {
        let supervision = self.supervisions.get_mut(&supervisor).expect("a supervisor of this desk");
        let Supervision { forgotten, listed, .. } = supervision;
        forgotten.retain(|&place| match self.crew.delete_child(supervisor, place | CHILD) {
            Ok(_) | Err(supervisors::ChildFault::NotFound) => {
                _ = listed.binary_search(&place).map(|at| listed.remove(at));
                false
            }
            Err(_) => true,
        });
    }

    /// Whether a supervisor has done what it was asked. Who has asked is told so.
    fn is_done(&mut self, supervisor: Pid, asked: Asked) -> bool {
        let is_given_up = matches!(asked, Asked::Start { place, .. } if self.is_given_up(supervisor, place));
        let supervision = self.supervisions.get_mut(&supervisor).expect("a supervisor of this desk");
        let front = supervision.front;
        match asked {
            Asked::End { place, reply, forget } if !supervision.is_alive(place) => {
                let is_temporary = |child: &Listed| child.restart == Restart::Temporary;
                if forget || supervision.children.get(&place).is_some_and(is_temporary) {
                    supervision.forget(place);
                }
                reply.into_iter().for_each(|reply| self.reply(front, reply, Ok(())));
                true
            }
            Asked::Start { place, reply, .. } if is_given_up => {
                self.refuse(supervisor, place, reply, ChildFault::Table(Fault::Full));
                true
            }
            asked => {
                supervision.asked = Some(asked);
                false
            }
        }
    }

    /// Whether a child is neither alive nor to be started: no slot was free.
    fn is_given_up(&self, supervisor: Pid, place: u64) -> bool {
        self.child(supervisor, place).is_none_or(|child| child.pid.is_none() && !child.wanted)
    }

    /// What the library knows of a child.
    pub(super) fn child(&self, supervisor: Pid, place: u64) -> Option<supervisors::Child> {
        let listed = self.supervisions.get(&supervisor)?.listed.binary_search(&place).ok()?;
        self.crew.child(supervisor, listed)
    }

    /// Does what is asked, or has the supervisor do it. The request comes back if the supervisor has to hear of an exit
    /// first.
    fn begin_request(&mut self, supervisor: Pid, request: Request) -> Option<Request> {
        let supervision = self.supervisions.get_mut(&supervisor).expect("a supervisor of this desk");
        let front = supervision.front;
        match request {
            Request::Which(reply) => {
                let all = supervision.infos().collect();
                self.reply(front, reply, all);
            }
            Request::Start(child) => self.start_child(supervisor, child),
            Request::Terminate(place, reply) if supervision.children.contains_key(&place) => {
                self.end_child(supervisor, place, reply, false);
            }
            Request::Terminate(_, reply) => self.reply(front, reply, Err(ChildFault::NotFound)),
            Request::Restart(place, reply) => match supervision.is_idle(place) {
                Ok(()) => return self.restart_child(supervisor, place, reply),
                Err(fault) => self.reply(front, reply, Err(fault)),
            },
            Request::Delete(place, reply) => match supervision.is_idle(place) {
                Ok(()) => self.end_child(supervisor, place, reply, true),
                Err(fault) => self.reply(front, reply, Err(fault)),
            },
        }
        None
    }

    fn start_child(&mut self, supervisor: Pid, mut child: Listed) {
        child.settle(self.number);
        let supervision = self.supervisions.get_mut(&supervisor).expect("a supervisor of this desk");
        let place = supervision.added;
        supervision.children.insert(place, child);
        supervision.added += 1;
        supervision.misses(place);
        let spec = supervision.children[&place].spec(place | CHILD);
        match self.crew.start_child(supervisor, spec) {
            Ok(_) => {
                supervision.listed.push(place);
                supervision.asked = Some(Asked::Start { place, reply: None, tried: false });
            }
            Err(_) => self.refuse(supervisor, place, None, ChildFault::Table(Fault::Memory)),
        }
        self.may_want(supervisor);
    }

    /// Has a supervisor end a child, alive or not: it is not wanted any more.
    fn end_child(&mut self, supervisor: Pid, place: u64, reply: Reply<Result<(), ChildFault>>, forget: bool) {
        let asked = self.crew.terminate_child(supervisor, place | CHILD);
        let supervision = self.supervisions.get_mut(&supervisor).expect("a supervisor of this desk");
        match asked {
            Ok(()) => supervision.asked = Some(Asked::End { place, reply: Some(reply), forget }),
            Err(_) => {
                let front = supervision.front;
                self.reply(front, reply, Err(ChildFault::NotFound));
            }
        }
    }

    /// Has a supervisor start a child that is not alive. If it tries so already, the next try counts. The request comes
    /// back if the supervisor has not heard that the child has exited. (one on another desk is known to have)
    fn restart_child(&mut self, supervisor: Pid, place: u64, reply: Reply<Result<Pid, ChildFault>>) -> Option<Request> {
        let tried = self.crew.restart_child(supervisor, place | CHILD).is_err();
        if let Some(pid) = self.child(supervisor, place).and_then(|child| child.pid) {
            if pid.shard != self.number || !self.desk().alive(pid) {
                return Some(Request::Restart(place, reply));
            }
        }
        let supervision = self.supervisions.get_mut(&supervisor).expect("a supervisor of this desk");
        supervision.asked = Some(Asked::Start { place, reply: Some(reply), tried });
        None
    }
}
