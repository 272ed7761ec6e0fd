//! The place of a desk's thread: an inbox with a bell, and the processes that live on the desk.

use super::calls::CallFault;
use super::group::Table;
use super::hub::Origin;
use super::numbers::ByPid;
use super::payloads::{Slot, drop_quietly};
use super::room::Room;
use super::worker::Worker;
use crate::Pid;
use std::collections::VecDeque;
use std::ops::Deref;
use std::sync::atomic::{
    AtomicBool, AtomicU64,
    Ordering::{Acquire, Release, SeqCst},
    fence,
};
use std::sync::{Arc, Condvar, Mutex, MutexGuard, OnceLock, PoisonError};
use std::time::Duration;

/// What somebody outside wants of a desk's thread.
pub(crate) enum Task {
    /// To send a process a message of this kind with this number.
    Send {
        to: Pid,
        kind: u32,
        num: i64,
    },
    Do(Work),
    /// The same, and somebody waits for it: it is dropped if the run halts.
    Ask(Work),
}

pub(crate) type Work = Box<dyn FnOnce(&mut Worker) + Send>;

#[derive(Default)]
struct Inbox {
    /// Whether nobody does anything now.
    halted: bool,
    /// Whether nobody ever will.
    closed: bool,
    /// Whether nothing new comes in, so that the run comes to its end.
    drains: bool,
    /// How many calls of the desk's processes were open as the thread began to rest. (it is counted if nothing new comes in)
    owed: usize,
    /// How often the thread has rested.
    rests: u64,
    tasks: VecDeque<Task>,
}

impl Inbox {
    fn takes(&self, origin: Origin) -> bool {
        match origin {
            Origin::Run => !self.closed,
            Origin::Outside => !self.closed && !self.drains,
            Origin::Caller => !self.closed && !self.drains && !self.halted,
        }
    }
}

/// The live processes of a desk.
#[derive(Default)]
struct Living {
    /// The last one of each slot of the desk, if it lives.
    by_slot: Vec<Option<Arc<dyn Slot>>>,
    /// Those whose slot another one has already, since they have exited, and their exits were not told.
    before: ByPid<Arc<dyn Slot>>,
}

impl Living {
    fn put(&mut self, slot: Arc<dyn Slot>) {
        let place = slot.pid().slot as usize;
        if self.by_slot.len() <= place {
            self.by_slot.resize(place + 1, None);
        }
        if let Some(before) = self.by_slot[place].replace(slot) {
            self.before.insert(before.pid(), before);
        }
    }

    fn get(&self, pid: Pid) -> Option<&Arc<dyn Slot>> {
        let last = self.by_slot.get(pid.slot as usize).and_then(Option::as_ref);
        last.filter(|slot| slot.pid() == pid).or_else(|| self.before.get(&pid))
    }

    fn take(&mut self, pid: Pid) -> Option<Arc<dyn Slot>> {
        match self.by_slot.get_mut(pid.slot as usize) {
            Some(last) if last.as_ref().is_some_and(|slot| slot.pid() == pid) => last.take(),
            _ => self.before.remove(&pid),
        }
    }

    /// All of them, by pid.
    fn all(&self) -> Vec<Arc<dyn Slot>> {
        let mut slots: Vec<_> = self.by_slot.iter().flatten().chain(self.before.values()).cloned().collect();
        slots.sort_by_key(|slot| slot.pid());
        slots
    }
}

/// A value that has lines of a processor's cache to itself. (processors fetch them in pairs)
#[derive(Default)]
#[repr(align(128))]
pub(crate) struct Apart<T>(pub(crate) T);

impl<T> Deref for Apart<T> {
    type Target = T;

    fn deref(&self) -> &T {
        &self.0
    }
}

/// What the threads of other desks read of a desk in each of their steps. It is seldom written.
#[derive(Default)]
struct Signs {
    /// Whether the thread is to be rung for what others give it. It says so before it looks for the last time, and then rests.
    /// (a thread that is at work looks in each round, and nobody need ring)
    listens: AtomicBool,
    /// Whether the desk waits for room in a lane.
    short: AtomicBool,
}

/// The place of a desk's thread.
#[derive(Default)]
#[repr(align(128))]
pub(crate) struct Place {
    inbox: Mutex<Inbox>,
    bell: Condvar,
    /// Whether something may be to do that the thread has not looked for: it does not rest then. If a task waits, it is set.
    rung: AtomicBool,
    /// Whether the thread rests. It is written under the lock of the inbox. (who has set `rung` and sees that the thread does not
    /// rest need not lock: the thread looks at `rung` after it has written this)
    resting: AtomicBool,
    signs: Apart<Signs>,
    pub(crate) room: Room,
    /// The live processes of the desk.
    live: Mutex<Living>,
    /// Which of them is in which group.
    pub(crate) groups: Mutex<Table>,
    /// Whose handler runs, by its slot and its version, and 0 if none does. (it is written with each handler)
    running: Apart<AtomicU64>,
    /// The process of the desk in whose name things are sent from outside, once it is spawned.
    pub(crate) porter: OnceLock<Pid>,
}

pub(crate) fn locked<T>(of: &Mutex<T>) -> MutexGuard<'_, T> {
    of.lock().unwrap_or_else(PoisonError::into_inner)
}

impl Place {
    /// Puts a task into the inbox, and wakes the thread. It returns `false`, and the task is dropped, if the run takes in
    /// nothing more of this origin.
    pub(crate) fn post(&self, task: Task, origin: Origin) -> bool {
        let mut inbox = locked(&self.inbox);
        if !inbox.takes(origin) {
            drop(inbox);
            return false;
        }
        inbox.tasks.push_back(task);
        self.wake(inbox);
        true
    }

    /// Wakes the thread, if it does not look by itself. Who has given it something that is none of `SeqCst` fences that first.
    #[inline]
    pub(crate) fn ring(&self) {
        if self.listens() {
            self.ring_surely();
        }
    }

    /// The same, and it looks for all that is seldom there.
    #[cold]
    pub(crate) fn ring_surely(&self) {
        self.rung.store(true, SeqCst);
        if self.resting.load(SeqCst) {
            // (so the thread waits for the bell, or does not rest any more)
            drop(locked(&self.inbox));
            self.bell.notify_one();
        }
    }

    fn wake(&self, inbox: MutexGuard<'_, Inbox>) {
        self.rung.store(true, SeqCst);
        let resting = self.resting.load(SeqCst);
        drop(inbox);
        // (a bell costs a call of the system)
        if resting {
            self.bell.notify_one();
        }
    }

    /// Whether the thread is to be rung.
    pub(crate) fn listens(&self) -> bool {
        self.signs.listens.load(SeqCst)
    }

    /// Says whether the thread is to be rung. It looks for what others have given it once more before it rests.
    pub(crate) fn listen(&self, listens: bool) {
        self.signs.listens.store(listens, SeqCst);
        // (what others gave it is seen by the looks that follow, or they see this)
        fence(SeqCst);
    }

    /// Whether somebody has rung since the last `take`. (mostly nobody has, and nothing is locked for that)
    #[inline]
    pub(crate) fn is_rung(&self) -> bool {
        self.rung.load(SeqCst)
    }

    /// Takes all tasks. Who rings from here on is heard by the next `rest`.
    pub(crate) fn take(&self) -> VecDeque<Task> {
        let mut inbox = locked(&self.inbox);
        // (it reads who has rung, so that what that one did before is seen)
        self.rung.swap(false, SeqCst);
        std::mem::take(&mut inbox.tasks)
    }

    /// How many tasks wait.
    pub(crate) fn tasks(&self) -> usize {
        locked(&self.inbox).tasks.len()
    }

    /// Puts tasks back, before all others.
    pub(crate) fn put_back(&self, mut tasks: VecDeque<Task>) {
        let mut inbox = locked(&self.inbox);
        tasks.append(&mut inbox.tasks);
        inbox.tasks = tasks;
        self.rung.store(true, SeqCst);
    }

    /// Rests until somebody rings, for so long at most.
    pub(crate) fn rest(&self, most: Option<Duration>, owed: usize) {
        let mut inbox = locked(&self.inbox);
        self.resting.store(true, SeqCst);
        inbox.owed = owed;
        let quiet = |_: &mut Inbox| !self.rung.load(SeqCst);
        let mut inbox = match most {
            Some(most) => self.bell.wait_timeout_while(inbox, most, quiet).unwrap_or_else(PoisonError::into_inner).0,
            None => self.bell.wait_while(inbox, quiet).unwrap_or_else(PoisonError::into_inner),
        };
        self.resting.store(false, SeqCst);
        inbox.rests += 1;
    }

    /// Takes in nothing new from here on.
    pub(crate) fn drain(&self) {
        let mut inbox = locked(&self.inbox);
        inbox.drains = true;
        self.wake(inbox);
    }

    pub(crate) fn drains(&self) -> bool {
        locked(&self.inbox).drains
    }

    /// How often the thread has rested before, if it rests, nobody has rung, and no call of its processes is
    /// open.
    pub(crate) fn quiet(&self) -> Option<u64> {
        let inbox = locked(&self.inbox);
        let rests = self.resting.load(SeqCst) && !self.is_rung();
        let quiet = rests && inbox.tasks.is_empty() && inbox.owed == 0 && !self.waits_for_room();
        quiet.then_some(inbox.rests)
    }

    /// The thread ends, or a new one begins: those who wait are told, and all other tasks stay.
    pub(crate) fn halt(&self, halted: bool) {
        let mut inbox = locked(&self.inbox);
        inbox.halted = halted;
        inbox.drains &= halted;
        let tasks = std::mem::take(&mut inbox.tasks);
        let (asked, kept) = tasks.into_iter().partition(|task| halted && matches!(task, Task::Ask(_)));
        inbox.tasks = kept;
        self.rung.store(true, SeqCst);
        drop(inbox);
        let asked: VecDeque<Task> = asked;
        asked.into_iter().for_each(drop_quietly);
        self.room.shut(halted);
        if halted {
            self.slots().iter().for_each(|slot| slot.fail_calls(&CallFault::Over));
        }
    }

    /// Takes no more tasks, and drops those that wait and all values of the live processes.
    pub(crate) fn close(&self) {
        let mut inbox = locked(&self.inbox);
        inbox.closed = true;
        let tasks = std::mem::take(&mut inbox.tasks);
        drop(inbox);
        self.room.shut(true);
        let live = std::mem::take(&mut *locked(&self.live));
        live.all().iter().for_each(|slot| slot.close(None));
        let groups = std::mem::take(&mut *locked(&self.groups));
        drop(groups);
        tasks.into_iter().for_each(drop_quietly);
    }

    pub(crate) fn admit(&self, slot: Arc<dyn Slot>) {
        locked(&self.live).put(slot);
    }

    pub(crate) fn dismiss(&self, pid: Pid) {
        let slot = locked(&self.live).take(pid);
        drop(slot);
    }

    pub(crate) fn slot(&self, pid: Pid) -> Option<Arc<dyn Slot>> {
        locked(&self.live).get(pid).cloned()
    }

    /// The mailboxes of all live processes, by pid.
    pub(crate) fn slots(&self) -> Vec<Arc<dyn Slot>> {
        locked(&self.live).all()
    }

    /// Whether the desk waits for room.
    pub(crate) fn waits_for_room(&self) -> bool {
        self.signs.short.load(SeqCst)
    }

    /// Says that the desk waits for room, and returns whether it had said so before.
    pub(crate) fn is_short(&self) -> bool {
        self.signs.short.swap(true, SeqCst)
    }

    pub(crate) fn has_room(&self) {
        self.signs.short.store(false, SeqCst);
    }

    pub(crate) fn runs(&self, pid: Option<Pid>) {
        // (no process has the version 0)
        let word = pid.map_or(0, |pid| u64::from(pid.version) << 32 | u64::from(pid.slot));
        // (what is told of it need not be in the order of anything else)
        self.running.store(word, Release);
    }

    pub(crate) fn running(&self, shard: u8) -> Option<Pid> {
        let word = self.running.load(Acquire);
        (word != 0).then_some(Pid { shard, slot: word as u32, version: (word >> 32) as u32 })
    }
}

#[cfg(test)]
mod tests {
    use super::super::behaviour::Bound;
    use super::super::payloads::Values;
    use super::Living;
    use crate::Pid;
    use std::sync::Arc;

    #[test]
    fn one_whose_slot_another_one_has_is_still_there() {
        let [other, first, second] = [(1, 1), (3, 1), (3, 2)].map(|(slot, version)| Pid { shard: 0, slot, version });
        let mut living = Living::default();
        for pid in [first, other, second] {
            living.put(Arc::new(Values::new(pid, "", Bound::None, |(): &()| 0)));
        }
        let pids = |living: &Living| living.all().iter().map(|slot| slot.pid()).collect::<Vec<_>>();
        assert_eq!(pids(&living), [other, first, second]);
        assert!([other, first, second].iter().all(|&pid| living.get(pid).is_some_and(|slot| slot.pid() == pid)));
        assert!(living.take(first).is_some_and(|slot| slot.pid() == first) && living.take(first).is_none());
        assert!(living.get(first).is_none() && pids(&living) == [other, second]);
        assert!(living.take(second).is_some() && living.take(second).is_none() && pids(&living) == [other]);
        assert!(living.take(Pid { slot: 9, ..first }).is_none() && living.get(Pid { slot: 9, ..first }).is_none());
    }
}
