//! The seats of a desk's processes, and why those exited that have left theirs.

use super::worker::{Parent, Seat, Worker};
use crate::crew::{Job, What};
use crate::raw::RawLoss;
use crate::{Loss, Pid, Reason};
use std::collections::HashMap;

impl Worker {
    /// Takes what was lost, if anything was: it tells the reason of an exit which the crew does not know yet.
    pub(super) fn take_losses(&mut self) {
        if let Some(loss) = self.desk().first_loss() {
            self.take_these_losses(loss);
        }
    }

    /// Takes what was lost, of which this is the oldest.
    #[cold]
    fn take_these_losses(&mut self, first: RawLoss) {
        let mut next = Some(first);
        while let Some(loss) = next {
            // (most are of those that have exited by themselves, with an empty mailbox: their exits were told)
            let is_told = loss.items == 0 && self.supervisions.is_empty() && self.seat_of(loss.pid).is_none();
            let desk = self.desk.as_mut().expect("a desk, outside of a meeting");
            if is_told {
                desk.pass_loss();
            } else {
                let Loss { pid, reason, items } = self.crew.take_loss(desk, loss);
                self.record.lost(&items);
                self.exits.extend(reason.map(|reason| (pid, reason)));
            }
            next = desk.first_loss();
        }
    }

    /// Why a process has exited of which the crew tells this reason.
    #[inline(always)]
    pub(super) fn reason_of(&mut self, pid: Pid, why: Reason) -> Reason {
        if why == Reason::Noproc { self.exit_of(pid).unwrap_or(why) } else { why }
    }

    /// The reason of an exit of which a loss tells. (exits are told in the order of their losses, mostly)
    #[inline(never)]
    fn exit_of(&mut self, pid: Pid) -> Option<Reason> {
        self.take_losses();
        let count = self.exits.len();
        let mut places = (0..count).map(|place| (self.next_exit + place) % count);
        let found = places.find(|&place| self.exits[place].0 == pid)?;
        self.next_exit = found + 1;
        Some(self.exits[found].1)
    }

    /// The jobs that the crew has handed out. On the desk of a node that has just gone on those that have exited come first, in
    /// the order of their exits. (a crew that begins again comes to its processes in another)
    #[cold]
    pub(super) fn handed(&mut self, count: usize) -> Vec<Job> {
        self.take_losses();
        let mut jobs: Vec<Job> = (0..count).map(|place| self.job(place)).collect();
        if std::mem::take(&mut self.resumed) {
            let order: HashMap<Pid, usize> = self.exits.iter().map(|&(pid, _)| pid).zip(0..).collect();
            let first = |job: &Job| matches!(job.what, What::Exit(..)).then(|| order.get(&job.pid).copied());
            jobs.sort_by_key(|job| first(job).flatten().unwrap_or(usize::MAX));
        }
        jobs
    }

    /// The seat of a process of this desk.
    pub(super) fn seat_of(&self, pid: Pid) -> Option<usize> {
        let has = |&place: &usize| self.seats[place].as_ref().is_some_and(|seat| seat.pid == pid);
        match self.by_slot.get(pid.slot as usize) {
            Some(&(version, place)) if version == pid.version => Some(place).filter(has),
            _ => self.before.iter().copied().find(has),
        }
    }

    /// The supervisor of a process on another desk has exited: it is told by the run when to exit, as the others are.
    pub(super) fn lose_parent(&mut self, pid: Pid) {
        if let Some(seat) = self.seat_of(pid).and_then(|place| self.seats[place].as_mut()) {
            seat.parent = Parent::Outside;
            self.retell();
        }
    }

    /// Whether this is a process of the desk whose exit was not told.
    pub(super) fn is_seated(&self, pid: Pid) -> bool {
        self.seat_of(pid).is_some()
    }

    /// Whether no slot is free for one more process. (one that has exited has none, also if its exit was not told)
    pub(super) fn is_full(&self) -> bool {
        let taken = || self.seats.iter().flatten();
        let alive = |seat: &&Seat| self.desk.as_ref().is_some_and(|desk| desk.alive(seat.pid));
        // (the porter has one)
        self.seats.len() - self.free.len() + 1 >= self.slots && taken().filter(alive).count() + 1 >= self.slots
    }

    /// Gives a process a seat.
    pub(super) fn seat(&mut self, seat: Seat) {
        // (so it is told the order, too)
        self.retell();
        let place = self.free.pop().unwrap_or(self.seats.len());
        let (slot, version) = (seat.pid.slot as usize, seat.pid.version);
        if self.by_slot.len() <= slot {
            // (no process has the version 0)
            self.by_slot.resize(slot + 1, (0, 0));
        }
        let (_, last) = std::mem::replace(&mut self.by_slot[slot], (version, place));
        // (mostly it has none, or the place is that of the new one)
        if self.seats.get(last).is_some_and(|seat| seat.as_ref().is_some_and(|seat| seat.pid.slot as usize == slot)) {
            self.before.push(last);
        }
        match self.seats.get_mut(place) {
            Some(free) => *free = Some(seat),
            None => self.seats.push(Some(seat)),
        }
    }

    /// Takes what has this seat out of it. Another one may have its place from then on.
    #[inline]
    pub(super) fn vacate(&mut self, place: usize) -> Option<Seat> {
        let seat = self.seats[place].take();
        self.free.push(place);
        if !self.before.is_empty() {
            self.before.retain(|&it| it != place);
        }
        seat
    }
}

#[cfg(test)]
mod tests {
    use super::{Parent, Seat, Worker};
    use crate::runtime::hub::{GO_ON, Hub};
    use crate::runtime::meeting::Meeting;
    use crate::{Config, Pid, open};
    use std::sync::Arc;

    #[test]
    fn each_one_of_a_slot_keeps_its_own_seat() {
        let desk = open(1, Config::default()).expect("a node").remove(0);
        let hub = Arc::new(Hub::new(1, 100, 100, Meeting::new(1, None), None));
        let mut worker = Worker::new(&hub, desk, 8).expect("memory");
        let pids = [(3, 1), (5, 1), (3, 2), (3, 3), (5, 2)].map(|(slot, version)| Pid { shard: 0, slot, version });
        for pid in pids {
            worker.seat(Seat { pid, parent: Parent::Outside, told: GO_ON, crashed: false, actor: None });
        }
        assert_eq!(pids.map(|pid| worker.seat_of(pid)), [0, 1, 2, 3, 4].map(Some));
        assert_eq!(worker.before, [0, 2, 1]);
        // the exits of two are told, and one more gets a place and a slot of theirs
        for place in [2, 3] {
            worker.vacate(place);
        }
        assert_eq!(pids.map(|pid| worker.seat_of(pid)), [Some(0), Some(1), None, None, Some(4)]);
        let next = Pid { shard: 0, slot: 3, version: 4 };
        worker.seat(Seat { pid: next, parent: Parent::Outside, told: GO_ON, crashed: false, actor: None });
        assert_eq!((worker.seat_of(next), worker.seat_of(pids[0]), worker.seat_of(pids[3])), (Some(3), Some(0), None));
        assert_eq!(worker.before, [0, 1]);
        assert!(worker.seat_of(Pid { slot: 9, ..next }).is_none());
    }
}
