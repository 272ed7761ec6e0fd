//! Monitors of processes that are known to have exited, and links with them. The table makes none of these: their news is a
//! message that a desk sends, or an exit signal that it sends in the place of the exited process.

use super::numbers::Numbered;
use crate::{Item, Pid, Reason, Ref};
use std::collections::VecDeque;

/// The processes of those whose news has not come. (most processes never have one)
#[derive(Default)]
pub(crate) struct Gone(Option<Box<Known>>);

#[derive(Default)]
struct Known {
    /// Those that are monitored, by the numbers of the news.
    monitored: Numbered<Pid>,
    /// Those that are linked with a process that trapped exits then, by the numbers of the news.
    linked: Numbered<Pid>,
    /// Those that are linked with one that did not, in order. `None` if the link was taken away.
    signals: VecDeque<Option<Pid>>,
}

impl Gone {
    /// The desk has sent the exit signal of this one.
    pub(crate) fn sent(&mut self, pid: Pid) {
        self.0.get_or_insert_default().signals.push_back(Some(pid));
    }

    /// The desk sends the news of this one, which is monitored, under this number.
    pub(crate) fn monitors(&mut self, number: i64, pid: Pid) {
        self.0.get_or_insert_default().monitored.insert(number, pid);
    }

    /// The same of one that is linked.
    pub(crate) fn links(&mut self, number: i64, pid: Pid) {
        self.0.get_or_insert_default().linked.insert(number, pid);
    }

    /// Takes out the one that is monitored whose news has this number.
    pub(crate) fn take_monitored(&mut self, number: i64) -> Option<Pid> {
        self.0.as_mut()?.monitored.remove(&number)
    }

    /// The same of one that is linked.
    pub(crate) fn take_linked(&mut self, number: i64) -> Option<Pid> {
        self.0.as_mut()?.linked.remove(&number)
    }

    /// The link with this one is taken away: its exit signal is nothing to the process.
    pub(crate) fn unlink(&mut self, pid: Pid) {
        let Some(known) = &mut self.0 else { return };
        known.linked.retain(|_, of| *of != pid);
        known.signals.iter_mut().filter(|of| **of == Some(pid)).for_each(|of| *of = None);
    }

    /// Whether the exit signal of this one is to come.
    pub(crate) fn has_link(&self, pid: Pid) -> bool {
        let has = |known: &Known| known.linked.values().any(|of| *of == pid) || known.signals.contains(&Some(pid));
        self.0.as_deref().is_some_and(has)
    }

    /// The item, with the exited process in it if the desk has sent it in the place of that. `None` if the link with that was
    /// taken away.
    #[inline(always)]
    pub(crate) fn name(&mut self, porter: Pid, item: &Item) -> Option<Item> {
        match &mut self.0 {
            Some(known) => known.name(porter, item),
            None => Some(*item),
        }
    }
}

impl Known {
    fn name(&mut self, porter: Pid, item: &Item) -> Option<Item> {
        match *item {
            Item::Exit(from, Reason::Noproc) if from == porter => {
                let of = self.signals.pop_front().unwrap_or(Some(from))?;
                Some(Item::Exit(of, Reason::Noproc))
            }
            item => Some(item),
        }
    }
}

/// No desk has this number, so no monitor of the table is one of these.
const NO_DESK: u8 = u8::MAX;

/// The monitor with this number, which is below 0.
pub(crate) fn gone_monitor(number: i64) -> Ref {
    Ref { desk: NO_DESK, number: number.unsigned_abs() }
}

/// The number of such a monitor.
pub(crate) fn number_of_gone(monitor: Ref) -> Option<i64> {
    (monitor.desk == NO_DESK).then_some((monitor.number as i64).wrapping_neg())
}
