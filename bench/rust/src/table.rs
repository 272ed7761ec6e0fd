//! A process table as one would write it with the usual crates: processes in a `slotmap`, links and monitors in
//! `indexmap`s, mailboxes and letters in `VecDeque`s, and a journal of stamped events.

use indexmap::{IndexMap, IndexSet};
use slotmap::{DefaultKey, SlotMap};
use std::collections::VecDeque;

#[derive(Clone, Copy, PartialEq, Eq, Hash, Debug)]
pub struct Pid {
    pub shard: u8,
    pub key: DefaultKey,
}

#[derive(Clone, Copy, PartialEq, Eq, Hash, Debug)]
pub struct Ref(pub u64);

#[derive(Clone, Copy, PartialEq, Eq, Debug)]
pub enum Reason {
    Normal,
    Kill,
    Killed,
    Noproc,
    Other(u32),
}

#[derive(Clone, Copy, PartialEq, Eq, Debug)]
pub struct Body {
    pub kind: u32,
    pub num: i64,
    pub who: Option<Pid>,
}

#[derive(Clone, Copy, PartialEq, Eq, Debug)]
pub enum Item {
    User(Pid, Body),
    Exit(Pid, Reason),
    Down(Ref, Pid, Reason),
}

#[derive(Clone, Copy)]
pub enum Pick {
    Any,
    Kind(u32),
    From(Pid),
    DownOf(Ref),
}

#[derive(Clone, Copy, Debug)]
pub enum Signal {
    Message(Body),
    Link,
    Unlink,
    Exit(Reason),
    LinkExit(Reason),
    Monitor(Ref),
    Demonitor(Ref),
    Down(Ref, Reason),
}

#[derive(Clone, Copy, Debug)]
pub struct Letter {
    pub from: Pid,
    pub to: Pid,
    pub signal: Signal,
    pub stamp: u64,
}

#[derive(Clone, Copy, Debug)]
pub enum Event {
    Born(Pid, Option<Pid>),
    Said(Pid, Pid, Signal),
    Came(Pid, Pid, Signal),
    Took(Pid, Item),
    Flag(Pid, bool),
    Left(Pid, Reason),
}

#[derive(Default)]
pub struct Process {
    pub mailbox: VecDeque<Item>,
    pub links: IndexSet<Pid>,
    pub monitors: IndexMap<Ref, Pid>,
    pub watchers: IndexMap<Ref, Pid>,
    pub traps: bool,
}

#[derive(Default)]
pub struct Table {
    pub processes: SlotMap<DefaultKey, Process>,
    letters: VecDeque<Letter>,
    clock: u64,
    refs: u64,
    pub journal: Vec<(u64, Event)>,
    /// Whether a removal from a list puts the last entry in the gap, which does not keep the order of entry.
    pub unordered: bool,
}

impl Table {
    fn note(&mut self, event: Event) {
        self.clock += 1;
        self.journal.push((self.clock, event));
    }

    fn say(&mut self, from: Pid, to: Pid, signal: Signal) {
        self.note(Event::Said(from, to, signal));
        let stamp = self.clock;
        self.letters.push_back(Letter { from, to, signal, stamp });
    }

    fn answer(&mut self, letter: &Letter, signal: Signal) {
        let stamp = self.clock;
        self.letters.push_back(Letter { from: letter.to, to: letter.from, signal, stamp });
    }

    pub fn is_alive(&self, p: Pid) -> bool {
        self.processes.contains_key(p.key)
    }

    pub fn spawn(&mut self) -> Pid {
        let p = Pid { shard: 0, key: self.processes.insert(Process::default()) };
        self.note(Event::Born(p, None));
        p
    }

    pub fn spawn_link(&mut self, parent: Pid) -> Pid {
        let child = Pid { shard: 0, key: self.processes.insert(Process::default()) };
        self.processes[child.key].links.insert(parent);
        self.processes[parent.key].links.insert(child);
        self.note(Event::Born(child, Some(parent)));
        child
    }

    pub fn trap(&mut self, p: Pid, on: bool) {
        self.processes[p.key].traps = on;
        self.note(Event::Flag(p, on));
    }

    pub fn send(&mut self, from: Pid, to: Pid, body: Body) {
        self.say(from, to, Signal::Message(body));
    }

    pub fn exit_signal(&mut self, from: Pid, to: Pid, reason: Reason) {
        self.say(from, to, Signal::Exit(reason));
    }

    pub fn receive(&mut self, p: Pid, pick: Pick) -> Option<Item> {
        let mailbox = &mut self.processes.get_mut(p.key)?.mailbox;
        let at = match pick {
            Pick::Any => 0,
            Pick::Kind(kind) => mailbox.iter().position(|it| matches!(it, Item::User(_, body) if body.kind == kind))?,
            Pick::From(from) => mailbox.iter().position(|it| matches!(it, Item::User(by, _) if *by == from))?,
            Pick::DownOf(watch) => mailbox.iter().position(|it| matches!(it, Item::Down(of, _, _) if *of == watch))?,
        };
        let item = if at == 0 { mailbox.pop_front() } else { mailbox.remove(at) }?;
        self.note(Event::Took(p, item));
        Some(item)
    }

    pub fn link(&mut self, p: Pid, to: Pid) {
        if p != to && self.processes[p.key].links.insert(to) {
            self.say(p, to, Signal::Link);
        }
    }

    pub fn unlink(&mut self, p: Pid, to: Pid) {
        if cut_link(self.unordered, &mut self.processes[p.key].links, &to) {
            self.say(p, to, Signal::Unlink);
        }
    }

    pub fn monitor(&mut self, p: Pid, to: Pid) -> Ref {
        self.refs += 1;
        let watch = Ref(self.refs);
        self.processes[p.key].monitors.insert(watch, to);
        self.say(p, to, Signal::Monitor(watch));
        watch
    }

    pub fn demonitor(&mut self, p: Pid, watch: Ref) {
        if let Some(to) = cut_watch(self.unordered, &mut self.processes[p.key].monitors, &watch) {
            self.say(p, to, Signal::Demonitor(watch));
        }
    }

    pub fn exit(&mut self, p: Pid, reason: Reason) {
        self.note(Event::Left(p, reason));
        let Some(process) = self.processes.remove(p.key) else { return };
        let stamp = self.clock;
        for to in process.links {
            self.letters.push_back(Letter { from: p, to, signal: Signal::LinkExit(reason), stamp });
        }
        for (watch, to) in process.watchers {
            self.letters.push_back(Letter { from: p, to, signal: Signal::Down(watch, reason), stamp });
        }
        for (watch, to) in process.monitors {
            self.letters.push_back(Letter { from: p, to, signal: Signal::Demonitor(watch), stamp });
        }
    }

    /// Handles all letters, also those that are sent meanwhile.
    pub fn settle(&mut self) {
        while let Some(letter) = self.letters.pop_front() {
            self.handle(letter);
        }
    }

    fn handle(&mut self, letter: Letter) {
        self.clock = self.clock.max(letter.stamp);
        self.note(Event::Came(letter.from, letter.to, letter.signal));
        let unordered = self.unordered;
        let Some(process) = self.processes.get_mut(letter.to.key) else {
            match letter.signal {
                Signal::Link => self.answer(&letter, Signal::LinkExit(Reason::Noproc)),
                Signal::Monitor(watch) => self.answer(&letter, Signal::Down(watch, Reason::Noproc)),
                _ => {}
            }
            return;
        };
        match letter.signal {
            Signal::Message(body) => process.mailbox.push_back(Item::User(letter.from, body)),
            Signal::Link => {
                process.links.insert(letter.from);
            }
            Signal::Unlink => {
                cut_link(unordered, &mut process.links, &letter.from);
            }
            Signal::Monitor(watch) => {
                process.watchers.insert(watch, letter.from);
            }
            Signal::Demonitor(watch) => {
                cut_watch(unordered, &mut process.watchers, &watch);
            }
            Signal::Down(watch, reason) => {
                if cut_watch(unordered, &mut process.monitors, &watch).is_some() {
                    process.mailbox.push_back(Item::Down(watch, letter.from, reason));
                }
            }
            Signal::Exit(Reason::Kill) => self.exit(letter.to, Reason::Killed),
            Signal::Exit(reason) => self.exit_comes(&letter, reason),
            Signal::LinkExit(reason) => {
                if cut_link(unordered, &mut process.links, &letter.from) {
                    self.exit_comes(&letter, reason);
                }
            }
        }
    }

    fn exit_comes(&mut self, letter: &Letter, reason: Reason) {
        let process = &mut self.processes[letter.to.key];
        if process.traps {
            process.mailbox.push_back(Item::Exit(letter.from, reason));
        } else if reason != Reason::Normal || letter.from == letter.to {
            self.exit(letter.to, reason);
        }
    }
}

fn cut_link(unordered: bool, links: &mut IndexSet<Pid>, p: &Pid) -> bool {
    if unordered {
        links.swap_remove(p)
    } else {
        links.shift_remove(p)
    }
}

fn cut_watch(unordered: bool, watches: &mut IndexMap<Ref, Pid>, watch: &Ref) -> Option<Pid> {
    if unordered {
        watches.swap_remove(watch)
    } else {
        watches.shift_remove(watch)
    }
}
