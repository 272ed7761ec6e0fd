//! Runs on threads beside the trials of the same scenarios: none ends outside of the set that all schedules have.

use pundewo::runtime::{Address, Behaviour, Call, Context, Event, Handle, Next, Reason, Reply, Runtime, SpawnFault};
use pundewo::trial::{Found, Trial, World};
use std::collections::BTreeSet;
use std::sync::atomic::{AtomicBool, Ordering::Relaxed};
use std::sync::{Arc, Mutex, PoisonError};
use std::time::Duration;

/// How many runs each scenario has on threads, if that is said: then its trial is made under every schedule, and else by chance.
fn runs() -> Option<u64> {
    std::env::var("PUNDEWO_TRIALS").ok().map(|runs| runs.parse().expect("a number of runs"))
}

/// Where a scenario spawns its processes: in a trial, or in a run on threads.
trait Spawns {
    fn spawn_on<B: Behaviour>(&mut self, desk: u8, behaviour: B) -> Address<B::Message>;
}

impl Spawns for World {
    fn spawn_on<B: Behaviour>(&mut self, desk: u8, behaviour: B) -> Address<B::Message> {
        World::spawn_on(self, desk, behaviour)
    }
}

impl Spawns for Handle {
    fn spawn_on<B: Behaviour>(&mut self, desk: u8, behaviour: B) -> Address<B::Message> {
        let spawned: Result<_, SpawnFault> = Handle::spawn_on(self, desk, behaviour);
        spawned.expect("a slot")
    }
}

/// What each process of a run has noted, in the order of its notes.
#[derive(Clone, Default)]
struct Notes(Arc<Mutex<Vec<(u8, String)>>>);

impl Notes {
    fn note(&self, who: u8, text: impl Into<String>) {
        self.0.lock().unwrap_or_else(PoisonError::into_inner).push((who, text.into()));
    }

    /// The notes of one process after the other.
    fn text(&self) -> String {
        let mut notes = self.0.lock().unwrap_or_else(PoisonError::into_inner).clone();
        notes.sort_by_key(|(who, _)| *who);
        notes.into_iter().map(|(who, text)| format!("{who}:{text}")).collect::<Vec<_>>().join(" ")
    }
}

/// A scenario whose processes all end by themselves.
trait Scenario: Copy + Send + Sync + 'static {
    const DESKS: usize;

    fn spawn(self, at: &mut impl Spawns, notes: &Notes);
}

/// The trial of a scenario, whose outcomes are these.
fn tried<S: Scenario, const N: usize>(scenario: S, outcomes: [&str; N]) -> Found {
    let trial = Trial::of(move |world| {
        let notes = Notes::default();
        scenario.spawn(world, &notes);
        notes
    });
    let trial = trial.desks(S::DESKS).all_end().outcome(|_, notes| notes.text()).reduced().threads(4);
    let found = if runs().is_some() { trial.every() } else { trial.random(1000, 1) };
    found.expect(outcomes);
    assert!(runs().is_none() || found.is_whole(), "{found}");
    found
}

/// A run on threads.
fn run<S: Scenario>(scenario: S) -> String {
    let runtime = Runtime::builder().desks(S::DESKS).start().expect("a run");
    let notes = Notes::default();
    scenario.spawn(&mut runtime.handle(), &notes);
    runtime.wait().expect("all end");
    notes.text()
}

/// Keeps the processors busy, so that threads are held up anywhere.
struct Busy(Arc<AtomicBool>, Vec<std::thread::JoinHandle<()>>);

impl Busy {
    fn new() -> Busy {
        let ends = Arc::new(AtomicBool::new(false));
        let spin = |ends: Arc<AtomicBool>| move || while !ends.load(Relaxed) {};
        let threads = std::thread::available_parallelism().map_or(2, usize::from);
        let spinning = (0..threads).map(|_| std::thread::spawn(spin(ends.clone()))).collect();
        Busy(ends, spinning)
    }
}

impl Drop for Busy {
    fn drop(&mut self) {
        self.0.store(true, Relaxed);
        self.1.drain(..).for_each(|thread| thread.join().expect("a thread that spins"));
    }
}

/// Runs a scenario in a trial, which has these outcomes, and then on threads, which have no others.
fn compare<S: Scenario, const N: usize>(scenario: S, outcomes: [&str; N]) {
    let found = tried(scenario, outcomes);
    let mut seen = BTreeSet::new();
    let _busy = Busy::new();
    for _ in 0..runs().unwrap_or(40) {
        let outcome = run(scenario);
        assert!(outcomes.contains(&&*outcome), "no schedule ends so: {outcome}\n{found}");
        seen.insert(outcome);
    }
    println!("{} of {N} outcomes on threads: {seen:?}", seen.len());
}

enum ToCell {
    Get(Reply<u64>),
    Put(u64),
}

/// A number that is read and written, until it was written so often.
struct Cell {
    value: u64,
    puts: u64,
    notes: Notes,
}

impl Behaviour for Cell {
    type Message = ToCell;

    fn handle(&mut self, cx: &mut Context<'_, ToCell>, event: Event<ToCell>) -> Next {
        match event {
            Event::Message(ToCell::Get(reply)) => cx.reply(reply, self.value),
            Event::Message(ToCell::Put(value)) => (self.value, self.puts) = (value, self.puts - 1),
            _ => {}
        }
        if self.puts > 0 {
            return Next::Wait;
        }
        self.notes.note(0, self.value.to_string());
        Next::DONE
    }
}

/// Reads a cell, and writes it one higher.
struct Client(Address<ToCell>, Option<Call<u64>>);

impl Behaviour for Client {
    type Message = ();

    fn started(&mut self, cx: &mut Context<'_, ()>) -> Next {
        self.1 = cx.call(&self.0, Duration::from_secs(60), ToCell::Get).ok();
        Next::Wait
    }

    fn handle(&mut self, cx: &mut Context<'_, ()>, event: Event<()>) -> Next {
        if let (Event::Answer(answer), Some(call)) = (event, self.1) {
            if let Ok(Ok(value)) = answer.to(&call) {
                cx.send(&self.0, ToCell::Put(value + 1));
            }
        }
        Next::DONE
    }
}

#[derive(Clone, Copy)]
struct LostUpdate;

impl Scenario for LostUpdate {
    const DESKS: usize = 2;

    fn spawn(self, at: &mut impl Spawns, notes: &Notes) {
        let cell = at.spawn_on(0, Cell { value: 0, puts: 2, notes: notes.clone() });
        at.spawn_on(0, Client(cell.clone(), None));
        at.spawn_on(1, Client(cell, None));
    }
}

/// Notes the words that it is told, so many, and what becomes of the processes that it watches.
struct Listens {
    who: u8,
    most: usize,
    watches: Vec<Address<Word>>,
    notes: Notes,
}

type Word = &'static str;

impl Behaviour for Listens {
    type Message = Word;

    fn started(&mut self, cx: &mut Context<'_, Word>) -> Next {
        self.watches.iter().for_each(|it| _ = cx.monitor(it).expect("a monitor"));
        Next::Wait
    }

    fn handle(&mut self, _: &mut Context<'_, Word>, event: Event<Word>) -> Next {
        match event {
            Event::Message(word) => self.notes.note(self.who, word),
            Event::Down(down) => self.notes.note(self.who, format!("down-{}", down.reason)),
            other => self.notes.note(self.who, format!("{other:?}")),
        }
        self.most -= 1;
        if self.most == 0 { Next::DONE } else { Next::Wait }
    }
}

/// Tells each of these a word, as it begins or as it is told something, and ends.
struct Tells(Vec<(Address<Word>, Word)>, bool, Reason);

impl Behaviour for Tells {
    type Message = Word;

    fn started(&mut self, cx: &mut Context<'_, Word>) -> Next {
        if self.1 { self.handle(cx, Event::Timeout) } else { Next::Wait }
    }

    fn handle(&mut self, cx: &mut Context<'_, Word>, _: Event<Word>) -> Next {
        self.0.drain(..).for_each(|(to, word)| _ = cx.send(&to, word));
        Next::Stop(self.2)
    }
}

fn listens(who: u8, most: usize, notes: &Notes) -> Listens {
    Listens { who, most, watches: Vec::new(), notes: notes.clone() }
}

/// One sends to two others, and the second of them tells the first.
#[derive(Clone, Copy)]
struct Triangle([u8; 3]);

impl Scenario for Triangle {
    const DESKS: usize = 3;

    fn spawn(self, at: &mut impl Spawns, notes: &Notes) {
        let [first, second, third] = self.0;
        let last = at.spawn_on(third, listens(0, 2, notes));
        let tells = at.spawn_on(second, Tells(vec![(last.clone(), "second")], false, Reason::Normal));
        at.spawn_on(first, Tells(vec![(last, "first"), (tells, "tell")], true, Reason::Normal));
    }
}

/// Two that each tell two others something, on three desks.
#[derive(Clone, Copy)]
struct Square;

impl Scenario for Square {
    const DESKS: usize = 3;

    fn spawn(self, at: &mut impl Spawns, notes: &Notes) {
        let (one, other) = (at.spawn_on(0, listens(0, 2, notes)), at.spawn_on(1, listens(1, 2, notes)));
        at.spawn_on(2, Tells(vec![(one.clone(), "a"), (other.clone(), "a")], true, Reason::Normal));
        at.spawn_on(1, Tells(vec![(other, "b"), (one, "b")], true, Reason::Normal));
    }
}

/// One is watched that tells its watcher something and exits.
#[derive(Clone, Copy)]
struct Watched;

impl Scenario for Watched {
    const DESKS: usize = 3;

    fn spawn(self, at: &mut impl Spawns, notes: &Notes) {
        let exits = at.spawn_on(1, Tells(Vec::new(), false, Reason::Other(7)));
        let watcher = Listens { watches: vec![exits.clone()], ..listens(0, 2, notes) };
        let watcher = at.spawn_on(0, watcher);
        at.spawn_on(2, Tells(vec![(exits, "end"), (watcher, "told")], true, Reason::Normal));
    }
}

#[test]
fn an_update_is_lost_on_threads_as_in_trials() {
    compare(LostUpdate, ["0:1", "0:2"]);
}

#[test]
fn what_is_sent_to_two_comes_on_threads_as_in_trials() {
    let both = ["0:first 0:second", "0:second 0:first"];
    compare(Triangle([0, 1, 2]), both);
    compare(Triangle([2, 1, 0]), both);
}

#[test]
fn what_two_send_to_two_comes_on_threads_as_in_trials() {
    let [ab, ba] = [["0:a 0:b", "0:b 0:a"], ["1:a 1:b", "1:b 1:a"]];
    let all = [(0, 0), (0, 1), (1, 0), (1, 1)].map(|(one, other)| format!("{} {}", ab[one], ba[other]));
    compare(Square, [&all[0], &all[1], &all[2], &all[3]]);
}

#[test]
fn the_news_of_an_exit_come_on_threads_as_in_trials() {
    compare(
        Watched,
        ["0:told 0:down-other:7", "0:down-other:7 0:told", "0:told 0:down-noproc", "0:down-noproc 0:told"],
    );
}
