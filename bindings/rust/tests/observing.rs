//! A run that is looked at while it runs: what a look says, and that it agrees with the history.

use pundewo::runtime::{
    Address, Behaviour, CallFault, Child, Context, Event, Look, Name, Next, PANIC, ProcessView, Refusal, Restart,
    Runtime, Selection, Supervisor, Tapped, View, WaitsFor,
};
use pundewo::supervisors::Strategy;
use pundewo::{Fault, Happened, History, Item, Pick, Pid, Reason, Signal};
use std::collections::HashSet;
use std::sync::mpsc::channel;
use std::sync::{Arc, Mutex};
use std::thread;
use std::time::{Duration, Instant};

const LONG: Duration = Duration::from_secs(120);

type Error = Box<dyn std::error::Error>;

type Play = Box<dyn FnMut(&mut Context<'_, u32>, Option<Event<u32>>) -> Next + Send>;

/// Does what the closure says.
struct Plays(Play);

impl Behaviour for Plays {
    type Message = u32;

    fn kind(message: &u32) -> u32 {
        *message
    }

    fn started(&mut self, cx: &mut Context<'_, u32>) -> Next {
        (self.0)(cx, None)
    }

    fn handle(&mut self, cx: &mut Context<'_, u32>, event: Event<u32>) -> Next {
        (self.0)(cx, Some(event))
    }
}

fn plays(play: impl FnMut(&mut Context<'_, u32>, Option<Event<u32>>) -> Next + Send + 'static) -> Plays {
    Plays(Box::new(play))
}

/// Waits for whatever comes, and takes it.
fn takes() -> Plays {
    plays(|_, _| Next::Wait)
}

/// Counts what it is sent. 0 has it panic, and 1 has the text of its state panic.
struct Counter(u32);

impl Behaviour for Counter {
    type Message = u32;

    fn handle(&mut self, _: &mut Context<'_, u32>, event: Event<u32>) -> Next {
        if let Event::Message(number) = event {
            assert_ne!(number, 0, "noise");
            self.0 += number;
        }
        Next::Wait
    }

    fn inspect(&self) -> String {
        assert_ne!(self.0, 1, "no text");
        format!("counted {}", self.0)
    }
}

/// Looks until it sees this.
fn until(runtime: &Runtime, what: &str, sees: impl Fn(&View) -> bool) -> View {
    let began = Instant::now();
    loop {
        let view = runtime.view();
        if sees(&view) {
            return view;
        }
        assert!(began.elapsed() < LONG, "{what}: {view:?}");
        thread::sleep(Duration::from_millis(2));
    }
}

fn seen<M: Send + 'static>(view: &View, process: &Address<M>) -> ProcessView {
    view.process(process.pid()).expect("a process of the page").clone()
}

#[test]
fn a_process_is_seen_with_what_it_has() -> Result<(), Error> {
    let runtime = Runtime::builder().desks(2).start()?;
    let picky = runtime.spawn_on(0, plays(|_, _| Next::Only(Pick::Kind(70))))?;
    let selective = plays(|_, _| Next::SelectFor(Selection::kinds(&[2, 3]).downs(true), LONG));
    let selective = runtime.spawn_on(1, selective)?;
    let watched = (picky.clone(), selective.clone());
    let watcher = runtime.spawn_on(
        0,
        plays(move |cx, event| {
            if event.is_none() {
                cx.trap_exits(true).expect("a live process");
                cx.link(&watched.0).expect("a link");
                cx.monitor(&watched.1).expect("a monitor");
                cx.spawn(takes()).expect("a child");
            }
            Next::Proceed
        }),
    )?;
    let (one, other) = (Name::new("one"), Name::new("other"));
    assert!(one.register(&picky) && other.register(&picky));
    for number in [5, 6, 7] {
        assert!(picky.send(number) && selective.send(number));
    }
    let view = until(&runtime, "all has come", |view| {
        let is_picky = |it: &ProcessView| it.mailbox.count == 3 && it.links.count == 1;
        let is_selective = |it: &ProcessView| it.aside == 3 && it.watchers.count == 1;
        view.process(picky.pid()).is_some_and(is_picky) && view.process(selective.pid()).is_some_and(is_selective)
    });
    let it = seen(&view, &picky);
    assert_eq!((&it.names[..], it.parent, it.traps_exits), (&["one".to_owned(), "other".to_owned()][..], None, false));
    assert_eq!((it.waits_for, it.time_left), (WaitsFor::Pick(Pick::Kind(70)), None));
    assert!(matches!(it.mailbox.first[..], [Item::User(_, first), .., Item::User(_, last)] if first.num < last.num));
    assert_eq!((it.links.first, it.watchers.count), (vec![watcher.pid()], 0));
    let it = seen(&view, &selective);
    assert_eq!((it.aside, it.mailbox.count, it.watchers.first), (3, 0, vec![watcher.pid()]));
    assert_eq!(it.waits_for, WaitsFor::Selection(Selection::kinds(&[2, 3]).downs(true)));
    assert!(it.time_left.is_some_and(|left| left <= LONG && left > LONG / 2));
    let it = seen(&view, &watcher);
    assert_eq!((it.waits_for, it.traps_exits, it.monitors.first), (WaitsFor::Nothing, true, vec![selective.pid()]));
    let children = || view.processes.iter().filter(|it| it.parent == Some(watcher.pid()));
    assert!(children().count() == 1 && children().all(|it| it.behaviour.ends_with("Plays")));
    assert!(one.unregister() && seen(&runtime.view(), &picky).names == ["other"]);
    assert!(view.took < LONG && view.uptime >= view.took && !view.is_over && view.next.is_none());
    // (it takes nothing, and so no exit signal that it traps)
    runtime.exit(&watcher, Reason::Kill)?;
    runtime.stop()?;
    Ok(())
}

#[test]
fn lists_are_cut_and_counted() -> Result<(), Error> {
    let runtime = Runtime::builder().desks(1).start()?;
    let full = runtime.spawn(plays(|_, _| Next::Select(Selection::NONE)))?;
    (0..100).for_each(|number| assert!(full.send(number)));
    until(&runtime, "all has come", |view| seen(view, &full).mailbox.count == 100);
    let view = runtime.look(&Look { first: 3, ..Look::default() });
    let numbers = |it: &ProcessView| it.mailbox.first.iter().map(Item::to_string).collect::<HashSet<_>>().len();
    assert_eq!((numbers(&seen(&view, &full)), seen(&view, &full).mailbox.count), (3, 100));
    runtime.stop()?;
    Ok(())
}

#[test]
fn supervisors_are_a_tree_with_their_restarts() -> Result<(), Error> {
    let runtime = Runtime::builder().desks(2).start()?;
    let name = Name::new("the counter");
    let named = name.clone();
    let below = move || {
        let counter = Child::transient(|| Counter(0)).named(&named);
        Supervisor::rest_for_one().limit(100, LONG).child(counter)
    };
    let top = runtime.spawn(Supervisor::one_for_all().permanent(below).permanent(takes))?;
    let mut last = name.wait(LONG).expect("a child");
    for _ in 0..3 {
        last.send(0);
        while name.wait(LONG).expect("a child") == last {}
        last = name.wait(LONG).expect("a child");
    }
    let view = until(&runtime, "three restarts", |view| view.desks.iter().map(|it| it.restarts).sum::<u64>() == 3);
    let [above, under] = &view.supervisors[..] else { panic!("{:?}", view.supervisors) };
    assert_eq!((above.pid, above.parent, above.depth, above.restarts), (top.pid(), None, 0, 0));
    assert_eq!((under.parent, under.depth, under.restarts), (Some(top.pid()), 1, 3));
    assert_eq!((above.strategy, under.strategy), (Strategy::OneForAll, Strategy::RestForOne));
    assert_eq!((above.children.count, above.children.first[0].pid), (2, Some(under.pid)));
    let child = &under.children.first[0];
    assert_eq!((child.name.as_deref(), child.pid, child.started), (Some("the counter"), Some(last.pid()), 4));
    assert_eq!((child.restart, view.panics), (Restart::Transient, 3));
    let it = seen(&view, &last);
    assert_eq!((it.parent, &it.names[..]), (Some(under.pid), &["the counter".to_owned()][..]));
    // (the process behind a supervisor is nobody's business)
    assert!(it.links.first == [under.pid] && view.process(under.pid).is_some() && view.processes.len() == 4);
    runtime.stop()?;
    Ok(())
}

#[test]
fn a_desk_that_is_held_up_is_named() -> Result<(), Error> {
    let runtime = Runtime::builder().desks(3).start()?;
    let (give, get) = channel::<()>();
    let get = Mutex::new(get);
    let holds = runtime.spawn_on(
        1,
        plays(move |_, event| {
            if event.is_some() {
                _ = get.lock().expect("a receiver").recv_timeout(LONG);
            }
            Next::Wait
        }),
    )?;
    until(&runtime, "all answer", |view| view.silent.is_empty());
    holds.send(1);
    let limit = Duration::from_millis(50);
    let began = Instant::now();
    let view = loop {
        let view = runtime.look(&Look { limit, ..Look::default() });
        if !view.silent.is_empty() {
            break view;
        }
        assert!(began.elapsed() < LONG);
    };
    assert!(view.took >= limit && view.took < LONG / 4, "{:?}", view.took);
    assert_eq!(view.desks.iter().map(|it| it.desk).collect::<Vec<_>>(), [0, 2]);
    let [silent] = view.silent[..] else { panic!("{:?}", view.silent) };
    assert!(
        silent.desk == 1 && silent.running.is_some_and(|(pid, name)| pid == holds.pid() && name.ends_with("Plays"))
    );
    let fault = runtime.inspect(&holds, limit);
    assert!(matches!(fault, Err(CallFault::Timeout(Some((pid, _)))) if pid == holds.pid()), "{fault:?}");
    give.send(())?;
    let view = until(&runtime, "it answers", |view| view.silent.is_empty());
    let longest = view.desks[1].longest.expect("handlers are timed");
    assert!(longest.pid == holds.pid() && longest.time >= limit && longest.behaviour.ends_with("Plays"));
    runtime.stop()?;
    Ok(())
}

#[test]
fn many_processes_are_seen_by_pages() -> Result<(), Error> {
    let runtime = Runtime::builder().desks(3).slots(4_000).start()?;
    let all: Vec<_> = (0..7_000).map(|_| runtime.spawn(takes())).collect::<Result<_, _>>()?;
    let gone: Vec<Pid> = all.iter().step_by(7).map(Address::pid).collect();
    gone.iter().try_for_each(|&pid| runtime.exit(pid, Reason::Kill))?;
    until(&runtime, "some have exited", |view| view.alive == 6_000);
    let (mut look, mut seen, mut pages) = (Look::default(), HashSet::new(), 0);
    loop {
        let view = runtime.look(&look);
        assert!(view.processes.len() <= 1_000 && view.processes.is_sorted_by_key(|it| it.pid));
        assert!(view.processes.iter().all(|it| seen.insert(it.pid)), "a process is on two pages");
        assert_eq!(view.desks.iter().map(|it| it.processes).sum::<usize>(), 6_000);
        pages += 1;
        let Some(next) = view.next else { break };
        look.after = Some(next);
    }
    let gone: HashSet<Pid> = gone.into_iter().collect();
    let living: HashSet<Pid> = all.iter().map(Address::pid).filter(|pid| !gone.contains(pid)).collect();
    assert_eq!((seen == living, pages), (true, 6));
    let none = runtime.look(&Look { processes: 0, ..Look::default() });
    assert_eq!((none.processes.len(), none.next, none.desks.len()), (0, None, 3));
    runtime.stop()?;
    Ok(())
}

/// The events of all epochs.
type Kept = Arc<Mutex<Vec<pundewo::Event>>>;

/// A sink that keeps them.
fn keeps() -> (Kept, impl FnMut(&History) -> Result<(), Refusal> + Send + 'static) {
    let kept = Arc::new(Mutex::new(Vec::new()));
    let keeps = kept.clone();
    let sink = move |history: &History| {
        keeps.lock().expect("the events").extend(history.events());
        Ok(())
    };
    (kept, sink)
}

/// Sends each number on to the next of a ring, less one. Some crash now and then.
struct Runner {
    ring: Arc<Vec<Name<u32>>>,
    place: usize,
}

impl Behaviour for Runner {
    type Message = u32;

    fn handle(&mut self, cx: &mut Context<'_, u32>, event: Event<u32>) -> Next {
        let Event::Message(left) = event else { return Next::Wait };
        let next = self.ring[(self.place + 1) % self.ring.len()].whereis();
        if let (Some(next), true) = (next, left > 0) {
            cx.send(&next, left - 1);
        }
        assert!(left % 37 != 0 || self.place % 5 != 0, "noise");
        Next::Wait
    }
}

const RUNNERS: usize = 30;

/// A ring over all desks, under a supervisor of each.
fn ring(runtime: &Runtime) -> Result<Arc<Vec<Name<u32>>>, Error> {
    let ring: Arc<Vec<_>> = Arc::new((0..RUNNERS).map(|place| Name::new(format!("runner {place}"))).collect());
    for desk in 0..3 {
        let places = (0..RUNNERS).filter(|place| place % 3 == desk);
        let tree = places.fold(Supervisor::one_for_one().limit(100_000, LONG), |tree, place| {
            let made = ring.clone();
            let make = move || Runner { ring: made.clone(), place };
            tree.child(Child::permanent(make).named(&ring[place]))
        });
        runtime.spawn_on(u8::try_from(desk)?, tree)?;
    }
    ring.iter().for_each(|name| assert!(name.wait(LONG).is_some()));
    Ok(ring)
}

/// All counts of the desks, summed: messages, handlers, restarts, losses.
fn sums(view: &View) -> [u64; 4] {
    let sum = |of: fn(&pundewo::runtime::DeskView) -> u64| view.desks.iter().map(of).sum();
    [sum(|it| it.messages), sum(|it| it.handlers), sum(|it| it.restarts), sum(|it| it.losses)]
}

/// Looks until nothing moves any more.
fn at_rest(runtime: &Runtime) -> View {
    let (mut before, mut same) = (runtime.view(), 0);
    while same < 20 {
        thread::sleep(Duration::from_millis(5));
        let view = runtime.view();
        let rests = view.silent.is_empty() && view.desks.iter().all(|it| it.queue == 0 && it.waiting_for_room == 0);
        let is_same = rests && sums(&view) == sums(&before) && view.processes.iter().all(|it| it.mailbox.count == 0);
        same = if is_same { same + 1 } else { 0 };
        before = view;
    }
    before
}

/// Has the ring carry numbers for a while, with crashes.
fn carry(ring: &[Name<u32>]) {
    for round in 0..10 {
        for (place, name) in (0..).zip(ring) {
            name.send(300 + 7 * place + round);
        }
        thread::sleep(Duration::from_millis(5));
    }
}

fn count(events: &[pundewo::Event], is: impl Fn(&Happened) -> bool) -> u64 {
    events.iter().filter(|event| is(&event.happened)).count() as u64
}

#[test]
fn counts_agree_with_the_history() -> Result<(), Error> {
    let (kept, sink) = keeps();
    let runtime = Runtime::builder().desks(3).lane(4).going_on_every(500).archive(sink).start()?;
    let ring = ring(&runtime)?;
    // (somebody looks all the time)
    let handle = runtime.handle();
    let looks = thread::spawn(move || (0..200).map(|_| handle.view().desks.len()).sum::<usize>());
    carry(&ring);
    assert!(looks.join().is_ok_and(|count| count > 0));
    let view = at_rest(&runtime);
    runtime.go_on();
    let view = until(&runtime, "the epoch ends", |now| now.epochs > view.epochs);
    let events = kept.lock().expect("the events").clone();
    let took = count(&events, |it| matches!(it, Happened::Took(_, _, Item::User(..))));
    let came = count(&events, |it| matches!(it, Happened::Came(_, _, Signal::Message(_))));
    let crashed = count(&events, |it| matches!(it, Happened::Left(_, PANIC)));
    let born = count(&events, |it| matches!(it, Happened::Born(..)));
    assert!(took > 5_000 && crashed > 50 && came > took && view.epochs > 10, "{took} {came} {crashed} {view:?}");
    assert_eq!(sums(&view), [took, took + view.spawned, crashed, came - took]);
    // (each desk has one of its own, and each supervisor one behind it)
    assert_eq!((view.panics, view.spawned, view.archived), (crashed, born - 6, events.len() as u64));
    assert_eq!(view.alive, RUNNERS + 6);
    let started: u64 = view.supervisors.iter().flat_map(|it| &it.children.first).map(|it| it.started).sum();
    assert_eq!(started, RUNNERS as u64 + crashed);
    runtime.stop()?;
    Ok(())
}

#[test]
fn a_tap_has_all_events_of_all_epochs() -> Result<(), Error> {
    let (kept, sink) = keeps();
    let runtime = Runtime::builder().desks(3).lane(4).going_on_every(500).archive(sink).start()?;
    let tap = runtime.tap_all(10_000_000);
    // (before anything happens, each desk has begun to pass its events on)
    assert_eq!(runtime.view().desks.len(), 3);
    let ring = ring(&runtime)?;
    carry(&ring);
    at_rest(&runtime);
    let epochs = runtime.stop()?.epochs;
    assert!(epochs > 10 && tap.is_ended());
    let mut tapped: Vec<pundewo::Event> = Vec::new();
    while let Some(next) = tap.try_recv() {
        match next {
            Tapped::Event(event) => tapped.push(event),
            Tapped::Behind(count) => panic!("behind by {count}"),
        }
    }
    let kept = kept.lock().expect("the events");
    for desk in 0..3 {
        let of_desk =
            |events: &[pundewo::Event]| events.iter().filter(|it| it.desk == desk).copied().collect::<Vec<_>>();
        let (tapped, kept) = (of_desk(&tapped), of_desk(&kept));
        // (the first is the birth of the desk's own process, before the tap)
        assert_eq!((tapped.len(), tapped == kept[1..]), (kept.len() - 1, true), "desk {desk}");
    }
    Ok(())
}

#[test]
fn a_tap_of_one_process_that_falls_behind_is_told() -> Result<(), Error> {
    let runtime = Runtime::builder().desks(2).going_on_every(100).start()?;
    let (taken, other) = (runtime.spawn(takes())?, runtime.spawn(takes())?);
    let tap = runtime.tap(&taken, 10)?;
    assert_eq!(runtime.view().desks.len(), 2);
    (0..1_000).for_each(|number| assert!(taken.send(number) && other.send(number)));
    until(&runtime, "all is taken", |view| sums(view)[0] == 2_000);
    // a message that comes is two events of the process
    let of_it = |event: &pundewo::Event| match event.happened {
        Happened::Came(_, pid, _) | Happened::Took(pid, ..) => pid == taken.pid(),
        _ => false,
    };
    for _ in 0..10 {
        assert!(matches!(tap.try_recv(), Some(Tapped::Event(event)) if of_it(&event)));
    }
    assert_eq!((tap.try_recv(), tap.try_recv()), (Some(Tapped::Behind(1_990)), None));
    taken.send(7);
    assert!(matches!(tap.recv_within(LONG), Some(Tapped::Event(event)) if of_it(&event)));
    assert!(matches!(tap.recv_within(LONG), Some(Tapped::Event(event)) if of_it(&event)));
    assert_eq!(tap.recv_within(Duration::from_millis(5)), None);
    let another = Runtime::builder().desks(1).start()?;
    assert_eq!(another.tap(&taken, 1).err(), Some(Fault::OtherRun));
    drop(tap);
    another.stop()?;
    runtime.stop()?;
    Ok(())
}

#[test]
fn a_behaviour_says_what_its_state_is() -> Result<(), Error> {
    let runtime = Runtime::builder().desks(2).start()?;
    let (counter, silent) = (runtime.spawn(Counter(0))?, runtime.spawn(takes())?);
    counter.send(4);
    until(&runtime, "it has counted", |view| sums(view)[0] == 1);
    assert_eq!(runtime.inspect(&counter, LONG), Ok("counted 4".into()));
    assert_eq!(runtime.inspect(silent.pid(), LONG), Ok(String::new()));
    // a text that panics harms nobody
    let odd = runtime.spawn(Counter(1))?;
    assert_eq!(runtime.inspect(&odd, LONG), Err(CallFault::Dropped));
    odd.send(1);
    until(&runtime, "it has counted", |view| sums(view)[0] == 2);
    assert_eq!(runtime.inspect(&odd, LONG), Ok("counted 2".into()));
    odd.send(0);
    until(&runtime, "it has exited", |view| view.process(odd.pid()).is_none());
    assert_eq!(runtime.inspect(&odd, LONG), Err(CallFault::Down(Reason::Noproc, None)));
    let nowhere = Pid { shard: 9, slot: 0, version: 1 };
    assert_eq!(runtime.inspect(nowhere, LONG), Err(CallFault::Down(Reason::Noproc, None)));
    let another = Runtime::builder().desks(1).start()?;
    assert_eq!(another.inspect(&counter, LONG), Err(CallFault::OtherRun));
    another.stop()?;
    let handle = runtime.handle();
    runtime.stop()?;
    assert_eq!(handle.inspect(&counter, LONG), Err(CallFault::Over));
    let view = handle.view();
    assert!(view.is_over && view.desks.is_empty() && view.silent.len() == 2 && view.took < LONG / 4);
    Ok(())
}
