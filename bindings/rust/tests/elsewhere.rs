//! Supervisors whose children are on other desks: they start in order, start again by the strategy, and end from the last to the
//! first. Some cannot be started, and thousands crash while their supervisors and the node go on.

use pundewo::Fault;
use pundewo::runtime::{
    Address, Behaviour, Child, ChildFault, ChildInfo, Context, Event, Name, Next, Pid, Reason, Report, Runtime,
    Shutdown, Supervisor, ToSupervisor,
};
use std::sync::atomic::{AtomicBool, AtomicI64, AtomicU64, Ordering::SeqCst};
use std::sync::mpsc::{Receiver, RecvTimeoutError, Sender, channel};
use std::sync::{Arc, Mutex, Once};
use std::time::{Duration, Instant};

const LONG: Duration = Duration::from_secs(120);

type Error = Box<dyn std::error::Error>;

/// What a worker is told.
#[derive(Clone, Copy)]
enum Do {
    Crash,
    Leave(Reason),
}

/// What a worker does as it begins and as it is told to exit.
#[derive(Clone, Copy, PartialEq)]
enum Manner {
    /// It traps exits, and exits at once.
    Traps,
    /// It traps exits, and stays.
    Stays,
    /// It is done as it begins.
    IsDone,
    /// It begins slowly.
    IsSlow,
}

/// Notes when it begins, when it is told to exit, and that it crashes.
struct Worker {
    name: &'static str,
    manner: Manner,
    notes: Sender<String>,
}

impl Worker {
    fn note(&self, what: &str) {
        let _ = self.notes.send(format!("{what}{}", self.name));
    }
}

impl Behaviour for Worker {
    type Message = Do;

    fn started(&mut self, _: &mut Context<'_, Do>) -> Next {
        if self.manner == Manner::IsSlow {
            std::thread::sleep(Duration::from_millis(30));
        }
        self.note("+");
        if self.manner == Manner::IsDone { Next::DONE } else { Next::Wait }
    }

    fn handle(&mut self, _: &mut Context<'_, Do>, event: Event<Do>) -> Next {
        match event {
            Event::Message(Do::Crash) => {
                self.note("!");
                panic!("a worker crashes")
            }
            Event::Message(Do::Leave(reason)) => Next::Stop(reason),
            Event::Exit(exit) if self.manner == Manner::Stays => {
                self.note(&format!("{}?", exit.reason));
                Next::Wait
            }
            Event::Exit(exit) => {
                self.note("-");
                Next::Stop(exit.reason)
            }
            _ => Next::Wait,
        }
    }

    fn traps_exits(&self) -> bool {
        true
    }
}

/// Panics of the tests' own are not printed.
fn quiet_panics() {
    static ONCE: Once = Once::new();
    ONCE.call_once(|| {
        let usual = std::panic::take_hook();
        std::panic::set_hook(Box::new(move |what| {
            let text = what.payload().downcast_ref::<&str>().copied().unwrap_or_default();
            if !text.starts_with("a worker") && !text.starts_with("a closure") {
                usual(what);
            }
        }));
    });
}

/// A run of four desks, and what the workers note.
struct Scene {
    runtime: Runtime,
    notes: Receiver<String>,
    give: Sender<String>,
}

type Note = &'static str;

impl Scene {
    fn new() -> Scene {
        Scene::with(1_000, 25)
    }

    fn with(slots: u32, every: usize) -> Scene {
        quiet_panics();
        let runtime = Runtime::builder().desks(4).slots(slots).going_on_every(every).start().expect("a run");
        let (give, notes) = channel();
        Scene { runtime, notes, give }
    }

    fn make(&self, name: Note, manner: Manner) -> impl Fn() -> Worker + Clone + Send + use<> {
        let notes = self.give.clone();
        move || Worker { name, manner, notes: notes.clone() }
    }

    fn child(&self, name: Note, desk: u8) -> Child<Do> {
        Child::permanent(self.make(name, Manner::Traps)).on(desk)
    }

    /// A child that is not made if the closure says so of how often it was tried before.
    fn failing(&self, name: Note, fails: impl Fn(u64) -> bool + Send + 'static) -> Child<Do> {
        let (mut tried, make) = (0, self.make(name, Manner::Traps));
        Child::permanent(move || {
            tried += 1;
            assert!(!fails(tried - 1), "a closure panics");
            make()
        })
    }

    /// The supervisor is on the first desk.
    fn spawn(&self, supervisor: Supervisor) -> Address<ToSupervisor> {
        self.runtime.spawn_on(0, supervisor).expect("a supervisor")
    }

    /// The next notes are these.
    fn hears(&self, wanted: &[Note]) {
        for wanted in wanted {
            assert_eq!(self.notes.recv_timeout(LONG).expect("a note in time"), *wanted);
        }
    }

    /// The next notes are these, in some order.
    fn hears_all(&self, wanted: &[Note]) {
        let mut heard: Vec<_> = wanted.iter().map(|_| self.notes.recv_timeout(LONG).expect("a note in time")).collect();
        let mut wanted = wanted.to_vec();
        heard.sort();
        wanted.sort_unstable();
        assert_eq!(heard, wanted);
    }

    fn children(&self, of: &Address<ToSupervisor>) -> Vec<ChildInfo> {
        self.runtime.call(of, LONG, ToSupervisor::which_children).expect("a list")
    }

    fn pids(&self, of: &Address<ToSupervisor>) -> Vec<Option<Pid>> {
        self.children(of).into_iter().map(|child| child.pid).collect()
    }

    /// The desks of the children that live.
    fn desks(&self, of: &Address<ToSupervisor>) -> Vec<Option<u8>> {
        self.pids(of).into_iter().map(|pid| pid.map(|pid| pid.shard)).collect()
    }

    /// It stops, and the next notes are these.
    fn stops(self, wanted: &[Note]) {
        self.runtime.stop().expect("all exit");
        drop(self.give);
        assert_eq!(self.notes.iter().collect::<Vec<_>>(), wanted);
    }
}

fn wait_until(is: impl Fn() -> bool) {
    let until = Instant::now() + LONG;
    while !is() {
        assert!(Instant::now() < until, "in time");
        std::thread::sleep(Duration::from_millis(1));
    }
}

#[test]
fn children_of_three_desks_start_in_order_and_end_from_the_last_to_the_first() -> Result<(), Error> {
    let (scene, crash) = (Scene::new(), Name::new("a"));
    let all = Supervisor::one_for_all()
        .child(scene.child("a", 1).named(&crash))
        .child(scene.child("b", 0))
        .child(scene.child("c", 2))
        .child(scene.child("d", 3))
        .permanent(scene.make("e", Manner::Traps));
    let supervisor = scene.spawn(all.limit(100, LONG));
    scene.hears(&["+a", "+b", "+c", "+d", "+e"]);
    assert_eq!(scene.desks(&supervisor), [1, 0, 2, 3, 0].map(Some));
    for _ in 0..20 {
        let before = scene.pids(&supervisor);
        assert!(crash.wait(LONG).ok_or("a child")?.send(Do::Crash));
        scene.hears(&["!a", "-e", "-d", "-c", "-b", "+a", "+b", "+c", "+d", "+e"]);
        let after = scene.pids(&supervisor);
        assert!(after.iter().zip(&before).all(|(new, old)| new.is_some() && new != old));
    }
    assert_eq!(scene.desks(&supervisor), [1, 0, 2, 3, 0].map(Some));
    assert_eq!(scene.children(&supervisor)[3].started, 21);
    scene.stops(&["-e", "-d", "-c", "-b", "-a"]);
    Ok(())
}

#[test]
fn a_child_that_crashes_elsewhere_is_started_again_alone() -> Result<(), Error> {
    let (scene, name) = (Scene::new(), Name::new("b"));
    let all = Supervisor::one_for_one().child(scene.child("a", 1)).child(scene.child("b", 2).named(&name));
    let supervisor = scene.spawn(all.child(scene.child("c", 3)));
    scene.hears(&["+a", "+b", "+c"]);
    let before = scene.pids(&supervisor);
    assert!(name.send(Do::Crash));
    scene.hears(&["!b", "+b"]);
    let after = scene.pids(&supervisor);
    assert_eq!((after[0], after[2]), (before[0], before[2]));
    assert!(after[1] != before[1] && after[1] == name.wait(LONG).map(|address| address.pid()));
    // (also if it is killed, of which its handler is not told)
    scene.runtime.exit(&name.wait(LONG).ok_or("a child")?, Reason::Kill)?;
    scene.hears(&["+b"]);
    scene.stops(&["-c", "-b", "-a"]);
    Ok(())
}

#[test]
fn rest_for_one_starts_those_behind_it_again() {
    let (scene, name) = (Scene::new(), Name::new("b"));
    let all = Supervisor::rest_for_one().child(scene.child("a", 1)).child(scene.child("b", 2).named(&name));
    scene.spawn(all.child(scene.child("c", 0)).child(scene.child("d", 1)));
    scene.hears(&["+a", "+b", "+c", "+d"]);
    assert!(name.send(Do::Leave(Reason::Normal)));
    scene.hears(&["-d", "-c", "+b", "+c", "+d"]);
    scene.stops(&["-d", "-c", "-b", "-a"]);
}

/// Those behind a child begin once it has, whatever desks they are on.
#[test]
fn those_behind_wait_until_a_child_elsewhere_has_begun() {
    let scene = Scene::new();
    let slow = || Child::permanent(scene.make("s", Manner::IsSlow));
    let all =
        Supervisor::one_for_all().child(slow().on(1)).child(scene.child("a", 0)).child(slow()).child(slow().on(2));
    let supervisor = scene.spawn(all.child(scene.child("b", 3)).child(scene.child("c", 0)));
    scene.hears(&["+s", "+a", "+s", "+s", "+b", "+c"]);
    assert_eq!(scene.desks(&supervisor), [1, 0, 0, 2, 3, 0].map(Some));
    scene.stops(&["-c", "-b", "-s", "-s", "-a", "-s"]);
}

/// A child that exits as it begins was started: its restart type says what follows.
#[test]
fn a_child_that_is_done_as_it_begins_was_started() -> Result<(), Error> {
    let scene = Scene::new();
    let done = Child::transient(scene.make("t", Manner::IsDone)).on(2);
    let supervisor = scene.spawn(Supervisor::one_for_all().child(done).child(scene.child("a", 1)));
    scene.hears(&["+t", "+a"]);
    for _ in 0..50 {
        let pid = scene.runtime.call(&supervisor, LONG, ToSupervisor::restart_child(0))??;
        assert_eq!(pid.shard, 2);
        scene.hears(&["+t"]);
        wait_until(|| !scene.children(&supervisor)[0].is_alive());
    }
    // (one that is started again and again counts each time)
    let again = Child::permanent(scene.make("p", Manner::IsDone)).on(3);
    let again = scene.spawn(Supervisor::one_for_one().limit(4, LONG).child(again));
    scene.hears(&["+p", "+p", "+p", "+p", "+p"]);
    wait_until(|| scene.runtime.call(&again, LONG, ToSupervisor::which_children).is_err());
    scene.stops(&["-a"]);
    Ok(())
}

#[test]
fn a_first_start_that_fails_elsewhere_ends_the_supervisor() -> Result<(), Error> {
    for strategy in [Supervisor::one_for_one as fn() -> Supervisor, Supervisor::one_for_all, Supervisor::rest_for_one] {
        let scene = Scene::new();
        let all = strategy().child(scene.child("a", 1)).child(scene.child("b", 0));
        let supervisor = scene.spawn(all.child(scene.failing("c", |_| true).on(2)).child(scene.child("d", 3)));
        scene.hears(&["+a", "+b", "-b", "-a"]);
        wait_until(|| scene.runtime.call(&supervisor, LONG, ToSupervisor::which_children).is_err());
        // (there is no such desk)
        let supervisor = scene.spawn(strategy().child(scene.child("a", 1)).child(scene.child("c", 4)));
        scene.hears(&["+a", "-a"]);
        wait_until(|| scene.runtime.call(&supervisor, LONG, ToSupervisor::which_children).is_err());
        scene.stops(&[]);
    }
    Ok(())
}

/// A start after an exit that fails counts as a restart, and is tried again.
#[test]
fn a_restart_that_fails_elsewhere_is_tried_again_and_counts() -> Result<(), Error> {
    for strategy in [Supervisor::one_for_one as fn() -> Supervisor, Supervisor::one_for_all, Supervisor::rest_for_one] {
        let (scene, name) = (Scene::new(), Name::new("c"));
        let child = scene.failing("c", |tried| tried != 0 && tried != 4).named(&name).on(2);
        let supervisor = scene.spawn(strategy().limit(6, LONG).child(child));
        scene.hears(&["+c"]);
        assert!(name.send(Do::Crash));
        scene.hears(&["!c", "+c"]);
        // (an exit, and three tries that failed: two are left)
        assert!(scene.children(&supervisor)[0].is_alive());
        assert!(name.wait(LONG).ok_or("a child")?.send(Do::Crash));
        scene.hears(&["!c"]);
        wait_until(|| scene.runtime.call(&supervisor, LONG, ToSupervisor::which_children).is_err());
        scene.stops(&[]);
    }
    Ok(())
}

/// If a child in front is not made, those behind it on other desks are not made either, and one restart is counted.
#[test]
fn those_behind_a_child_that_is_not_made_are_not_made_elsewhere() -> Result<(), Error> {
    for strategy in [Supervisor::one_for_all as fn() -> Supervisor, Supervisor::rest_for_one] {
        let (scene, name) = (Scene::new(), Name::new("a"));
        let all = strategy().limit(4, LONG).child(scene.failing("a", |tried| (1..4).contains(&tried)).named(&name));
        let supervisor =
            scene.spawn(all.child(scene.child("b", 1)).child(scene.child("c", 2)).child(scene.child("d", 0)));
        scene.hears(&["+a", "+b", "+c", "+d"]);
        assert!(name.send(Do::Crash));
        // (an exit, and three tries that failed)
        scene.hears(&["!a", "-d", "-c", "-b", "+a", "+b", "+c", "+d"]);
        assert_eq!(scene.desks(&supervisor), [0, 1, 2, 0].map(Some));
        assert!(name.wait(LONG).ok_or("a child")?.send(Do::Crash));
        scene.hears(&["!a", "-d", "-c", "-b"]);
        wait_until(|| scene.runtime.call(&supervisor, LONG, ToSupervisor::which_children).is_err());
        scene.stops(&[]);
    }
    Ok(())
}

/// Each desk has two slots beside that of the run.
#[test]
fn a_full_desk_refuses_a_child_from_elsewhere() -> Result<(), Error> {
    let scene = Scene::with(3, 25);
    let supervisor = scene.spawn(Supervisor::one_for_one().child(scene.child("a", 1)).child(scene.child("b", 1)));
    scene.hears(&["+a", "+b"]);
    let full = scene.runtime.call(&supervisor, LONG, ToSupervisor::start_child(scene.child("c", 1)))?;
    assert_eq!(full.expect_err("no slot"), ChildFault::Table(Fault::Full));
    assert_eq!(scene.children(&supervisor).len(), 2);
    // (a first start that finds no slot ends the supervisor)
    let second =
        scene.runtime.spawn_on(2, Supervisor::one_for_one().child(scene.child("x", 3)).child(scene.child("y", 1)))?;
    scene.hears(&["+x", "-x"]);
    wait_until(|| scene.runtime.call(&second, LONG, ToSupervisor::which_children).is_err());
    scene.runtime.call(&supervisor, LONG, ToSupervisor::terminate_child(0))??;
    scene.hears(&["-a"]);
    let started = scene.runtime.call(&supervisor, LONG, ToSupervisor::start_child(scene.child("c", 1)))??;
    scene.hears(&["+c"]);
    assert_eq!((started.place, started.address.pid().shard), (3, 1));
    let full = scene.runtime.call(&supervisor, LONG, ToSupervisor::restart_child(0))?;
    assert_eq!(full, Err(ChildFault::Table(Fault::Full)));
    scene.stops(&["-c", "-b"]);
    Ok(())
}

#[test]
fn children_elsewhere_come_and_go_at_request() -> Result<(), Error> {
    let scene = Scene::new();
    let supervisor = scene.spawn(Supervisor::one_for_one());
    let ask = &scene.runtime;
    let first = ask.call(&supervisor, LONG, ToSupervisor::start_child(scene.child("a", 1)))??;
    let second = ask.call(&supervisor, LONG, ToSupervisor::start_child(scene.child("b", 3)))??;
    scene.hears(&["+a", "+b"]);
    assert_eq!((first.place, second.place), (0, 1));
    assert_eq!(scene.pids(&supervisor), [Some(first.address.pid()), Some(second.address.pid())]);
    assert_eq!(ask.call(&supervisor, LONG, ToSupervisor::restart_child(0))?, Err(ChildFault::Running));
    assert_eq!(ask.call(&supervisor, LONG, ToSupervisor::delete_child(0))?, Err(ChildFault::Running));
    ask.call(&supervisor, LONG, ToSupervisor::terminate_child(0))??;
    scene.hears(&["-a"]);
    assert_eq!(scene.desks(&supervisor), [None, Some(3)]);
    let again = ask.call(&supervisor, LONG, ToSupervisor::restart_child(0))??;
    scene.hears(&["+a"]);
    assert!(again.shard == 1 && again != first.address.pid());
    ask.call(&supervisor, LONG, ToSupervisor::terminate_child(0))??;
    ask.call(&supervisor, LONG, ToSupervisor::delete_child(0))??;
    scene.hears(&["-a"]);
    assert_eq!(ask.call(&supervisor, LONG, ToSupervisor::restart_child(0))?, Err(ChildFault::NotFound));
    let refused = scene.failing("f", |_| true).on(2);
    let refused = ask.call(&supervisor, LONG, ToSupervisor::start_child(refused))?.expect_err("it panics");
    assert_eq!(refused, ChildFault::Panicked("a closure panics".into()));
    let refused = ask.call(&supervisor, LONG, ToSupervisor::start_child(scene.child("f", 200)))?;
    assert_eq!(refused.expect_err("no such desk"), ChildFault::Table(Fault::BadDesks));
    // (a temporary child whose behaviour is there)
    let once = Child::once(scene.make("t", Manner::Traps)()).on(1);
    let once = ask.call(&supervisor, LONG, ToSupervisor::start_child(once))??;
    assert!(once.address.send(Do::Crash));
    scene.hears(&["+t", "!t"]);
    wait_until(|| scene.children(&supervisor).len() == 1);
    assert_eq!(scene.children(&supervisor)[0].place, 1);
    scene.stops(&["-b"]);
    Ok(())
}

/// A supervisor that waits for a child elsewhere is told to end, or killed: it leaves no child behind.
#[test]
fn a_supervisor_that_waits_for_a_start_is_told_to_end() -> Result<(), Error> {
    for reason in [Reason::Shutdown, Reason::Other(4), Reason::Kill] {
        // (no epoch ends while a desk waits)
        let (scene, (go, goes), (here, is_here)) = (Scene::with(9, 100_000), channel::<()>(), channel());
        let make = scene.make("b", Manner::Traps);
        let waits = Child::permanent(move || {
            here.send(()).expect("a test");
            let _ = goes.recv();
            make()
        });
        let all = Supervisor::one_for_one().child(scene.child("a", 1)).child(waits.on(2)).child(scene.child("c", 3));
        let (supervisor, other) = (scene.spawn(all), scene.spawn(Supervisor::one_for_one()));
        scene.hears(&["+a"]);
        is_here.recv_timeout(LONG)?;
        // (who asks waits, and hears of the exit)
        let asked = supervisor.ask(ToSupervisor::which_children);
        scene.runtime.exit(&supervisor, reason)?;
        // (it has heard of that)
        (0..5).for_each(|_| assert!(scene.children(&other).is_empty()));
        if reason == Reason::Kill {
            scene.hears(&["-a"]);
            assert!(asked.wait(LONG).is_err());
            drop(go);
        } else {
            drop(go);
            scene.hears(&["+b", "-b", "-a"]);
            assert!(asked.wait(LONG).is_err());
        }
        // (the closure is dropped, while the run goes on)
        assert_eq!(is_here.recv_timeout(LONG), Err(RecvTimeoutError::Disconnected));
        scene.stops(&[]);
    }
    Ok(())
}

/// A tree over all desks: it ends from its leaves, and a branch that is killed grows again.
#[test]
fn a_tree_grows_over_all_desks() -> Result<(), Error> {
    let (scene, branch) = (Scene::new(), Name::new("branch"));
    let (a, b, c) = (scene.make("a", Manner::Traps), scene.make("b", Manner::Traps), scene.make("c", Manner::Traps));
    let twigs = move || {
        Supervisor::one_for_all()
            .child(Child::permanent(a.clone()).on(0))
            .child(Child::permanent(b.clone()).on(3))
            .child(Child::permanent(c.clone()))
    };
    let root = Supervisor::one_for_one().limit(usize::MAX, LONG).child(scene.child("r", 1));
    let root = scene.spawn(root.child(Child::permanent(twigs).named(&branch).on(2)).child(scene.child("z", 2)));
    scene.hears(&["+r"]);
    scene.hears_all(&["+a", "+b", "+c", "+z"]);
    let grown = branch.wait(LONG).ok_or("a branch")?;
    assert_eq!((scene.desks(&root), scene.desks(&grown)), ([1, 2, 2].map(Some).into(), [0, 3, 2].map(Some).into()));
    for _ in 0..20 {
        let before = branch.wait(LONG).ok_or("a branch")?;
        scene.runtime.exit(&before, Reason::Kill)?;
        scene.hears_all(&["-a", "-b", "-c", "+a", "+b", "+c"]);
        assert_ne!(branch.wait(LONG), Some(before));
    }
    let grown = branch.wait(LONG).ok_or("a branch")?;
    assert_eq!(scene.desks(&grown), [0, 3, 2].map(Some));
    scene.runtime.call(&root, LONG, ToSupervisor::terminate_child(1))??;
    scene.hears(&["-c", "-b", "-a"]);
    scene.runtime.call(&root, LONG, ToSupervisor::restart_child(1))??;
    scene.hears(&["+a", "+b", "+c"]);
    scene.stops(&["-z", "-c", "-b", "-a", "-r"]);
    Ok(())
}

#[test]
fn a_child_elsewhere_is_killed_when_its_time_is_over() -> Result<(), Error> {
    let scene = Scene::new();
    let stays = || Child::permanent(scene.make("s", Manner::Stays));
    let short = stays().on(1).shutdown(Shutdown::After(Duration::from_secs(2)));
    let supervisor =
        scene.spawn(Supervisor::one_for_one().child(short).child(stays().on(2).shutdown(Shutdown::BrutalKill)));
    scene.hears(&["+s", "+s"]);
    scene.runtime.call(&supervisor, LONG, ToSupervisor::terminate_child(1))??;
    scene.runtime.call(&supervisor, LONG, ToSupervisor::terminate_child(0))??;
    scene.hears(&["shutdown?s"]);
    assert_eq!(scene.desks(&supervisor), [None, None]);
    scene.stops(&[]);
    Ok(())
}

/// A child that stays as its supervisor is killed is told by the run to exit.
#[test]
fn a_child_without_its_supervisor_is_told_by_the_run() -> Result<(), Error> {
    let scene = Scene::new();
    let child = Child::permanent(scene.make("s", Manner::Stays)).on(3).shutdown(Shutdown::Infinity);
    let supervisor = scene.spawn(Supervisor::one_for_one().child(child));
    scene.hears(&["+s"]);
    scene.runtime.exit(&supervisor, Reason::Kill)?;
    scene.hears(&["killed?s"]);
    wait_until(|| scene.runtime.call(&supervisor, LONG, ToSupervisor::which_children).is_err());
    let Scene { runtime, notes, .. } = scene;
    runtime.stop_within(Duration::from_secs(2)).expect_err("a process that stays");
    assert_eq!(notes.recv_timeout(LONG)?, "shutdown?s");
    Ok(())
}

/// Counts the values that live.
struct Counted(Arc<AtomicI64>);

impl Counted {
    fn new(all: &Arc<AtomicI64>) -> Counted {
        all.fetch_add(1, SeqCst);
        Counted(all.clone())
    }
}

impl Drop for Counted {
    fn drop(&mut self) {
        self.0.fetch_sub(1, SeqCst);
    }
}

/// A leaf of a storm: it crashes, exits, or takes what it is sent.
struct Leaf {
    _state: Counted,
}

struct Value(u32, #[allow(dead_code)] Counted);

impl Behaviour for Leaf {
    type Message = Value;

    fn handle(&mut self, _: &mut Context<'_, Value>, event: Event<Value>) -> Next {
        match event {
            Event::Message(Value(0, _)) => panic!("a worker crashes"),
            Event::Message(Value(1, _)) => Next::Stop(Reason::Other(7)),
            Event::Message(Value(2, _)) => Next::DONE,
            _ => Next::Wait,
        }
    }
}

/// A storm over four desks: what lives, the leaves, and what the supervisors make.
#[derive(Clone, Default)]
struct Storm {
    values: Arc<AtomicI64>,
    made: Arc<AtomicU64>,
    is_over: Arc<AtomicBool>,
}

impl Storm {
    fn leaf(&self, name: &Name<Value>, desk: u8) -> Child<Value> {
        let (storm, value) = (self.clone(), Counted::new(&self.values));
        let make = move || {
            let count = storm.made.fetch_add(1, SeqCst);
            assert!(count % 29 != 28 || storm.is_over.load(SeqCst), "a closure panics");
            Leaf { _state: Counted::new(&value.0) }
        };
        Child::permanent(make).named(name).on(desk).shutdown(Shutdown::After(Duration::from_millis(200)))
    }

    /// A branch, with one of the strategies, whose leaves are on all desks.
    fn branch(&self, number: usize, leaves: &[Name<Value>]) -> Supervisor {
        let strategy = [Supervisor::one_for_one, Supervisor::one_for_all, Supervisor::rest_for_one][number % 3];
        let numbered = (number..).zip(leaves);
        numbered.fold(strategy().limit(25, Duration::from_millis(50)), |branch, (number, leaf)| {
            branch.child(self.leaf(leaf, (number % 4) as u8))
        })
    }
}

/// Leaves crash and are killed by chance on four desks, with their supervisors, while the node goes on. In the end each that is
/// wanted lives, and nothing is left.
#[test]
fn thousands_of_crashes_elsewhere_lose_nothing() -> Result<(), Error> {
    const CRASHES: u64 = 6_000;
    quiet_panics();
    let (storm, restarts) = (Storm::default(), Arc::new(Mutex::new(Vec::new())));
    let noted = restarts.clone();
    let report = move |what: &Report<'_>| {
        if let Report::Restart { supervisor, place, pid, started, .. } = *what {
            noted.lock().expect("a list").push((supervisor, place, started, pid));
        }
    };
    let runtime = Runtime::builder().desks(4).going_on_every(80).report(report).start()?;
    let names: Vec<_> = (0..48).map(|number| Name::new(format!("leaf {number}"))).collect();
    let branches: Vec<_> = (0..6).map(|number| Name::new(format!("branch {number}"))).collect();
    let root = (0..6).fold(Supervisor::one_for_one().limit(usize::MAX, LONG), |root, number| {
        let (grown, leaves) = (storm.clone(), names[8 * number..8 * number + 8].to_vec());
        let branch = Child::permanent(move || grown.branch(number, &leaves)).named(&branches[number]);
        root.child(branch.on((number % 4) as u8))
    });
    let root = runtime.spawn_on(1, root)?;
    let (begun, mut chance) = (Instant::now(), 88_172_645_463_325_252_u64);
    while storm.made.load(SeqCst) < CRASHES {
        assert!(begun.elapsed() < 6 * LONG, "{} were made", storm.made.load(SeqCst));
        for _ in 0..20 {
            chance ^= chance << 13;
            chance ^= chance >> 7;
            chance ^= chance << 17;
            let name = &names[(chance >> 8) as usize % names.len()];
            match (chance % 64, name.whereis()) {
                (0, _) => {
                    let branch = branches[(chance >> 8) as usize % branches.len()].whereis();
                    branch.map_or(Ok(()), |it| runtime.exit(&it, Reason::Kill))?;
                }
                (1..=8, Some(leaf)) => runtime.exit(&leaf, Reason::Kill)?,
                (what, Some(leaf)) => drop(leaf.send(Value(what as u32 % 9, Counted::new(&storm.values)))),
                _ => {}
            }
        }
        std::thread::yield_now();
    }
    storm.is_over.store(true, SeqCst);
    // (all that were told to crash have, once nothing more comes)
    wait_until(|| {
        let list =
            |of: &Address<ToSupervisor>| runtime.call(of, LONG, ToSupervisor::which_children).unwrap_or_default();
        let grown: Vec<_> = branches.iter().filter_map(Name::whereis).flat_map(|branch| list(&branch)).collect();
        let lives =
            |name: &Name<Value>| name.whereis().is_some_and(|it| grown.iter().any(|child| child.pid == Some(it.pid())));
        list(&root).iter().all(ChildInfo::is_alive) && grown.len() == names.len() && names.iter().all(lives)
    });
    for (number, name) in names.iter().enumerate() {
        assert_eq!(name.whereis().map(|leaf| usize::from(leaf.pid().shard)), Some((number / 8 + number % 8) % 4));
    }
    // (no restart is counted twice: each start of a child has its own number, and its own process)
    let mut noted = std::mem::take(&mut *restarts.lock().expect("a list"));
    let count = noted.len();
    noted.sort_unstable();
    noted.dedup_by_key(|it| (it.0, it.1, it.2));
    assert_eq!(noted.len(), count);
    noted.sort_unstable_by_key(|it| it.3);
    noted.dedup_by_key(|it| it.3);
    assert_eq!(noted.len(), count);
    let summary = runtime.stop()?;
    assert!(summary.epochs > 20 && summary.panics > 200, "{summary:?}");
    assert!(names.iter().all(|name| name.whereis().is_none()));
    assert_eq!(storm.values.load(SeqCst), 0);
    Ok(())
}
