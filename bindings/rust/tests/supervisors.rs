//! Supervisors: who is started again and in which order, when it is too much, how children are ended, what a program asks
//! a supervisor, and that nothing is lost over thousands of crashes.

use pundewo::runtime::{
    Address, Behaviour, Call, Child, ChildFault, ChildInfo, Context, Event, Name, Next, PANIC, Pid, Reason, Restart,
    Runtime, Shutdown, StopFault, Supervisor, Target, ToSupervisor,
};
use pundewo::{Fault, History};
use std::sync::atomic::{AtomicI64, AtomicU64, Ordering::SeqCst};
use std::sync::mpsc::{Receiver, Sender, channel};
use std::sync::{Arc, Once};
use std::time::{Duration, Instant};

const LONG: Duration = Duration::from_secs(120);

type Error = Box<dyn std::error::Error>;

/// What a worker is told.
enum Do {
    Crash,
    Leave(Reason),
    /// To do something with its context.
    Act(Act),
}

type Act = Box<dyn FnOnce(&mut Context<'_, Do>) + Send>;

/// Counts the values that live.
struct Counted(Arc<AtomicI64>);

impl Counted {
    fn new(all: &Arc<AtomicI64>) -> Counted {
        all.fetch_add(1, SeqCst);
        Counted(all.clone())
    }
}

impl Drop for Counted {
    fn drop(&mut self) {
        self.0.fetch_sub(1, SeqCst);
    }
}

/// What a worker does as it gets an exit signal.
#[derive(Clone, Copy, PartialEq)]
enum Manner {
    /// It exits.
    Exits,
    /// It traps the signal, and stays.
    Stays,
    /// It traps the signal, and exits a while later.
    IsSlow,
}

/// Notes when it begins and how it ends.
struct Worker {
    name: &'static str,
    manner: Manner,
    notes: Sender<String>,
}

impl Behaviour for Worker {
    type Message = Do;

    fn started(&mut self, cx: &mut Context<'_, Do>) -> Next {
        self.notes.send(format!("+{}", self.name)).expect("a test");
        cx.trap_exits(self.manner != Manner::Exits).expect("a flag");
        Next::Wait
    }

    fn handle(&mut self, cx: &mut Context<'_, Do>, event: Event<Do>) -> Next {
        match event {
            Event::Message(Do::Crash) => panic!("a worker crashes"),
            Event::Message(Do::Leave(reason)) => Next::Stop(reason),
            Event::Message(Do::Act(act)) => {
                act(cx);
                Next::Wait
            }
            Event::Exit(exit) => {
                self.notes.send(format!("?{} {}", self.name, exit.reason)).expect("a test");
                if self.manner == Manner::IsSlow { Next::WaitFor(Duration::from_millis(60)) } else { Next::Wait }
            }
            Event::Timeout => Next::Stop(Reason::Shutdown),
            _ => Next::Wait,
        }
    }

    fn ended(self, why: Reason) {
        let _ =
            self.notes.send(format!("-{} {}", self.name, if why == PANIC { "crash".into() } else { why.to_string() }));
    }
}

/// Panics of the tests' own are not printed.
fn quiet_panics() {
    static ONCE: Once = Once::new();
    ONCE.call_once(|| {
        let usual = std::panic::take_hook();
        std::panic::set_hook(Box::new(move |what| {
            let text = what.payload().downcast_ref::<&str>().copied().unwrap_or_default();
            if !text.starts_with("a worker") && !text.starts_with("a closure") {
                usual(what);
            }
        }));
    });
}

/// A run with a supervisor, and what the workers note.
struct Scene {
    runtime: Runtime,
    notes: Receiver<String>,
    give: Sender<String>,
}

impl Scene {
    fn new() -> Scene {
        quiet_panics();
        let runtime = Runtime::builder().desks(2).going_on_every(5).start().expect("a run");
        let (give, notes) = channel();
        Scene { runtime, notes, give }
    }

    fn make(&self, name: &'static str, manner: Manner) -> impl FnMut() -> Worker + Send + use<> {
        let notes = self.give.clone();
        move || Worker { name, manner, notes: notes.clone() }
    }

    fn worker(&self, name: &'static str) -> impl FnMut() -> Worker + Send + use<> {
        self.make(name, Manner::Exits)
    }

    fn three(&self, supervisor: Supervisor) -> Supervisor {
        supervisor.permanent(self.worker("a")).permanent(self.worker("b")).permanent(self.worker("c"))
    }

    fn spawn(&self, supervisor: Supervisor) -> Address<ToSupervisor> {
        self.runtime.spawn(supervisor).expect("a supervisor")
    }

    /// The next notes are these.
    fn hears(&self, wanted: &[&str]) {
        for wanted in wanted {
            assert_eq!(self.notes.recv_timeout(LONG).expect("a note in time"), *wanted);
        }
    }

    fn children(&self, of: &Address<ToSupervisor>) -> Vec<ChildInfo> {
        self.runtime.call(of, LONG, ToSupervisor::which_children).expect("a list")
    }

    fn pids(&self, of: &Address<ToSupervisor>) -> Vec<Option<Pid>> {
        self.children(of).into_iter().map(|child| child.pid).collect()
    }

    /// Why a process exits.
    fn watch(&self, process: impl Into<Target>) -> Receiver<Reason> {
        let (give, get) = channel();
        let (ready, watched) = channel();
        self.runtime.spawn(Watcher { process: process.into(), give, ready }).expect("a watcher");
        watched.recv_timeout(LONG).expect("a monitor");
        get
    }

    fn stop(self) {
        self.runtime.stop().expect("all exit");
        drop(self.give);
        assert_eq!(self.notes.iter().find(|note| !note.ends_with(" shutdown")), None);
    }
}

/// Tells why a process exits.
struct Watcher {
    process: Target,
    give: Sender<Reason>,
    ready: Sender<()>,
}

impl Behaviour for Watcher {
    type Message = ();

    fn started(&mut self, cx: &mut Context<'_, ()>) -> Next {
        if cx.monitor(self.process).is_err() {
            let _ = self.give.send(Reason::Noproc);
        }
        self.ready.send(()).expect("a test");
        Next::Wait
    }

    fn handle(&mut self, _: &mut Context<'_, ()>, event: Event<()>) -> Next {
        if let Event::Down(down) = event {
            let _ = self.give.send(down.reason);
        }
        Next::DONE
    }
}

fn got<T>(from: &Receiver<T>) -> T {
    from.recv_timeout(LONG).expect("an answer in time")
}

/// The process that has the name, once there is one.
fn awaited<M: Send + 'static>(name: &Name<M>) -> Address<M> {
    name.wait(LONG).expect("a process with this name")
}

#[test]
fn one_for_one_starts_that_child_again() {
    let scene = Scene::new();
    let b = Name::new("the second");
    let supervisor = Supervisor::one_for_one()
        .permanent(scene.worker("a"))
        .child(Child::permanent(scene.worker("b")).named(&b))
        .permanent(scene.worker("c"));
    let supervisor = scene.spawn(supervisor);
    scene.hears(&["+a", "+b", "+c"]);
    let before = scene.children(&supervisor);
    assert!(b.send(Do::Crash));
    scene.hears(&["-b crash", "+b"]);
    let after = scene.children(&supervisor);
    assert_eq!([0, 1, 2].map(|place| before[place].pid == after[place].pid), [true, false, true]);
    for (child, (place, name)) in after.iter().zip([(0, None), (1, Some("the second")), (2, None)]) {
        assert!(child.is_alive() && child.place == place && child.name.as_deref() == name);
        assert!(child.behaviour.ends_with("::Worker") && child.restart == Restart::Permanent);
        assert_eq!(child.started, if place == 1 { 2 } else { 1 });
    }
    assert_eq!(b.whereis().map(|address| address.pid()), after[1].pid);
    scene.stop();
    assert_eq!((b.whereis(), b.wait(Duration::from_millis(5))), (None, None));
    assert!(!b.send(Do::Crash));
}

/// The one who waits finds the process that is there or the next one, however often it exits meanwhile.
#[test]
fn a_name_is_waited_for_while_its_process_crashes() {
    let scene = Scene::new();
    let a = Name::new("a");
    let child = Child::permanent(scene.worker("a")).named(&a);
    scene.spawn(Supervisor::one_for_one().limit(usize::MAX, LONG).child(child));
    for _ in 0..500 {
        let process = awaited(&a);
        process.send(Do::Crash);
        while awaited(&a) == process {}
    }
    drop(scene.give);
    assert!(scene.runtime.stop().expect("all exit").panics >= 500);
}

#[test]
fn one_for_all_starts_all_again() {
    let scene = Scene::new();
    let b = Name::new("b");
    let supervisor = Supervisor::one_for_all()
        .permanent(scene.worker("a"))
        .child(Child::permanent(scene.worker("b")).named(&b))
        .temporary(scene.worker("t"))
        .transient(scene.worker("c"));
    let supervisor = scene.spawn(supervisor);
    scene.hears(&["+a", "+b", "+t", "+c"]);
    b.send(Do::Crash);
    scene.hears(&["-b crash", "-c shutdown", "-t shutdown", "-a shutdown", "+a", "+b", "+c"]);
    let places: Vec<u64> = scene.children(&supervisor).iter().map(|child| child.place).collect();
    assert_eq!(places, [0, 1, 3]);
    scene.stop();
}

#[test]
fn rest_for_one_starts_those_after_it_again() {
    let scene = Scene::new();
    let names = [0, 1, 2].map(|_| Name::new("one of them"));
    let mut supervisor = Supervisor::rest_for_one();
    for (name, label) in names.iter().zip(["a", "b", "c"]) {
        supervisor = supervisor.child(Child::permanent(scene.worker(label)).named(name));
    }
    scene.spawn(supervisor);
    scene.hears(&["+a", "+b", "+c"]);
    names[1].send(Do::Crash);
    scene.hears(&["-b crash", "-c shutdown", "+b", "+c"]);
    names[2].send(Do::Crash);
    scene.hears(&["-c crash", "+c"]);
    names[0].send(Do::Crash);
    scene.hears(&["-a crash", "-c shutdown", "-b shutdown", "+a", "+b", "+c"]);
    scene.stop();
}

#[test]
fn a_child_is_started_again_as_its_restart_type_says() {
    let scene = Scene::new();
    let names = [0, 1, 2].map(|_| Name::new("one of them"));
    let supervisor = Supervisor::one_for_one()
        .limit(9, LONG)
        .child(Child::permanent(scene.worker("p")).named(&names[0]))
        .child(Child::transient(scene.worker("q")).named(&names[1]))
        .child(Child::temporary(scene.worker("t")).named(&names[2]));
    let supervisor = scene.spawn(supervisor);
    scene.hears(&["+p", "+q", "+t"]);
    for (text, reason) in [("normal", Reason::Normal), ("shutdown", Reason::Shutdown), ("other:9", Reason::Other(9))] {
        awaited(&names[0]).send(Do::Leave(reason));
        scene.hears(&[&format!("-p {text}"), "+p"]);
    }
    awaited(&names[1]).send(Do::Leave(Reason::Other(1)));
    scene.hears(&["-q other:1", "+q"]);
    awaited(&names[1]).send(Do::Crash);
    scene.hears(&["-q crash", "+q"]);
    scene.runtime.exit(&awaited(&names[1]), Reason::Kill).expect("a signal");
    scene.hears(&["-q killed", "+q"]);
    awaited(&names[2]).send(Do::Crash);
    scene.hears(&["-t crash"]);
    awaited(&names[1]).send(Do::Leave(Reason::Normal));
    scene.hears(&["-q normal"]);
    let alive: Vec<_> = scene.children(&supervisor).iter().map(|child| (child.place, child.is_alive())).collect();
    assert_eq!(alive, [(0, true), (1, false)]);
    assert_eq!(scene.children(&supervisor)[1].started, 4);
    scene.stop();
}

/// A transient child that had exited well is among those that are started again with another, as in Erlang.
#[test]
fn a_transient_child_that_is_done_is_started_again_with_all() {
    let scene = Scene::new();
    let names = [0, 1].map(|_| Name::new("one of them"));
    let supervisor = Supervisor::one_for_all()
        .child(Child::transient(scene.worker("q")).named(&names[0]))
        .child(Child::permanent(scene.worker("p")).named(&names[1]));
    scene.spawn(supervisor);
    scene.hears(&["+q", "+p"]);
    names[0].send(Do::Leave(Reason::Normal));
    scene.hears(&["-q normal"]);
    names[1].send(Do::Crash);
    scene.hears(&["-p crash", "+q", "+p"]);
    scene.stop();
}

#[test]
fn the_last_restart_within_the_limit_is_made_and_the_next_ends_it() {
    for (supervisor, others) in [
        (Supervisor::one_for_one as fn() -> Supervisor, vec![]),
        (Supervisor::one_for_all, vec!["-c shutdown", "-a shutdown"]),
        (Supervisor::rest_for_one, vec!["-c shutdown"]),
    ] {
        let scene = Scene::new();
        let b = Name::new("b");
        let supervisor = supervisor()
            .limit(3, LONG)
            .permanent(scene.worker("a"))
            .child(Child::permanent(scene.worker("b")).named(&b))
            .permanent(scene.worker("c"));
        let supervisor = scene.spawn(supervisor);
        let exits = scene.watch(&supervisor);
        scene.hears(&["+a", "+b", "+c"]);
        for _ in 0..3 {
            awaited(&b).send(Do::Crash);
            scene.hears(&["-b crash"]);
            scene.hears(&others);
            let again = match others.len() {
                0 => &["+b"][..],
                1 => &["+b", "+c"],
                _ => &["+a", "+b", "+c"],
            };
            scene.hears(again);
        }
        assert!(exits.try_recv().is_err() && scene.pids(&supervisor).iter().all(Option::is_some));
        awaited(&b).send(Do::Crash);
        scene.hears(&["-b crash", "-c shutdown", "-a shutdown"]);
        assert_eq!(got(&exits), Reason::Shutdown);
        assert_eq!(scene.runtime.wait().expect("nobody is left").panics, 4);
    }
}

#[test]
fn restarts_of_long_ago_do_not_count() {
    let scene = Scene::new();
    let a = Name::new("a");
    let supervisor = Supervisor::one_for_one().limit(1, Duration::from_millis(60));
    let supervisor = scene.spawn(supervisor.child(Child::permanent(scene.worker("a")).named(&a)));
    scene.hears(&["+a"]);
    for _ in 0..4 {
        awaited(&a).send(Do::Crash);
        scene.hears(&["-a crash", "+a"]);
        std::thread::sleep(Duration::from_millis(70));
    }
    assert_eq!(scene.children(&supervisor)[0].started, 5);
    scene.stop();
}

#[test]
fn no_restart_is_made_if_the_limit_is_none() {
    let scene = Scene::new();
    let supervisor = scene.spawn(scene.three(Supervisor::one_for_one().limit(0, LONG)));
    scene.hears(&["+a", "+b", "+c"]);
    let exits = scene.watch(&supervisor);
    scene.runtime.exit(scene.pids(&supervisor)[0].expect("a child"), Reason::Kill).expect("a signal");
    scene.hears(&["-a killed", "-c shutdown", "-b shutdown"]);
    assert_eq!(got(&exits), Reason::Shutdown);
    scene.stop();
}

#[test]
fn a_branch_that_gives_up_is_started_again_and_the_tree_ends_from_its_leaves() {
    let scene = Scene::new();
    let (leaf, branch) = (Name::new("leaf"), Name::new("branch"));
    let (make, named, other) = (scene.give.clone(), leaf.clone(), scene.give.clone());
    let grow = move || {
        let (notes, other) = (make.clone(), other.clone());
        Supervisor::one_for_one()
            .limit(0, LONG)
            .permanent(move || Worker { name: "l", manner: Manner::Exits, notes: notes.clone() })
            .child(
                Child::permanent(move || Worker { name: "m", manner: Manner::Exits, notes: other.clone() })
                    .named(&named),
            )
    };
    let root = Supervisor::one_for_one()
        .permanent(scene.worker("a"))
        .child(Child::permanent(grow).named(&branch))
        .permanent(scene.worker("z"));
    let root = scene.spawn(root);
    scene.hears(&["+a", "+z", "+l", "+m"]);
    let first = awaited(&branch);
    awaited(&leaf).send(Do::Crash);
    scene.hears(&["-m crash", "-l shutdown", "+l", "+m"]);
    assert_ne!(awaited(&branch), first);
    assert_eq!(scene.children(&awaited(&branch)).len(), 2);
    let list = scene.children(&root);
    assert_eq!((list[1].started, list[1].name.as_deref()), (2, Some("branch")));
    assert!(list[1].behaviour.ends_with("::Supervisor"));
    let Scene { runtime, notes, give } = scene;
    runtime.stop().expect("all exit");
    drop(give);
    assert_eq!(notes.iter().collect::<Vec<_>>(), ["-z shutdown", "-m shutdown", "-l shutdown", "-a shutdown"]);
}

#[test]
fn an_exit_signal_of_its_parent_ends_it_and_one_of_another_does_not() {
    let scene = Scene::new();
    let supervisor = scene.spawn(scene.three(Supervisor::one_for_all()));
    scene.hears(&["+a", "+b", "+c"]);
    let exits = scene.watch(&supervisor);
    let (give, get) = channel();
    let to = supervisor.clone();
    let other = scene.runtime.spawn(scene.worker("o")()).expect("a process");
    other.send(Do::Act(Box::new(move |cx| {
        cx.exit(&to, Reason::Shutdown).expect("a signal");
        cx.exit(&to, Reason::Other(1)).expect("a signal");
        give.send(()).expect("a test");
    })));
    got(&get);
    scene.hears(&["+o"]);
    assert!(scene.pids(&supervisor).iter().all(Option::is_some));
    scene.runtime.exit(&supervisor, Reason::Other(7)).expect("a signal");
    scene.hears(&["-c shutdown", "-b shutdown", "-a shutdown"]);
    assert_eq!(got(&exits), Reason::Other(7));
    scene.stop();
}

/// A process that spawned a supervisor is its parent.
#[test]
fn a_parent_that_exits_takes_its_supervisor_along() {
    let scene = Scene::new();
    let parent = scene.runtime.spawn(scene.worker("parent")()).expect("a process");
    let supervisor = scene.three(Supervisor::one_for_one());
    let (give, get) = channel();
    parent.send(Do::Act(Box::new(move |cx| give.send(cx.spawn_linked(supervisor)).expect("a test"))));
    let supervisor = got(&get).expect("a supervisor");
    scene.hears(&["+parent", "+a", "+b", "+c"]);
    let exits = scene.watch(&supervisor);
    parent.send(Do::Leave(Reason::Other(4)));
    scene.hears(&["-parent other:4", "-c shutdown", "-b shutdown", "-a shutdown"]);
    assert_eq!(got(&exits), Reason::Other(4));
    scene.stop();
}

#[test]
fn a_child_that_does_not_exit_in_time_is_killed() {
    let scene = Scene::new();
    let late = Shutdown::After(Duration::from_millis(300));
    let supervisor = Supervisor::one_for_one()
        .permanent(scene.worker("a"))
        .child(Child::permanent(scene.make("s", Manner::Stays)).shutdown(late))
        .child(Child::permanent(scene.make("k", Manner::Stays)).shutdown(Shutdown::BrutalKill))
        .child(Child::permanent(scene.make("w", Manner::IsSlow)).shutdown(Shutdown::Infinity))
        .child(Child::permanent(scene.make("f", Manner::IsSlow)).shutdown(Shutdown::After(LONG)));
    let supervisor = scene.spawn(supervisor);
    scene.hears(&["+a", "+s", "+k", "+w", "+f"]);
    let (begun, exits) = (Instant::now(), scene.watch(&supervisor));
    scene.runtime.exit(&supervisor, Reason::Shutdown).expect("a signal");
    scene.hears(&["?f shutdown", "-f shutdown", "?w shutdown", "-w shutdown", "-k killed", "?s shutdown", "-s killed"]);
    scene.hears(&["-a shutdown"]);
    assert_eq!(got(&exits), Reason::Shutdown);
    assert!(begun.elapsed() >= Duration::from_millis(420) && begun.elapsed() < LONG);
    scene.stop();
}

#[test]
fn children_and_branches_have_time_to_exit_if_nothing_else_is_said() {
    let scene = Scene::new();
    let mut slow = Some(scene.make("w", Manner::IsSlow));
    let branch = move || Supervisor::one_for_one().permanent(slow.take().expect("the first time"));
    let root = Supervisor::one_for_one().permanent(scene.make("v", Manner::IsSlow)).permanent(branch);
    scene.spawn(root);
    scene.hears(&["+v", "+w"]);
    let Scene { runtime, notes, give } = scene;
    runtime.stop().expect("all exit");
    drop(give);
    assert_eq!(notes.iter().collect::<Vec<_>>(), ["?w shutdown", "-w shutdown", "?v shutdown", "-v shutdown"]);
}

#[test]
fn a_sibling_that_does_not_exit_is_killed_and_started_again() {
    let scene = Scene::new();
    let a = Name::new("a");
    let late = Shutdown::After(Duration::from_millis(300));
    let supervisor = Supervisor::one_for_all()
        .child(Child::permanent(scene.worker("a")).named(&a))
        .child(Child::permanent(scene.make("s", Manner::Stays)).shutdown(late));
    let supervisor = scene.spawn(supervisor);
    scene.hears(&["+a", "+s"]);
    for _ in 0..2 {
        awaited(&a).send(Do::Crash);
        scene.hears(&["-a crash", "?s shutdown", "-s killed", "+a", "+s"]);
    }
    scene.runtime.exit(&supervisor, Reason::Kill).expect("a signal");
    // (a process that traps exits outlives its supervisor, which was killed)
    scene.hears(&["-a killed", "?s killed"]);
    let fault = scene.runtime.stop_within(Duration::from_millis(100)).expect_err("a process that stays");
    assert!(fault.to_string().ends_with("::Worker, would not end"), "{fault}");
}

/// Makes its worker only if the closure's turn has come.
fn failing(scene: &Scene, name: &'static str, fails: impl Fn(u64) -> bool + Send) -> impl FnMut() -> Worker + Send {
    let (mut make, mut count) = (scene.worker(name), 0);
    move || {
        count += 1;
        assert!(!fails(count), "a closure panics");
        make()
    }
}

/// Its parent would give up if it exited for another reason than `shutdown`.
#[test]
fn a_child_that_is_not_made_at_first_ends_the_supervisor() {
    let scene = Scene::new();
    let supervisor = Supervisor::one_for_one()
        .permanent(scene.worker("a"))
        .permanent(scene.worker("b"))
        .temporary(failing(&scene, "f", |_| true))
        .permanent(scene.worker("c"));
    let mut supervisor = Some(supervisor);
    let root = Supervisor::one_for_one().limit(0, LONG).transient(move || supervisor.take().expect("the first time"));
    let root = scene.spawn(root);
    // (they may have begun before)
    let ends = scene.notes.iter().filter(|note| !note.starts_with('+'));
    assert_eq!(ends.take(2).collect::<Vec<_>>(), ["-b shutdown", "-a shutdown"]);
    let list = loop {
        let list = scene.children(&root);
        if !list[0].is_alive() {
            break list;
        }
    };
    assert_eq!(list[0].started, 1);
    assert_eq!(scene.runtime.stop().expect("all exit").panics, 0);
}

#[test]
fn a_restart_that_fails_is_tried_again_and_counts() {
    for (most, lives) in [(3, true), (2, false)] {
        let scene = Scene::new();
        let f = Name::new("f");
        let supervisor = Supervisor::one_for_one()
            .limit(most, LONG)
            .permanent(scene.worker("a"))
            .child(Child::permanent(failing(&scene, "f", |count| count == 2 || count == 3)).named(&f));
        let supervisor = scene.spawn(supervisor);
        let exits = scene.watch(&supervisor);
        scene.hears(&["+a", "+f"]);
        awaited(&f).send(Do::Crash);
        scene.hears(&["-f crash"]);
        if lives {
            scene.hears(&["+f"]);
            assert_eq!(scene.children(&supervisor)[1].started, 2);
            awaited(&f).send(Do::Crash);
            scene.hears(&["-f crash"]);
        }
        scene.hears(&["-a shutdown"]);
        assert_eq!(got(&exits), Reason::Shutdown);
        scene.stop();
    }
}

/// It neither gives up nor gets a child. It answers, and it can be told to exit.
#[test]
fn a_supervisor_that_tries_for_ever_is_still_there() {
    let scene = Scene::new();
    let f = Name::new("f");
    let supervisor = Supervisor::one_for_one()
        .limit(1_000, Duration::ZERO)
        .permanent(scene.worker("a"))
        .child(Child::permanent(failing(&scene, "f", |count| count > 1)).named(&f));
    let supervisor = scene.spawn(supervisor);
    scene.hears(&["+a", "+f"]);
    awaited(&f).send(Do::Crash);
    scene.hears(&["-f crash"]);
    for _ in 0..20 {
        assert_eq!(scene.children(&supervisor)[1].started, 1);
    }
    assert_eq!(scene.runtime.call(&supervisor, LONG, ToSupervisor::terminate_child(0)), Ok(Ok(())));
    scene.hears(&["-a shutdown"]);
    let alive: Vec<_> = scene.children(&supervisor).iter().map(ChildInfo::is_alive).collect();
    assert_eq!(alive, [false; 2]);
    scene.stop();
}

/// While a supervisor tries to start a child again, somebody starts that child, terminates it, or has it forgotten.
#[test]
fn a_child_that_is_tried_again_may_be_asked_for_meanwhile() -> Result<(), Error> {
    let scene = Scene::new();
    let (ask, made) = (scene.runtime.handle(), Arc::new(AtomicU64::new(0)));
    let (count, mut make, f) = (made.clone(), scene.worker("f"), Name::new("f"));
    let child = Child::permanent(move || {
        // (every second one is made)
        assert!(count.fetch_add(1, SeqCst) % 2 == 0, "a closure panics");
        make()
    });
    let supervisor = Supervisor::one_for_all().limit(1, LONG).permanent(scene.worker("a")).child(child.named(&f));
    let supervisor = scene.spawn(supervisor);
    scene.hears(&["+a", "+f"]);
    for place in [1, 1] {
        ask.call(&supervisor, LONG, ToSupervisor::terminate_child(place))??;
    }
    scene.hears(&["-f shutdown"]);
    let fault = ask.call(&supervisor, LONG, ToSupervisor::restart_child(1))?;
    assert_eq!(fault, Err(ChildFault::Panicked("a closure panics".into())));
    let pid = ask.call(&supervisor, LONG, ToSupervisor::restart_child(1))??;
    assert_eq!((made.load(SeqCst), f.whereis().map(|address| address.pid())), (3, Some(pid)));
    scene.hears(&["+f"]);
    assert!(scene.pids(&supervisor).iter().all(Option::is_some));
    scene.stop();
    Ok(())
}

/// A storm of requests on a child that is tried again for ever.
#[test]
fn requests_end_the_tries_for_a_child() -> Result<(), Error> {
    let scene = Scene::new();
    let (ask, f) = (scene.runtime.handle(), Name::new("f"));
    let child = Child::permanent(failing(&scene, "f", |count| count > 1 && count % 50 != 0)).named(&f);
    let supervisor = Supervisor::one_for_one().limit(1_000, Duration::ZERO).child(child).permanent(scene.worker("a"));
    let supervisor = scene.spawn(supervisor);
    scene.hears(&["+f", "+a"]);
    for _ in 0..20 {
        awaited(&f).send(Do::Crash);
        scene.hears(&["-f crash"]);
        loop {
            match ask.call(&supervisor, LONG, ToSupervisor::restart_child(0))? {
                Ok(_) | Err(ChildFault::Running) => break,
                Err(fault) => assert_eq!(fault, ChildFault::Panicked("a closure panics".into())),
            }
        }
        scene.hears(&["+f"]);
    }
    awaited(&f).send(Do::Crash);
    scene.hears(&["-f crash"]);
    ask.call(&supervisor, LONG, ToSupervisor::terminate_child(0))??;
    let before = scene.children(&supervisor);
    std::thread::sleep(Duration::from_millis(20));
    assert!(!before[0].is_alive() && scene.children(&supervisor) == before);
    ask.call(&supervisor, LONG, ToSupervisor::delete_child(0))??;
    assert_eq!(scene.children(&supervisor), before[1..]);
    scene.runtime.stop()?;
    Ok(())
}

#[test]
fn a_child_that_crashes_as_it_begins_counts_as_one_that_has_exited() {
    for supervisor in [Supervisor::one_for_one as fn() -> Supervisor, Supervisor::one_for_all, Supervisor::rest_for_one]
    {
        let scene = Scene::new();
        let supervisor = scene.spawn(supervisor().limit(2, LONG).permanent(scene.worker("a")).permanent(|| Crashes));
        while scene.runtime.call(&supervisor, LONG, ToSupervisor::which_children).is_ok() {}
        assert_eq!(scene.runtime.stop().expect("all exit").panics, 3);
        drop(scene.give);
        let (starts, ends): (Vec<_>, Vec<_>) = scene.notes.iter().partition(|note| note.starts_with('+'));
        assert!(starts.len() == ends.len() && ends.iter().all(|note| note == "-a shutdown"), "{starts:?} {ends:?}");
    }
}

/// Crashes as it begins.
struct Crashes;

impl Behaviour for Crashes {
    type Message = ();

    fn started(&mut self, _: &mut Context<'_, ()>) -> Next {
        panic!("a worker crashes as it begins")
    }

    fn handle(&mut self, _: &mut Context<'_, ()>, _: Event<()>) -> Next {
        Next::Wait
    }
}

/// All are ended again that were started before the one that was not made.
#[test]
fn a_restart_of_all_that_fails_is_one_of_all_again() {
    let scene = Scene::new();
    let a = Name::new("a");
    let supervisor = Supervisor::one_for_all()
        .limit(2, LONG)
        .child(Child::permanent(scene.worker("a")).named(&a))
        .permanent(failing(&scene, "f", |count| count == 2))
        .permanent(scene.worker("c"));
    scene.spawn(supervisor);
    scene.hears(&["+a", "+f", "+c"]);
    awaited(&a).send(Do::Crash);
    scene.hears(&["-a crash", "-c shutdown", "-f shutdown", "+a", "-a shutdown", "+a", "+f", "+c"]);
    scene.stop();
}

#[test]
fn children_are_added_ended_and_forgotten_at_request() -> Result<(), Error> {
    let scene = Scene::new();
    let (ask, supervisor) = (scene.runtime.handle(), scene.spawn(Supervisor::one_for_one()));
    let started = ask.call(&supervisor, LONG, ToSupervisor::start_child(Child::permanent(scene.worker("a"))))??;
    assert_eq!(started.place, 0);
    started.address.send(Do::Crash);
    scene.hears(&["+a", "-a crash", "+a"]);
    let started = ask.call(&supervisor, LONG, ToSupervisor::start_child(Child::once(scene.worker("t")())))??;
    assert_eq!((started.place, scene.pids(&supervisor)[1]), (1, Some(started.address.pid())));
    scene.hears(&["+t"]);
    assert_eq!(ask.call(&supervisor, LONG, ToSupervisor::restart_child(0))?, Err(ChildFault::Running));
    assert_eq!(ask.call(&supervisor, LONG, ToSupervisor::delete_child(0))?, Err(ChildFault::Running));
    for place in [0, 1] {
        assert_eq!(ask.call(&supervisor, LONG, ToSupervisor::terminate_child(place))?, Ok(()));
    }
    scene.hears(&["-a shutdown", "-t shutdown"]);
    assert_eq!(scene.pids(&supervisor), [None]);
    assert_eq!(ask.call(&supervisor, LONG, ToSupervisor::terminate_child(0))?, Ok(()));
    for gone in [1, 7] {
        assert_eq!(ask.call(&supervisor, LONG, ToSupervisor::terminate_child(gone))?, Err(ChildFault::NotFound));
        assert_eq!(ask.call(&supervisor, LONG, ToSupervisor::restart_child(gone))?, Err(ChildFault::NotFound));
        assert_eq!(ask.call(&supervisor, LONG, ToSupervisor::delete_child(gone))?, Err(ChildFault::NotFound));
    }
    let pid = ask.call(&supervisor, LONG, ToSupervisor::restart_child(0))??;
    scene.hears(&["+a"]);
    assert_eq!(scene.pids(&supervisor), [Some(pid)]);
    ask.call(&supervisor, LONG, ToSupervisor::terminate_child(0))??;
    ask.call(&supervisor, LONG, ToSupervisor::delete_child(0))??;
    assert_eq!(scene.children(&supervisor), []);
    scene.stop();
    Ok(())
}

#[test]
fn a_child_that_is_not_started_at_request_is_forgotten() -> Result<(), Error> {
    quiet_panics();
    let (runtime, (notes, _heard)) = (Runtime::builder().desks(1).slots(4).start()?, channel());
    let supervisor = runtime.spawn(Supervisor::one_for_one().limit(0, LONG))?;
    let make = move || Worker { name: "a", manner: Manner::Exits, notes: notes.clone() };
    let panics = Child::<Do>::permanent(|| -> Worker { panic!("a closure panics") });
    let fault = runtime.call(&supervisor, LONG, ToSupervisor::start_child(panics))?.expect_err("a panic");
    assert_eq!(fault, ChildFault::Panicked("a closure panics".into()));
    for place in [1, 2] {
        let started = runtime.call(&supervisor, LONG, ToSupervisor::start_child(Child::transient(make.clone())))??;
        assert_eq!(started.place, place);
    }
    let full = runtime.call(&supervisor, LONG, ToSupervisor::start_child(Child::transient(make)))?;
    assert_eq!(full.expect_err("no slot"), ChildFault::Table(Fault::Full));
    assert_eq!(runtime.call(&supervisor, LONG, ToSupervisor::which_children)?.len(), 2);
    runtime.stop()?;
    Ok(())
}

#[test]
fn a_behaviour_asks_which_children_there_are() {
    let scene = Scene::new();
    let supervisor = scene.spawn(scene.three(Supervisor::one_for_one()));
    scene.hears(&["+a", "+b", "+c"]);
    let (give, get) = channel();
    scene.runtime.spawn(Asks { supervisor: supervisor.clone(), call: None, give }).expect("a process");
    assert_eq!(got(&get), scene.children(&supervisor));
    scene.stop();
}

/// Asks a supervisor for its children.
struct Asks {
    supervisor: Address<ToSupervisor>,
    call: Option<Call<Vec<ChildInfo>>>,
    give: Sender<Vec<ChildInfo>>,
}

impl Behaviour for Asks {
    type Message = ();

    fn started(&mut self, cx: &mut Context<'_, ()>) -> Next {
        self.call = cx.call(&self.supervisor, LONG, ToSupervisor::which_children).ok();
        Next::Wait
    }

    fn handle(&mut self, _: &mut Context<'_, ()>, event: Event<()>) -> Next {
        let (Event::Answer(answer), Some(call)) = (event, self.call) else { return Next::Wait };
        self.give.send(answer.to(&call).expect("its answer").expect("a list")).expect("a test");
        Next::DONE
    }
}

/// A child cannot hide from its supervisor, and it cannot make it believe that it has exited.
#[test]
fn a_child_that_unlinks_itself_or_sends_exit_signals_is_still_one() {
    let scene = Scene::new();
    let a = Name::new("a");
    let supervisor = Supervisor::one_for_one().child(Child::permanent(scene.worker("a")).named(&a));
    let supervisor = scene.spawn(supervisor);
    scene.hears(&["+a"]);
    let to = supervisor.clone();
    awaited(&a).send(Do::Act(Box::new(move |cx| {
        cx.exit(&to, Reason::Other(1)).expect("a signal");
        cx.unlink(&to).expect("no link");
    })));
    awaited(&a).send(Do::Crash);
    scene.hears(&["-a crash", "+a"]);
    let list = scene.children(&supervisor);
    assert_eq!((list.len(), list[0].started, list[0].pid), (1, 2, a.whereis().map(|address| address.pid())));
    scene.stop();
}

#[test]
fn a_killed_supervisor_takes_its_children_along() {
    let scene = Scene::new();
    let supervisor = scene.spawn(scene.three(Supervisor::one_for_one()));
    scene.hears(&["+a", "+b", "+c"]);
    scene.runtime.exit(&supervisor, Reason::Kill).expect("a signal");
    scene.hears(&["-a killed", "-b killed", "-c killed"]);
    scene.stop();
}

/// A run that stops tells the supervisors, which end their children in order; the children are told by nobody else.
#[test]
fn a_run_over_many_supervisors_stops_each_tree_in_order() {
    let scene = Scene::new();
    for _ in 0..40 {
        scene.spawn(scene.three(Supervisor::one_for_all()));
    }
    for _ in 0..120 {
        assert!(got(&scene.notes).starts_with('+'));
    }
    let Scene { runtime, notes, give } = scene;
    assert_eq!(runtime.stop().expect("all exit").spawned, 160);
    drop(give);
    // (in each tree c exits before b, and b before a)
    let mut counts = [0; 3];
    for note in &notes {
        let place = ["-a shutdown", "-b shutdown", "-c shutdown"].iter().position(|it| *it == note).expect(&note);
        counts[place] += 1;
        assert!(counts[2] >= counts[1] && counts[1] >= counts[0], "{counts:?}");
    }
    assert_eq!(counts, [40; 3]);
}

#[test]
fn a_child_that_would_not_end_is_named_and_not_its_supervisor() {
    let scene = Scene::new();
    let supervisor =
        Supervisor::one_for_one().child(Child::permanent(scene.make("s", Manner::Stays)).shutdown(Shutdown::Infinity));
    scene.spawn(Supervisor::one_for_one().child(Child::permanent({
        let mut supervisor = Some(supervisor);
        move || supervisor.take().expect("the first time")
    })));
    scene.hears(&["+s"]);
    let fault = scene.runtime.stop_within(Duration::from_millis(200)).expect_err("a process that stays");
    let StopFault::WouldNotEnd { behaviour, summary: Some(summary), .. } = fault else { panic!("{fault}") };
    assert!(behaviour.ends_with("::Worker") && summary.spawned == 3, "{behaviour}");
}

/// If its supervisor is killed as the run stops, the run itself tells the child.
#[test]
fn a_child_whose_supervisor_is_killed_as_the_run_stops_is_told_by_the_run() {
    let scene = Scene::new();
    let child = Child::permanent(scene.make("s", Manner::Stays)).shutdown(Shutdown::Infinity);
    let supervisor = scene.spawn(Supervisor::one_for_one().child(child));
    scene.hears(&["+s"]);
    let (handle, Scene { runtime, notes, give }) = (scene.runtime.handle(), scene);
    let kills = std::thread::spawn(move || {
        let first = got(&notes);
        handle.exit(&supervisor, Reason::Kill).expect("a signal");
        let others = [got(&notes), got(&notes)];
        (first, others)
    });
    runtime.stop_within(Duration::from_secs(3)).expect_err("a process that stays");
    drop(give);
    let (first, others) = kills.join().expect("three notes");
    assert_eq!((&*first, others), ("?s shutdown", ["?s killed".to_owned(), "?s shutdown".to_owned()]));
}

/// A child with values that count themselves, which crashes at every so many messages.
struct Fragile {
    state: Counted,
    until: u32,
    handled: Arc<AtomicU64>,
}

struct Value(Counted);

impl Behaviour for Fragile {
    type Message = Value;

    fn handle(&mut self, _: &mut Context<'_, Value>, event: Event<Value>) -> Next {
        if let Event::Message(Value(value)) = event {
            self.handled.fetch_add(1, SeqCst);
            self.until -= 1;
            match (self.until, Arc::ptr_eq(&value.0, &self.state.0)) {
                (0, true) => panic!("a worker crashes"),
                (1, true) if self.handled.load(SeqCst) % 3 == 0 => return Next::Stop(Reason::Other(7)),
                _ => {}
            }
        }
        Next::Wait
    }
}

/// What a storm knows: how many values live, how many messages were handled, and how often a child was made.
#[derive(Clone, Default)]
struct Numbers {
    values: Arc<AtomicI64>,
    handled: Arc<AtomicU64>,
    made: Arc<AtomicU64>,
}

impl Numbers {
    /// A child that crashes soon, made by a closure that has a value, too.
    fn child(&self, number: u32) -> Child<Value> {
        let (numbers, value) = (self.clone(), Counted::new(&self.values));
        Child::permanent(move || {
            let count = numbers.made.fetch_add(1, SeqCst);
            assert!(count % 17 != 16 && Arc::ptr_eq(&value.0, &numbers.values), "a closure panics");
            Fragile { state: Counted::new(&value.0), until: 3 + number % 5, handled: numbers.handled.clone() }
        })
    }

    /// A root of trees of all strategies, which never gives up, with the names of the leaves.
    fn tree(&self) -> (Supervisor, Vec<Name<Value>>) {
        let names: Vec<_> = (0..24).map(|number| Name::new(format!("leaf {number}"))).collect();
        let mut root = Supervisor::one_for_one().limit(usize::MAX, LONG);
        let strategies =
            [Supervisor::one_for_one as fn() -> Supervisor, Supervisor::one_for_all, Supervisor::rest_for_one];
        for (leaves, strategy) in names.chunks(8).zip(strategies) {
            let (leaves, numbers) = (leaves.to_vec(), self.clone());
            root = root.permanent(move || {
                let leaves = (0..).zip(&leaves);
                leaves.fold(strategy().limit(40, LONG), |branch, (number, leaf)| {
                    branch.child(numbers.child(number).named(leaf).shutdown(Shutdown::After(Duration::from_millis(50))))
                })
            });
        }
        (root, names)
    }
}

/// Sends the leaves of trees values until so many children were made, or the run halts.
fn storm(runtime: &Runtime, numbers: &Numbers, names: &[Name<Value>], until: u64) -> u64 {
    let (begun, mut sent) = (Instant::now(), 0);
    while numbers.made.load(SeqCst) < until && !runtime.is_over() {
        assert!(begun.elapsed() < 6 * LONG, "{} children were made", numbers.made.load(SeqCst));
        for name in names {
            sent += u64::from(name.send(Value(Counted::new(&numbers.values))));
        }
        std::thread::yield_now();
    }
    sent
}

/// Trees on each desk, whose children crash thousands of times while the node goes on again and again.
#[test]
fn thousands_of_crashes_lose_nothing() -> Result<(), Error> {
    quiet_panics();
    let numbers = Numbers::default();
    let runtime = Runtime::builder().desks(4).going_on_every(60).start()?;
    let mut names = Vec::new();
    for _ in 0..8 {
        let (root, leaves) = numbers.tree();
        runtime.spawn(root)?;
        names.extend(leaves);
    }
    let sent = storm(&runtime, &numbers, &names, 20_000);
    let summary = runtime.stop()?;
    assert!(summary.epochs > 100 && summary.panics > 3_000, "{summary:?}");
    assert!(numbers.handled.load(SeqCst) <= sent);
    assert!(names.iter().all(|name| name.whereis().is_none()));
    assert_eq!(numbers.values.load(SeqCst), 0);
    Ok(())
}

#[test]
fn a_run_with_supervisors_that_is_dropped_drops_all() -> Result<(), Error> {
    quiet_panics();
    let numbers = Numbers::default();
    let runtime = Runtime::builder().desks(2).going_on_every(30).start()?;
    let (root, names) = numbers.tree();
    runtime.spawn(root)?;
    storm(&runtime, &numbers, &names, 200);
    drop(runtime);
    let until = Instant::now() + LONG;
    while numbers.values.load(SeqCst) != 0 && Instant::now() < until {
        std::thread::sleep(Duration::from_millis(2));
    }
    assert_eq!(numbers.values.load(SeqCst), 0);
    Ok(())
}

/// A run halts while children are started again, and goes on as if it had not.
#[test]
fn a_run_that_halts_keeps_its_supervisors() -> Result<(), Error> {
    quiet_panics();
    let numbers = Numbers::default();
    let refuses = |mut left: i32| {
        move |_: &History| {
            left -= 1;
            if left < 0 { Err("no room".into()) } else { Ok(()) }
        }
    };
    let mut runtime = Runtime::builder().desks(2).going_on_every(60).archive(refuses(20)).start()?;
    let (root, names) = numbers.tree();
    let root = runtime.spawn(root)?;
    for halts in 0..12 {
        storm(&runtime, &numbers, &names, u64::MAX);
        let StopFault::Halted(halted) = runtime.stop().expect_err("it halted") else { panic!("it halted") };
        runtime = halted
            .with_archive(refuses(if halts < 11 { 7 + halts } else { i32::MAX }))
            .go_on()
            .map_err(|halted| halted.to_string())?;
    }
    let branches = runtime.call(&root, LONG, ToSupervisor::which_children)?;
    assert_eq!(branches.len(), 3);
    storm(&runtime, &numbers, &names, numbers.made.load(SeqCst) + 300);
    runtime.stop()?;
    assert_eq!(numbers.values.load(SeqCst), 0);
    Ok(())
}

/// Requests of many threads, while children crash and epochs end.
#[test]
fn children_come_and_go_from_many_threads() -> Result<(), Error> {
    quiet_panics();
    let numbers = Numbers::default();
    let runtime = Runtime::builder().desks(2).slots(300).going_on_every(40).start()?;
    let supervisor = runtime.spawn(Supervisor::one_for_one().limit(usize::MAX, LONG))?;
    std::thread::scope(|threads| {
        for thread in 0..4 {
            let (ask, supervisor, numbers) = (runtime.handle(), &supervisor, &numbers);
            threads.spawn(move || {
                for number in 0..60 {
                    let child = numbers.child(thread);
                    let Ok(started) = ask.call(supervisor, LONG, ToSupervisor::start_child(child)).expect("an answer")
                    else {
                        continue;
                    };
                    for _ in 0..number % 9 {
                        started.address.send(Value(Counted::new(&numbers.values)));
                    }
                    let place = started.place;
                    assert_eq!(ask.call(supervisor, LONG, ToSupervisor::terminate_child(place)), Ok(Ok(())));
                    assert_eq!(ask.call(supervisor, LONG, ToSupervisor::delete_child(place)), Ok(Ok(())));
                }
            });
        }
    });
    assert_eq!(runtime.call(&supervisor, LONG, ToSupervisor::which_children)?, []);
    // (it is still there, with all that it had to start with)
    assert_eq!(numbers.values.load(SeqCst), 0);
    runtime.stop()?;
    Ok(())
}
