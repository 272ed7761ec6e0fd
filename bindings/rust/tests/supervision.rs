//! The process behind a supervisor, which is one of the library: how many children it takes, what a full desk does to it, who
//! waits while it ends a child, and what of it a history shows.

use pundewo::runtime::{
    Address, Behaviour, CallFault, Child, ChildFault, Context, Event, Name, Next, Pid, Reason, Refusal, Report,
    Runtime, Shutdown, Supervisor, ToSupervisor,
};
use pundewo::{Fault, Happened, History};
use std::sync::mpsc::{Receiver, Sender, channel};
use std::sync::{Arc, Mutex};
use std::time::Duration;

const LONG: Duration = Duration::from_secs(120);

type Error = Box<dyn std::error::Error>;

/// Tells that it begins and that it has exited. It exits with the reason that it is sent.
struct Worker {
    number: i32,
    /// Whether it traps exit signals, and exits a while later.
    is_slow: bool,
    notes: Sender<i32>,
}

impl Behaviour for Worker {
    type Message = Reason;

    fn started(&mut self, cx: &mut Context<'_, Reason>) -> Next {
        let _ = self.notes.send(self.number);
        cx.trap_exits(self.is_slow).expect("a flag");
        Next::Wait
    }

    fn handle(&mut self, _: &mut Context<'_, Reason>, event: Event<Reason>) -> Next {
        match event {
            Event::Message(reason) => Next::Stop(reason),
            Event::Exit(_) => Next::WaitFor(Duration::from_millis(40)),
            _ => Next::Stop(Reason::Shutdown),
        }
    }

    fn ended(self, _: Reason) {
        let _ = self.notes.send(-self.number);
    }
}

/// What makes a worker with this number.
fn worker(number: i32, notes: &Sender<i32>) -> impl Fn() -> Worker + Clone + Send + use<> {
    let notes = notes.clone();
    move || Worker { number, is_slow: false, notes: notes.clone() }
}

fn hears(from: &Receiver<i32>, wanted: impl IntoIterator<Item = i32>) {
    for wanted in wanted {
        assert_eq!(from.recv_timeout(LONG).expect("a note in time"), wanted);
    }
}

fn children(runtime: &Runtime, supervisor: &Address<ToSupervisor>) -> Vec<Option<Pid>> {
    let list = runtime.call(supervisor, LONG, ToSupervisor::which_children).expect("a list");
    list.into_iter().map(|child| child.pid).collect()
}

/// More than a step of the crew tells: they begin in order, and a strategy ends them from the last to the first.
#[test]
fn a_supervisor_has_many_children() -> Result<(), Error> {
    const MANY: i32 = 700;
    let (runtime, (notes, heard)) = (Runtime::builder().desks(2).going_on_every(900).start()?, channel());
    let first = Name::new("the first");
    let all = (2..=MANY).fold(
        Supervisor::one_for_all().child(Child::permanent(worker(1, &notes)).named(&first)),
        |supervisor, number| supervisor.permanent(worker(number, &notes)),
    );
    let supervisor = runtime.spawn(all)?;
    hears(&heard, 1..=MANY);
    let before = children(&runtime, &supervisor);
    assert!(before.len() == MANY as usize && before.iter().all(Option::is_some));
    assert!(first.send(Reason::Other(1)));
    hears(&heard, [-1]);
    hears(&heard, (2..=MANY).rev().map(|number| -number));
    hears(&heard, 1..=MANY);
    let after = children(&runtime, &supervisor);
    assert!(after.iter().zip(&before).all(|(new, old)| new.is_some() && new != old));
    assert_eq!(runtime.stop()?.spawned, 1 + 2 * MANY as u64);
    Ok(())
}

/// What panics before its process begins.
struct Nervous;

impl Behaviour for Nervous {
    type Message = ();

    fn handle(&mut self, _: &mut Context<'_, ()>, _: Event<()>) -> Next {
        Next::Wait
    }

    fn traps_exits(&self) -> bool {
        panic!("it is nervous")
    }
}

#[test]
fn a_behaviour_that_panics_before_it_begins_leaves_nothing_behind() -> Result<(), Error> {
    let (runtime, (notes, heard)) = (Runtime::builder().desks(2).start()?, channel());
    assert!(runtime.spawn_on(0, Nervous).is_err());
    let supervisor = runtime.spawn_on(0, Supervisor::one_for_one().permanent(worker(1, &notes)))?;
    hears(&heard, [1]);
    for desk in [0, 1] {
        let refused =
            runtime.call(&supervisor, LONG, ToSupervisor::start_child(Child::permanent(|| Nervous).on(desk)))?;
        assert_eq!(refused.expect_err("a panic"), ChildFault::Panicked("it is nervous".into()));
    }
    assert_eq!(children(&runtime, &supervisor).len(), 1);
    assert_eq!(runtime.stop()?.spawned, 2);
    Ok(())
}

/// The second process of a supervisor takes none of the slots.
#[test]
fn a_full_desk_refuses_children_by_its_slots() -> Result<(), Error> {
    let (runtime, (notes, heard)) = (Runtime::builder().desks(1).slots(5).start()?, channel());
    let two = || Supervisor::one_for_one().permanent(worker(1, &notes)).permanent(worker(2, &notes));
    let supervisor = runtime.spawn(two())?;
    hears(&heard, [1, 2]);
    let started = runtime.call(&supervisor, LONG, ToSupervisor::start_child(Child::temporary(worker(3, &notes))))??;
    hears(&heard, [3]);
    let full = runtime.call(&supervisor, LONG, ToSupervisor::start_child(Child::permanent(worker(4, &notes))))?;
    assert_eq!(full.expect_err("no slot"), ChildFault::Table(Fault::Full));
    assert!(started.address.send(Reason::Normal));
    hears(&heard, [-3]);
    // (another takes its slot: it begins, and its first child has none)
    let second = runtime.spawn(two())?;
    let asked = runtime.call(&second, LONG, ToSupervisor::which_children);
    assert!(matches!(asked, Err(CallFault::Down(Reason::Shutdown | Reason::Noproc, None))));
    assert_eq!(children(&runtime, &supervisor).len(), 2);
    let started = runtime.call(&supervisor, LONG, ToSupervisor::start_child(Child::permanent(worker(5, &notes))))??;
    hears(&heard, [5]);
    assert_eq!((started.place, children(&runtime, &supervisor)[2]), (4, Some(started.address.pid())));
    runtime.stop()?;
    Ok(())
}

/// Who asks while a child exits is answered once it has.
#[test]
fn requests_wait_while_a_child_exits() -> Result<(), Error> {
    let (runtime, (notes, heard)) = (Runtime::builder().desks(1).going_on_every(5).start()?, channel());
    let give = notes.clone();
    let slow = Child::permanent(move || Worker { number: 2, is_slow: true, notes: give.clone() });
    let supervisor = Supervisor::one_for_one().permanent(worker(1, &notes)).child(slow.shutdown(Shutdown::Infinity));
    let supervisor = runtime.spawn(supervisor)?;
    hears(&heard, [1, 2]);
    let ends = supervisor.ask(ToSupervisor::terminate_child(1));
    let asked: Vec<_> = (0..20).map(|_| supervisor.ask(ToSupervisor::which_children)).collect();
    let forgets = supervisor.ask(ToSupervisor::delete_child(1));
    for asked in asked {
        let alive: Vec<_> = asked.wait(LONG)?.iter().map(|child| child.is_alive()).collect();
        assert_eq!(alive, [true, false]);
    }
    hears(&heard, [-2]);
    assert_eq!((ends.wait(LONG)?, forgets.wait(LONG)?), (Ok(()), Ok(())));
    assert_eq!(children(&runtime, &supervisor).len(), 1);
    runtime.stop()?;
    Ok(())
}

/// Who hears that a child is done may have it started at once, also if its supervisor has not heard of it.
#[test]
fn a_child_that_is_done_is_started_at_request() -> Result<(), Error> {
    let (runtime, (notes, heard)) = (Runtime::builder().desks(1).going_on_every(11).start()?, channel());
    let child = Name::new("a child");
    let all = Supervisor::rest_for_one().child(Child::transient(worker(1, &notes)).named(&child));
    let supervisor = runtime.spawn(all.permanent(worker(2, &notes)))?;
    hears(&heard, [1, 2]);
    for _ in 0..400 {
        assert!(child.send(Reason::Normal));
        hears(&heard, [-1]);
        let pid = runtime.call(&supervisor, LONG, ToSupervisor::restart_child(0))??;
        hears(&heard, [1]);
        assert_eq!(child.whereis().map(|address| address.pid()), Some(pid));
        let again = runtime.call(&supervisor, LONG, ToSupervisor::restart_child(0))?;
        assert_eq!(again, Err(ChildFault::Running));
    }
    runtime.stop()?;
    Ok(())
}

/// What is asked of a supervisor that exits meanwhile is not answered.
#[test]
fn a_supervisor_that_exits_answers_nobody() -> Result<(), Error> {
    let (runtime, (notes, heard)) = (Runtime::builder().desks(2).start()?, channel());
    let give = notes.clone();
    let slow = Child::permanent(move || Worker { number: 1, is_slow: true, notes: give.clone() });
    let supervisor = runtime.spawn(Supervisor::one_for_one().child(slow))?;
    hears(&heard, [1]);
    runtime.exit(&supervisor, Reason::Other(5))?;
    let asked = supervisor.ask(ToSupervisor::start_child(Child::permanent(worker(2, &notes))));
    assert_eq!(asked.wait(LONG).expect_err("no answer"), CallFault::Down(Reason::Other(5), None));
    hears(&heard, [-1]);
    runtime.stop()?;
    drop(notes);
    assert_eq!(heard.iter().next(), None);
    Ok(())
}

/// Its supervisor starts it again, with all that was below it.
#[test]
fn a_branch_that_is_killed_is_started_again() -> Result<(), Error> {
    let (runtime, (notes, heard)) = (Runtime::builder().desks(2).going_on_every(7).start()?, channel());
    let (branch, give) = (Name::new("branch"), notes.clone());
    let grow = move || Supervisor::one_for_one().permanent(worker(1, &give)).permanent(worker(2, &give));
    let root = Supervisor::one_for_one().limit(usize::MAX, LONG).child(Child::permanent(grow).named(&branch));
    let root = runtime.spawn(root)?;
    hears(&heard, [1, 2]);
    for _ in 0..30 {
        let first = branch.wait(LONG).ok_or("a branch")?;
        runtime.exit(&first, Reason::Kill)?;
        let mut four: Vec<_> = (0..4).map(|_| heard.recv_timeout(LONG)).collect::<Result<_, _>>()?;
        // (the old ones hear of it while the new ones begin)
        assert!(four.iter().position(|it| *it == 1) < four.iter().position(|it| *it == 2));
        four.sort_unstable();
        assert_eq!(four, [-2, -1, 1, 2]);
        assert_ne!(branch.wait(LONG).as_ref(), Some(&first));
    }
    assert_eq!(children(&runtime, &root).len(), 1);
    assert_eq!(runtime.stop()?.spawned, 1 + 3 * 31);
    Ok(())
}

/// Thousands of temporary children come and go by themselves: the supervisor forgets each.
#[test]
fn temporary_children_are_forgotten_as_they_exit() -> Result<(), Error> {
    let (runtime, (notes, heard)) = (Runtime::builder().desks(1).slots(40).going_on_every(500).start()?, channel());
    let supervisor = runtime.spawn(Supervisor::one_for_one().limit(0, LONG))?;
    for number in 1..=2_000 {
        let child = Child::once(worker(number, &notes)());
        let started = runtime.call(&supervisor, LONG, ToSupervisor::start_child(child))??;
        assert_eq!(started.place, number as u64 - 1);
        assert!(started.address.send(if number % 2 == 0 { Reason::Normal } else { Reason::Other(1) }));
        hears(&heard, [number, -number]);
    }
    assert_eq!(children(&runtime, &supervisor), []);
    runtime.stop()?;
    Ok(())
}

/// A history has the process behind a supervisor: it is the one that spawns the children, each with a link.
#[test]
fn a_history_shows_who_starts_the_children() -> Result<(), Error> {
    let born = Arc::new(Mutex::new(Vec::new()));
    let all = born.clone();
    let sink = move |history: &History| -> Result<(), Refusal> {
        let events = history.events();
        all.lock().map_err(|_| "a lock")?.extend(events.filter_map(|event| match event.happened {
            Happened::Born(pid, parent, link) => Some((pid, parent, link.is_some())),
            _ => None,
        }));
        Ok(())
    };
    let (runtime, (notes, heard)) = (Runtime::builder().desks(1).archive(sink).start()?, channel());
    let supervisor = runtime.spawn(Supervisor::one_for_one().permanent(worker(1, &notes)))?;
    hears(&heard, [1]);
    let child = children(&runtime, &supervisor)[0].ok_or("a child")?;
    runtime.stop()?;
    let born = born.lock().map_err(|_| "a lock")?;
    let [_, (front, None, false), (behind, None, false), (started, Some(parent), true)] = born[..] else {
        return Err(format!("{born:?}").into());
    };
    assert_eq!((front, started, parent), (supervisor.pid(), child, behind));
    Ok(())
}

/// What a report says of a restart.
#[derive(Debug, PartialEq)]
struct Again {
    supervisor: Pid,
    place: u64,
    name: Option<String>,
    pid: Pid,
    reason: Reason,
    started: u64,
    text: String,
}

/// Each restart is reported, with the child, its supervisor and how often it was started. A start at request is not.
#[test]
fn restarts_are_reported() -> Result<(), Error> {
    let ((notes, heard), (give, told)) = (channel(), channel());
    let report = move |what: &Report<'_>| {
        let text = what.to_string();
        if let Report::Restart { supervisor, place, name, pid, reason, started, behaviour, .. } = *what {
            assert_eq!(behaviour, std::any::type_name::<Worker>());
            let name = name.map(str::to_owned);
            give.send(Again { supervisor, place, name, pid, reason, started, text }).expect("a test");
        }
    };
    let runtime = Runtime::builder().desks(1).going_on_every(7).report(report).start()?;
    let first = Name::new("the first");
    let all = Supervisor::one_for_all().child(Child::permanent(worker(1, &notes)).named(&first));
    let supervisor = runtime.spawn(all.limit(9, LONG).permanent(worker(2, &notes)))?;
    hears(&heard, [1, 2]);
    for started in [2, 3] {
        assert!(first.send(Reason::Other(5)));
        hears(&heard, [-1, -2, 1, 2]);
        let pids = children(&runtime, &supervisor);
        for (place, reason) in [(0, Reason::Other(5)), (1, Reason::Shutdown)] {
            let again = told.recv_timeout(LONG)?;
            let (pid, name) = (pids[place].ok_or("a child")?, (place == 0).then(|| "the first".to_owned()));
            let child = name.as_deref().unwrap_or("supervision::Worker");
            let text = format!(
                "{supervisor} started its child {child} again, as {pid}, {started} times in all: the one before exited with {reason}"
            );
            let supervisor = supervisor.pid();
            assert_eq!(again, Again { supervisor, place: place as u64, name, pid, reason, started, text });
        }
    }
    runtime.call(&supervisor, LONG, ToSupervisor::terminate_child(1))??;
    runtime.call(&supervisor, LONG, ToSupervisor::restart_child(1))??;
    runtime.call(&supervisor, LONG, ToSupervisor::start_child(Child::temporary(worker(3, &notes))))??;
    runtime.stop()?;
    assert_eq!(told.try_iter().count(), 0);
    Ok(())
}
