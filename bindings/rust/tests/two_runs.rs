//! Two runs in one program, whose processes have equal pids. An address of the other run can be sent to. Every other call
//! refuses it by name, and nothing is sent, linked, watched or ended.

use pundewo::runtime::{
    Address, Behaviour, CallFault, Child, Context, Event, Name, Next, Pid, Reason, Reply, Runtime, Supervisor, Target,
    Timer, ToSupervisor,
};
use pundewo::{Fault, History};
use std::sync::mpsc::{Receiver, Sender, channel};
use std::sync::{Arc, Mutex};
use std::time::Duration;

const LONG: Duration = Duration::from_secs(120);

type Error = Box<dyn std::error::Error>;

type Work = Box<dyn FnOnce(&mut Context<'_, Do>) + Send>;

/// What a process is told: to do something, whose outcome the test hears, or a number to note.
enum Do {
    Note(u32),
    Work(Work),
    Ask(Reply<u32>),
}

/// Does what it is told, and notes what it hears.
struct Doer(Sender<String>);

impl Behaviour for Doer {
    type Message = Do;

    fn started(&mut self, cx: &mut Context<'_, Do>) -> Next {
        cx.trap_exits(true).expect("a flag");
        Next::Wait
    }

    fn handle(&mut self, cx: &mut Context<'_, Do>, event: Event<Do>) -> Next {
        match event {
            Event::Message(Do::Note(number)) => self.0.send(format!("note {number}")).expect("a test"),
            Event::Message(Do::Work(work)) => work(cx),
            Event::Message(Do::Ask(reply)) => cx.reply(reply, 42),
            // (the end of the run)
            Event::Exit(exit) if exit.reason == Reason::Shutdown => return Next::DONE,
            other => self.0.send(format!("{other:?}").replace("Message(..)", "")).expect("a test"),
        }
        Next::Wait
    }
}

impl std::fmt::Debug for Do {
    fn fmt(&self, f: &mut std::fmt::Formatter<'_>) -> std::fmt::Result {
        f.write_str("Do")
    }
}

/// A run with two processes, what they note, and its history as text.
struct Scene {
    runtime: Runtime,
    one: Address<Do>,
    other: Address<Do>,
    notes: Receiver<String>,
    text: Arc<Mutex<String>>,
}

impl Scene {
    fn new() -> Result<Scene, Error> {
        let text = Arc::new(Mutex::new(String::new()));
        let all = text.clone();
        let sink = move |history: &History| {
            let mut all = all.lock().expect("a text");
            history.events().for_each(|event| *all += &format!("{event}\n"));
            Ok(())
        };
        let runtime = Runtime::builder().desks(2).archive(sink).start()?;
        let (give, notes) = channel();
        let one = runtime.spawn_on(0, Doer(give.clone()))?;
        let other = runtime.spawn_on(1, Doer(give))?;
        Ok(Scene { runtime, one, other, notes, text })
    }

    /// What this returns in a handler of the first process.
    fn within<T: Send + 'static>(&self, work: impl FnOnce(&mut Context<'_, Do>) -> T + Send + 'static) -> T {
        let (give, get) = channel();
        self.one.send(Do::Work(Box::new(move |cx| give.send(work(cx)).expect("a test"))));
        get.recv_timeout(LONG).expect("an outcome")
    }

    /// Ends the run, and returns what its processes noted, and its history.
    fn end(self) -> Result<(Vec<String>, String), Error> {
        let Scene { runtime, notes, text, .. } = self;
        runtime.stop()?;
        let all = text.lock().expect("a text").clone();
        Ok((notes.try_iter().collect(), all))
    }
}

/// Two runs, of which the second has processes with the pids of the first.
fn scenes() -> Result<(Scene, Scene), Error> {
    let (here, there) = (Scene::new()?, Scene::new()?);
    assert_eq!((here.one.pid(), here.other.pid()), (there.one.pid(), there.other.pid()));
    assert!(here.other != there.other && Target::from(&here.other) != Target::from(&there.other));
    Ok((here, there))
}

/// A history in which processes are born, have said what they were told to, and left as the run ended.
fn is_quiet(history: &str) -> bool {
    let unwanted = [" monitor ", " demonitor ", " link ", " unlink ", " down ", "kill"];
    !unwanted.iter().any(|word| history.contains(word))
        && history.matches(" exit ").count() == history.matches(" shutdown").count()
}

#[test]
fn a_behaviour_is_refused_what_is_not_of_its_run() -> Result<(), Error> {
    let (here, there) = scenes()?;
    for foreign in [there.one.clone(), there.other.clone()] {
        let refused = here.within(move |cx| {
            [
                cx.monitor(&foreign).map(drop),
                cx.link(&foreign),
                cx.unlink(&foreign),
                cx.exit(&foreign, Reason::Kill),
                cx.exit(&foreign, Reason::Other(7)),
                cx.exit(Target::from(&foreign), Reason::Kill),
                cx.call(&foreign, LONG, Do::Ask).map(drop),
            ]
        });
        assert_eq!(refused, [Err(Fault::OtherRun); 7]);
    }
    // the same pids without a run are those of the run itself
    let other = here.other.pid();
    assert!(here.within(move |cx| cx.monitor(other).map(|monitor| cx.demonitor(monitor)).is_ok()));
    assert_eq!(here.runtime.call(&here.other, LONG, Do::Ask), Ok(42));
    for (scene, quiet) in [(here, false), (there, true)] {
        let (notes, history) = scene.end()?;
        assert_eq!(notes, Vec::<String>::new());
        assert!(!history.contains("kill") && !history.contains(" link ") && is_quiet(&history) == quiet, "{history}");
    }
    Ok(())
}

#[test]
fn from_outside_too() -> Result<(), Error> {
    let (here, there) = scenes()?;
    for (scene, foreign) in [(&here, &there), (&there, &here)] {
        for address in [&foreign.one, &foreign.other] {
            assert_eq!(scene.runtime.exit(address, Reason::Kill), Err(Fault::OtherRun));
            assert_eq!(scene.runtime.handle().exit(address, Reason::Normal), Err(Fault::OtherRun));
            let asked = |_: Reply<u32>| -> Do { panic!("it asks") };
            assert_eq!(scene.runtime.call(address, LONG, asked), Err(CallFault::OtherRun));
        }
        assert_eq!(scene.runtime.exit(Pid { shard: 2, slot: 0, version: 1 }, Reason::Kill), Err(Fault::Unknown));
    }
    assert_eq!(CallFault::OtherRun.to_string(), "the address is of another run, and can only be sent to");
    for scene in [here, there] {
        assert_eq!(scene.runtime.call(&scene.other, LONG, Do::Ask), Ok(42));
        let (notes, history) = scene.end()?;
        assert!(notes.is_empty() && is_quiet(&history), "{history}");
    }
    Ok(())
}

/// Each way to send reaches the process of the address, and not the one with an equal pid.
#[test]
fn an_address_of_another_run_is_sent_to() -> Result<(), Error> {
    let (here, there) = scenes()?;
    let foreign = there.other.clone();
    assert!(here.within(move |cx| {
        cx.send_after(Duration::from_millis(1), &foreign, Do::Note(2));
        cx.send(&foreign, Do::Note(1)) && foreign.send(Do::Note(1))
    }));
    let mut notes: Vec<String> = (0..3).map(|_| there.notes.recv_timeout(LONG)).collect::<Result<_, _>>()?;
    notes.sort();
    assert_eq!(notes, ["note 1", "note 1", "note 2"]);
    for scene in [here, there] {
        assert_eq!(scene.end()?.0, Vec::<String>::new());
    }
    Ok(())
}

/// A timer with the same time and number among those of an equal desk, and a name that leads to the other run.
#[test]
fn timers_and_names_are_of_their_run() -> Result<(), Error> {
    let (here, there) = scenes()?;
    let set = |cx: &mut Context<'_, Do>| -> Timer {
        let me = cx.me().clone();
        cx.send_after(Duration::MAX, &me, Do::Note(3))
    };
    let (own, foreign) = (here.within(set), there.within(set));
    assert!(own != foreign);
    assert!(!here.within(move |cx| cx.cancel(foreign)));
    assert!(here.within(move |cx| cx.cancel(own)) && there.within(move |cx| cx.cancel(foreign)));

    let name = Name::new("a child of the other run");
    let (give, notes) = channel();
    let child = Child::permanent(move || Doer(give.clone())).named(&name);
    let supervisor = there.runtime.spawn_on(1, Supervisor::one_for_one().child(child))?;
    let named = name.wait(LONG).ok_or("a child")?;
    assert_eq!(here.runtime.exit(&named, Reason::Kill), Err(Fault::OtherRun));
    assert_eq!(here.runtime.call(&supervisor, LONG, ToSupervisor::which_children).err(), Some(CallFault::OtherRun));
    let asked = supervisor.clone();
    let called = here.within(move |cx| cx.call(&asked, LONG, ToSupervisor::terminate_child(0)).err());
    assert_eq!(called, Some(Fault::OtherRun));
    assert!(name.send(Do::Note(4)));
    assert_eq!(notes.recv_timeout(LONG)?, "note 4");
    let children = there.runtime.call(&supervisor, LONG, ToSupervisor::which_children)?;
    assert_eq!((children.len(), children[0].pid, children[0].started), (1, Some(named.pid()), 1));
    for scene in [here, there] {
        assert_eq!(scene.end()?.0, Vec::<String>::new());
    }
    Ok(())
}

/// Each desk has a process that sends what comes from outside. A behaviour learns its pid by an exit signal, and can
/// neither end it nor be linked with it.
#[test]
fn what_sends_from_outside_does_not_exit() -> Result<(), Error> {
    let scene = Scene::new()?;
    for shard in 0..2 {
        let outside = Pid { shard, slot: 0, version: 1 };
        let refused = scene.within(move |cx| {
            [cx.exit(outside, Reason::Kill), cx.exit(outside, Reason::Normal), cx.link(outside), cx.unlink(outside)]
        });
        assert_eq!(refused, [Err(Fault::Outside), Err(Fault::Outside), Err(Fault::Outside), Ok(())]);
        assert_eq!(scene.runtime.exit(outside, Reason::Kill), Err(Fault::Outside));
    }
    scene.runtime.exit(&scene.one, Reason::Other(5))?;
    let told = scene.notes.recv_timeout(LONG)?;
    assert!(told.contains("shard: 0, slot: 0, version: 1") && told.contains("Other(5)"), "{told}");
    for address in [&scene.one, &scene.other] {
        assert!(address.send(Do::Note(6)));
        assert_eq!(scene.notes.recv_timeout(LONG)?, "note 6");
        assert_eq!(scene.runtime.call(address, LONG, Do::Ask), Ok(42));
    }
    assert_eq!(Fault::Outside.to_string(), "the process sends what comes from outside, and does not exit");
    scene.end()?;
    Ok(())
}
