//! Inboxes with a bound, what waits in them, and runs that drain.

mod tasks;

use pundewo::runtime::{
    Address, Behaviour, Bound, Call, CallFault, Context, Event, Next, PANIC, Reason, Refusal, Reply, Runtime,
    SendFault, SpawnFault, StartFault, StopFault,
};
use pundewo::{History, Pick};
use std::future::Future;
use std::sync::atomic::{AtomicUsize, Ordering::SeqCst};
use std::sync::mpsc::{Receiver, Sender, channel};
use std::sync::{Arc, Mutex};
use std::task::{Context as TaskContext, Waker};
use std::time::{Duration, Instant};
use tasks::{Pool, block_on};

const LONG: Duration = Duration::from_secs(120);

type Error = Box<dyn std::error::Error>;

/// What a gate is told: to let its desk go on only when the test says so, or to note a number.
enum Told {
    Hold,
    Note(u32, Option<Arc<()>>),
    Ask(Reply<u32>),
    Stop,
}

/// Notes numbers, and holds its desk up while the test wants that.
struct Gate {
    entered: Sender<()>,
    leave: Receiver<()>,
    notes: Sender<u32>,
}

impl Behaviour for Gate {
    type Message = Told;

    fn handle(&mut self, cx: &mut Context<'_, Told>, event: Event<Told>) -> Next {
        match event {
            Event::Message(Told::Hold) => {
                self.entered.send(()).expect("a test");
                let _ = self.leave.recv();
            }
            Event::Message(Told::Note(number, value)) => {
                drop(value);
                let _ = self.notes.send(number);
            }
            Event::Message(Told::Ask(reply)) => cx.reply(reply, 42),
            Event::Message(Told::Stop) => return Next::DONE,
            _ => {}
        }
        Next::Wait
    }
}

/// A run with a gate, which the test opens, and what that notes.
struct Scene {
    runtime: Runtime,
    gate: Address<Told>,
    entered: Receiver<()>,
    leave: Sender<()>,
    notes: Receiver<u32>,
}

impl Scene {
    fn new(builder: pundewo::runtime::Builder) -> Result<Scene, Error> {
        let runtime = builder.start()?;
        let ((enter, entered), (leave, left), (note, notes)) = (channel(), channel(), channel());
        let gate = runtime.spawn_on(0, Gate { entered: enter, leave: left, notes: note })?;
        Ok(Scene { runtime, gate, entered, leave, notes })
    }

    /// Holds the desk up.
    fn hold(&self) {
        assert!(self.gate.send(Told::Hold));
        self.entered.recv_timeout(LONG).expect("it holds its desk up");
    }

    fn let_go(&self) {
        self.leave.send(()).expect("a gate");
    }

    fn noted(&self) -> u32 {
        self.notes.recv_timeout(LONG).expect("a note")
    }
}

fn note(number: u32) -> Told {
    Told::Note(number, None)
}

#[test]
fn an_inbox_takes_in_as_much_as_it_may() -> Result<(), Error> {
    let scene = Scene::new(Runtime::builder().desks(2).inbox(10))?;
    for round in 0..3 {
        scene.hold();
        for number in 0..10 {
            assert_eq!(scene.gate.try_send(note(number)).map_err(|fault| fault.to_string()), Ok(()), "{round}");
        }
        let value = Arc::new(());
        let refused = scene.gate.try_send(Told::Note(10, Some(value.clone()))).expect_err("it is full");
        assert_eq!(refused.to_string(), "the message is not sent: the inbox of the desk is full");
        assert!(matches!(&refused, SendFault::Full(Told::Note(10, Some(it))) if Arc::ptr_eq(it, &value)));
        assert_eq!((scene.gate.waiting(), scene.runtime.waiting() >= 10), (10, true));
        // another desk has room, and a call of the gate waits for its time
        let other = scene.runtime.spawn_on(1, Wants)?;
        (0..10).for_each(|number| assert!(other.try_send(number).is_ok()));
        assert!(matches!(other.try_send(10), Err(SendFault::Full(10))));
        scene.runtime.exit(&other, Reason::Kill)?;
        let asked = scene.runtime.call(&scene.gate, Duration::from_millis(30), Told::Ask);
        assert!(matches!(asked, Err(CallFault::Timeout(Some((pid, _)))) if pid == scene.gate.pid()), "{asked:?}");
        scene.let_go();
        (0..10).for_each(|number| assert_eq!(scene.noted(), number));
        assert_eq!(scene.runtime.call(&scene.gate, LONG, Told::Ask), Ok(42));
        assert_eq!(scene.gate.waiting(), 0);
    }
    scene.runtime.stop()?;
    let refused = scene.gate.try_send(note(1)).expect_err("it has exited");
    assert!(matches!(refused, SendFault::Exited(Told::Note(1, None))), "{refused}");
    assert!(matches!(Runtime::builder().inbox(0).start(), Err(StartFault::BadInbox)));
    Ok(())
}

/// Threads and tasks wait for room, the first one first; what each sends arrives in order, and all of it.
#[test]
fn those_who_wait_for_room_get_it() -> Result<(), Error> {
    const EACH: u32 = 2_000;
    let scene = Scene::new(Runtime::builder().desks(2).inbox(4))?;
    scene.hold();
    let most = Arc::new(AtomicUsize::new(0));
    let pool = Pool::new(2);
    for sender in 0..3 {
        let gate = scene.gate.clone();
        pool.spawn(async move {
            for number in 0..EACH {
                assert!(gate.send_async(note(sender * EACH + number)).await);
            }
        });
    }
    std::thread::scope(|threads| {
        for sender in 3..6 {
            let (gate, most) = (&scene.gate, &most);
            threads.spawn(move || {
                for number in 0..EACH {
                    assert!(gate.send(note(sender * EACH + number)));
                    most.fetch_max(gate.waiting(), SeqCst);
                }
            });
        }
        scene.let_go();
    });
    drop(pool);
    let mut next: Vec<u32> = (0..6).map(|sender| sender * EACH).collect();
    for _ in 0..6 * EACH {
        let number = scene.noted();
        let next = &mut next[(number / EACH) as usize];
        assert_eq!(number, *next);
        *next += 1;
    }
    assert!(most.load(SeqCst) <= 4, "{most:?}");
    scene.runtime.stop()?;
    assert!(scene.notes.recv().is_err());
    Ok(())
}

/// Those who wait for room and do not any more take none away.
#[test]
fn room_is_not_lost() -> Result<(), Error> {
    let scene = Scene::new(Runtime::builder().desks(1).inbox(3))?;
    let value = Arc::new(());
    for _ in 0..20 {
        scene.hold();
        (0..3).for_each(|number| assert!(scene.gate.send(note(number))));
        let mut waiting: Vec<_> = (0..9)
            .map(|number| Box::pin(scene.gate.send_async(Told::Note(100 + number, Some(value.clone())))))
            .collect();
        let mut asking = Box::pin(scene.gate.ask(Told::Ask));
        let mut cx = TaskContext::from_waker(Waker::noop());
        for sending in &mut waiting {
            assert!(sending.as_mut().poll(&mut cx).is_pending());
        }
        assert!(asking.as_mut().poll(&mut cx).is_pending());
        assert!(scene.gate.try_send(note(0)).is_err());
        // some give up before there is room, and some after
        drop(asking);
        let late: Vec<_> = waiting.drain(..4).collect();
        waiting.drain(..3);
        scene.let_go();
        (0..3).for_each(|number| assert_eq!(scene.noted(), number));
        drop(late);
        for sending in waiting.drain(..) {
            assert!(block_on(sending));
        }
        assert_eq!((scene.noted(), scene.noted()), (107, 108));
        assert_eq!(Arc::strong_count(&value), 1);
    }
    // a process that exits with what waits leaves room
    scene.hold();
    let other = scene.runtime.handle();
    assert!(scene.gate.send(Told::Stop) && scene.gate.send(note(1)) && scene.gate.send(note(2)));
    let mut sending = Box::pin(scene.gate.send_async(note(3)));
    assert!(sending.as_mut().poll(&mut TaskContext::from_waker(Waker::noop())).is_pending());
    scene.let_go();
    // (it is sent if it gets its room before the exit is told)
    block_on(sending);
    let mailbox = other.mailbox::<u32>()?;
    (0..3).for_each(|number| assert!(mailbox.address().send(number)));
    scene.runtime.stop()?;
    Ok(())
}

/// A handler that sends from outside does not wait, and a halt ends all waiting.
#[test]
fn nobody_waits_for_ever() -> Result<(), Error> {
    let full = Arc::new(Mutex::new(true));
    let is_full = full.clone();
    let sink = move |_: &History| -> Result<(), Refusal> {
        if *is_full.lock().expect("a flag") { Err("the disk is full".into()) } else { Ok(()) }
    };
    let scene = Scene::new(Runtime::builder().desks(2).inbox(2).archive(sink))?;
    struct Floods(Address<Told>);
    impl Behaviour for Floods {
        type Message = Reply<()>;
        fn handle(&mut self, cx: &mut Context<'_, Reply<()>>, event: Event<Reply<()>>) -> Next {
            if let Event::Message(reply) = event {
                (0..50).for_each(|number| assert!(self.0.send(note(number))));
                cx.reply(reply, ());
            }
            Next::Wait
        }
    }
    let floods = scene.runtime.spawn_on(0, Floods(scene.gate.clone()))?;
    assert_eq!(scene.runtime.call(&floods, LONG, |reply| reply), Ok(()));
    (0..50).for_each(|number| assert_eq!(scene.noted(), number));
    // (both places are taken, and the gate holds its desk up until the run is to halt)
    scene.hold();
    (0..2).for_each(|number| assert!(scene.gate.send(note(number))));
    let waits = std::thread::spawn({
        let gate = scene.gate.clone();
        move || gate.send(note(7))
    });
    let mut asking = Box::pin(scene.gate.ask(Told::Ask));
    let mut sending = Box::pin(scene.gate.send_async(note(8)));
    let mut cx = TaskContext::from_waker(Waker::noop());
    assert!(asking.as_mut().poll(&mut cx).is_pending() && sending.as_mut().poll(&mut cx).is_pending());
    scene.runtime.go_on();
    scene.let_go();
    assert!(scene.runtime.handle().wait(LONG));
    // (what was asked or sent before the halt may have gone in, or not)
    let (asked, sent) = (block_on(asking), block_on(sending));
    assert!(matches!(asked, Err(CallFault::Over) | Ok(42)), "{asked:?}");
    let sent = usize::from(sent) + usize::from(waits.join().expect("a sender"));
    let Scene { runtime, gate, notes, .. } = scene;
    let StopFault::Halted(halted) = runtime.stop().expect_err("it halted") else { panic!("it halted") };
    while gate.try_send(note(9)).is_ok() {}
    // (nobody makes room)
    assert!(!gate.send(note(10)) && !block_on(gate.send_async(note(10))));
    *full.lock().expect("a flag") = false;
    let runtime = halted.go_on().expect("there is room");
    assert_eq!(runtime.call(&gate, LONG, Told::Ask), Ok(42));
    let noted: Vec<u32> = notes.try_iter().collect();
    assert_eq!(noted[..2], [0, 1]);
    assert_eq!(noted.iter().filter(|&&number| number == 7 || number == 8).count(), sent, "{noted:?}");
    assert!(!noted.contains(&10));
    runtime.stop()?;
    Ok(())
}

/// Passes numbers on to another desk, each with a call, and counts what comes back.
struct Passes {
    to: Option<Address<Pass>>,
    done: Arc<AtomicUsize>,
    calls: Vec<Call<u32>>,
    kept: Vec<Reply<u32>>,
}

enum Pass {
    Number(u32),
    Ask(u32, Reply<u32>),
    Late(Reply<u32>),
    Answer,
}

impl Behaviour for Passes {
    type Message = Pass;

    fn handle(&mut self, cx: &mut Context<'_, Pass>, event: Event<Pass>) -> Next {
        match event {
            Event::Message(Pass::Number(number)) => match &self.to {
                Some(to) => {
                    let call = cx.call(to, LONG, |reply| Pass::Ask(number, reply)).expect("a call");
                    self.calls.push(call);
                    if number % 3 == 0 {
                        cx.send(to, Pass::Number(number));
                    }
                }
                None => _ = self.done.fetch_add(1, SeqCst),
            },
            // (another thread answers some)
            Event::Message(Pass::Ask(number, reply)) if number % 50 == 0 => {
                drop(std::thread::spawn(move || {
                    std::thread::sleep(Duration::from_millis(5));
                    reply.send(number);
                }));
            }
            Event::Message(Pass::Ask(number, reply)) => cx.reply(reply, number),
            Event::Message(Pass::Late(reply)) => {
                self.kept.push(reply);
                cx.send_after(Duration::from_millis(60), &cx.me().clone(), Pass::Answer);
            }
            Event::Message(Pass::Answer) => self.kept.drain(..).for_each(|reply| cx.reply(reply, 9)),
            Event::Answer(answer) => {
                let place = self.calls.iter().position(|call| answer.is_of(call)).expect("a call of its own");
                let call = self.calls.swap_remove(place);
                assert!(answer.to(&call).expect("its answer").is_ok());
                self.done.fetch_add(1, SeqCst);
            }
            _ => {}
        }
        Next::Wait
    }
}

#[test]
fn a_run_that_drains_handles_all() -> Result<(), Error> {
    const NUMBERS: u32 = 6_000;
    for desks in [1, 3] {
        let runtime = Runtime::builder().desks(desks).lane(2).going_on_every(3_000).start()?;
        let done = Arc::new(AtomicUsize::new(0));
        let passes = |to| Passes { to, done: done.clone(), calls: Vec::new(), kept: Vec::new() };
        let last = runtime.spawn_on((desks - 1) as u8, passes(None))?;
        let first = runtime.spawn_on(0, passes(Some(last.clone())))?;
        let asking = last.ask(Pass::Late);
        let waits = std::thread::spawn(move || asking.wait(LONG));
        while last.ask(|reply| Pass::Ask(1, reply)).wait(LONG) != Ok(1) {}
        for number in 0..NUMBERS {
            assert!(first.send(Pass::Number(number)));
        }
        let handle = runtime.handle();
        let late = std::thread::spawn({
            let (handle, first) = (handle.clone(), first.clone());
            move || {
                let until = Instant::now() + LONG;
                while first.try_send(Pass::Number(1)).is_ok() && Instant::now() < until {
                    std::thread::sleep(Duration::from_millis(1));
                }
                let asked = first.ask(|reply| Pass::Ask(1, reply)).wait(LONG);
                (
                    asked,
                    handle
                        .spawn_within(LONG, 0, Passes { to: None, done: Arc::default(), calls: vec![], kept: vec![] })
                        .err(),
                )
            }
        });
        std::thread::sleep(Duration::from_millis(3));
        let summary = runtime.drain(LONG)?;
        assert!(summary.spawned == 2 && summary.panics == 0, "{summary:?}");
        let (asked, spawned) = late.join().expect("a sender");
        let exited = CallFault::Down(Reason::Noproc, None);
        let downs = [CallFault::Over, exited, CallFault::Down(Reason::Shutdown, None)];
        assert!(asked.as_ref().is_err_and(|fault| downs.contains(fault)), "{asked:?}");
        assert_eq!(spawned, Some(SpawnFault::Over));
        // (each number that went in: those of the test, and a few of the thread)
        let done = done.load(SeqCst);
        assert!(done >= (NUMBERS + NUMBERS / 3) as usize, "{done}");
        // what was asked before is answered
        assert_eq!(waits.join().expect("an answer"), Ok(9));
        assert_eq!(handle.waiting(), 0);
    }
    Ok(())
}

/// Sends itself a message again and again.
struct Turns;

impl Behaviour for Turns {
    type Message = ();

    fn started(&mut self, cx: &mut Context<'_, ()>) -> Next {
        cx.send(&cx.me().clone(), ());
        Next::Wait
    }

    fn handle(&mut self, cx: &mut Context<'_, ()>, _: Event<()>) -> Next {
        cx.send(&cx.me().clone(), ());
        Next::Wait
    }
}

/// Wants nothing of what it is sent.
struct Wants;

impl Behaviour for Wants {
    type Message = u32;

    fn started(&mut self, _: &mut Context<'_, u32>) -> Next {
        Next::Only(Pick::Kind(77))
    }

    fn handle(&mut self, _: &mut Context<'_, u32>, _: Event<u32>) -> Next {
        panic!("it wants nothing")
    }
}

#[test]
fn a_drain_ends_in_time() -> Result<(), Error> {
    let runtime = Runtime::builder().desks(2).start()?;
    runtime.spawn(Turns)?;
    let begun = Instant::now();
    let fault = runtime.drain(Duration::from_millis(200)).expect_err("it is never done");
    assert!(matches!(fault, StopFault::NotDrained { summary, .. } if summary.spawned == 1), "{fault}");
    assert!(fault.to_string().starts_with("not all was handled in time: ") && begun.elapsed() < LONG);
    // what nobody wants, a timer, and nothing at all
    let runtime = Runtime::builder().desks(2).start()?;
    let wants = runtime.spawn(Wants)?;
    (0..10).for_each(|number| assert!(wants.send(number)));
    assert_eq!(runtime.drain(LONG)?.panics, 0);
    assert_eq!(Runtime::builder().desks(3).start()?.drain(LONG)?.spawned, 0);
    // a call that nobody answers is waited for, and a client that has given up is not
    let scene = Scene::new(Runtime::builder().desks(1))?;
    let kept = Arc::new(Mutex::new(Vec::new()));
    struct Keeps(Arc<Mutex<Vec<Reply<u32>>>>);
    impl Behaviour for Keeps {
        type Message = Reply<u32>;
        fn handle(&mut self, _: &mut Context<'_, Reply<u32>>, event: Event<Reply<u32>>) -> Next {
            if let Event::Message(reply) = event {
                self.0.lock().expect("replies").push(reply);
            }
            Next::Wait
        }
    }
    let keeps = scene.runtime.spawn(Keeps(kept.clone()))?;
    assert!(matches!(keeps.ask(|reply| reply).wait(Duration::from_millis(20)), Err(CallFault::Timeout(_))));
    drop(keeps.ask(|reply| reply));
    assert_eq!(scene.runtime.drain(LONG)?.spawned, 2);
    let scene = Scene::new(Runtime::builder().desks(1))?;
    let keeps = scene.runtime.spawn(Keeps(kept.clone()))?;
    let before = kept.lock().expect("replies").len();
    let asking = keeps.ask(|reply| reply);
    let until = Instant::now() + LONG;
    while kept.lock().expect("replies").len() == before && Instant::now() < until {
        std::thread::sleep(Duration::from_millis(1));
    }
    let fault = scene.runtime.drain(Duration::from_millis(100)).expect_err("a call is open");
    assert!(matches!(fault, StopFault::NotDrained { waiting: 0, .. }), "{fault}");
    assert_eq!(block_on(asking), Err(CallFault::Down(Reason::Shutdown, None)));
    Ok(())
}

/// A run that halts as it drains goes on, and takes in what is new.
#[test]
fn a_halted_drain_goes_on() -> Result<(), Error> {
    let mut left = 1;
    let sink = move |_: &History| -> Result<(), Refusal> {
        left -= 1;
        if left == 0 { Err("the disk is full".into()) } else { Ok(()) }
    };
    let scene = Scene::new(Runtime::builder().desks(2).going_on_every(100).archive(sink))?;
    (0..1_000).for_each(|number| assert!(scene.gate.send(note(number))));
    let Scene { runtime, gate, notes, .. } = scene;
    let StopFault::Halted(halted) = runtime.drain(LONG).expect_err("it halts") else { panic!("it halts") };
    let runtime = halted.go_on().expect("there is room");
    assert!(gate.send(note(1_000)));
    runtime.drain(LONG)?;
    assert!(notes.iter().eq(0..=1_000));
    Ok(())
}

/// Holds its desk up as it begins, and notes what it is told then: a number, or 0 for what was lost.
struct Bounded {
    bound: Bound,
    leave: Receiver<()>,
    notes: Sender<u32>,
}

impl Behaviour for Bounded {
    type Message = (u32, Arc<()>, Option<Reply<u32>>);

    fn started(&mut self, _: &mut Context<'_, Self::Message>) -> Next {
        self.notes.send(1_000).expect("a test");
        let _ = self.leave.recv();
        Next::Wait
    }

    fn handle(&mut self, cx: &mut Context<'_, Self::Message>, event: Event<Self::Message>) -> Next {
        let number = match event {
            Event::Message((number, value, reply)) => {
                drop(value);
                reply.into_iter().for_each(|reply| cx.reply(reply, number));
                number
            }
            Event::Lost => 0,
            other => panic!("{:?}", std::mem::discriminant(&other)),
        };
        self.notes.send(number).expect("a test");
        Next::Wait
    }

    fn most_waiting(&self) -> Bound {
        self.bound
    }
}

type ToBounded = Address<(u32, Arc<()>, Option<Reply<u32>>)>;

/// A process of a held desk with this bound.
fn bounded(runtime: &Runtime, bound: Bound) -> (ToBounded, Sender<()>, Receiver<u32>) {
    let ((leave, left), (note, notes)) = (channel(), channel());
    let address = runtime.spawn_on(0, Bounded { bound, leave: left, notes: note }).expect("a process");
    assert_eq!(notes.recv_timeout(LONG), Ok(1_000));
    (address, leave, notes)
}

#[test]
fn a_process_takes_no_more_than_it_wants() -> Result<(), Error> {
    let runtime = Runtime::builder().desks(2).start()?;
    let value = Arc::new(());
    let number = |number| (number, value.clone(), None);
    // it refuses the newest
    let (refuses, leave, notes) = bounded(&runtime, Bound::Refuse(5));
    (1..=5).for_each(|it| assert!(refuses.send(number(it))));
    assert!(!refuses.send(number(6)));
    let refused = refuses.try_send(number(7)).expect_err("it takes no more");
    assert!(matches!(refused, SendFault::Full((7, ..))));
    drop(refused);
    assert_eq!(block_on(refuses.ask(|reply| (8, value.clone(), Some(reply)))), Err(CallFault::Dropped));
    let (sends, sent) = channel();
    struct Sends(ToBounded, Arc<()>, Sender<bool>);
    impl Behaviour for Sends {
        type Message = ();
        fn started(&mut self, cx: &mut Context<'_, ()>) -> Next {
            let sent = cx.send(&self.0, (9, self.1.clone(), None));
            self.2.send(sent).expect("a test");
            Next::DONE
        }
        fn handle(&mut self, _: &mut Context<'_, ()>, _: Event<()>) -> Next {
            Next::DONE
        }
    }
    runtime.spawn_on(1, Sends(refuses.clone(), value.clone(), sends))?;
    assert!(!sent.recv_timeout(LONG)?);
    assert_eq!((refuses.waiting(), Arc::strong_count(&value) <= 7), (5, true));
    leave.send(())?;
    (1..=5).for_each(|it| assert_eq!(notes.recv_timeout(LONG), Ok(it)));
    assert!(refuses.send(number(10)));
    assert_eq!(notes.recv_timeout(LONG)?, 10);
    // it drops the oldest, whose sender hears of that if it asked, and is told so in its place
    let (drops, leave, notes) = bounded(&runtime, Bound::DropOldest(3));
    let first = drops.ask(|reply| (1, value.clone(), Some(reply)));
    (2..=10).for_each(|it| assert!(drops.send(number(it))));
    assert_eq!((block_on(first), drops.waiting()), (Err(CallFault::Dropped), 3));
    leave.send(())?;
    let told: Vec<u32> = (0..10).map(|_| notes.recv_timeout(LONG)).collect::<Result<_, _>>()?;
    assert_eq!(told, [0, 0, 0, 0, 0, 0, 0, 8, 9, 10]);
    assert!(drops.send(number(11)));
    assert_eq!(notes.recv_timeout(LONG)?, 11);
    // it crashes
    let (crashes, leave, notes) = bounded(&runtime, Bound::Crash(3));
    (1..=3).for_each(|it| assert!(crashes.send(number(it))));
    assert_eq!(crashes.waiting(), 3);
    let asked = crashes.ask(|reply| (4, value.clone(), Some(reply)));
    assert!(crashes.send(number(5)));
    leave.send(())?;
    let crash = CallFault::Down(PANIC, Some("more messages wait than may".into()));
    // (if it is quick, it answers before it is told to crash)
    let ended = block_on(asked);
    assert!(ended == Err(crash) || ended == Ok(4), "{ended:?}");
    while crashes.send(number(6)) {
        std::thread::yield_now();
    }
    assert!(notes.iter().count() <= 5);
    assert_eq!(runtime.stop()?.panics, 1);
    assert_eq!(Arc::strong_count(&value), 1);
    Ok(())
}

/// Many threads send to processes that drop, refuse and crash: each value is dropped, and what was taken comes in order.
#[test]
fn bounds_hold_under_load() -> Result<(), Error> {
    const EACH: u32 = 3_000;
    let runtime = Runtime::builder().desks(2).going_on_every(5_000).start()?;
    let value = Arc::new(());
    for bound in [Bound::Refuse(20), Bound::DropOldest(20)] {
        let (address, leave, notes) = bounded(&runtime, bound);
        leave.send(())?;
        let refused = AtomicUsize::new(0);
        std::thread::scope(|threads| {
            for sender in 0..4 {
                let (address, value, refused) = (&address, &value, &refused);
                threads.spawn(move || {
                    for number in 1..=EACH {
                        if !address.send((sender * EACH + number, value.clone(), None)) {
                            refused.fetch_add(1, SeqCst);
                        }
                        assert!(address.waiting() <= 20);
                    }
                });
            }
        });
        let mut next = [0; 4];
        let mut lost = 0;
        for _ in 0..4 * EACH as usize - refused.load(SeqCst) {
            match notes.recv_timeout(LONG)? {
                0 => lost += 1,
                number => {
                    let sender = ((number - 1) / EACH) as usize;
                    assert!(next[sender] < number, "out of order");
                    next[sender] = number;
                }
            }
        }
        let refuses = matches!(bound, Bound::Refuse(_));
        assert!(if refuses { lost == 0 } else { refused.load(SeqCst) == 0 }, "{bound:?}: {lost} {refused:?}");
        assert_eq!(runtime.call(&address, LONG, |reply| (1, value.clone(), Some(reply))), Ok(1));
        assert_eq!((Arc::strong_count(&value), notes.recv_timeout(LONG)?), (1, 1));
    }
    runtime.stop()?;
    Ok(())
}
