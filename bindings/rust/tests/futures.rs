//! Tasks of an executor that the runtime knows nothing of: calls, mailboxes, spawns, and the end of a run.

mod tasks;

use pundewo::runtime::{
    Address, Behaviour, CallFault, Child, Context, Event, Mailbox, Name, Next, PANIC, Reason, Refusal, Reply, Runtime,
    SpawnFault, StopFault, Supervisor,
};
use pundewo::{Fault, History};
use std::future::Future;
use std::pin::{Pin, pin};
use std::sync::atomic::{AtomicU64, Ordering::SeqCst};
use std::sync::mpsc::{Sender, channel};
use std::sync::{Arc, Mutex};
use std::task::{self, Poll, Wake, Waker};
use std::time::{Duration, Instant};
use tasks::{Pool, block_on};

const LONG: Duration = Duration::from_secs(120);

type Error = Box<dyn std::error::Error>;

enum Asked {
    Double(u32, Reply<u32>),
    Keep(Reply<u32>),
    Drop(Reply<u32>),
    Crash(Reply<u32>),
    Elsewhere(u32, Reply<u32>),
    Stop(Reason),
    Held(Arc<()>, Reply<Arc<()>>),
    AnswerHeld,
    Nap(Duration),
}

#[derive(Default)]
struct Server {
    kept: Vec<Reply<u32>>,
    held: Vec<(Arc<()>, Reply<Arc<()>>)>,
}

impl Behaviour for Server {
    type Message = Asked;

    fn handle(&mut self, cx: &mut Context<'_, Asked>, event: Event<Asked>) -> Next {
        match event {
            Event::Message(Asked::Double(n, reply)) => cx.reply(reply, 2 * n),
            Event::Message(Asked::Keep(reply)) => self.kept.push(reply),
            Event::Message(Asked::Drop(reply)) => drop(reply),
            Event::Message(Asked::Crash(_reply)) => std::panic::panic_any("asked to"),
            Event::Message(Asked::Elsewhere(n, reply)) => drop(std::thread::spawn(move || reply.send(2 * n))),
            Event::Message(Asked::Stop(reason)) => return Next::Stop(reason),
            Event::Message(Asked::Held(value, reply)) => self.held.push((value, reply)),
            Event::Message(Asked::AnswerHeld) => {
                self.held.drain(..).for_each(|(value, reply)| cx.reply(reply, value));
            }
            Event::Message(Asked::Nap(time)) => std::thread::sleep(time),
            _ => {}
        }
        Next::Wait
    }
}

/// No text of a panic that a test wants.
fn quiet_panics() {
    let usual = std::panic::take_hook();
    std::panic::set_hook(Box::new(move |what| {
        if what.payload().downcast_ref::<&str>() != Some(&"asked to") {
            usual(what);
        }
    }));
}

fn crashed() -> CallFault {
    CallFault::Down(PANIC, Some("asked to".into()))
}

#[test]
fn a_call_is_awaited_and_ends_once() -> Result<(), Error> {
    quiet_panics();
    let (runtime, other) = (Runtime::builder().desks(2).start()?, Runtime::builder().desks(1).start()?);
    let server = runtime.spawn(Server::default())?;
    assert_eq!(block_on(server.ask(|reply| Asked::Double(21, reply))), Ok(42));
    assert_eq!(block_on(runtime.call_async(&server, |reply| Asked::Elsewhere(4, reply))), Ok(8));
    assert_eq!(block_on(server.ask(Asked::Drop)), Err(CallFault::Dropped));
    let never = |_: Reply<u32>| -> Asked { panic!("it asks") };
    assert_eq!(block_on(other.call_async(&server, never)), Err(CallFault::OtherRun));
    // several are asked and then awaited, in any order, and one is held by the server as it crashes
    let asked: Vec<_> = (0..9).map(|n| server.ask(move |reply| Asked::Double(n, reply))).collect();
    let (kept, crash) = (server.ask(Asked::Keep), server.ask(Asked::Crash));
    let late = server.ask(|reply| Asked::Double(1, reply));
    for (asking, n) in asked.into_iter().zip(0..9).rev() {
        assert_eq!(block_on(asking), Ok(2 * n));
    }
    // (the last one is asked behind the crash, so the server may have exited by then)
    let told = block_on(late);
    assert!(told == Err(crashed()) || told == Err(CallFault::Down(Reason::Noproc, None)), "{told:?}");
    assert_eq!((block_on(crash), block_on(kept)), (Err(crashed()), Err(crashed())));
    assert_eq!(block_on(server.ask(never)), Err(CallFault::Down(Reason::Noproc, None)));
    // it exits by itself, or is told to
    for (reason, told) in [(Reason::Normal, None), (Reason::Other(5), None), (Reason::Killed, Some(Reason::Kill))] {
        let server = runtime.spawn(Server::default())?;
        let kept = server.ask(Asked::Keep);
        assert_eq!(block_on(server.ask(|reply| Asked::Double(1, reply))), Ok(2));
        match told {
            Some(reason) => runtime.exit(&server, reason)?,
            None => assert!(server.send(Asked::Stop(reason))),
        }
        assert_eq!(block_on(kept), Err(CallFault::Down(reason, None)));
    }
    other.stop()?;
    runtime.stop()?;
    Ok(())
}

/// A reply that another process drops as it panics: the server lives, and the call ends all the same.
#[test]
fn a_request_that_somebody_else_drops_is_told() -> Result<(), Error> {
    quiet_panics();
    struct Passes(Address<Asked>);
    impl Behaviour for Passes {
        type Message = Asked;
        fn handle(&mut self, cx: &mut Context<'_, Asked>, event: Event<Asked>) -> Next {
            if let Event::Message(message) = event {
                cx.send(&self.0, message);
            }
            Next::Wait
        }
    }
    let runtime = Runtime::builder().desks(2).start()?;
    let worker = runtime.spawn_on(1, Server::default())?;
    let passes = runtime.spawn_on(0, Passes(worker.clone()))?;
    let (kept, crash) = (passes.ask(Asked::Keep), passes.ask(Asked::Crash));
    assert_eq!((block_on(crash), block_on(kept)), (Err(CallFault::Dropped), Err(CallFault::Dropped)));
    assert_eq!(passes.waiting() + worker.waiting(), 0);
    runtime.stop()?;
    Ok(())
}

/// What is ready as the time is over, by a thread that sleeps.
fn timer(time: Duration) -> impl Future<Output = ()> {
    let (done, waker) = (Arc::new(Mutex::new((false, None::<Waker>))), Instant::now() + time);
    let shared = done.clone();
    std::thread::spawn(move || {
        std::thread::sleep(waker.saturating_duration_since(Instant::now()));
        let mut done = shared.lock().expect("a timer");
        done.0 = true;
        done.1.take().into_iter().for_each(Waker::wake);
    });
    std::future::poll_fn(move |cx| {
        let mut done = done.lock().expect("a timer");
        done.1 = Some(cx.waker().clone());
        if done.0 { Poll::Ready(()) } else { Poll::Pending }
    })
}

/// The first of both that is ready.
async fn either<A: Future + Unpin, B: Future>(mut a: A, b: B) -> Result<A::Output, (A, B::Output)> {
    let mut b = pin!(b);
    let mut first = None;
    let second = std::future::poll_fn(|cx| match Pin::new(&mut a).poll(cx) {
        Poll::Ready(value) => {
            first = Some(value);
            Poll::Ready(None)
        }
        Poll::Pending => b.as_mut().poll(cx).map(Some),
    })
    .await;
    match (first, second) {
        (Some(value), _) => Ok(value),
        (None, second) => Err((a, second.expect("one of both"))),
    }
}

#[test]
fn a_call_that_is_given_up_leaves_nothing() -> Result<(), Error> {
    let runtime = Runtime::builder().desks(1).start()?;
    let server = runtime.spawn(Server::default())?;
    let value = Arc::new(());
    let held = value.clone();
    let asking = server.ask(move |reply| Asked::Held(held, reply));
    let late = block_on(either(asking, timer(Duration::from_millis(30))));
    let (asking, ()) = late.expect_err("no answer");
    assert_eq!(asking.late(), CallFault::Timeout(None));
    // the server still has the request, and answers in vain
    for round in 0..100 {
        let held = value.clone();
        let mut asking = Box::pin(server.ask(move |reply| Asked::Held(held, reply)));
        if round % 2 == 0 {
            let polled = asking.as_mut().poll(&mut task::Context::from_waker(Waker::noop()));
            assert!(polled.is_pending());
        }
        drop(asking);
    }
    assert_eq!(block_on(server.ask(|reply| Asked::Double(1, reply))), Ok(2));
    assert_eq!(Arc::strong_count(&value), 102);
    server.send(Asked::AnswerHeld);
    assert_eq!(block_on(server.ask(|reply| Asked::Double(1, reply))), Ok(2));
    assert_eq!(Arc::strong_count(&value), 1);
    // an answer that was given and not taken
    let held = value.clone();
    let asking = server.ask(move |reply| Asked::Held(held, reply));
    server.send(Asked::AnswerHeld);
    assert_eq!(block_on(server.ask(|reply| Asked::Double(1, reply))), Ok(2));
    assert_eq!(Arc::strong_count(&value), 2);
    drop(asking);
    assert_eq!(Arc::strong_count(&value), 1);
    // a desk that is held up is named
    server.send(Asked::Nap(Duration::from_secs(2)));
    let asking = server.ask(|reply| Asked::Double(1, reply));
    let (asking, ()) = block_on(either(asking, timer(Duration::from_millis(500)))).expect_err("no answer");
    assert!(
        matches!(asking.late(), CallFault::Timeout(Some((pid, name))) if pid == server.pid() && name.contains("Server"))
    );
    runtime.stop()?;
    Ok(())
}

/// Wakes nobody, and panics.
struct Panics;

impl Wake for Panics {
    fn wake(self: Arc<Self>) {
        std::panic::panic_any("asked to");
    }
}

/// The server is not to blame for the waker of a client.
#[test]
fn a_waker_that_panics_harms_nobody() -> Result<(), Error> {
    quiet_panics();
    let runtime = Runtime::builder().desks(1).start()?;
    let server = runtime.spawn(Server::default())?;
    let mut mailbox = runtime.mailbox::<u32>()?;
    let waker = Waker::from(Arc::new(Panics));
    let mut cx = task::Context::from_waker(&waker);
    server.send(Asked::Nap(Duration::from_secs(1)));
    let mut asking = Box::pin(server.ask(|reply| Asked::Double(21, reply)));
    assert!(asking.as_mut().poll(&mut cx).is_pending() && mailbox.poll_recv(&mut cx).is_pending());
    mailbox.address().send(5);
    assert_eq!(runtime.call(&server, LONG, |reply| Asked::Double(1, reply)), Ok(2));
    assert_eq!(block_on(asking), Ok(42));
    assert!(matches!(block_on(mailbox.recv()), Some(Event::Message(5))));
    assert_eq!(runtime.stop()?.panics, 0);
    Ok(())
}

/// A thousand tasks make a hundred thousand calls. Servers crash, exit and are killed meanwhile, and are started again.
#[test]
fn each_call_of_a_thousand_tasks_ends_once() -> Result<(), Error> {
    const TASKS: u32 = 1_000;
    const EACH: u32 = 100;
    quiet_panics();
    let runtime = Runtime::builder().desks(4).going_on_every(20_000).start()?;
    let names: Vec<Name<Asked>> = (0..8).map(|number| Name::new(format!("server {number}"))).collect();
    for (desk, names) in (0..4).zip(names.chunks(2)) {
        let supervisor = Supervisor::one_for_one().limit(1_000_000, Duration::from_secs(1));
        let child = |name| Child::permanent(Server::default).named(name);
        runtime.spawn_on(desk, names.iter().fold(supervisor, |it, name| it.child(child(name))))?;
    }
    for name in &names {
        name.wait(LONG).ok_or("a server")?;
    }
    let counts: Arc<[AtomicU64; 5]> = Arc::default();
    let (give, done) = channel();
    let pool = Pool::new(3);
    for task in 0..TASKS {
        let (names, counts, give, handle) = (names.clone(), counts.clone(), give.clone(), runtime.handle());
        pool.spawn(async move {
            for turn in 0..EACH {
                let draw = task.wrapping_mul(31).wrapping_add(turn.wrapping_mul(17));
                let name = &names[(draw % 8) as usize];
                let Some(server) = name.whereis() else {
                    counts[4].fetch_add(1, SeqCst);
                    continue;
                };
                let ended = match draw % 2_003 {
                    1 => server.ask(Asked::Crash).await,
                    2 => {
                        handle.exit(&server, Reason::Kill).expect("a process of this run");
                        server.ask(Asked::Keep).await
                    }
                    3 => {
                        server.send(Asked::Stop(Reason::Normal));
                        server.ask(Asked::Keep).await
                    }
                    4 => server.ask(Asked::Drop).await,
                    _ => server.ask(|reply| Asked::Double(draw, reply)).await,
                };
                let kind = match ended {
                    Ok(double) => {
                        assert_eq!(double, 2 * draw);
                        0
                    }
                    Err(CallFault::Down(PANIC, text)) => {
                        assert_eq!(text.as_deref(), Some("asked to"));
                        1
                    }
                    Err(CallFault::Down(Reason::Noproc | Reason::Killed | Reason::Normal, None)) => 2,
                    Err(CallFault::Dropped) => 3,
                    Err(fault) => panic!("{fault}"),
                };
                counts[kind].fetch_add(1, SeqCst);
            }
            give.send(()).expect("a test");
        });
    }
    drop(give);
    for _ in 0..TASKS {
        done.recv_timeout(LONG)?;
    }
    drop(pool);
    let counts: Vec<u64> = counts.iter().map(|count| count.load(SeqCst)).collect();
    assert_eq!(counts.iter().sum::<u64>(), u64::from(TASKS * EACH), "{counts:?}");
    assert!(counts[0] > 20_000 && counts[1] > 10 && counts[2] > 10, "{counts:?}");
    assert_eq!(runtime.waiting(), 0);
    let summary = runtime.stop()?;
    assert!(summary.panics > 10 && summary.epochs > 2, "{summary:?}");
    Ok(())
}

#[test]
fn a_mailbox_gives_all_in_order() -> Result<(), Error> {
    let runtime = Runtime::builder().desks(2).start()?;
    let mut mailbox = block_on(runtime.mailbox_async::<u32>())?;
    let address = mailbox.address().clone();
    for number in 0..5_000 {
        assert!(address.send(number));
    }
    // (the process takes a few in; the others wait with it)
    let until = Instant::now() + LONG;
    while mailbox.waiting() < 5_000 && Instant::now() < until {
        std::thread::yield_now();
    }
    assert_eq!(mailbox.waiting(), 5_000);
    let sender = std::thread::spawn(move || (5_000..20_000).for_each(|number| assert!(address.send(number))));
    for number in 0..20_000 {
        let event = match number % 3 {
            0 => block_on(mailbox.recv()),
            1 => mailbox.recv_within(LONG),
            _ => std::iter::repeat_with(|| mailbox.try_recv()).find_map(|event| event),
        };
        assert!(matches!(event, Some(Event::Message(got)) if got == number), "{number} {event:?}");
    }
    sender.join().expect("a sender");
    assert_eq!((mailbox.waiting(), mailbox.is_ended()), (0, false));
    assert!(mailbox.try_recv().is_none() && mailbox.recv_within(Duration::from_millis(10)).is_none());
    runtime.stop()?;
    assert!(block_on(mailbox.recv()).is_none() && mailbox.is_ended());
    Ok(())
}

#[test]
fn a_mailbox_hears_of_exits_and_ends_itself() -> Result<(), Error> {
    quiet_panics();
    let runtime = Runtime::builder().desks(2).start()?;
    let mut mailbox = runtime.mailbox::<Arc<()>>()?;
    // (both are on one desk, whose inbox has the monitor before what has the process crash)
    let server = runtime.spawn_on(mailbox.address().pid().shard, Server::default())?;
    mailbox.monitor(&server)?;
    let crash = server.ask(Asked::Crash);
    let Some(Event::Down(down)) = block_on(mailbox.recv()) else { panic!("no news") };
    assert_eq!((down.pid, down.reason, down.panic.as_deref()), (server.pid(), PANIC, Some("asked to")));
    assert_eq!(block_on(crash), Err(crashed()));
    // one that has exited, itself, and none of the run
    mailbox.monitor(&server)?;
    let Some(Event::Down(down)) = mailbox.recv_within(LONG) else { panic!("no news") };
    assert_eq!((down.pid, down.reason, down.panic), (server.pid(), Reason::Noproc, None));
    let own = mailbox.address().clone();
    assert_eq!(mailbox.monitor(&own), Err(Fault::Myself));
    let other = Runtime::builder().desks(1).start()?;
    assert_eq!(mailbox.monitor(&other.spawn(Server::default())?), Err(Fault::OtherRun));
    other.stop()?;
    // closed, it may be read
    let value = Arc::new(());
    assert!(own.send(value.clone()) && own.send(value.clone()));
    let until = Instant::now() + LONG;
    while own.waiting() > 0 && Instant::now() < until {
        std::thread::yield_now();
    }
    mailbox.close();
    assert!(matches!(mailbox.recv_within(LONG), Some(Event::Message(_))));
    while own.send(value.clone()) {
        std::thread::yield_now();
    }
    while mailbox.recv_within(LONG).is_some() {}
    assert_eq!((Arc::strong_count(&value), mailbox.is_ended()), (1, true));
    // killed by an exit signal, and dropped with what it has
    let mut killed = runtime.mailbox::<u32>()?;
    runtime.exit(killed.address(), Reason::Kill)?;
    assert!(block_on(killed.recv()).is_none());
    let dropped = runtime.mailbox::<Arc<()>>()?;
    let address = dropped.address().clone();
    (0..200).for_each(|_| assert!(address.send(value.clone())));
    drop(dropped);
    let until = Instant::now() + LONG;
    while Arc::strong_count(&value) > 1 && Instant::now() < until {
        std::thread::yield_now();
    }
    assert_eq!(Arc::strong_count(&value), 1);
    runtime.stop()?;
    Ok(())
}

/// Tasks talk over mailboxes: each sends to the next in a ring.
#[test]
fn tasks_talk_over_mailboxes() -> Result<(), Error> {
    const RING: usize = 50;
    let runtime = Runtime::builder().desks(3).start()?;
    let boxes: Vec<Mailbox<u32>> = (0..RING).map(|_| runtime.mailbox()).collect::<Result<_, _>>()?;
    let addresses: Vec<Address<u32>> = boxes.iter().map(|it| it.address().clone()).collect();
    let (give, done) = channel();
    let pool = Pool::new(2);
    for (place, mut mailbox) in boxes.into_iter().enumerate() {
        let (next, give) = (addresses[(place + 1) % RING].clone(), give.clone());
        pool.spawn(async move {
            while let Some(event) = mailbox.recv().await {
                let Event::Message(left) = event else { panic!("{event:?}") };
                if left == 0 {
                    give.send(place).expect("a test");
                } else {
                    next.send_async(left - 1).await;
                }
            }
        });
    }
    addresses[0].send(10_000);
    assert_eq!(done.recv_timeout(LONG)?, 10_000 % RING);
    // (the mailboxes end, and with that the tasks)
    runtime.stop()?;
    drop(pool);
    Ok(())
}

struct Tells(Sender<Reason>);

impl Behaviour for Tells {
    type Message = ();

    fn handle(&mut self, _: &mut Context<'_, ()>, _: Event<()>) -> Next {
        Next::Wait
    }

    fn ended(self, why: Reason) {
        self.0.send(why).expect("a test");
    }
}

#[test]
fn a_task_spawns() -> Result<(), Error> {
    let runtime = Runtime::builder().desks(1).slots(4).start()?;
    let (give, told) = channel();
    let tells = block_on(runtime.spawn_async(Tells(give.clone())))?;
    runtime.exit(&tells, Reason::Kill)?;
    assert_eq!(told.recv_timeout(LONG)?, Reason::Killed);
    // one that nobody waits for any more lives no longer than that
    for _ in 0..50 {
        drop(runtime.spawn_async(Tells(give.clone())));
    }
    let until = Instant::now() + LONG;
    let spawned = loop {
        match block_on(runtime.spawn_async(Server::default())) {
            Ok(server) => break server,
            Err(fault) => assert!(fault == SpawnFault::Table(Fault::Full) && Instant::now() < until, "{fault}"),
        }
    };
    assert_eq!(block_on(spawned.ask(|reply| Asked::Double(1, reply))), Ok(2));
    let handle = runtime.handle();
    runtime.stop()?;
    assert_eq!(block_on(handle.spawn_async(Server::default())).err(), Some(SpawnFault::Over));
    drop(give);
    assert!(told.iter().all(|why| matches!(why, Reason::Killed | Reason::Shutdown)));
    Ok(())
}

/// A run that halts fails what waits for it: a thread, tasks, a spawn. It goes on, and does what it was asked.
#[test]
fn a_halt_fails_those_who_wait() -> Result<(), Error> {
    let full = Arc::new(Mutex::new(false));
    let is_full = full.clone();
    let sink = move |_: &History| -> Result<(), Refusal> {
        if *is_full.lock().expect("a flag") { Err("the disk is full".into()) } else { Ok(()) }
    };
    let (give, told) = channel();
    let report = move |what: &pundewo::runtime::Report<'_>| give.send(what.to_string()).expect("a test");
    let runtime = Runtime::builder().desks(3).archive(sink).report(report).start()?;
    let server = runtime.spawn_on(1, Server::default())?;
    let mut mailbox = runtime.mailbox::<u32>()?;
    let kept = server.ask(Asked::Keep);
    let handle = runtime.handle();
    let waits = std::thread::spawn({
        let (handle, server) = (runtime.handle(), server.clone());
        move || handle.call(&server, LONG, Asked::Keep)
    });
    let over = std::thread::spawn({
        let handle = runtime.handle();
        move || block_on(handle.over())
    });
    while server.waiting() > 0 || runtime.call(&server, LONG, |reply| Asked::Double(1, reply)) != Ok(2) {}
    std::thread::sleep(Duration::from_millis(50));
    assert!(!waits.is_finished() && !over.is_finished() && !handle.wait(Duration::from_millis(1)));
    *full.lock().expect("a flag") = true;
    runtime.go_on();
    assert_eq!((block_on(kept), waits.join().expect("a fault")), (Err(CallFault::Over), Err(CallFault::Over)));
    over.join().expect("it is over");
    assert!(handle.wait(LONG) && handle.is_over());
    block_on(handle.over());
    assert_eq!(told.recv_timeout(LONG)?, "the run halted: the disk is full");
    assert_eq!(block_on(server.ask(|reply| Asked::Double(1, reply))), Err(CallFault::Over));
    assert_eq!(block_on(runtime.spawn_async(Server::default())).err(), Some(SpawnFault::Over));
    // a message is kept, as before
    assert!(mailbox.address().send(7) && mailbox.try_recv().is_none());
    let StopFault::Halted(halted) = runtime.stop().expect_err("it halted") else { panic!("it halted") };
    *full.lock().expect("a flag") = false;
    let runtime = halted.go_on().expect("there is room");
    assert!(matches!(mailbox.recv_within(LONG), Some(Event::Message(7))));
    assert_eq!(block_on(server.ask(|reply| Asked::Double(1, reply))), Ok(2));
    assert!(!handle.is_over());
    runtime.stop()?;
    assert!(told.try_recv().is_err());
    Ok(())
}

/// A halted run that is dropped fails nobody twice, and keeps nothing.
#[test]
fn a_halted_run_may_be_dropped() -> Result<(), Error> {
    let sink = |_: &History| Err::<(), Refusal>("the disk is full".into());
    let runtime = Runtime::builder().desks(2).archive(sink).start()?;
    let value = Arc::new(());
    let server = runtime.spawn(Server::default())?;
    let held = value.clone();
    let asking = server.ask(move |reply| Asked::Held(held, reply));
    runtime.go_on();
    assert!(runtime.wait().is_err());
    assert_eq!(block_on(asking).err(), Some(CallFault::Over));
    assert_eq!((server.send(Asked::AnswerHeld), Arc::strong_count(&value)), (false, 1));
    assert_eq!(block_on(server.ask(Asked::Keep)), Err(CallFault::Down(Reason::Noproc, None)));
    Ok(())
}

#[test]
fn crashes_are_reported() -> Result<(), Error> {
    quiet_panics();
    let (give, told) = channel();
    let report = move |what: &pundewo::runtime::Report<'_>| {
        give.send(what.to_string()).expect("a test");
        std::panic::panic_any("asked to");
    };
    let runtime = Runtime::builder().desks(1).report(report).start()?;
    for _ in 0..3 {
        let server = runtime.spawn(Server::default())?;
        assert_eq!(runtime.call(&server, LONG, Asked::Crash), Err(crashed()));
        assert_eq!(told.recv_timeout(LONG)?, format!("{}, a futures::Server, crashed: asked to", server.pid()));
    }
    assert_eq!(runtime.stop()?.panics, 3);
    Ok(())
}
