//! The runtime: messages, exits, panics, calls, timers, spawning, going on, and how a run ends.

use pundewo::History;
use pundewo::runtime::{
    Address, Behaviour, Call, CallFault, Context, Event, Handle, Next, PANIC, Pid, Reason, Refusal, Reply, Runtime,
    SpawnFault, StopFault, Timer,
};
use std::sync::mpsc::{Receiver, Sender, channel};
use std::sync::{Arc, Mutex};
use std::time::{Duration, Instant};

const LONG: Duration = Duration::from_secs(120);

type Error = Box<dyn std::error::Error>;

/// A behaviour of one function, which gets each event.
struct Acts<M, F>(F, std::marker::PhantomData<fn() -> M>);

fn acts<M: Send + 'static, F: FnMut(&mut Context<'_, M>, Option<Event<M>>) -> Next + Send + 'static>(
    act: F,
) -> impl Behaviour<Message = M> {
    Acts(act, std::marker::PhantomData)
}

impl<M: Send + 'static, F: FnMut(&mut Context<'_, M>, Option<Event<M>>) -> Next + Send + 'static> Behaviour
    for Acts<M, F>
{
    type Message = M;

    fn started(&mut self, cx: &mut Context<'_, M>) -> Next {
        self.0(cx, None)
    }

    fn handle(&mut self, cx: &mut Context<'_, M>, event: Event<M>) -> Next {
        self.0(cx, Some(event))
    }
}

fn start(desks: usize) -> Runtime {
    Runtime::builder().desks(desks).start().expect("a run")
}

fn got<T>(from: &Receiver<T>) -> T {
    from.recv_timeout(LONG).expect("an answer in time")
}

/// Passes each message on to the test.
fn listener<M: Send + 'static>(runtime: &Runtime, desk: u8) -> (Address<M>, Receiver<M>) {
    let (give, get) = channel();
    let listens = acts(move |_, event| {
        if let Some(Event::Message(message)) = event {
            let _ = give.send(message);
        }
        Next::Wait
    });
    (runtime.spawn_on(desk, listens).expect("a listener"), get)
}

/// Text of all events, which the sink adds to.
fn text_sink() -> (Arc<Mutex<String>>, impl FnMut(&History) -> Result<(), Refusal> + Send) {
    let text = Arc::new(Mutex::new(String::new()));
    let all = text.clone();
    let sink = move |history: &History| {
        let mut all = all.lock().expect("a text");
        history.events().for_each(|event| *all += &format!("{event}\n"));
        Ok(())
    };
    (text, sink)
}

#[test]
fn messages_from_each_sender_arrive_in_order() -> Result<(), Error> {
    const EACH: u32 = 2_000;
    let runtime = start(4);
    let (listener, heard) = listener::<(u32, u32)>(&runtime, 0);
    for sender in 0..8 {
        let to = listener.clone();
        let sends = acts::<(), _>(move |cx, _| {
            for number in 0..EACH {
                assert!(cx.send(&to, (sender, number)));
            }
            Next::DONE
        });
        runtime.spawn(sends)?;
    }
    std::thread::scope(|threads| {
        for sender in 8..12 {
            let to = listener.clone();
            threads.spawn(move || (0..EACH).for_each(|number| assert!(to.send((sender, number)))));
        }
    });
    let mut next = [0; 12];
    for _ in 0..12 * EACH {
        let (sender, number) = got(&heard);
        assert_eq!(number, next[sender as usize]);
        next[sender as usize] += 1;
    }
    runtime.stop()?;
    assert!(heard.try_recv().is_err());
    Ok(())
}

/// What a watcher tells of an exit.
type News = (&'static str, Pid, Reason, Option<String>);

/// Monitors the target, is linked with it, and then says so to it.
fn watcher(target: Address<&'static str>, give: Sender<News>) -> impl Behaviour<Message = ()> {
    acts(move |cx, event| {
        let text = |panic: Option<Arc<str>>| panic.map(|text| text.to_string());
        match event {
            None => {
                cx.trap_exits(true).expect("a flag");
                cx.monitor(&target).expect("a monitor");
                cx.link(&target).expect("a link");
                cx.send(&target, "watched");
            }
            Some(Event::Down(down)) => give.send(("down", down.pid, down.reason, text(down.panic))).expect("a test"),
            Some(Event::Exit(exit)) if exit.pid == target.pid() => {
                give.send(("exit", exit.pid, exit.reason, text(exit.panic))).expect("a test");
            }
            Some(_) => return Next::DONE,
        }
        Next::Wait
    })
}

#[test]
fn a_panic_is_a_crash_that_watchers_see() -> Result<(), Error> {
    let runtime = start(2);
    let (ready, watched) = channel();
    let worker = runtime.spawn_on(
        1,
        acts(move |_, event| match event {
            Some(Event::Message("watched")) => {
                ready.send(()).expect("a test");
                Next::Wait
            }
            Some(Event::Message(text)) => panic!("it said {text}"),
            _ => Next::Wait,
        }),
    )?;
    let (give, news) = channel();
    for desk in [0, 1] {
        runtime.spawn_on(desk, watcher(worker.clone(), give.clone()))?;
        got(&watched);
    }
    assert!(worker.send("boo"));
    let mut all: Vec<News> = (0..4).map(|_| got(&news)).collect();
    all.sort();
    for (told, how) in all.into_iter().zip(["down", "down", "exit", "exit"]) {
        assert_eq!(told, (how, worker.pid(), PANIC, Some("it said boo".into())));
    }
    // the thread goes on
    assert!(!worker.send("nobody"));
    runtime.spawn_on(1, acts::<(), _>(|_, _| Next::DONE))?;
    let summary = runtime.stop()?;
    assert_eq!((summary.spawned, summary.panics), (4, 1));
    drop(give);
    assert!(news.recv().is_err());
    Ok(())
}

/// A thread that has gone on crashes a process, whose watcher is on a desk that has not gone on yet.
#[test]
fn each_crash_is_heard_with_its_text_while_the_node_goes_on() -> Result<(), Error> {
    let runtime = Runtime::builder().desks(4).going_on_every(10).start()?;
    let (give, told) = channel();
    for number in 0..2_000_u16 {
        let desk = (number % 4) as u8;
        let target = runtime.spawn_on(
            desk,
            acts(|_, event| match event {
                Some(Event::Message(text)) => std::panic::panic_any::<&str>(text),
                _ => Next::Wait,
            }),
        )?;
        let give = give.clone();
        let watches = acts::<(), _>(move |cx, event| match event {
            None => {
                cx.monitor(&target).expect("a monitor");
                cx.send(&target, "quiet");
                Next::Wait
            }
            Some(Event::Down(down)) => {
                give.send((down.reason, down.panic.as_deref().map(str::to_owned))).expect("a test");
                Next::DONE
            }
            Some(other) => panic!("{other:?}"),
        });
        runtime.spawn_on((desk + 1) % 4, watches)?;
    }
    for _ in 0..2_000 {
        assert_eq!(got(&told), (PANIC, Some("quiet".into())));
    }
    assert!(runtime.stop()?.epochs > 100);
    Ok(())
}

/// A process that exits by itself tells its reason, and no text.
#[test]
fn an_exit_without_a_panic_has_no_text() -> Result<(), Error> {
    let runtime = start(2);
    let (ready, watched) = channel();
    let worker = runtime.spawn_on(
        0,
        acts(move |_, event| match event {
            Some(Event::Message("watched")) => {
                ready.send(()).expect("a test");
                Next::Wait
            }
            Some(Event::Message(_)) => Next::Stop(Reason::Other(9)),
            _ => Next::Wait,
        }),
    )?;
    let (give, news) = channel();
    runtime.spawn_on(1, watcher(worker.clone(), give))?;
    got(&watched);
    worker.send("end");
    for _ in 0..2 {
        let (_, pid, reason, text) = got(&news);
        assert_eq!((pid, reason, text), (worker.pid(), Reason::Other(9), None));
    }
    assert_eq!(runtime.stop()?.panics, 0);
    Ok(())
}

enum Asked {
    Double(u32, Reply<u32>),
    Never(Reply<u32>),
    Drop(Reply<u32>),
    Crash(Reply<u32>),
    Elsewhere(u32, Reply<u32>),
}

fn server() -> impl Behaviour<Message = Asked> {
    let mut kept = Vec::new();
    acts(move |cx, event| {
        match event {
            Some(Event::Message(Asked::Double(n, reply))) => cx.reply(reply, 2 * n),
            Some(Event::Message(Asked::Never(reply))) => kept.push(reply),
            Some(Event::Message(Asked::Drop(reply))) => drop(reply),
            Some(Event::Message(Asked::Crash(_reply))) => panic!("asked to"),
            Some(Event::Message(Asked::Elsewhere(n, reply))) => drop(std::thread::spawn(move || reply.send(2 * n))),
            _ => {}
        }
        Next::Wait
    })
}

#[test]
fn calls_from_outside_end_once() -> Result<(), Error> {
    let runtime = start(2);
    let server = runtime.spawn(server())?;
    assert_eq!(runtime.call(&server, LONG, |reply| Asked::Double(21, reply)), Ok(42));
    assert_eq!(runtime.call(&server, LONG, |reply| Asked::Elsewhere(4, reply)), Ok(8));
    assert_eq!(runtime.call(&server, Duration::from_millis(20), Asked::Never), Err(CallFault::Timeout(None)));
    assert_eq!(runtime.call(&server, LONG, Asked::Drop), Err(CallFault::Dropped));
    assert_eq!(runtime.call(&server, LONG, Asked::Crash), Err(CallFault::Down(PANIC, Some("asked to".into()))));
    let exited = CallFault::Down(Reason::Noproc, None);
    assert_eq!(runtime.call(&server, LONG, |reply| Asked::Double(21, reply)), Err(exited));
    runtime.stop()?;
    Ok(())
}

/// A request, and for how long its answer is waited for.
struct Ask(Duration, Box<dyn FnOnce(Reply<u32>) -> Asked + Send>);

fn ask(limit: Duration, ask: impl FnOnce(Reply<u32>) -> Asked + Send + 'static) -> Ask {
    Ask(limit, Box::new(ask))
}

/// Asks the server, and gives each answer with its place among the calls.
fn asker(server: Address<Asked>, give: Sender<(usize, Result<u32, CallFault>)>) -> impl Behaviour<Message = Ask> {
    let mut calls: Vec<Call<u32>> = Vec::new();
    acts(move |cx, event| {
        match event {
            Some(Event::Message(Ask(limit, ask))) => match cx.call(&server, limit, ask) {
                Ok(call) => calls.push(call),
                Err(_) => return Next::DONE,
            },
            Some(Event::Answer(answer)) => {
                let place = calls.iter().position(|call| answer.is_of(call)).expect("a call of its own");
                let result = answer.to(&calls[place]).expect("the answer of this call");
                give.send((place, result)).expect("a test");
            }
            Some(_) => panic!("neither a request nor an answer"),
            None => {}
        }
        Next::Wait
    })
}

#[test]
fn calls_of_a_process_end_once() -> Result<(), Error> {
    let runtime = start(2);
    let (give, get) = channel();
    let server = runtime.spawn_on(1, server())?;
    let asker = runtime.spawn_on(0, asker(server.clone(), give))?;
    asker.send(ask(LONG, |reply| Asked::Double(1, reply)));
    asker.send(ask(Duration::from_millis(50), Asked::Never));
    asker.send(ask(LONG, |reply| Asked::Elsewhere(2, reply)));
    asker.send(ask(LONG, Asked::Drop));
    let mut answers: Vec<_> = (0..4).map(|_| got(&get)).collect();
    answers.sort_by_key(|&(place, _)| place);
    let wanted = [Ok(2), Err(CallFault::Timeout(None)), Ok(4), Err(CallFault::Dropped)];
    assert_eq!(answers, wanted.into_iter().enumerate().collect::<Vec<_>>());
    // two wait as the server crashes: each hears of it once, by what comes first
    asker.send(ask(LONG, Asked::Never));
    asker.send(ask(LONG, Asked::Crash));
    let mut ends: Vec<_> = (0..2).map(|_| got(&get)).collect();
    ends.sort_by_key(|&(place, _)| place);
    for (wanted, (place, result)) in (4..).zip(ends) {
        let crashed = CallFault::Down(PANIC, Some("asked to".into()));
        assert!(place == wanted && (result == Err(crashed) || result == Err(CallFault::Dropped)), "{result:?}");
    }
    runtime.stop()?;
    assert!(get.recv().is_err());
    Ok(())
}

#[test]
fn timers_are_never_early_and_may_be_taken_back() -> Result<(), Error> {
    let runtime = start(2);
    let (listener, heard) = listener::<(u64, Instant)>(&runtime, 1);
    let begun = Instant::now();
    let mut timers: Vec<Timer> = Vec::new();
    runtime.spawn_on(
        0,
        acts::<(), _>(move |cx, event| match event {
            None => {
                for time in [60, 20, 40, 20] {
                    timers.push(cx.send_after(Duration::from_millis(time), &listener, (time, begun)));
                }
                assert!(cx.cancel(timers[2]) && !cx.cancel(timers[2]));
                Next::WaitFor(Duration::from_millis(80))
            }
            Some(Event::Timeout) => {
                assert!(begun.elapsed() >= Duration::from_millis(80));
                assert!(!timers.iter().any(|&timer| cx.cancel(timer)));
                listener.send((0, begun));
                Next::DONE
            }
            Some(other) => panic!("{other:?}"),
        }),
    )?;
    let times: Vec<u64> = (0..4)
        .map(|_| {
            let (time, begun) = got(&heard);
            assert!(begun.elapsed() >= Duration::from_millis(time));
            time
        })
        .collect();
    // (the last one came another way)
    assert_eq!(times.into_iter().filter(|&time| time > 0).collect::<Vec<_>>(), [20, 20, 60]);
    runtime.stop()?;
    Ok(())
}

#[test]
fn a_process_spawns_on_its_desk_and_on_others() -> Result<(), Error> {
    let runtime = Runtime::builder().desks(3).slots(4).start()?;
    let (give, get) = channel::<(Pid, Pid)>();
    let child = |give: Sender<(Pid, Pid)>, parent: Pid| {
        acts::<(), _>(move |cx, _| {
            give.send((cx.pid(), parent)).expect("a test");
            Next::Wait
        })
    };
    let mut calls = Vec::new();
    let (full, told) = channel();
    let parent = runtime.spawn_on(
        0,
        acts::<(), _>(move |cx, event| {
            let me = cx.pid();
            match event {
                None => {
                    assert!(cx.spawn(child(give.clone(), me)).is_ok());
                    assert!(cx.spawn_linked(child(give.clone(), me)).is_ok());
                    assert!(cx.spawn(child(give.clone(), me)).is_err());
                    calls = (1..4).map(|desk| cx.spawn_on(desk, child(give.clone(), me))).collect();
                }
                Some(Event::Answer(answer)) => {
                    let place = calls.iter().position(|call| answer.is_of(call)).expect("a call");
                    let spawned = answer.to(&calls[place]).expect("its answer").expect("no fault of the call");
                    full.send((place, spawned.map(|address| address.pid().shard))).expect("a test");
                }
                Some(_) => {}
            }
            Next::Wait
        }),
    )?;
    let mut desks: Vec<u8> = (0..4)
        .map(|_| got(&get))
        .map(|(child, by)| {
            assert_eq!(by, parent.pid());
            child.shard
        })
        .collect();
    desks.sort_unstable();
    assert_eq!(desks, [0, 0, 1, 2]);
    let mut answers: Vec<_> = (0..3).map(|_| got(&told)).collect();
    answers.sort_by_key(|&(place, _)| place);
    assert_eq!(answers, [(0, Ok(1)), (1, Ok(2)), (2, Err(pundewo::Fault::BadDesks))]);
    assert_eq!(runtime.stop()?.spawned, 5);
    Ok(())
}

#[test]
fn it_goes_on_by_itself_and_the_sink_has_all() -> Result<(), Error> {
    let (text, sink) = text_sink();
    let runtime = Runtime::builder().desks(2).going_on_every(200).archive(sink).start()?;
    let (listener, heard) = listener::<u32>(&runtime, 1);
    runtime.spawn_on(
        0,
        acts::<(), _>({
            let mut number = 0;
            move |cx, _| {
                cx.send(&listener, number);
                number += 1;
                if number < 3_000 { Next::Proceed } else { Next::DONE }
            }
        }),
    )?;
    (0..3_000).for_each(|number| assert_eq!(got(&heard), number));
    let summary = runtime.stop()?;
    let text = text.lock().expect("a text");
    assert_eq!(text.lines().count() as u64, summary.archived);
    assert!(summary.epochs > 10 && summary.archived > 9_000, "{summary:?}");
    assert_eq!(text.lines().filter(|line| line.contains(" took <1.1.1> any = user <0.1.1> 1 ")).count(), 3_000);
    Ok(())
}

#[test]
fn a_sink_that_refuses_halts_the_run_and_nothing_is_lost() -> Result<(), Error> {
    let refuses = |_: &History| Err("the disk is full".into());
    let runtime = Runtime::builder().desks(2).going_on_every(100).archive(refuses).start()?;
    let (listener, heard) = listener::<u32>(&runtime, 1);
    let sender = listener.clone();
    runtime.spawn_on(
        0,
        acts::<(), _>(move |cx, _| {
            (0..500).for_each(|number| assert!(cx.send(&sender, number)));
            Next::DONE
        }),
    )?;
    while !runtime.is_over() {
        std::thread::sleep(Duration::from_millis(1));
    }
    listener.send(500);
    let StopFault::Halted(halted) = runtime.stop().expect_err("it halted") else { panic!("it halted") };
    assert_eq!(
        (halted.to_string(), halted.why().to_string()),
        ("the run halted: the disk is full".into(), "the disk is full".into())
    );
    let halted = halted.go_on().expect_err("the sink refuses again");
    let (text, sink) = text_sink();
    let runtime = halted.with_archive(sink).go_on().expect("the new sink takes all");
    (0..=500).for_each(|number| assert_eq!(got(&heard), number));
    let summary = runtime.stop()?;
    let text = text.lock().expect("a text");
    assert_eq!(text.lines().count() as u64, summary.archived);
    assert_eq!(text.lines().filter(|line| line.contains(" born ")).count(), 4);
    Ok(())
}

/// Stays whatever it is told, and says when it is told to exit.
fn stubborn(told: Sender<Reason>) -> impl Behaviour<Message = ()> {
    acts(move |cx, event| {
        match event {
            None => {
                cx.trap_exits(true).expect("a flag");
                told.send(Reason::Normal).expect("a test");
            }
            Some(Event::Exit(exit)) => told.send(exit.reason).expect("a test"),
            Some(other) => panic!("{other:?}"),
        }
        Next::Wait
    })
}

#[test]
fn a_process_that_would_not_end_is_named() -> Result<(), Error> {
    let (text, sink) = text_sink();
    let runtime = Runtime::builder().desks(2).archive(sink).start()?;
    let (give, told) = channel();
    let process = runtime.spawn_on(1, stubborn(give))?;
    assert_eq!(got(&told), Reason::Normal);
    runtime.spawn_on(0, acts::<(), _>(|_, _| Next::Wait))?;
    let fault = runtime.stop_within(Duration::from_secs(1)).expect_err("a process that stays");
    assert!(fault.to_string().starts_with("<1.1.1>, a ") && fault.to_string().ends_with(" would not end"), "{fault}");
    let StopFault::WouldNotEnd { pid, summary: Some(summary), .. } = fault else { panic!("{fault}") };
    assert_eq!((pid, summary.spawned, got(&told)), (process.pid(), 2, Reason::Shutdown));
    assert!(text.lock().expect("a text").contains(" came <1.0.1> -> <1.1.1> exit kill\n"));
    Ok(())
}

#[test]
fn a_handler_that_does_not_return_is_named() -> Result<(), Error> {
    let runtime = start(2);
    let (give, get) = channel();
    let stays = runtime.spawn_on(
        1,
        acts::<(), _>(move |_, event| {
            if event.is_some() {
                give.send(()).expect("a test");
                std::thread::sleep(Duration::from_secs(20));
            }
            Next::Wait
        }),
    )?;
    runtime.spawn_on(1, acts::<(), _>(|_, _| Next::Wait))?;
    stays.send(());
    got(&get);
    let fault = runtime.stop_within(Duration::from_millis(100)).expect_err("a handler that stays");
    assert!(matches!(fault, StopFault::WouldNotEnd { pid, summary: None, .. } if pid == stays.pid()), "{fault}");
    assert!(!stays.send(()));
    Ok(())
}

#[test]
fn a_run_may_end_by_itself() -> Result<(), Error> {
    let runtime = start(3);
    for _ in 0..9 {
        runtime.spawn(acts::<(), _>(|_, event| match event {
            None => Next::WaitFor(Duration::from_millis(30)),
            Some(_) => Next::DONE,
        }))?;
    }
    assert_eq!(runtime.wait()?.spawned, 9);
    assert_eq!(start(1).wait()?.epochs, 1);
    Ok(())
}

#[test]
fn lanes_that_are_full_wake_who_waits_for_room() -> Result<(), Error> {
    let runtime = Runtime::builder().desks(4).lane(1).start()?;
    let (counter, heard) = listener::<u8>(&runtime, 0);
    for desk in 1..4 {
        let to = counter.clone();
        runtime.spawn_on(
            desk,
            acts::<(), _>(move |cx, _| {
                (0..3_000).for_each(|_| assert!(cx.send(&to, desk)));
                Next::DONE
            }),
        )?;
    }
    assert!((0..9_000).all(|_| got(&heard) > 0));
    runtime.stop()?;
    Ok(())
}

#[test]
fn a_handler_does_not_wait_for_a_spawn() -> Result<(), Error> {
    let runtime = start(2);
    let (give, get) = channel();
    let handle = runtime.handle();
    runtime.spawn(acts::<(), _>(move |_, _| {
        give.send(handle.spawn(acts::<(), _>(|_, _| Next::DONE)).err()).expect("a test");
        Next::DONE
    }))?;
    assert_eq!(got(&get), Some(SpawnFault::Inside));
    runtime.wait()?;
    Ok(())
}

/// A run and a handle of it, and what comes in after its end.
#[test]
fn nothing_comes_in_once_a_run_is_over() -> Result<(), Error> {
    let runtime = start(2);
    let (listener, heard) = listener::<u32>(&runtime, 1);
    let handle = runtime.handle();
    runtime.stop()?;
    assert!(!listener.send(7) && heard.recv().is_err());
    assert_eq!(handle.spawn(acts::<(), _>(|_, _| Next::DONE)).err(), Some(SpawnFault::Over));
    let exited = CallFault::Down(Reason::Noproc, None);
    assert_eq!(handle.call(&listener, LONG, |_: Reply<u8>| 7), Err(exited));
    assert_eq!(handle.exit(&listener, Reason::Kill), Ok(()));
    assert!(handle.is_over());
    Ok(())
}

/// A desk whose handler does not return, and what is asked of it from outside.
#[test]
fn what_is_asked_of_a_desk_that_is_held_up_ends_in_time() -> Result<(), Error> {
    const SHORT: Duration = Duration::from_millis(30);
    let runtime = start(2);
    let (enter, entered) = channel();
    let (leave, left) = channel::<()>();
    let stuck = runtime.spawn_on(
        0,
        acts(move |_, event| {
            if event.is_some() {
                enter.send(()).expect("a test");
                let _ = left.recv();
            }
            Next::Wait
        }),
    )?;
    let server = runtime.spawn_on(0, server())?;
    stuck.send(());
    got(&entered);
    let (dropped, drops) = channel();
    for _ in 0..3 {
        let held = Held(dropped.clone());
        let spawns = acts::<(), _>(move |_, _| {
            let _of = &held;
            Next::Wait
        });
        let fault = runtime.spawn_within(SHORT, 0, spawns).expect_err("a desk that is held up");
        let SpawnFault::Timeout(Some((pid, name))) = fault else { panic!("{fault}") };
        assert!(
            pid == stuck.pid() && name.contains("Acts<") && fault.to_string().contains("is held up by <0.1.1>, a ")
        );
        let answer = runtime.call(&server, SHORT, |reply| Asked::Double(21, reply));
        assert_eq!(answer, Err(CallFault::Timeout(Some((pid, name)))));
        let wanted = format!("there was no answer in time: the desk of the server is held up by <0.1.1>, a {name}");
        assert_eq!(answer.expect_err("a server that is held up").to_string(), wanted);
    }
    // a process of another desk hears the same
    let (give, answers) = channel();
    let asks = runtime.spawn_on(1, asker(server.clone(), give))?;
    asks.send(ask(SHORT, |reply| Asked::Double(21, reply)));
    let (place, answer) = got(&answers);
    let Err(CallFault::Timeout(Some((pid, name)))) = answer else { panic!("{answer:?}") };
    assert!(place == 0 && pid == stuck.pid() && name.contains("Acts<"));
    assert!(runtime.spawn_within(LONG, 1, acts::<(), _>(|_, _| Next::DONE)).is_ok() && drops.try_recv().is_err());
    leave.send(())?;
    assert_eq!(runtime.call(&server, LONG, |reply| Asked::Double(21, reply)), Ok(42));
    (0..3).for_each(|_| got(&drops));
    assert!(runtime.spawn_within(LONG, 0, acts::<(), _>(|_, _| Next::DONE)).is_ok());
    assert_eq!(runtime.stop()?.spawned, 5);
    Ok(())
}

/// A process asks a server on its own desk, which waits: nobody holds up the call, and not the process that hears of it.
#[test]
fn a_call_that_nobody_holds_up_names_nobody() -> Result<(), Error> {
    let runtime = start(1);
    let (give, answers) = channel();
    let server = runtime.spawn(server())?;
    let asks = runtime.spawn(asker(server, give))?;
    asks.send(ask(Duration::from_millis(20), Asked::Never));
    let (_, answer) = got(&answers);
    assert_eq!(answer, Err(CallFault::Timeout(None)));
    assert_eq!(CallFault::Timeout(None).to_string(), "there was no answer in time");
    runtime.stop()?;
    Ok(())
}

/// Threads spawn with times that are about as long as it takes: each process that is spawned has its address.
#[test]
fn spawns_that_end_in_time_and_others_are_counted() -> Result<(), Error> {
    let runtime = start(2);
    let naps = runtime.spawn_on(
        0,
        acts::<u64, _>(|_, event| {
            if let Some(Event::Message(micros)) = event {
                std::thread::sleep(Duration::from_micros(micros));
            }
            Next::Wait
        }),
    )?;
    let (mut spawned, mut late) = (1, 0);
    std::thread::scope(|threads| {
        let spawners: Vec<_> = (0..4_u64)
            .map(|seed| {
                let (handle, naps) = (runtime.handle(), naps.clone());
                threads.spawn(move || {
                    (0..300_u64)
                        .filter(|turn| {
                            naps.send((turn * 37 + seed * 101) % 400);
                            let short = Duration::from_micros((turn * 53 + seed * 11) % 700);
                            let limit = if turn % 10 == 9 { LONG } else { short };
                            match handle.spawn_within(limit, 0, acts::<(), _>(|_, _| Next::DONE)) {
                                Ok(_) => true,
                                Err(SpawnFault::Timeout(_)) => false,
                                Err(fault) => panic!("{fault}"),
                            }
                        })
                        .count() as u64
                })
            })
            .collect();
        for spawner in spawners {
            let count = spawner.join().expect("a count");
            (spawned, late) = (spawned + count, late + 300 - count);
        }
    });
    assert!(spawned > 1 && late > 0, "{spawned} spawned, and {late} late");
    assert_eq!(runtime.stop_within(LONG)?.spawned, spawned);
    Ok(())
}

/// Tells as it is dropped.
struct Held(Sender<()>);

impl Drop for Held {
    fn drop(&mut self) {
        let _ = self.0.send(());
    }
}

/// A thread that has only a handle ends the run, for which another waits.
#[test]
fn a_handle_stops_a_run() -> Result<(), Error> {
    let runtime = start(2);
    let (give, told) = channel();
    let (begin, begun) = channel();
    for desk in [0, 1] {
        let (give, begin) = (give.clone(), begin.clone());
        let traps = acts::<(), _>(move |cx, event| match event {
            None => {
                cx.trap_exits(true).expect("a flag");
                begin.send(()).expect("a test");
                Next::Wait
            }
            Some(Event::Exit(exit)) => {
                give.send(exit.reason).expect("a test");
                Next::Stop(exit.reason)
            }
            Some(_) => Next::Wait,
        });
        runtime.spawn_on(desk, traps)?;
    }
    // (one that is told to exit before it traps exits is told nothing)
    (0..2).for_each(|_| got(&begun));
    let handle = runtime.handle();
    let stops = std::thread::spawn(move || {
        handle.stop();
        handle.stop();
        handle
    });
    assert_eq!(runtime.wait()?.spawned, 2);
    assert_eq!((got(&told), got(&told)), (Reason::Shutdown, Reason::Shutdown));
    let handle = stops.join().expect("a handle");
    // (a run that is over is told nothing)
    handle.stop();
    assert!(handle.is_over() && told.try_recv().is_err());
    Ok(())
}

/// Exits as it is told to, and then tells why it has exited.
struct Leaves(u32, Sender<(u32, Reason)>);

impl Behaviour for Leaves {
    type Message = ();

    fn handle(&mut self, cx: &mut Context<'_, ()>, _: Event<()>) -> Next {
        match self.0 % 3 {
            0 => panic!("number {}", self.0),
            1 => Next::Stop(Reason::Other(self.0)),
            _ => {
                cx.exit(cx.pid(), Reason::Kill).expect("a signal");
                Next::Wait
            }
        }
    }

    fn ended(self, why: Reason) {
        self.1.send((self.0, why)).expect("a test");
    }
}

/// More processes exit than a step has jobs, and the node goes on again and again meanwhile.
#[test]
fn each_exit_is_told_once_with_its_reason() -> Result<(), Error> {
    let runtime = Runtime::builder().desks(2).going_on_every(20).start()?;
    let (give, told) = channel();
    let leave =
        (0..800).map(|number| runtime.spawn_on(0, Leaves(number, give.clone()))).collect::<Result<Vec<_>, _>>()?;
    drop(give);
    leave.iter().for_each(|process| assert!(process.send(())));
    let mut all: Vec<(u32, Reason)> = (0..800).map(|_| got(&told)).collect();
    all.sort_unstable();
    for (number, (told, why)) in (0..).zip(all) {
        let wanted = [PANIC, Reason::Other(number), Reason::Killed][number as usize % 3];
        assert_eq!((told, why), (number, wanted));
    }
    assert_eq!(runtime.wait()?.panics, 267);
    assert!(told.recv().is_err());
    Ok(())
}

#[test]
fn a_sink_may_ask_the_run_and_may_panic() -> Result<(), Error> {
    let known: Arc<Mutex<Option<Handle>>> = Arc::default();
    let handle = known.clone();
    let sink = move |history: &History| {
        let handle = handle.lock().expect("a handle").clone().expect("a handle");
        assert_eq!((handle.epochs(), handle.is_over()), (0, false));
        assert_eq!(handle.spawn(acts::<(), _>(|_, _| Next::DONE)).err(), Some(SpawnFault::Inside));
        assert!(history.count() < 2, "too much happened");
        Ok(())
    };
    let runtime = Runtime::builder().desks(1).archive(sink).start()?;
    *known.lock().expect("a handle") = Some(runtime.handle());
    runtime.spawn(acts::<(), _>(|_, _| Next::DONE))?;
    let StopFault::Halted(halted) = runtime.wait().expect_err("it halted") else { panic!("it halted") };
    assert_eq!(halted.to_string(), "the run halted: the sink panicked");
    let handle = known.lock().expect("a handle").take().expect("a handle");
    assert!(handle.is_over() && handle.spawn(acts::<(), _>(|_, _| Next::DONE)).err() == Some(SpawnFault::Over));
    let (text, sink) = text_sink();
    assert_eq!(halted.with_archive(sink).go_on().expect("a sink that takes all").wait()?.epochs, 2);
    assert!(text.lock().expect("a text").contains(" left <0.1.1> normal\n"));
    Ok(())
}

/// The thread that is first to go on wants to go on again while the others have not woken yet.
#[test]
fn a_thread_may_meet_again_before_the_others_have_woken() -> Result<(), Error> {
    let runtime = Runtime::builder().desks(16).going_on_every(1).start()?;
    let mut left = 300;
    runtime.spawn_on(
        0,
        acts::<(), _>(move |cx, _| {
            cx.send(&cx.me().clone(), ());
            left -= 1;
            if left > 0 { Next::Wait } else { Next::DONE }
        }),
    )?;
    assert!(runtime.wait()?.epochs > 100);
    Ok(())
}

/// It is linked before it has begun, and hears of the exit.
struct TrapsFromTheFirst(Sender<Reason>);

impl Behaviour for TrapsFromTheFirst {
    type Message = ();

    fn handle(&mut self, _: &mut Context<'_, ()>, event: Event<()>) -> Next {
        if let Event::Exit(exit) = event {
            self.0.send(exit.reason).expect("a test");
        }
        Next::DONE
    }

    fn traps_exits(&self) -> bool {
        true
    }
}

struct LinksAndExits(Sender<Reason>);

impl Behaviour for LinksAndExits {
    type Message = ();

    fn started(&mut self, cx: &mut Context<'_, ()>) -> Next {
        let child = cx.spawn(TrapsFromTheFirst(self.0.clone())).expect("a process");
        cx.link(&child).expect("a link");
        Next::Stop(Reason::Other(7))
    }

    fn handle(&mut self, _: &mut Context<'_, ()>, _: Event<()>) -> Next {
        Next::Wait
    }
}

#[test]
fn a_process_may_trap_exits_from_the_first() -> Result<(), Error> {
    let (give, told) = channel();
    let runtime = Runtime::builder().desks(1).start()?;
    runtime.spawn(LinksAndExits(give))?;
    assert_eq!(told.recv_timeout(LONG)?, Reason::Other(7));
    assert_eq!(runtime.wait()?.panics, 0);
    Ok(())
}
