//! Calls of processes that have exited, monitors of them, and links with them: they answer as those of processes that exit.

use pundewo::runtime::{
    Address, Behaviour, Call, CallFault, Context, Down, Event, Exit, GONE, Next, Refusal, Reply, Runtime, Selection,
};
use pundewo::{Fault, Happened, History, Pick, Pid, Reason, Ref};
use std::sync::mpsc::{Sender, channel};
use std::sync::{Arc, Mutex};
use std::time::Duration;

const LONG: Duration = Duration::from_secs(120);
const SHORT: Duration = Duration::from_millis(30);

type Error = Box<dyn std::error::Error>;

/// Answers with 1, and exits at anything else.
struct Server;

struct Ask(Option<Reply<u32>>);

impl Behaviour for Server {
    type Message = Ask;

    fn handle(&mut self, cx: &mut Context<'_, Ask>, event: Event<Ask>) -> Next {
        match event {
            Event::Message(Ask(Some(reply))) => {
                cx.reply(reply, 1);
                Next::Wait
            }
            _ => Next::DONE,
        }
    }
}

type Play = Box<dyn FnMut(&mut Context<'_, ()>, Option<Event<()>>) -> Next + Send>;

/// Does what the closure says.
struct Plays(Play);

impl Behaviour for Plays {
    type Message = ();

    fn started(&mut self, cx: &mut Context<'_, ()>) -> Next {
        (self.0)(cx, None)
    }

    fn handle(&mut self, cx: &mut Context<'_, ()>, event: Event<()>) -> Next {
        (self.0)(cx, Some(event))
    }
}

/// A server of this desk that has exited, as all desks have seen.
fn exited(runtime: &Runtime, desk: u8) -> Result<Address<Ask>, Error> {
    let server = runtime.spawn_on(desk, Server)?;
    let watch = runtime.mailbox::<()>()?;
    watch.monitor(&server)?;
    assert!(server.send(Ask(None)));
    let mut watch = watch;
    assert!(matches!(watch.recv_within(LONG), Some(Event::Down(_))));
    // (its values go as the exit is told)
    while server.send(Ask(None)) {}
    Ok(server)
}

/// On the desk of the process that has exited, and on another one, which sees that at the second try or not.
#[test]
fn a_monitor_on_an_exited_process_tells_so() -> Result<(), Error> {
    let refused = Arc::new(Mutex::new(0));
    let count = refused.clone();
    let sink = move |history: &History| -> Result<(), Refusal> {
        let all = history.events().filter(|event| matches!(event.happened, Happened::Refused(..)));
        *count.lock().map_err(|_| "a lock")? += all.count();
        Ok(())
    };
    let runtime = Runtime::builder().desks(2).going_on_every(20).archive(sink).start()?;
    let server = exited(&runtime, 0)?;
    for desk in [0, 1] {
        let ((give, told), server, mut open) = (channel(), server.clone(), Vec::<Ref>::new());
        let mut by_pid = false;
        let pid = server.pid();
        runtime.spawn_on(
            desk,
            Plays(Box::new(move |cx, event| {
                match event {
                    None => open = (0..3).map(|_| cx.monitor(&server).expect("a monitor")).collect(),
                    Some(Event::Down(Down { monitor, pid, reason, panic: None })) => {
                        assert_eq!((monitor, pid, reason), (open.remove(0), server.pid(), Reason::Noproc));
                        give.send(open.len()).expect("a test");
                        if !std::mem::replace(&mut by_pid, true) {
                            open.push(cx.monitor(pid).expect("a monitor"));
                        }
                    }
                    other => panic!("{other:?}"),
                }
                if open.is_empty() { Next::DONE } else { Next::Wait }
            })),
        )?;
        let heard: Vec<usize> = (0..4).map(|_| told.recv_timeout(LONG)).collect::<Result<_, _>>()?;
        assert_eq!(heard, [2, 2, 1, 0], "{pid}");
    }
    assert_eq!(runtime.wait()?.panics, 0);
    assert!(*refused.lock().map_err(|_| "a lock")? >= 4);
    Ok(())
}

/// Nothing is told of a monitor that was taken back, and a pick or a selection chooses one that was not.
#[test]
fn such_a_monitor_is_taken_back_and_chosen() -> Result<(), Error> {
    let (runtime, (give, told)) = (Runtime::builder().desks(1).start()?, channel());
    let server = exited(&runtime, 0)?;
    let (mut monitors, mut step) = (Vec::<Ref>::new(), 0);
    runtime.spawn(Plays(Box::new(move |cx, event| {
        if let Some(event) = event {
            let number = match &event {
                Event::Down(down) => monitors.iter().position(|it| *it == down.monitor),
                Event::Message(()) => Some(77),
                _ => None,
            };
            give.send(number).expect("a test");
        }
        step += 1;
        match step {
            1 => {
                monitors = (0..5).map(|_| cx.monitor(&server).expect("a monitor")).collect();
                let me = cx.me().clone();
                cx.send(&me, ());
                // before its news has come, and after it has come and waits
                cx.demonitor(monitors[0]);
                Next::SelectFor(Selection::kinds(&[50, 51]), SHORT)
            }
            2 => {
                cx.demonitor(monitors[1]);
                Next::Only(Pick::DownOf(monitors[3]))
            }
            3 => Next::SelectFor(Selection::NONE.downs(true), SHORT),
            4 | 5 => Next::OnlyFor(Pick::DownOf(monitors[4]), SHORT),
            6 => Next::WaitFor(SHORT),
            7 => Next::WaitFor(SHORT),
            _ => Next::DONE,
        }
    })))?;
    let heard: Vec<Option<usize>> = (0..7).map(|_| told.recv_timeout(LONG)).collect::<Result<_, _>>()?;
    assert_eq!(heard, [None, Some(3), Some(2), Some(4), None, Some(77), None]);
    assert_eq!(runtime.drain(LONG)?.panics, 0);
    Ok(())
}

/// A pick of such a monitor leaves the news of others where they are.
#[test]
fn a_pick_of_such_a_monitor_takes_no_other() -> Result<(), Error> {
    let (runtime, (give, told)) = (Runtime::builder().desks(1).start()?, channel());
    let server = exited(&runtime, 0)?;
    let (mut monitors, mut step) = (Vec::<Ref>::new(), 0);
    runtime.spawn(Plays(Box::new(move |cx, event| {
        if let Some(Event::Down(down)) = event {
            give.send(monitors.iter().position(|it| *it == down.monitor)).expect("a test");
        }
        step += 1;
        match step {
            1 => {
                monitors = (0..4).map(|_| cx.monitor(&server).expect("a monitor")).collect();
                Next::Only(Pick::DownOf(monitors[2]))
            }
            2 => Next::Only(Pick::Kind(GONE)),
            3 => Next::Only(Pick::DownOf(monitors[3])),
            4 => Next::Wait,
            _ => Next::DONE,
        }
    })))?;
    let heard: Vec<Option<usize>> = (0..4).map(|_| told.recv_timeout(LONG)).collect::<Result<_, _>>()?;
    assert_eq!(heard, [Some(2), Some(0), Some(3), Some(1)]);
    assert_eq!(runtime.wait()?.panics, 0);
    Ok(())
}

/// Asks a server, and tells the test how that ended.
fn asks(server: Address<Ask>, give: Sender<Result<u32, CallFault>>) -> Plays {
    let mut call: Option<Call<u32>> = None;
    Plays(Box::new(move |cx, event| match event {
        None => {
            let ask = |_: Reply<u32>| -> Ask { panic!("nobody is asked") };
            call = Some(cx.call(&server, LONG, ask).expect("a call"));
            Next::Wait
        }
        Some(Event::Answer(answer)) => {
            let call = call.expect("a call");
            assert!(answer.is_of(&call));
            give.send(answer.to(&call).expect("its answer")).expect("a test");
            Next::DONE
        }
        other => panic!("{other:?}"),
    }))
}

#[test]
fn a_call_of_an_exited_process_ends_alike() -> Result<(), Error> {
    let (runtime, (give, told)) = (Runtime::builder().desks(2).start()?, channel());
    let server = exited(&runtime, 0)?;
    for desk in [0, 1] {
        for _ in 0..3 {
            runtime.spawn_on(desk, asks(server.clone(), give.clone()))?;
            let fault = told.recv_timeout(LONG)?.expect_err("no answer");
            assert_eq!(fault, CallFault::Down(Reason::Noproc, None));
            assert_eq!(runtime.call(&server, LONG, |reply| Ask(Some(reply))), Err(fault));
        }
    }
    // no call is open: the run drains at once
    assert_eq!(runtime.drain(LONG)?.panics, 0);
    Ok(())
}

/// What cannot be asked is still refused at once.
#[test]
fn faults_of_the_caller_stay_faults() -> Result<(), Error> {
    let other = Runtime::builder().desks(1).start()?;
    let ((give, told), foreign) = (channel(), exited(&other, 0)?);
    let runtime = Runtime::builder().desks(1).start()?;
    runtime.spawn(Plays(Box::new(move |cx, _| {
        let me = cx.me().clone();
        give.send(cx.monitor(&me).err()).expect("a test");
        give.send(cx.monitor(&foreign).err()).expect("a test");
        give.send(cx.call(&foreign, LONG, |reply| Ask(Some(reply))).err()).expect("a test");
        Next::DONE
    })))?;
    let heard: Vec<Option<Fault>> = (0..3).map(|_| told.recv_timeout(LONG)).collect::<Result<_, _>>()?;
    assert_eq!(heard, [Some(Fault::Myself), Some(Fault::OtherRun), Some(Fault::OtherRun)]);
    runtime.wait()?;
    other.stop()?;
    Ok(())
}

/// Links itself with a server as it is told to, and tells the test the exit signal that it gets, and how it ends.
struct Links {
    server: Address<Ask>,
    traps: bool,
    give: Sender<(Option<Pid>, Reason)>,
}

impl Behaviour for Links {
    type Message = ();

    fn handle(&mut self, cx: &mut Context<'_, ()>, event: Event<()>) -> Next {
        match event {
            Event::Message(()) => {
                cx.trap_exits(self.traps).expect("a flag");
                cx.link(&self.server).expect("a link");
                Next::Wait
            }
            Event::Exit(Exit { pid, reason, panic: None }) => {
                self.give.send((Some(pid), reason)).expect("a test");
                Next::DONE
            }
            other => panic!("{other:?}"),
        }
    }

    fn ended(self, why: Reason) {
        self.give.send((None, why)).expect("a test");
    }
}

/// On the desk of the exited process, and on another one, which may not have seen the exit: then the table does all of it.
#[test]
fn a_link_with_an_exited_process_gets_its_exit_signal() -> Result<(), Error> {
    let runtime = Runtime::builder().desks(2).start()?;
    let server = exited(&runtime, 0)?;
    for desk in [0, 1] {
        for traps in [false, true, false, true] {
            let (give, told) = channel();
            let links = runtime.spawn_on(desk, Links { server: server.clone(), traps, give })?;
            assert!(links.send(()));
            let heard: Vec<(Option<Pid>, Reason)> = told.iter().collect();
            let trapped = [(Some(server.pid()), Reason::Noproc), (None, Reason::Normal)];
            let ended = [(None, Reason::Noproc)];
            assert_eq!(heard, if traps { &trapped[..] } else { &ended[..] }, "desk {desk}");
        }
    }
    assert_eq!(runtime.drain(LONG)?.panics, 0);
    Ok(())
}

/// Such an exit signal waits in its place, and a pick or a selection chooses it.
#[test]
fn such_an_exit_signal_is_chosen() -> Result<(), Error> {
    let (runtime, (give, told)) = (Runtime::builder().desks(1).start()?, channel());
    let servers = [exited(&runtime, 0)?, exited(&runtime, 0)?];
    let [first, second] = [servers[0].pid(), servers[1].pid()];
    let mut step = 0;
    runtime.spawn(Plays(Box::new(move |cx, event| {
        if let Some(event) = event {
            let of = |pid| if pid == first { 1 } else { 2 };
            let number = match &event {
                Event::Exit(exit) => of(exit.pid),
                Event::Down(down) => 10 * of(down.pid),
                Event::Message(()) => 77,
                _ => 0,
            };
            give.send(number).expect("a test");
        }
        step += 1;
        match step {
            1 => {
                cx.trap_exits(true).expect("a flag");
                let me = cx.me().clone();
                cx.send(&me, ());
                cx.link(&servers[0]).expect("a link");
                cx.monitor(&servers[0]).expect("a monitor");
                cx.link(&servers[1]).expect("a link");
                cx.link(&servers[0]).expect("a link");
                Next::Only(Pick::ExitOf(second))
            }
            2 => Next::SelectFor(Selection::NONE.answers(true), SHORT),
            3 => Next::Select(Selection::NONE.exits(true)),
            4 => Next::Select(Selection::NONE.downs(true)),
            5 => Next::Only(Pick::ExitOf(first)),
            6 => Next::OnlyFor(Pick::ExitOf(second), SHORT),
            7 => Next::Wait,
            _ => Next::DONE,
        }
    })))?;
    let heard: Vec<u32> = (0..7).map(|_| told.recv_timeout(LONG)).collect::<Result<_, _>>()?;
    assert_eq!(heard, [2, 0, 1, 10, 1, 0, 77]);
    assert_eq!(runtime.wait()?.panics, 0);
    Ok(())
}

/// A process that begins to trap exits before such an exit signal comes gets it of the exited process, and none if it has
/// unlinked itself. One from outside with the same reason keeps its sender.
#[test]
fn such_an_exit_signal_is_trapped_in_time() -> Result<(), Error> {
    let (runtime, (give, told)) = (Runtime::builder().desks(1).start()?, channel());
    let servers = [exited(&runtime, 0)?, exited(&runtime, 0)?, exited(&runtime, 0)?];
    let pids = [servers[0].pid(), servers[1].pid(), servers[2].pid()];
    let links = runtime.spawn(Plays(Box::new(move |cx, event| {
        if let Some(Event::Exit(exit)) = &event {
            let place = pids.iter().position(|pid| *pid == exit.pid);
            give.send((place, exit.reason)).expect("a test");
            return Next::Wait;
        }
        servers.iter().for_each(|server| cx.link(server).expect("a link"));
        cx.unlink(&servers[1]).expect("an unlink");
        cx.trap_exits(true).expect("a flag");
        // (while it traps, the signal is a message)
        cx.link(&servers[1]).expect("a link");
        cx.link(&servers[0]).expect("a link");
        cx.unlink(&servers[1]).expect("an unlink");
        Next::Only(Pick::ExitOf(pids[2]))
    })))?;
    let heard = [told.recv_timeout(LONG)?, told.recv_timeout(LONG)?, told.recv_timeout(LONG)?];
    assert_eq!(heard, [2, 0, 0].map(|place| (Some(place), Reason::Noproc)));
    runtime.exit(&links, Reason::Noproc)?;
    assert_eq!(told.recv_timeout(LONG)?, (None, Reason::Noproc));
    runtime.exit(&links, Reason::Kill)?;
    assert_eq!((runtime.wait()?.panics, told.try_recv().is_err()), (0, true));
    Ok(())
}

/// Tells with which reason it has exited.
struct Tells(u32, Sender<(u32, Reason)>);

impl Behaviour for Tells {
    type Message = ();

    fn handle(&mut self, _: &mut Context<'_, ()>, _: Event<()>) -> Next {
        Next::Wait
    }

    fn ended(self, why: Reason) {
        self.1.send((self.0, why)).expect("a receiver");
    }
}

#[test]
fn each_of_many_exits_is_told_with_its_reason() -> Result<(), Error> {
    const COUNT: u32 = 600;
    let runtime = Runtime::builder().desks(1).slots(COUNT + 2).start()?;
    let (give, told) = channel();
    let tells = (0..COUNT).map(|number| runtime.spawn(Tells(number, give.clone())));
    let all: Vec<Address<()>> = tells.collect::<Result<_, _>>()?;
    // (by exit signals, of which their crew hears by what the desk has lost, and in another order than they were spawned)
    for (number, address) in (0..COUNT).zip(&all).rev() {
        runtime.exit(address, if number == 7 { Reason::Noproc } else { Reason::Other(number) })?;
    }
    for _ in 0..COUNT {
        let (number, why) = told.recv_timeout(LONG)?;
        assert_eq!(why, if number == 7 { Reason::Noproc } else { Reason::Other(number) });
    }
    runtime.stop()?;
    Ok(())
}
