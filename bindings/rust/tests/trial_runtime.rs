//! The promises of the runtime itself, under many schedules of small scenarios.

use pundewo::runtime::{
    Address, Behaviour, CallFault, Child, Context, Event, Group, Handle, Name, Next, PANIC, Reason, Ref, Reply,
    Supervisor, Target,
};
use pundewo::trial::{Found, Token, Trial, World};
use std::sync::Arc;
use std::sync::atomic::{AtomicU32, Ordering::SeqCst};
use std::time::Duration;

/// How many runs each trial makes by chance, and how many of all, the first ones. More by `PUNDEWO_TRIALS`.
fn runs() -> u64 {
    std::env::var("PUNDEWO_TRIALS").map_or(40, |runs| runs.parse().expect("a number of runs"))
}

/// Runs a trial by chance, by priorities, and the first schedules of all.
fn tried<S: 'static>(trial: &Trial<S>) -> [Found; 3] {
    let found = [trial.random(runs(), 1), trial.priorities(runs(), 2, 3), trial.clone().limit(runs()).coarse().every()];
    found.iter().for_each(|found| _ = found.passes());
    found
}

/// Each outcome is one of these.
fn among(found: &Found, outcomes: &[&str]) {
    let is_among = |(outcome, _): &(&str, u64)| outcomes.contains(outcome);
    assert!(found.outcomes().iter().all(is_among), "{found}");
}

/// A server of one request, with what it does with it.
#[derive(Clone, Copy)]
enum Serves {
    Replies,
    Drops,
    Panics,
    Exits,
    Keeps,
}

struct Server(Serves, Vec<Reply<Token>>);

struct Ask(Token, Reply<Token>);

impl Behaviour for Server {
    type Message = Ask;

    fn handle(&mut self, cx: &mut Context<'_, Ask>, event: Event<Ask>) -> Next {
        let Event::Message(Ask(token, reply)) = event else { return Next::Wait };
        match self.0 {
            Serves::Replies => cx.reply(reply, token),
            Serves::Drops => {}
            Serves::Panics => panic!("no answer"),
            Serves::Exits => return Next::Stop(Reason::Other(7)),
            Serves::Keeps => self.1.push(reply),
        }
        Next::Wait
    }
}

/// Asks a server, and notes how that ended.
struct Client(Address<Ask>, Token, Option<pundewo::runtime::Call<Token>>, Vec<String>);

impl Behaviour for Client {
    type Message = ();

    fn started(&mut self, cx: &mut Context<'_, ()>) -> Next {
        let token = self.1.clone();
        self.2 = cx.call(&self.0, Duration::from_millis(9), |reply| Ask(token, reply)).ok();
        Next::Wait
    }

    fn handle(&mut self, _: &mut Context<'_, ()>, event: Event<()>) -> Next {
        let said = match (event, self.2) {
            (Event::Answer(answer), Some(call)) => match answer.to(&call).expect("the answer of the call") {
                Ok(token) => {
                    token.handle();
                    "value".to_string()
                }
                Err(CallFault::Down(reason, text)) => format!("down {reason} {}", text.as_deref().unwrap_or("-")),
                Err(fault) => format!("{fault:?}"),
            },
            (event, _) => format!("{event:?}"),
        };
        self.3.push(said);
        Next::Wait
    }
}

fn asks(serves: Serves, times: u32, kills: u32) -> Trial<Address<()>> {
    let scenario = move |world: &mut World| {
        let server = world.spawn_on(0, Server(serves, Vec::new()));
        world.may_be_killed(&server);
        let client = Client(server, world.token(), None, Vec::new());
        world.spawn_on(1, client)
    };
    let ended = |world: &World, client: &Address<()>| {
        world.behaviour(client, |client: &Client| client.3.join(", ")).expect("the client lives")
    };
    Trial::of(scenario).none_kept().time_goes_on(times).kills(kills).outcome(ended)
}

#[test]
fn a_call_ends_once_by_what_comes_first() {
    let late = "Timeout(None)";
    for (serves, how) in [
        (Serves::Replies, "value"),
        (Serves::Drops, "Dropped"),
        (Serves::Panics, "down other:4294967295 no answer"),
        (Serves::Exits, "down other:7 -"),
        (Serves::Keeps, late),
    ] {
        // (a server that panics, exits or is killed drops the request as well, and either news may come first)
        let exits = matches!(serves, Serves::Panics | Serves::Exits);
        let other = if exits { "Dropped" } else { how };
        tried(&asks(serves, 0, 0)).iter().for_each(|found| among(found, &[how, other]));
        let all = [how, other, late, "Dropped", "down killed -", "down noproc -"];
        tried(&asks(serves, 1, 1)).iter().for_each(|found| among(found, &all));
    }
}

#[test]
fn a_call_from_outside_ends_once() {
    for (serves, how) in [
        (Serves::Replies, "value"),
        (Serves::Drops, "Dropped"),
        (Serves::Panics, "Down(Other(4294967295), Some(\"no answer\"))"),
        (Serves::Keeps, "open"),
    ] {
        let trial = Trial::of(move |world| {
            let (server, token) = (world.spawn_on(0, Server(serves, Vec::new())), world.token());
            world.may_be_killed(&server);
            world.ask(&server, |reply| Ask(token, reply))
        });
        let trial = trial.none_kept().outcome(|_, asked| match asked.get() {
            Some(Ok(token)) => {
                token.handle();
                "value".to_string()
            }
            Some(Err(fault)) => format!("{fault:?}"),
            None => "open".to_string(),
        });
        tried(&trial).iter().for_each(|found| _ = found.expect([how]));
        tried(&trial.kills(1)).iter().for_each(|found| among(found, &[how, "Down(Killed, None)"]));
    }
}

/// Sends tokens to one that takes two of them and exits.
struct Sends(Address<Token>, Vec<Token>);

impl Behaviour for Sends {
    type Message = ();

    fn started(&mut self, cx: &mut Context<'_, ()>) -> Next {
        self.1.drain(..).for_each(|token| _ = cx.send(&self.0, token));
        Next::DONE
    }

    fn handle(&mut self, _: &mut Context<'_, ()>, _: Event<()>) -> Next {
        Next::DONE
    }
}

struct TakesTwo(u32);

impl Behaviour for TakesTwo {
    type Message = Token;

    fn handle(&mut self, _: &mut Context<'_, Token>, event: Event<Token>) -> Next {
        if let Event::Message(token) = event {
            token.handle();
            self.0 += 1;
        }
        if self.0 == 2 { Next::DONE } else { Next::Wait }
    }
}

#[test]
fn each_value_is_handled_or_dropped_once() {
    let trial = Trial::of(|world| {
        let takes = world.spawn_on(0, TakesTwo(0));
        for desk in [1, 2] {
            let tokens = (0..2).map(|_| world.token()).collect();
            world.spawn_on(desk, Sends(takes.clone(), tokens));
        }
        takes.send(world.token());
    });
    let trial = trial.desks(3).all_end().none_kept().at_rest(|world, ()| {
        let tokens = world.tokens();
        assert_eq!((tokens.made, tokens.handled, tokens.dropped), (5, 2, 3), "each of five, by two that were taken");
    });
    tried(&trial).iter().for_each(|found| _ = found.expect_one());
}

/// A child that exits as it is told, and says how often it was made.
struct Part(Arc<AtomicU32>);

impl Part {
    fn new(made: &Arc<AtomicU32>) -> Part {
        made.fetch_add(1, SeqCst);
        Part(made.clone())
    }
}

impl Behaviour for Part {
    type Message = bool;

    fn handle(&mut self, _: &mut Context<'_, bool>, event: Event<bool>) -> Next {
        match event {
            Event::Message(true) => panic!("told to, with {} made", self.0.load(SeqCst)),
            _ => Next::Stop(Reason::Normal),
        }
    }
}

struct Family {
    made: [Arc<AtomicU32>; 3],
    names: [Name<bool>; 3],
}

/// Three children under a supervisor: a permanent one, a transient one and a temporary one. Tellers tell some of them to exit
/// once they are there.
struct Tells(Vec<(Name<bool>, bool)>);

impl Behaviour for Tells {
    type Message = ();

    fn started(&mut self, _: &mut Context<'_, ()>) -> Next {
        Next::Proceed
    }

    fn handle(&mut self, cx: &mut Context<'_, ()>, event: Event<()>) -> Next {
        let (Event::Proceed | Event::Timeout) = event else { return Next::Wait };
        let Some((name, crashes)) = self.0.pop() else { return Next::DONE };
        match name.whereis() {
            Some(child) => _ = cx.send(&child, crashes),
            None => self.0.push((name, crashes)),
        }
        Next::WaitFor(Duration::from_millis(1))
    }
}

/// Some of the children may be on other desks than their supervisor.
fn family(supervisor: fn() -> Supervisor, desks: [Option<u8>; 3], told: Vec<(usize, bool)>) -> Trial<Family> {
    let on = |child: Child<bool>, desk: Option<u8>| if let Some(desk) = desk { child.on(desk) } else { child };
    let scenario = move |world: &mut World| {
        let made: [Arc<AtomicU32>; 3] = Default::default();
        let names = ["permanent", "transient", "temporary"].map(Name::new);
        let [one, two, three] = made.clone();
        let all = supervisor()
            .limit(9, Duration::from_secs(1))
            .child(on(Child::permanent(move || Part::new(&one)).named(&names[0]), desks[0]))
            .child(on(Child::transient(move || Part::new(&two)).named(&names[1]), desks[1]))
            .child(on(Child::temporary(move || Part::new(&three)).named(&names[2]), desks[2]));
        world.spawn_on(0, all);
        let tells = told.iter().rev().map(|&(child, crashes)| (names[child].clone(), crashes)).collect();
        world.spawn_on(1, Tells(tells));
        Family { made, names }
    };
    let trial = Trial::of(scenario).always(|world, family| {
        for name in &family.names {
            let found = name.whereis();
            let is_told = |it: &Address<bool>| world.living().iter().any(|(pid, _)| *pid == it.pid());
            assert!(found.as_ref().is_none_or(is_told), "{name} leads to {found:?}, which has exited");
        }
    });
    trial.outcome(|_, family| {
        let is_there = |name: &Name<bool>| if name.whereis().is_some() { "+" } else { "-" };
        let each = family.made.iter().zip(&family.names);
        each.map(|(made, name)| format!("{}{}", made.load(SeqCst), is_there(name))).collect::<Vec<_>>().join(" ")
    })
}

/// Each child is started again as its strategy says, on these desks.
fn starts_again(desks: [Option<u8>; 3]) {
    for (supervisor, told, expected) in [
        (Supervisor::one_for_one as fn() -> Supervisor, vec![(0, true), (1, true), (2, true)], "2+ 2+ 1-"),
        (Supervisor::one_for_one, vec![(0, false), (1, false), (2, false)], "2+ 1- 1-"),
        (Supervisor::one_for_all, vec![(1, true)], "2+ 2+ 1-"),
        (Supervisor::rest_for_one, vec![(1, true)], "1+ 2+ 1-"),
    ] {
        let trial = family(supervisor, desks, told).desks(3);
        tried(&trial).iter().for_each(|found| _ = found.expect([expected]));
    }
}

#[test]
fn each_child_is_started_again_as_its_strategy_says() {
    starts_again([None; 3]);
}

#[test]
fn children_on_other_desks_are_started_again_as_well() {
    starts_again([Some(1), None, Some(2)]);
    starts_again([Some(2), Some(1), None]);
}

/// Monitors a process, and another one whose monitor it takes back, and notes what it hears.
struct Watches {
    kept: Address<bool>,
    left: Address<bool>,
    monitors: Vec<Ref>,
    heard: Vec<String>,
}

impl Behaviour for Watches {
    type Message = ();

    fn started(&mut self, cx: &mut Context<'_, ()>) -> Next {
        self.monitors = [&self.kept, &self.left].map(|it| cx.monitor(Target::from(it)).expect("a monitor")).into();
        cx.demonitor(self.monitors[1]);
        Next::Wait
    }

    fn handle(&mut self, _: &mut Context<'_, ()>, event: Event<()>) -> Next {
        if let Event::Down(down) = event {
            assert_eq!(down.monitor, self.monitors[0], "the monitor that was not taken back");
            let text = down.panic.as_deref().unwrap_or("-");
            self.heard.push(format!("{} {text}", down.reason));
        }
        Next::Wait
    }
}

#[test]
fn a_monitor_tells_once_and_not_after_it_was_taken_back() {
    let trial = Trial::of(|world| {
        let made = Arc::default();
        let [kept, left] = [(); 2].map(|()| world.spawn_on(0, Part::new(&made)));
        assert!(kept.send(true) && left.send(true));
        world.spawn_on(1, Watches { kept, left, monitors: Vec::new(), heard: Vec::new() })
    });
    let trial = trial.outcome(|world, watches| {
        let heard = world.behaviour(watches, |watches: &Watches| watches.heard.join(", "));
        heard.unwrap_or_else(|| format!("crashed: {:?}", world.panics()))
    });
    let known = ["noproc -", "other:4294967295 told to, with 2 made"];
    tried(&trial).iter().for_each(|found| among(found, &known));
}

/// Links with a process, and notes what it hears.
struct Links(Address<bool>, Vec<String>);

impl Behaviour for Links {
    type Message = ();

    fn traps_exits(&self) -> bool {
        true
    }

    fn started(&mut self, cx: &mut Context<'_, ()>) -> Next {
        cx.link(&self.0).expect("a link");
        Next::Wait
    }

    fn handle(&mut self, _: &mut Context<'_, ()>, event: Event<()>) -> Next {
        if let Event::Exit(exit) = event {
            assert_eq!(exit.pid, self.0.pid(), "the one with which it has linked");
            self.1.push(format!("{} {}", exit.reason, exit.panic.as_deref().unwrap_or("-")));
        }
        Next::Wait
    }
}

#[test]
fn a_link_tells_once() {
    for desk in [0, 1] {
        let trial = Trial::of(move |world| {
            let part = world.spawn_on(0, Part::new(&Arc::default()));
            assert!(part.send(true));
            world.spawn_on(desk, Links(part, Vec::new()))
        });
        let trial = trial.outcome(|world, links| {
            let heard = world.behaviour(links, |links: &Links| links.1.join(", "));
            heard.unwrap_or_else(|| format!("crashed: {:?}", world.panics()))
        });
        let known = ["noproc -", "other:4294967295 told to, with 1 made"];
        tried(&trial).iter().for_each(|found| among(found, &known));
    }
}

/// Sends itself a message later, and counts what comes.
struct Sleeps(u32);

impl Behaviour for Sleeps {
    type Message = u32;

    fn started(&mut self, cx: &mut Context<'_, u32>) -> Next {
        let me = cx.me().clone();
        cx.send_after(Duration::from_millis(5), &me, 1);
        let cancelled = cx.send_after(Duration::from_millis(2), &me, 100);
        assert!(cx.cancel(cancelled) && !cx.cancel(cancelled));
        Next::WaitFor(Duration::from_millis(2))
    }

    fn handle(&mut self, _: &mut Context<'_, u32>, event: Event<u32>) -> Next {
        self.0 += match event {
            Event::Message(number) => number,
            Event::Timeout => 10,
            _ => 1000,
        };
        Next::Wait
    }
}

#[test]
fn timers_are_never_early_and_none_comes_that_was_cancelled() {
    let trial = Trial::of(|world| [0, 1].map(|desk| world.spawn_on(desk, Sleeps(0))));
    let trial = trial.time_goes_on(2).always(|world, all| {
        for it in all {
            let count = world.behaviour(it, |it: &Sleeps| it.0).unwrap_or_default();
            assert!(count < 10 || world.now() >= Duration::from_millis(2), "a timeout is early");
            assert!(count % 10 == 0 || world.now() >= Duration::from_millis(5), "a message is early");
        }
    });
    let trial = trial.outcome(|world, all| {
        let count = |it: &Address<u32>| world.behaviour(it, |it: &Sleeps| it.0.to_string()).unwrap_or_default();
        format!("{} {}", count(&all[0]), count(&all[1]))
    });
    // (if time goes on before both are due, the message comes first)
    tried(&trial).iter().for_each(|found| among(found, &["11 11", "1 11", "11 1", "1 1"]));
}

/// Joins a group, spawns another on the other desk, and exits later.
struct Joins(Group<bool>, u32);

impl Behaviour for Joins {
    type Message = bool;

    fn started(&mut self, cx: &mut Context<'_, bool>) -> Next {
        self.0.join(cx.me()).expect("a process of this run");
        if self.1 > 0 {
            let desk = 1 - cx.pid().shard;
            _ = cx.spawn_on(desk, Joins(self.0.clone(), self.1 - 1));
        }
        Next::WaitFor(Duration::from_millis(1))
    }

    fn handle(&mut self, _: &mut Context<'_, bool>, event: Event<bool>) -> Next {
        assert!(!matches!(event, Event::Answer(ref answer) if format!("{answer:?}").contains("Err")));
        if let Event::Timeout = event { Next::DONE } else { Next::WaitFor(Duration::from_millis(1)) }
    }
}

/// Stops the run.
struct Stops(Handle);

impl Behaviour for Stops {
    type Message = ();

    fn started(&mut self, _: &mut Context<'_, ()>) -> Next {
        self.0.stop();
        Next::Wait
    }

    fn handle(&mut self, _: &mut Context<'_, ()>, _: Event<()>) -> Next {
        Next::Wait
    }
}

#[test]
fn a_stop_ends_all() {
    let trial = Trial::of(|world| {
        world.spawn_on(0, Counts(Vec::new()));
        world.spawn_on(0, Counts(Vec::new()));
        world.spawn_on(1, Supervisor::one_for_one().permanent(|| Part(Arc::default())));
        let stops = Stops(world.handle());
        world.spawn_on(1, stops);
    });
    tried(&trial.no_panics().all_end()).iter().for_each(|found| _ = found.expect_one());
}

#[test]
fn one_that_exits_has_no_name_and_is_in_no_group() {
    let trial = Trial::of(|world| {
        let (group, name) = (Group::new(world, "a group"), Name::new("a name"));
        let first = world.spawn_on(0, Joins(group.clone(), 2));
        assert!(name.register(&first) && name.whereis() == Some(first));
        (group, name)
    });
    let trial = trial.no_panics().all_end().outcome(|_, (group, name)| format!("{} {:?}", group.len(), name.whereis()));
    tried(&trial).iter().for_each(|found| _ = found.expect(["0 None"]));
}

/// Counts what comes from outside.
struct Counts(Vec<u32>);

impl Behaviour for Counts {
    type Message = u32;

    fn handle(&mut self, _: &mut Context<'_, u32>, event: Event<u32>) -> Next {
        if let Event::Message(number) = event {
            self.0.push(number);
        }
        Next::Wait
    }
}

#[test]
fn what_one_sends_comes_in_order() {
    let trial = Trial::of(|world| {
        let counts = world.spawn_on(0, Counts(Vec::new()));
        (0..4).for_each(|number| assert!(counts.send(number)));
        counts
    });
    let trial =
        trial.outcome(|world, counts| world.behaviour(counts, |it: &Counts| format!("{:?}", it.0)).unwrap_or_default());
    tried(&trial).iter().for_each(|found| _ = found.expect(["[0, 1, 2, 3]"]));
    assert_eq!(PANIC, Reason::Other(u32::MAX));
}
