//! Trials: what they find, and that the ways through the schedules are what they say.

mod trials;

use pundewo::Pid;
use pundewo::runtime::{Address, Behaviour, CallFault, Context, Event, Name, Next, SpawnFault};
use pundewo::trial::{Found, Trial, World, Wrong};
use std::panic::{AssertUnwindSafe, catch_unwind};
use std::sync::atomic::{AtomicU64, Ordering::SeqCst};
use std::time::Duration;
use trials::{Adder, Cell, ToCell};

/// Clients that each make a cell one higher, on a desk each.
fn adders(clients: u8, at_once: bool) -> Trial<Address<ToCell>> {
    let scenario = move |world: &mut World| {
        let cell = world.spawn_on(0, Cell::default());
        for client in 1..=clients {
            world.spawn_on(client, Adder::new(&cell, at_once));
        }
        cell
    };
    let value = |world: &World, cell: &Address<ToCell>| {
        world.behaviour(cell, |cell: &Cell| format!("value {}", cell.0)).expect("the cell lives")
    };
    Trial::of(scenario).desks(usize::from(clients) + 1).outcome(value)
}

fn counts(found: &Found) -> (u64, u64, Vec<(String, u64)>) {
    let outcomes = found.outcomes().into_iter().map(|(outcome, count)| (outcome.to_string(), count));
    (found.runs(), found.moves(), outcomes.collect())
}

#[test]
fn a_lost_update_is_found_replayed_and_mended() {
    let found = adders(2, false).coarse().every();
    found.expect(["value 1", "value 2"]);
    assert!(found.is_whole());
    let lost = found.of("value 1").expect("a lost update");
    assert!(lost.schedule().0.len() <= 3, "{lost}");
    assert!(lost.history().iter().any(|line| line.contains("said <2.1.1> -> <0.1.1> monitor")), "{lost}");
    let again = adders(2, false).coarse().replay(&lost.schedule().to_string());
    assert_eq!((again.outcome.as_deref(), again.wrong), (Some("value 1"), None));
    assert_eq!(again.history, lost.history());
    let file = std::env::temp_dir().join(format!("pundewo_trial_{}", std::process::id()));
    lost.save(&file).expect("a folder for what is left");
    let saved = std::fs::read_to_string(&file).expect("a file");
    std::fs::remove_file(&file).expect("the file that was written");
    assert!(saved.ends_with('\n') && saved.lines().eq(lost.history()), "{saved}");
    adders(2, true).coarse().every().expect(["value 2"]);
}

#[test]
fn an_outcome_that_is_not_expected_is_told_with_its_schedule() {
    let found = adders(2, false).coarse().every();
    let told = catch_unwind(AssertUnwindSafe(|| _ = found.expect(["value 2"]))).expect_err("an update is lost");
    let text = told.downcast_ref::<String>().expect("a text");
    assert!(text.starts_with("this outcome was not expected: value 1\nthe shortest schedule found: "), "{text}");
    assert!(text.contains("\nto run it again: .replay(\""), "{text}");
}

#[test]
fn all_ways_and_threads_agree() {
    let every = adders(1, false).every();
    every.expect(["value 1"]);
    assert!(every.is_whole());
    assert_eq!(counts(&every), counts(&adders(1, false).threads(3).every()));
    let reduced = adders(1, false).reduced().every();
    reduced.expect(["value 1"]);
    assert!(reduced.runs() < every.runs(), "{reduced}");
    let bounded = adders(1, false).bounded(1);
    assert!(bounded.is_whole() && bounded.runs() < every.runs() && bounded.runs() > adders(1, false).bounded(0).runs());
    assert_eq!(adders(1, false).bounded(1_000).runs(), every.runs());
}

#[test]
fn a_limit_and_the_reduction_are_the_same_on_threads() {
    let trial = || adders(2, false).coarse();
    let limited = trial().limit(50).every();
    assert!(limited.runs() == 50 && !limited.is_whole());
    assert_eq!(counts(&limited), counts(&trial().limit(50).threads(3).every()));
    let reduced = trial().reduced().every();
    assert_eq!(counts(&reduced), counts(&trial().reduced().threads(3).every()));
    reduced.expect(["value 1", "value 2"]);
}

/// Keeps the words that it is told.
#[derive(Default)]
struct Listens(Vec<&'static str>);

impl Behaviour for Listens {
    type Message = &'static str;

    fn handle(&mut self, _: &mut Context<'_, &'static str>, event: Event<&'static str>) -> Next {
        if let Event::Message(word) = event {
            self.0.push(word);
        }
        Next::Wait
    }
}

/// Tells each of these a word, as it begins or as it is told something.
struct Tells(Vec<(Address<&'static str>, &'static str)>, bool);

impl Behaviour for Tells {
    type Message = &'static str;

    fn started(&mut self, cx: &mut Context<'_, &'static str>) -> Next {
        if self.1 { self.handle(cx, Event::Timeout) } else { Next::Wait }
    }

    fn handle(&mut self, cx: &mut Context<'_, &'static str>, _: Event<&'static str>) -> Next {
        self.0.drain(..).for_each(|(to, word)| _ = cx.send(&to, word));
        Next::DONE
    }
}

fn words(world: &World, listens: &Address<&'static str>) -> String {
    world.behaviour(listens, |it: &Listens| it.0.join(" ")).expect("it lives")
}

#[test]
fn what_is_sent_to_two_may_come_to_the_second_first() {
    // (the first one sends to the third and to the second, and that one to the third: in either order of desks)
    for [first, second, third] in [[0, 1, 2], [2, 1, 0]] {
        let scenario = move |world: &mut World| {
            let listens = world.spawn_on(third, Listens::default());
            let tells = world.spawn_on(second, Tells(vec![(listens.clone(), "second")], false));
            world.spawn_on(first, Tells(vec![(listens.clone(), "first"), (tells, "tell")], true));
            listens
        };
        let trial = Trial::of(scenario).desks(3).outcome(words);
        trial.random(200, 1).expect(["first second", "second first"]);
    }
}

#[test]
fn letters_of_several_desks_come_in_each_order() {
    let scenario = |world: &mut World| {
        let listens = world.spawn_on(0, Listens::default());
        for (desk, word) in [(1, "one"), (2, "two"), (3, "three")] {
            world.spawn_on(desk, Tells(vec![(listens.clone(), word)], true));
        }
        listens
    };
    let found = Trial::of(scenario).desks(4).outcome(words).random(300, 1);
    found
        .expect(["one two three", "one three two", "two one three", "two three one", "three one two", "three two one"]);
}

#[test]
fn chance_finds_the_rare_and_is_the_same_again() {
    let random = adders(2, false).random(200, 7);
    assert_eq!(random.runs(), 200);
    assert_eq!(counts(&random), counts(&adders(2, false).threads(2).random(200, 7)));
    assert_ne!(counts(&random), counts(&adders(2, false).random(200, 8)));
    random.expect(["value 1", "value 2"]);
    let priorities = adders(2, false).priorities(200, 7, 2);
    assert_eq!(counts(&priorities), counts(&adders(2, false).threads(2).priorities(200, 7, 2)));
    priorities.expect(["value 1", "value 2"]);
}

/// Asks a cell, with a time.
struct Patient(Address<ToCell>, Option<&'static str>);

impl Behaviour for Patient {
    type Message = ();

    fn started(&mut self, cx: &mut Context<'_, ()>) -> Next {
        _ = cx.call(&self.0, Duration::from_millis(5), ToCell::Get);
        Next::Wait
    }

    fn handle(&mut self, _: &mut Context<'_, ()>, event: Event<()>) -> Next {
        if let Event::Answer(answer) = event {
            assert!(self.1.is_none(), "a call ends once");
            self.1 = Some(if format!("{answer:?}").contains("Err") { "fault" } else { "answer" });
        }
        Next::Wait
    }
}

fn patient() -> Trial<(Address<ToCell>, Address<()>)> {
    let scenario = |world: &mut World| {
        let cell = world.spawn_on(0, Cell::default());
        let patient = world.spawn_on(1, Patient(cell.clone(), None));
        world.may_be_killed(&cell);
        (cell, patient)
    };
    Trial::of(scenario).no_panics().outcome(|world, (_, patient)| {
        world.behaviour(patient, |it: &Patient| it.1.unwrap_or("nothing").to_string()).expect("it lives")
    })
}

#[test]
fn time_and_kills_are_choices() {
    patient().coarse().every().expect(["answer"]);
    patient().coarse().time_goes_on(1).every().expect(["answer", "fault"]);
    let killed = patient().coarse().kills(1).every();
    killed.expect(["answer", "fault"]);
    let schedule = killed.of("fault").expect("a fault").schedule().to_string();
    assert!(schedule.contains("k<0.1.1>"), "{schedule}");
}

#[test]
fn the_reduction_has_the_same_outcomes() {
    for trial in [patient().coarse(), patient().coarse().time_goes_on(1), patient().coarse().kills(1)] {
        let (every, reduced) = (trial.every(), trial.clone().reduced().every());
        assert!(every.is_whole() && reduced.is_whole() && reduced.runs() <= every.runs());
        let texts = |found: &Found| found.outcomes().into_iter().map(|(text, _)| text.to_string()).collect::<Vec<_>>();
        assert_eq!(texts(&every), texts(&reduced));
    }
}

/// Sends many, or counts what comes.
enum Many {
    To(Address<u32>),
    Got(Vec<u32>),
}

impl Behaviour for Many {
    type Message = u32;

    fn started(&mut self, cx: &mut Context<'_, u32>) -> Next {
        if let Many::To(to) = self {
            (0..3).for_each(|number| assert!(cx.send(to, number)));
            return Next::DONE;
        }
        Next::Wait
    }

    fn handle(&mut self, _: &mut Context<'_, u32>, event: Event<u32>) -> Next {
        if let (Event::Message(number), Many::Got(got)) = (event, self) {
            got.push(number);
        }
        Next::Wait
    }
}

#[test]
fn small_lanes_lose_nothing() {
    let trial = Trial::of(|world| {
        let got = world.spawn_on(0, Many::Got(Vec::new()));
        world.spawn_on(1, Many::To(got.clone()));
        got
    });
    let trial = trial.lane(1).outcome(|world, got| {
        world
            .behaviour(got, |got: &Many| if let Many::Got(got) = got { format!("{got:?}") } else { String::new() })
            .unwrap()
    });
    trial.clone().limit(300).every().expect(["[0, 1, 2]"]);
    trial.random(100, 1).expect(["[0, 1, 2]"]);
}

/// What a process does wrong.
#[derive(Clone, Copy)]
enum Fault {
    Panics,
    Waits,
    Proceeds,
    Leaks,
    Shares,
}

static SHARED: AtomicU64 = AtomicU64::new(0);

struct Wrongs(Fault, Option<pundewo::trial::Token>);

impl Behaviour for Wrongs {
    type Message = u32;

    fn started(&mut self, cx: &mut Context<'_, u32>) -> Next {
        match self.0 {
            Fault::Panics => panic!("out of order"),
            Fault::Waits => return Next::Wait,
            Fault::Proceeds => return Next::Proceed,
            Fault::Leaks => std::mem::forget(self.1.take()),
            Fault::Shares if SHARED.fetch_add(1, SeqCst) % 2 == 1 => {
                let me = cx.me().clone();
                cx.send(&me, 1);
                return Next::Wait;
            }
            Fault::Shares => {}
        }
        Next::DONE
    }

    fn handle(&mut self, _: &mut Context<'_, u32>, event: Event<u32>) -> Next {
        if let Event::Proceed = event { Next::Proceed } else { Next::DONE }
    }
}

fn wrong(fault: Fault) -> Wrong {
    let trial = Trial::of(move |world| {
        let token = world.token();
        world.spawn_on(0, Wrongs(fault, Some(token)))
    });
    let trial = trial.desks(1).steps(50).no_panics().all_end().none_kept();
    let found = trial.random(10, 1);
    found.failure().expect("a failure").wrong().clone()
}

/// Goes on so many times, and exits.
struct Passes(u32);

impl Behaviour for Passes {
    type Message = ();

    fn started(&mut self, _: &mut Context<'_, ()>) -> Next {
        Next::Proceed
    }

    fn handle(&mut self, _: &mut Context<'_, ()>, _: Event<()>) -> Next {
        self.0 -= 1;
        if self.0 == 0 { Next::DONE } else { Next::Proceed }
    }
}

#[test]
fn a_round_is_one_move_and_those_that_never_meet_have_one_order() {
    let trial = Trial::of(|world| [0, 1].into_iter().for_each(|desk| _ = world.spawn_on(desk, Passes(4))));
    // (five handlers, and one round in which all that it had goes: 12 rounds, of which 6 are of one desk)
    assert_eq!(trial.clone().coarse().every().runs(), 924);
    assert_eq!(trial.every().runs(), 924);
    let reduced = trial.reduced().every();
    assert!(reduced.runs() == 1 && reduced.is_whole(), "{reduced}");
}

#[test]
fn a_failure_tells_the_panics_and_a_world_the_names() {
    let trial = Trial::of(|world| {
        let wrongs = world.spawn_on(0, Wrongs(Fault::Panics, None));
        let name = Name::new("wrongs");
        assert!(name.register(&wrongs) && world.names(wrongs.pid()) == ["wrongs"]);
        (wrongs, name)
    });
    let trial = trial.desks(1).outcome(|world, (wrongs, _)| format!("{:?}", world.names(wrongs.pid())));
    let found = trial.every();
    found.expect(["[]"]);
    let failure = found.of("[]").expect("the outcome");
    let [panic] = failure.panics() else { panic!("{failure}") };
    assert!(panic.starts_with("<0.1.1>, a ") && panic.ends_with("Wrongs: out of order"), "{panic}");
    let text = failure.to_string();
    assert!(text.contains(&format!("\na behaviour panicked: {panic}\nthe shortest schedule found: ")), "{text}");
    assert_eq!(trial.replay("").panics, failure.panics());
}

#[test]
fn a_lost_message_is_named() {
    // (the first word ends the one that listens to it)
    let trial = |words: usize| {
        Trial::of(move |world: &mut World| {
            let listens = world.spawn_on(0, Tells(Vec::new(), false));
            let tells = (0..words).map(|_| (listens.clone(), "word")).collect();
            world.spawn_on(1, Tells(tells, true));
        })
    };
    trial(1).none_lost().all_end().every().expect_one();
    let found = trial(3).none_lost().random(100, 1);
    assert_eq!(found.failure().expect("a failure").wrong(), &Wrong::Lost(2));
    trial(3).outcome(|world, ()| world.lost().to_string()).random(100, 1).expect(["2"]);
}

#[test]
fn a_scenario_that_shares_is_not_reduced() {
    let trial = adders(1, false);
    let (whole, fewer) = (trial.every(), trial.clone().reduced().every());
    assert!(fewer.runs() < whole.runs());
    assert_eq!(counts(&trial.clone().reduced().shares().every()), counts(&whole));
    assert_eq!(counts(&trial.clone().reduced().may_be_cut_off().every()), counts(&whole));
    assert_eq!(trial.clone().reduced().always(|_, _| {}).every().runs(), whole.runs());
}

#[test]
fn each_fault_is_named() {
    let panicked = wrong(Fault::Panics);
    assert!(matches!(&panicked, Wrong::Panicked(text) if text.ends_with("Wrongs: out of order")), "{panicked}");
    let waits = wrong(Fault::Waits);
    assert!(matches!(&waits, Wrong::Waits(who) if who.starts_with("<0.1.1>, a ")), "{waits}");
    assert_eq!(wrong(Fault::Proceeds), Wrong::NoRest(50));
    assert_eq!(wrong(Fault::Leaks), Wrong::Kept(1));
    assert!(matches!(wrong(Fault::Shares), Wrong::Differs(_)));
    let always = adders(1, true).always(|world, cell| {
        assert_eq!(world.behaviour(cell, |cell: &Cell| cell.0), Some(0), "the cell is written");
    });
    let found = always.every();
    assert!(matches!(found.failure().unwrap().wrong(), Wrong::Always(text) if text.contains("the cell is written")));
    let at_rest = adders(1, true).at_rest(|_, _| panic!("never so"));
    assert_eq!(at_rest.every().failure().unwrap().wrong(), &Wrong::AtRest("never so".into()));
}

fn pid_of(world: &World) -> Pid {
    world.living().first().map_or(Pid { shard: 0, slot: 1, version: 1 }, |(pid, _)| *pid)
}

#[test]
fn what_would_wait_says_what_to_take() {
    let trial = Trial::of(|world| {
        let cell = world.spawn(Cell::default());
        assert_eq!(world.handle().spawn(Cell::default()).err(), Some(SpawnFault::Trial));
        assert_eq!(world.call(&cell, Duration::from_secs(1), ToCell::Get), Err(CallFault::Trial));
        cell.send(ToCell::Add(4));
        world.ask(&cell, ToCell::Get)
    });
    let trial = trial.outcome(|_, asked| format!("{:?}", asked.get()));
    trial.every().expect(["Some(Ok(4))"]);
    let waits = Trial::of(|_| Name::<()>::new("a name").wait(Duration::from_secs(9)).is_some()).every();
    let Wrong::Scenario(text) = waits.failure().unwrap().wrong() else { panic!("{waits}") };
    assert_eq!(text, "a trial has one thread, and Name::wait would wait: take Name::whereis");
    type Looks = fn(&World);
    let looks: [(Looks, &str); 4] = [
        (|world| _ = world.view(), "Handle::look would wait: take World::living, World::behaviour or World::desk"),
        (|world| _ = world.inspect(pid_of(world), Duration::ZERO), "Handle::inspect would wait: take World::behaviour"),
        (|world| _ = world.tap_all(9), "a Tap would wait: take Replay::history"),
        (|world| _ = world.observe(0), "Handle::observe would wait: take World::living, or Replay::history"),
    ];
    for (looks, told) in looks {
        let found = Trial::of(move |world| looks(world)).every();
        let Wrong::Scenario(text) = found.failure().unwrap().wrong() else { panic!("{found}") };
        assert_eq!(text, &format!("a trial has one thread, and {told}"));
    }
    let missing = adders(1, true).replay("1 7");
    assert!(
        matches!(missing.wrong, Some(Wrong::NoMove(text)) if text.starts_with("move 2 of the schedule, 7, is not there"))
    );
    assert!("0 1' t k<0.1.1>".parse::<pundewo::trial::Schedule>().is_ok_and(|it| it.to_string() == "0 1' t k<0.1.1>"));
    assert!("0 x".parse::<pundewo::trial::Schedule>().is_err());
}
