//! The processes of the chat server and of the telephone exchange under many schedules, with processes in place of sockets.

#[allow(dead_code)]
#[path = "../examples/chat.rs"]
mod chat;
#[allow(dead_code)]
#[path = "../examples/exchange.rs"]
mod exchange;

use chat::{Member, Out, Permit, Room, ToMember};
use exchange::{Caller, Tally, ToLine};
use pundewo::runtime::{Address, Behaviour, Context, Event, Group, Name, Next};
use pundewo::trial::{Trial, World};
use std::collections::BTreeMap;
use std::sync::atomic::{AtomicUsize, Ordering::SeqCst};
use std::sync::mpsc::{Receiver, channel};
use std::sync::{Arc, Mutex};

/// How many runs each trial makes by chance, and half as many by priorities. More by `PUNDEWO_TRIALS`.
fn runs() -> u64 {
    std::env::var("PUNDEWO_TRIALS").map_or(20, |runs| runs.parse().expect("a number of runs"))
}

fn tried<S: 'static>(trial: &Trial<S>) {
    trial.random(runs(), 1).passes();
    trial.priorities(runs().div_ceil(2), 2, 3).passes();
}

/// What the exchange of a run has told.
struct Calls {
    names: Vec<Name<ToLine>>,
    tally: Arc<Tally>,
    ends: Mutex<Receiver<(bool, u32)>>,
}

/// Two desks with two lines each, and callers of them, of which one makes a noise.
fn calls(callers: usize) -> impl Fn(&mut World) -> Calls {
    move |world| {
        let (tally, (tell, ends)) = (Arc::new(Tally::default()), channel());
        let names: Vec<_> = (0..4).map(|number| Name::new(format!("line {number}"))).collect();
        for (desk, names) in (0..).zip(names.chunks(2)) {
            world.spawn_on(desk, exchange::exchange(names, &tally));
        }
        for number in 0..callers {
            let line = names[number % names.len()].clone();
            world.spawn(Caller::new(line, number == 1, tally.clone(), tell.clone()));
        }
        Calls { names, tally, ends: Mutex::new(ends) }
    }
}

#[test]
fn no_call_of_the_exchange_is_lost() {
    let callers = 5;
    let trial = Trial::of(calls(callers)).desks(2).at_rest(move |world, calls| {
        let ends: Vec<(bool, u32)> = calls.ends.lock().expect("no lock is poisoned").try_iter().collect();
        let said: u64 = ends.iter().map(|(_, said)| u64::from(*said)).sum();
        assert_eq!((ends.len(), said), (callers, calls.tally.heard.load(SeqCst)), "a call or a word is lost");
        let crashes = world.panics().len();
        assert_eq!((crashes, calls.tally.cut_off.load(SeqCst)), (1, 1), "a partner has not heard of the crash");
        assert!(calls.names.iter().all(|name| name.whereis().is_some()), "a line is not started again");
        // (nobody is at home at line 0)
        let talked = ends.iter().filter(|(talked, _)| *talked).count();
        assert_eq!(talked, callers - callers.div_ceil(4), "{ends:?}");
    });
    tried(&trial);
}

/// A client of the chat: it says so many lines in a room, crashes its connection or leaves.
struct Client {
    member: Address<ToMember>,
    lines: Vec<String>,
}

impl Client {
    fn say(&mut self, cx: &mut Context<'_, ()>) -> Next {
        let (give, permits) = std::sync::mpsc::sync_channel(1);
        let permit = Permit(Arc::new(Mutex::new(permits)));
        let _ = give.send(());
        if self.lines.is_empty() {
            cx.send(&self.member, ToMember::Closed);
            return Next::DONE;
        }
        cx.send(&self.member, ToMember::Heard(self.lines.remove(0), permit));
        Next::Proceed
    }
}

impl Behaviour for Client {
    type Message = ();

    fn started(&mut self, cx: &mut Context<'_, ()>) -> Next {
        self.say(cx)
    }

    fn handle(&mut self, cx: &mut Context<'_, ()>, _: Event<()>) -> Next {
        self.say(cx)
    }
}

/// What each client of a chat was told.
type Told = Vec<Mutex<Receiver<Arc<str>>>>;

/// A room with three clients, of which the last one crashes.
fn talks(world: &mut World) -> Told {
    let group = Group::new(world, "room");
    let rooms = Arc::new(vec![world.spawn_on(0, Room(group))]);
    let mut told = Vec::new();
    for number in 0..3 {
        let (texts, get) = channel();
        let member = Member::new(rooms.clone(), Out::new(texts, Arc::new(AtomicUsize::new(0))));
        let member = world.spawn_on(number, member);
        let last = if number == 2 { "crash" } else { "2" };
        let lines = ["0".into(), format!("{number} 1"), format!("{number} {last}").replace("2 crash", "crash")];
        world.spawn_on((number + 1) % 3, Client { member, lines: lines.into() });
        told.push(Mutex::new(get));
    }
    told
}

#[test]
fn each_who_is_in_a_room_hears_each_other_in_order_and_of_a_crash() {
    let trial = Trial::of(talks).desks(3).at_rest(|world, told| {
        assert_eq!(world.living().len(), 1, "a connection is left: {:?}", world.living());
        let told: Vec<Vec<Arc<str>>> =
            told.iter().map(|told| told.lock().expect("no lock is poisoned").try_iter().collect()).collect();
        for heard in &told {
            let mut said: BTreeMap<&str, Vec<&str>> = BTreeMap::new();
            for line in heard.iter().skip(1) {
                let (who, what) = line.split_once(' ').expect("a line has two words");
                said.entry(who).or_default().push(what);
            }
            let is_sorted = |(who, said): (&&str, &Vec<&str>)| *who == "gone" || said.is_sorted();
            assert!(said.iter().all(is_sorted), "lines come in another order: {heard:?}");
            assert!(heard.first().is_none_or(|first| &**first == "welcome"), "{heard:?}");
        }
        let ends = told.iter().flatten().filter(|line| line.starts_with("gone")).count();
        assert!(ends <= 6, "one is gone twice: {told:?}");
        assert_eq!(world.panics().len(), 1);
    });
    tried(&trial);
}
