//! Groups of processes: who is in one, over exits, epochs, desks and threads, and what is sent to all of it.

use pundewo::runtime::{Address, Behaviour, Context, Event, Group, Handle, Next, Refusal, Reply, Runtime, StopFault};
use pundewo::{Fault, History, Pid, Reason};
use std::collections::HashSet;
use std::sync::atomic::{AtomicBool, Ordering::SeqCst};
use std::sync::mpsc::{Sender, channel};
use std::sync::{Arc, Barrier};
use std::thread;
use std::time::{Duration, Instant};

const LONG: Duration = Duration::from_secs(120);

type Error = Box<dyn std::error::Error>;

enum ToMember {
    /// Told to the test, with the pid.
    Note(u64),
    /// Sends all in this group a number.
    SendAll(Group<ToMember>, u64, Reply<usize>),
    Join(Group<ToMember>, Reply<Result<(), Fault>>),
    Leave(Group<ToMember>, Reply<bool>),
    Crash,
    Stop,
}

/// Notes what it is told, and in how many of its groups it is as it has exited.
struct Member {
    notes: Sender<(Pid, u64)>,
    me: Option<Address<ToMember>>,
    groups: Vec<Group<ToMember>>,
}

impl Behaviour for Member {
    type Message = ToMember;

    fn started(&mut self, cx: &mut Context<'_, ToMember>) -> Next {
        self.me = Some(cx.me().clone());
        for group in &self.groups {
            group.join(cx.me()).expect("a group");
        }
        Next::Wait
    }

    fn handle(&mut self, cx: &mut Context<'_, ToMember>, event: Event<ToMember>) -> Next {
        match event {
            Event::Message(ToMember::Note(number)) => _ = self.notes.send((cx.pid(), number)),
            Event::Message(ToMember::SendAll(group, number, reply)) => {
                let sent = cx.send_all(&group, |_| ToMember::Note(number));
                cx.reply(reply, sent);
            }
            Event::Message(ToMember::Join(group, reply)) => {
                let joined = group.join(cx.me());
                cx.reply(reply, joined);
            }
            Event::Message(ToMember::Leave(group, reply)) => {
                let left = group.leave(cx.me());
                cx.reply(reply, left);
            }
            Event::Message(ToMember::Crash) => panic!("asked to"),
            _ => return Next::DONE,
        }
        Next::Wait
    }

    fn ended(self, _: Reason) {
        let Some(me) = self.me else { return };
        let times: u64 = self.groups.iter().map(|group| group.times(&me)).sum();
        let _ = self.notes.send((me.pid(), 1_000 + times));
    }
}

fn member(notes: &Sender<(Pid, u64)>, groups: &[&Group<ToMember>]) -> Member {
    Member { notes: notes.clone(), me: None, groups: groups.iter().copied().cloned().collect() }
}

fn until(what: &str, is_so: impl Fn() -> bool) {
    let begun = Instant::now();
    while !is_so() {
        assert!(begun.elapsed() < LONG, "{what} in time");
        thread::sleep(Duration::from_millis(1));
    }
}

/// The pids of the members, each once.
fn pids(group: &Group<ToMember>) -> HashSet<Pid> {
    let members = group.members();
    let pids: HashSet<Pid> = members.iter().map(Address::pid).collect();
    assert_eq!(pids.len(), members.len());
    pids
}

fn quiet_panics() {
    std::panic::set_hook(Box::new(|what| {
        if what.payload().downcast_ref::<&str>() != Some(&"asked to") {
            eprintln!("{what}");
        }
    }));
}

#[test]
fn a_process_is_in_a_group_until_it_has_left_as_often() -> Result<(), Error> {
    let (runtime, (notes, _heard)) = (Runtime::builder().desks(3).start()?, channel());
    let (group, other) = (Group::new(&runtime, "lines"), Group::new(&runtime, "lines"));
    assert!(group == group.clone() && group != other);
    assert_eq!((group.text(), format!("{group} {group:?}")), ("lines", "lines Group(\"lines\")".to_owned()));
    let [one, two] = [runtime.spawn_on(0, member(&notes, &[]))?, runtime.spawn_on(2, member(&notes, &[]))?];
    assert_eq!((group.len(), group.members().len(), group.leave(&one), group.times(&one)), (0, 0, false, 0));
    for times in 1..=2 {
        group.join(&one)?;
        assert_eq!((group.times(&one), group.len(), pids(&group)), (times, 1, HashSet::from([one.pid()])));
    }
    // by itself, in its handler
    assert_eq!(runtime.call(&two, LONG, |reply| ToMember::Join(group.clone(), reply))?, Ok(()));
    assert_eq!(pids(&group), HashSet::from([one.pid(), two.pid()]));
    assert_eq!(
        (group.members_on(0), group.members_on(1), group.members_on(2)),
        (vec![one.clone()], vec![], vec![two.clone()])
    );
    assert_eq!((group.members_on(3), other.len(), other.leave(&one)), (vec![], 0, false));
    assert!(runtime.call(&one, LONG, |reply| ToMember::Leave(group.clone(), reply))?);
    assert_eq!((group.times(&one), group.len()), (1, 2));
    assert!(group.leave(&one) && !group.leave(&one));
    assert_eq!(pids(&group), HashSet::from([two.pid()]));
    assert!(group.leave(&two) && group.is_empty());
    runtime.stop()?;
    Ok(())
}

/// As it exits in whatever way, it leaves all groups, before its behaviour is told that it has exited.
#[test]
fn an_exit_leaves_all_groups() -> Result<(), Error> {
    quiet_panics();
    let runtime = Runtime::builder().desks(2).going_on_every(50).start()?;
    let groups: Vec<Group<ToMember>> = (0..5).map(|number| Group::new(&runtime, number.to_string())).collect();
    let all: Vec<&Group<ToMember>> = groups.iter().chain(&groups).collect();
    for way in 0..3 {
        let (notes, heard) = channel();
        let members: Vec<_> = (0..20).map(|_| runtime.spawn(member(&notes, &all))).collect::<Result<_, _>>()?;
        until("all have joined", || groups.iter().all(|group| group.len() == 20));
        runtime.go_on();
        for gone in &members {
            match way {
                0 => _ = gone.send(ToMember::Stop),
                1 => _ = gone.send(ToMember::Crash),
                _ => runtime.exit(gone, Reason::Kill)?,
            }
            assert_eq!(heard.recv_timeout(LONG)?, (gone.pid(), 1_000));
            assert!(groups.iter().all(|group| group.times(gone) == 0 && !pids(group).contains(&gone.pid())));
            assert_eq!(groups[0].join(gone), Err(Fault::NoProc));
            assert!(!groups[0].leave(gone));
        }
        assert!(groups.iter().all(Group::is_empty));
    }
    assert_eq!(runtime.stop()?.panics, 20);
    Ok(())
}

#[test]
fn what_is_sent_to_all_comes_to_each_member_once() -> Result<(), Error> {
    let (runtime, (notes, heard)) = (Runtime::builder().desks(4).going_on_every(100).start()?, channel());
    let group = Group::new(&runtime, "all");
    let sender = runtime.spawn(member(&notes, &[]))?;
    let send_all = |number| runtime.call(&sender, LONG, |reply| ToMember::SendAll(group.clone(), number, reply));
    // to none, to one, and to many
    assert_eq!((group.send_all(|_| ToMember::Note(0)), send_all(0)?), (0, 0));
    for count in [1, 50] {
        while group.len() < count {
            group.join(&runtime.spawn(member(&notes, &[]))?)?;
        }
        assert_eq!(group.send_all(|_| ToMember::Note(1)), count);
        let mut told: Vec<(Pid, u64)> = (0..count).map(|_| heard.recv_timeout(LONG)).collect::<Result<_, _>>()?;
        assert_eq!(send_all(2)?, count);
        told.extend((0..count).map(|_| heard.recv_timeout(LONG)).collect::<Result<Vec<_>, _>>()?);
        let wanted: HashSet<(Pid, u64)> = pids(&group).into_iter().flat_map(|pid| [(pid, 1), (pid, 2)]).collect();
        assert_eq!((told.len(), told.into_iter().collect::<HashSet<_>>()), (2 * count, wanted));
    }
    // a member sends to all, with itself, and what it sends comes in order
    let first = group.members().remove(0);
    for number in 10..30 {
        assert_eq!(runtime.call(&first, LONG, |reply| ToMember::SendAll(group.clone(), number, reply))?, 50);
    }
    let told: Vec<(Pid, u64)> = (0..1_000).map(|_| heard.recv_timeout(LONG)).collect::<Result<_, _>>()?;
    for pid in pids(&group) {
        assert!(told.iter().filter(|note| note.0 == pid).map(|note| note.1).eq(10..30));
    }
    // the message is made for each member
    let mut asked = Vec::new();
    assert_eq!(
        group.send_all(|of| {
            asked.push(of.pid());
            ToMember::Note(77)
        }),
        50
    );
    assert_eq!(asked.into_iter().collect::<HashSet<_>>(), pids(&group));
    runtime.stop()?;
    Ok(())
}

/// Members exit, join and leave while it is sent to all, on many desks and from many threads, and the run goes on meanwhile.
#[test]
fn members_come_and_go_while_it_is_sent_to_all() -> Result<(), Error> {
    const THREADS: usize = 4;
    let runtime = Runtime::builder().desks(4).slots(4_000).going_on_every(200).start()?;
    let (group, (notes, heard)) = (Group::new(&runtime, "all"), channel());
    let lasting: Vec<_> = (0..8).map(|_| runtime.spawn(member(&notes, &[&group]))).collect::<Result<_, _>>()?;
    until("all have joined", || group.len() == lasting.len());
    let (over, begin) = (Arc::new(AtomicBool::new(false)), Arc::new(Barrier::new(THREADS + 1)));
    let play = |number: usize, handle: Handle| {
        let (group, notes, begin) = (group.clone(), notes.clone(), begin.clone());
        move || {
            begin.wait();
            for round in 0..100 {
                let passing = handle.spawn(member(&notes, &[])).expect("a process");
                (0..3).for_each(|_| group.join(&passing).expect("a group"));
                assert!(group.members().contains(&passing) && group.times(&passing) == 3);
                assert!(group.leave(&passing) && group.times(&passing) == 2);
                if (round + number) % 3 == 0 {
                    assert!(group.leave(&passing) && group.leave(&passing) && !group.leave(&passing));
                    assert!(!group.members().contains(&passing));
                }
                passing.send(ToMember::Stop);
                until("it has left", || group.times(&passing) == 0);
            }
        }
    };
    let threads: Vec<_> = (0..THREADS).map(|number| thread::spawn(play(number, runtime.handle()))).collect();
    let (sends, ends) = (group.clone(), over.clone());
    let sender = thread::spawn(move || {
        let mut sent = 0;
        while !ends.load(SeqCst) {
            assert!(sends.send_all(|_| ToMember::Note(sent)) >= 8);
            sent += 1;
            // (one that sends all the time would be faster than those that are to exit)
            thread::sleep(Duration::from_micros(200));
        }
        sent
    });
    begin.wait();
    threads.into_iter().for_each(|thread| thread.join().expect("a thread"));
    // (how often it has sent by then is up to the machine)
    until("the run has gone on four times", || runtime.epochs() > 3);
    over.store(true, SeqCst);
    let sent = sender.join().expect("a thread");
    assert_eq!(pids(&group), lasting.iter().map(Address::pid).collect());
    assert!(runtime.epochs() > 3);
    let lasts: HashSet<Pid> = pids(&group);
    runtime.drain(LONG)?;
    let told: Vec<(Pid, u64)> = heard.try_iter().collect();
    for pid in lasts {
        assert!(told.iter().filter(|note| note.0 == pid && note.1 < 1_000).map(|note| note.1).eq(0..sent.min(1_000)));
    }
    Ok(())
}

/// It stays in its groups as the run halts and goes on. As the run is over, nobody is in a group.
#[test]
fn a_group_is_one_of_its_run() -> Result<(), Error> {
    let (fails, (notes, heard)) = (Arc::new(AtomicBool::new(true)), channel());
    let full = fails.clone();
    let sink = move |_: &History| -> Result<(), Refusal> {
        if full.load(SeqCst) { Err("the disk is full".into()) } else { Ok(()) }
    };
    let runtime = Runtime::builder().desks(2).archive(sink).start()?;
    let other = Runtime::builder().desks(2).start()?;
    let group = Group::new(&runtime, "all");
    let (one, foreign) = (runtime.spawn(member(&notes, &[]))?, other.spawn(member(&notes, &[]))?);
    group.join(&one)?;
    assert_eq!((group.join(&foreign), group.leave(&foreign), group.times(&foreign)), (Err(Fault::OtherRun), false, 0));
    runtime.go_on();
    let Err(StopFault::Halted(halted)) = runtime.wait() else { return Err("it did not halt".into()) };
    assert_eq!((group.len(), group.members()), (1, vec![one.clone()]));
    fails.store(false, SeqCst);
    let runtime = halted.go_on().map_err(|_| "it does not go on")?;
    assert_eq!(group.send_all(|_| ToMember::Note(5)), 1);
    assert_eq!(heard.recv_timeout(LONG)?, (one.pid(), 5));
    // sent in the name of a process of another run
    let sent = other.call(&foreign, LONG, |reply| ToMember::SendAll(group.clone(), 6, reply))?;
    assert_eq!((sent, heard.recv_timeout(LONG)?), (1, (one.pid(), 6)));
    runtime.stop()?;
    other.stop()?;
    assert_eq!(
        (group.join(&one), group.len(), group.members(), group.leave(&one)),
        (Err(Fault::NoProc), 0, vec![], false)
    );
    Ok(())
}
