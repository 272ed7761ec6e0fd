//! The crew of a desk: what its processes are told, and which desk it takes.

use pundewo::{
    Body, Config, Crew, Desk, Fault, Item, Job, Next, Node, NotTaken, Pick, Pid, Reason, What, gather, go_on, open,
};

const ANY: Next = Next::Wait(Pick::Any);

fn jobs(crew: &mut Crew, desk: &mut Desk) -> Vec<Job> {
    let mut jobs = Vec::new();
    let turned = crew.step(desk, 64, 64, &mut jobs).expect("the crew of this desk");
    assert_eq!((turned.stopped, crew.refused()), (None, false));
    jobs
}

#[test]
fn processes_are_told_and_answered() -> Result<(), Fault> {
    let mut desks = open(2, Config::default())?;
    let desk = &mut desks[0];
    let mut crew = Crew::new(desk)?;
    assert!(crew.is_empty() && crew.is_idle(desk)?);
    let one = crew.spawn(desk, 1, Next::Proceed)?;
    let two = crew.spawn_child(desk, one, true, 2, Next::WaitUntil(Pick::Kind(7), 50))?;
    assert_eq!((crew.len(), crew.queued(), crew.tag(two), crew.next(one)), (2, 2, Some(2), Some(Next::Proceed)));
    let start = Job { pid: one, tag: 1, what: What::Start(None) };
    assert_eq!(jobs(&mut crew, desk), [start]);
    assert_eq!((crew.next(one), crew.next_time()), (Some(Next::Running), Some(50)));
    // what it sends, and what it does next
    let body = Body { kind: 7, num: 8, who: Some(two) };
    desk.send(one, two, body)?;
    crew.answer(&[(one, Next::Proceed)]).expect("it runs");
    let told = jobs(&mut crew, desk);
    assert_eq!(told[0], Job { pid: one, tag: 1, what: What::Proceed });
    assert_eq!(told[1], Job { pid: two, tag: 2, what: What::Item(Item::User(one, body)) });
    crew.answer(&[(one, ANY), (two, Next::WaitUntil(Pick::Any, 60))]).expect("they run");
    assert_eq!((jobs(&mut crew, desk), crew.next_time()), (vec![], Some(60)));
    assert!(crew.is_idle(desk)?);
    crew.set_time(60);
    assert_eq!(jobs(&mut crew, desk), [Job { pid: two, tag: 2, what: What::Timeout }]);
    // the exit of one goes over the link to the other
    crew.answer(&[(two, Next::Stop(Reason::Other(3)))]).expect("it runs");
    let stopped = What::Exit(Reason::Other(3), Next::Stop(Reason::Other(3)));
    let mut told = jobs(&mut crew, desk);
    while told.len() < 2 {
        told.extend(jobs(&mut crew, desk));
    }
    assert_eq!(told[0], Job { pid: two, tag: 2, what: stopped });
    assert_eq!(told[1], Job { pid: one, tag: 1, what: What::Exit(Reason::Noproc, ANY) });
    assert!(crew.is_empty() && crew.tag(one).is_none() && crew.next(one).is_none());
    Ok(())
}

#[test]
fn an_answer_for_a_process_that_does_not_run_is_refused() -> Result<(), Fault> {
    let mut desks = open(1, Config::default())?;
    let desk = &mut desks[0];
    let mut crew = Crew::new(desk)?;
    let one = crew.spawn(desk, 1, Next::Proceed)?;
    let two = crew.spawn(desk, 2, ANY)?;
    assert_eq!(jobs(&mut crew, desk).len(), 1);
    let refused = crew.answer(&[(one, ANY), (two, ANY), (one, ANY)]).expect_err("the second does not run");
    assert_eq!(refused, NotTaken { taken: 1, fault: Fault::NotRunning });
    assert_eq!(
        refused.to_string(),
        "the answer at place 1 is refused: the process was told nothing, or has been answered"
    );
    assert_eq!((crew.next(one), crew.next(two)), (Some(ANY), Some(ANY)));
    Ok(())
}

#[test]
fn a_batch_has_so_many_jobs() -> Result<(), Fault> {
    let mut desks = open(1, Config::default())?;
    let desk = &mut desks[0];
    let mut crew = Crew::new(desk)?;
    for tag in 0..10 {
        crew.spawn(desk, tag, Next::Proceed)?;
    }
    let mut jobs = Vec::new();
    let mut told = Vec::new();
    for most in [0, 4, 4, 4] {
        crew.step(desk, 64, most, &mut jobs)?;
        assert!(jobs.len() <= most);
        told.extend(jobs.iter().map(|job| job.tag));
    }
    assert_eq!(told, (0..10).collect::<Vec<u64>>());
    Ok(())
}

/// A crew goes on over the desk of its number of the resumed node, and takes no other.
#[test]
fn a_crew_takes_its_own_desk_alone() -> Result<(), Fault> {
    let mut desks = open(2, Config::default())?;
    let mut others = open(2, Config::default())?;
    let mut crew = Crew::new(&desks[1])?;
    let pid = crew.spawn(&mut desks[1], 5, ANY)?;
    let mut jobs = vec![Job { pid, tag: 9, what: What::Start(None) }];
    for desk in [&mut desks[0], &mut others[1]] {
        assert_eq!(crew.spawn(desk, 1, ANY), Err(Fault::WrongDesk));
        assert_eq!(crew.spawn_child(desk, pid, true, 1, ANY), Err(Fault::WrongDesk));
        assert_eq!(crew.step(desk, 1, 1, &mut jobs), Err(Fault::WrongDesk));
        assert_eq!(crew.is_idle(desk), Err(Fault::WrongDesk));
        assert_eq!(crew.begin_again(desk), Err(Fault::WrongDesk));
    }
    assert_eq!((jobs.len(), crew.len()), (1, 1));
    let sender = desks[0].spawn()?;
    desks[0].send(sender, pid, Body { kind: 1, num: 2, who: None })?;
    let mut desks = gather(desks)?.settle_unlisted()?.resume()?;
    assert_eq!(crew.step(&mut desks[1], 1, 1, &mut jobs), Err(Fault::WrongDesk));
    crew.begin_again(&desks[1])?;
    // the message came in settling
    crew.step(&mut desks[1], 8, 8, &mut jobs)?;
    let item = Item::User(sender, Body { kind: 1, num: 2, who: None });
    assert_eq!(jobs, [Job { pid, tag: 5, what: What::Item(item) }]);
    Ok(())
}

/// Desks, a crew for each, and the process of each crew.
type Crewed = (Vec<Desk>, Vec<Crew>, Vec<Pid>);

/// A node of so many desks. The process of each crew waits.
fn crewed(count: usize, start: u64) -> Result<Crewed, Fault> {
    let mut desks = open(count, Config { start, ..Config::default() })?;
    let mut crews = desks.iter().map(Crew::new).collect::<Result<Vec<_>, _>>()?;
    let pids = (0..count).map(|d| crews[d].spawn(&mut desks[d], d as u64, ANY)).collect::<Result<_, _>>()?;
    Ok((desks, crews, pids))
}

/// A process is killed in settling, one has exited and was not told so, and one is running: each goes on, and so does a
/// second time.
#[test]
fn a_node_goes_on_with_its_crews() -> Result<(), Fault> {
    let (mut desks, mut crews, pids) = crewed(2, 0)?;
    desks[1].keep_losses(true);
    let runs = crews[0].spawn(&mut desks[0], 9, Next::Proceed)?;
    assert_eq!(jobs(&mut crews[0], &mut desks[0]).len(), 1);
    let left = crews[1].spawn(&mut desks[1], 8, Next::Stop(Reason::Other(4)))?;
    desks[1].exit(left, Reason::Other(5))?;
    desks[0].exit_signal(runs, pids[1], Reason::Kill)?;
    let said = Body { kind: 1, num: 7, who: None };
    desks[0].send(runs, pids[0], said)?;
    let before = desks.iter().map(Desk::event_count).sum::<usize>();
    let (mut desks, history) = go_on(desks, &mut crews)?;
    // the kill and the message came, and no letter is left over
    assert_eq!((history.count(), history.left_over().count()), (before + 2, 0));
    assert_eq!(desks.iter().map(Desk::event_count).collect::<Vec<_>>(), [0, 0]);
    assert_eq!(crews[0].next(runs), Some(Next::Running));
    crews[0].answer(&[(runs, ANY)]).expect("it runs still");
    let told = Job { pid: pids[0], tag: 0, what: What::Item(Item::User(runs, said)) };
    assert_eq!(jobs(&mut crews[0], &mut desks[0]), [told]);
    let mut losses = 0;
    while crews[1].next_loss(&mut desks[1])?.is_some() {
        losses += 1;
    }
    assert_eq!(losses, 2);
    let mut told = jobs(&mut crews[1], &mut desks[1]);
    told.sort();
    let killed = Job { pid: pids[1], tag: 1, what: What::Exit(Reason::Killed, ANY) };
    let gone = Job { pid: left, tag: 8, what: What::Exit(Reason::Other(5), Next::Stop(Reason::Other(4))) };
    assert_eq!(told, [killed, gone]);
    let (desks, history) = go_on(desks, &mut crews)?;
    assert_eq!((history.count(), crews[0].len(), crews[1].len()), (1, 2, 0));
    drop((desks, history));
    Ok(())
}

/// What does not fit comes back as it was.
#[test]
fn a_node_goes_on_with_its_own_crews_alone() -> Result<(), Fault> {
    let (mut desks, mut crews, _) = crewed(2, 0)?;
    let (_others, mut strangers, _) = crewed(2, 0)?;
    let back = go_on(desks, &mut strangers).expect_err("another node's");
    assert_eq!(back.to_string(), "the node has not gone on: the crew is of another desk");
    let back = go_on(back.node, &mut crews[..1]).expect_err("too few");
    assert_eq!(back.fault, Fault::BadDesks);
    crews.swap(0, 1);
    let back = go_on(back.node, &mut crews).expect_err("out of order");
    assert_eq!(back.fault, Fault::WrongDesk);
    crews.swap(0, 1);
    let Node::Desks(mut again) = back.node else { panic!("nothing was done") };
    again.swap(0, 1);
    let back = go_on(again, &mut crews).expect_err("out of order");
    assert_eq!(back.fault, Fault::NotOneNode);
    let Node::Desks(mut again) = back.node else { panic!("nothing was done") };
    again.swap(0, 1);
    (desks, _) = go_on(again, &mut crews)?;
    // a node that was gathered or settled goes on in the same way
    let gathered = gather(desks)?;
    let back = go_on(Node::Gathered(gathered), &mut strangers).expect_err("another node's");
    assert_eq!(back.fault, Fault::WrongDesk);
    let (desks, _) = go_on(back.node, &mut crews)?;
    let (mut desks, history) = go_on(Node::Settled(gather(desks)?.settle_unlisted()?), &mut crews)?;
    assert_eq!((history.count(), crews[1].is_idle(&desks[1])?), (0, false));
    assert_eq!(jobs(&mut crews[1], &mut desks[1]), []);
    assert!(crews[1].is_idle(&desks[1])?);
    Ok(())
}

/// A clock at its limit takes no receipt: the node comes back gathered, and again.
#[test]
fn a_worn_node_comes_back() -> Result<(), Fault> {
    let (mut desks, mut crews, pids) = crewed(1, (1 << 62) - 2)?;
    desks[0].send(pids[0], pids[0], Body { kind: 1, num: 1, who: None })?;
    let back = go_on(desks, &mut crews).expect_err("the clock is at its limit");
    assert!(back.fault == Fault::Worn && matches!(back.node, Node::Gathered(_)));
    let back = go_on(back.node, &mut crews).expect_err("the clock is at its limit");
    let Node::Gathered(gathered) = back.node else { panic!("it is gathered") };
    let history = gathered.history()?;
    assert_eq!((history.count(), history.left_over().count(), crews[0].len()), (2, 1, 1));
    Ok(())
}
