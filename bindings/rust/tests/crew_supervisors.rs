//! The supervisors of a crew: whom they start, what the crew tells of it, and how they go on with their node.

use pundewo::raw::*;
use pundewo::supervisors::{Child, ChildFault, ChildSpec, GaveUp, Origin, Restart, Shutdown, Strategy, SupervisorSpec};
use pundewo::{
    Config, Crew, Desk, Fault, Item, Job, Next, Node, NotTaken, Pick, Pid, Reason, What, gather, go_on, open,
};

const ANY: Next = Next::Wait(Pick::Any);
const CRASH: Reason = Reason::Other(1);

fn spec() -> SupervisorSpec {
    SupervisorSpec { most: 2, span: 1000, ..SupervisorSpec::default() }
}

fn step(crew: &mut Crew, desk: &mut Desk) -> Vec<Job> {
    let mut jobs = Vec::new();
    let turned = crew.step(desk, 64, 64, &mut jobs).expect("the crew of this desk");
    assert_eq!((turned.stopped, crew.refused()), (None, false));
    jobs
}

/// Steps until nobody has anything to do. Each process that begins is answered that it waits.
fn run(crew: &mut Crew, desk: &mut Desk) -> Vec<Job> {
    let mut told = Vec::new();
    let mut quiet = 0;
    while quiet < 2 {
        let jobs = step(crew, desk);
        for job in &jobs {
            if let What::Start(_) = job.what {
                crew.answer(&[(job.pid, ANY)]).expect("it runs");
            }
        }
        let rests = jobs.is_empty() && desk.pending() == 0 && crew.is_idle(desk) == Ok(true);
        quiet = if rests { quiet + 1 } else { 0 };
        told.extend(jobs);
    }
    told
}

fn starts(pid: Pid, tag: u64, supervisor: Pid, again: bool) -> Job {
    Job { pid, tag, what: What::Start(Some(Origin { supervisor, again })) }
}

fn exits(pid: Pid, tag: u64, reason: Reason) -> Job {
    Job { pid, tag, what: What::Exit(reason, ANY) }
}

fn pids(crew: &Crew, supervisor: Pid) -> Vec<Pid> {
    let children = crew.children(supervisor).expect("it is a supervisor");
    children.iter().map(|child| child.pid.expect("it was started")).collect()
}

#[test]
fn children_are_started_again() -> Result<(), Fault> {
    let mut desks = open(1, Config::default())?;
    let desk = &mut desks[0];
    let mut crew = Crew::new(desk)?;
    assert!(crew.is_empty() && crew.is_idle(desk)?);
    let boss = crew.spawn_supervisor(desk, 5, spec(), &[ChildSpec::new(10), ChildSpec::new(11)])?;
    let told = run(&mut crew, desk);
    let first = pids(&crew, boss);
    assert_eq!(told, [starts(first[0], 10, boss, false), starts(first[1], 11, boss, false)]);
    assert_eq!(
        (crew.len(), crew.tag(boss), crew.tag(first[1]), crew.next(first[0])),
        (3, Some(5), Some(11), Some(ANY))
    );
    desk.exit(first[0], CRASH)?;
    let told = run(&mut crew, desk);
    let second = pids(&crew, boss);
    assert_eq!(told, [exits(first[0], 10, CRASH), starts(second[0], 10, boss, true)]);
    assert_eq!(second[1], first[1]);
    // two restarts are all that it makes
    desk.exit(second[1], CRASH)?;
    assert_eq!(run(&mut crew, desk).len(), 2);
    desk.exit(second[0], CRASH)?;
    let told = run(&mut crew, desk);
    assert_eq!((told.len(), told[0].pid, told[2].pid, crew.len()), (3, second[0], boss, 0));
    assert!(crew.children(boss).is_none());
    Ok(())
}

#[test]
fn strategies_end_others() -> Result<(), Fault> {
    for (strategy, ended) in [(Strategy::OneForOne, 1), (Strategy::RestForOne, 2), (Strategy::OneForAll, 3)] {
        let mut desks = open(1, Config::default())?;
        let desk = &mut desks[0];
        let mut crew = Crew::new(desk)?;
        let boss =
            crew.spawn_supervisor(desk, 0, SupervisorSpec { strategy, ..spec() }, &[1, 2, 3].map(ChildSpec::new))?;
        run(&mut crew, desk);
        let before = pids(&crew, boss);
        desk.exit(before[1], CRASH)?;
        let told = run(&mut crew, desk);
        assert_eq!(told.iter().filter(|job| matches!(job.what, What::Exit(..))).count(), ended);
        let again = told.iter().filter(|job| matches!(job.what, What::Start(Some(Origin { again: true, .. }))));
        assert_eq!(again.count(), ended);
        assert_eq!(pids(&crew, boss).iter().zip(&before).filter(|(now, was)| now != was).count(), ended);
    }
    Ok(())
}

#[test]
fn a_child_may_be_a_supervisor() -> Result<(), Fault> {
    let mut desks = open(1, Config::default())?;
    let desk = &mut desks[0];
    let mut crew = Crew::new(desk)?;
    let children = [ChildSpec { restart: Restart::Transient, shutdown: Shutdown::After(7), ..ChildSpec::new(1) }];
    let boss = crew.spawn_supervisor(desk, 0, spec(), &children)?;
    // (children are started in the first step, and told so in the next)
    assert_eq!(step(&mut crew, desk), []);
    let branch = step(&mut crew, desk)[0].pid;
    assert_eq!(crew.next(branch), Some(Next::Running));
    crew.supervise(branch, SupervisorSpec { parent: Some(boss), ..spec() }, &[ChildSpec::new(2)])?;
    let told = run(&mut crew, desk);
    let leaf = pids(&crew, branch)[0];
    assert_eq!(told, [starts(leaf, 2, branch, false)]);
    let known = Child { pid: Some(branch), restart: Restart::Transient, shutdown: Shutdown::After(7), wanted: true };
    assert_eq!(crew.children(boss), Some(vec![known]));
    assert!(crew.children(leaf).is_none());
    // it is not running, and nobody is at the other pid
    for p in [branch, Pid { shard: 0, slot: 9, version: 9 }] {
        assert_eq!(crew.supervise(p, spec(), &[]), Err(Fault::NotRunning));
        assert_eq!(crew.answer(&[(p, ANY)]), Err(NotTaken { taken: 0, fault: Fault::NotRunning }));
    }
    Ok(())
}

#[test]
fn children_come_and_go_at_run_time() -> Result<(), Fault> {
    let mut desks = open(1, Config::default())?;
    let desk = &mut desks[0];
    let mut crew = Crew::new(desk)?;
    let boss = crew.spawn_supervisor(desk, 5, spec(), &[ChildSpec::new(10)])?;
    run(&mut crew, desk);
    let first = pids(&crew, boss)[0];
    let counts = |crew: &Crew| crew.count_children(boss).map(|it| (it.specs, it.active, it.restarting));
    // one more child, which the next step starts though nothing came to the supervisor
    let child = ChildSpec { restart: Restart::Transient, ..ChildSpec::new(11) };
    assert_eq!((crew.start_child(boss, child), counts(&crew)), (Ok(1), Some((2, 1, 1))));
    assert_eq!(crew.start_child(boss, child), Err(ChildFault::Present));
    assert_eq!(crew.restart_child(boss, 11), Err(ChildFault::Restarting));
    assert_eq!(crew.delete_child(boss, 11), Err(ChildFault::Restarting));
    let told = run(&mut crew, desk);
    let second = pids(&crew, boss)[1];
    assert_eq!((told, counts(&crew)), (vec![starts(second, 11, boss, false)], Some((2, 2, 0))));
    assert_eq!(crew.start_child(boss, child), Err(ChildFault::Running));
    assert_eq!(crew.restart_child(boss, 11), Err(ChildFault::Running));
    assert_eq!(crew.delete_child(boss, 11), Err(ChildFault::Running));
    // it is ended, started again, ended, and forgotten
    assert_eq!(crew.terminate_child(boss, 11), Ok(()));
    assert_eq!(run(&mut crew, desk), [exits(second, 11, Reason::Noproc)]);
    assert_eq!((counts(&crew), crew.start_child(boss, child)), (Some((2, 1, 0)), Err(ChildFault::Present)));
    assert_eq!(crew.restart_child(boss, 11), Ok(()));
    let told = run(&mut crew, desk);
    let third = pids(&crew, boss)[1];
    assert_eq!(told, [starts(third, 11, boss, true)]);
    assert_eq!((crew.terminate_child(boss, 10), crew.terminate_child(boss, 11)), (Ok(()), Ok(())));
    assert_eq!(run(&mut crew, desk), [exits(third, 11, Reason::Noproc), exits(first, 10, Reason::Noproc)]);
    assert_eq!((crew.delete_child(boss, 10), crew.delete_child(boss, 11)), (Ok(0), Ok(0)));
    assert_eq!((run(&mut crew, desk), counts(&crew)), (vec![], Some((0, 0, 0))));
    // a child in its place has not exited before
    assert_eq!(crew.start_child(boss, child), Ok(0));
    let told = run(&mut crew, desk);
    assert_eq!(told, [starts(pids(&crew, boss)[0], 11, boss, false)]);
    Ok(())
}

/// The steps of two desks, whose crews are in this order, until nothing is told. Each process that begins is answered.
fn run_both(crews: &mut [Crew], desks: &mut [Desk]) -> Vec<Job> {
    let mut told = Vec::new();
    for _ in 0..10 {
        for (crew, desk) in crews.iter_mut().zip(&mut *desks) {
            let jobs = step(crew, desk);
            let begun = jobs.iter().filter(|job| matches!(job.what, What::Start(_)));
            begun.for_each(|job| crew.answer(&[(job.pid, ANY)]).expect("it runs"));
            told.extend(jobs);
        }
    }
    told
}

#[test]
fn a_child_is_started_on_another_desk() -> Result<(), Fault> {
    let mut desks = open(2, Config::default())?;
    let mut crews = vec![Crew::new(&desks[0])?, Crew::new(&desks[1])?];
    let children = [ChildSpec { elsewhere: true, ..ChildSpec::new(10) }, ChildSpec::new(11)];
    let boss = crews[0].spawn_supervisor(&mut desks[0], 5, spec(), &children)?;
    assert_eq!((crews[0].child_to_start(boss), run_both(&mut crews, &mut desks)), (None, vec![]));
    assert_eq!((crews[0].child_to_start(boss), crews[0].child_to_start(boss)), (Some(10), None));
    let child = crews[1].spawn(&mut desks[1], 10, Next::Proceed)?;
    assert_eq!(crews[0].child_started(boss, 11, child), Err(ChildFault::NotFound));
    assert_eq!(crews[0].child_started(boss, 10, child), Ok(()));
    assert_eq!(crews[0].child_not_started(boss, 10), Err(ChildFault::NotFound));
    let told = run_both(&mut crews, &mut desks);
    let before = pids(&crews[0], boss);
    assert_eq!((before[0], told.len(), before[1].shard), (child, 2, 0));
    // it crashes, its start fails once, and then another takes its place
    desks[1].exit(child, CRASH)?;
    assert_eq!(run_both(&mut crews, &mut desks).len(), 1);
    assert_eq!((crews[0].child_to_start(boss), crews[0].child_not_started(boss, 10)), (Some(10), Ok(())));
    assert_eq!((run_both(&mut crews, &mut desks), crews[0].child_to_start(boss)), (vec![], Some(10)));
    let again = crews[1].spawn(&mut desks[1], 10, Next::Proceed)?;
    assert_eq!(crews[0].child_started(boss, 10, again), Ok(()));
    run_both(&mut crews, &mut desks);
    assert_eq!(pids(&crews[0], boss), [again, before[1]]);
    Ok(())
}

/// What is refused, and that nothing has changed then.
#[test]
fn calls_about_children_are_refused() -> Result<(), Fault> {
    let mut desks = open(1, Config::default())?;
    let desk = &mut desks[0];
    let mut crew = Crew::new(desk)?;
    let one = crew.spawn(desk, 1, ANY)?;
    let boss = crew.spawn_supervisor(desk, 5, spec(), &[ChildSpec::new(10)])?;
    run(&mut crew, desk);
    let nobody = Pid { shard: 0, slot: 9, version: 9 };
    let before = (crew.children(boss), crew.next(boss), crew.queued(), desk.event_count());
    for (p, tag) in [(one, 10), (nobody, 10), (boss, 11)] {
        assert_eq!(crew.terminate_child(p, tag), Err(ChildFault::NotFound));
        assert_eq!(crew.restart_child(p, tag), Err(ChildFault::NotFound));
        assert_eq!(crew.delete_child(p, tag), Err(ChildFault::NotFound));
        assert_eq!((crew.child_to_start(p), crew.child_started(p, tag, one)), (None, Err(ChildFault::NotFound)));
        assert_eq!(crew.child_not_started(p, tag), Err(ChildFault::NotFound));
    }
    for p in [one, nobody] {
        assert_eq!(crew.start_child(p, ChildSpec::new(10)), Err(ChildFault::NotFound));
        assert_eq!((crew.count_children(p), crew.gave_up(p)), (None, None));
    }
    assert_eq!(crew.start_child(boss, ChildSpec::new(10)), Err(ChildFault::Running));
    assert_eq!((crew.children(boss), crew.next(boss), crew.queued(), desk.event_count()), before);
    Ok(())
}

/// A supervisor that waits for the exit of a child goes on waiting: the child is told once, and another starts after it.
#[test]
fn a_child_is_told_once_to_exit() -> Result<(), Fault> {
    let mut desks = open(1, Config::default())?;
    let desk = &mut desks[0];
    let mut crew = Crew::new(desk)?;
    let boss = crew.spawn_supervisor(desk, 5, spec(), &[ChildSpec::new(10)])?;
    run(&mut crew, desk);
    let slow = pids(&crew, boss)[0];
    desk.trap(slow, true)?;
    crew.terminate_child(boss, 10).expect("it has such a child");
    let bid = Job { pid: slow, tag: 10, what: What::Item(Item::Exit(boss, Reason::Shutdown)) };
    assert_eq!(run(&mut crew, desk), [bid]);
    assert_eq!(crew.start_child(boss, ChildSpec::new(11)), Ok(1));
    assert_eq!(crew.terminate_child(boss, 10), Ok(()));
    assert!(matches!(crew.next(boss), Some(Next::Wait(Pick::DownOf(_)))));
    assert_eq!(run(&mut crew, desk), []);
    assert_eq!(desk.waiting(slow).map(Iterator::count), Some(0));
    crew.answer(&[(slow, Next::Stop(Reason::Normal))]).expect("it runs");
    let told = run(&mut crew, desk);
    let other = crew.child(boss, 1).and_then(|child| child.pid).expect("it was started");
    let exit = Job { pid: slow, tag: 10, what: What::Exit(Reason::Normal, Next::Stop(Reason::Normal)) };
    assert_eq!(told, [exit, starts(other, 11, boss, false)]);
    Ok(())
}

#[test]
fn a_supervisor_says_why_it_gave_up() -> Result<(), Fault> {
    let mut desks = open(1, Config::default())?;
    let desk = &mut desks[0];
    let mut crew = Crew::new(desk)?;
    let children = [ChildSpec::new(10), ChildSpec::new(11)];
    let boss = crew.spawn_supervisor(desk, 5, SupervisorSpec { most: 0, span: 9, timed: true, ..spec() }, &children)?;
    run(&mut crew, desk);
    assert_eq!(crew.gave_up(boss), None);
    desk.exit(pids(&crew, boss)[1], CRASH)?;
    let mut told = step(&mut crew, desk);
    let cause = GaveUp { tag: 11, place: 1, reason: CRASH, restarts: 0, span: 9, timed: true };
    assert_eq!(crew.gave_up(boss), Some(cause));
    told.extend(run(&mut crew, desk));
    assert_eq!((told.len(), crew.gave_up(boss), crew.len()), (3, None, 0));
    Ok(())
}

#[test]
fn processes_without_a_supervisor_are_told_beside_it() -> Result<(), Fault> {
    let mut desks = open(1, Config::default())?;
    let desk = &mut desks[0];
    let mut crew = Crew::new(desk)?;
    let one = crew.spawn(desk, 1, Next::Proceed)?;
    let boss = crew.spawn_supervisor(desk, 0, spec(), &[ChildSpec::new(2)])?;
    assert_eq!(step(&mut crew, desk), [Job { pid: one, tag: 1, what: What::Start(None) }]);
    crew.answer(&[(one, Next::Proceed)]).expect("it runs");
    let child = crew.child(boss, 0).and_then(|child| child.pid).expect("it was started");
    let told = step(&mut crew, desk);
    assert_eq!(told, [starts(child, 2, boss, false), Job { pid: one, tag: 1, what: What::Proceed }]);
    assert_eq!((crew.child(boss, 1), crew.child(one, 0)), (None, None));
    Ok(())
}

#[test]
fn supervisors_go_on_with_their_node() -> Result<(), Fault> {
    let mut desks = open(2, Config::default())?;
    let mut crew = Crew::new(&desks[1])?;
    let boss = crew.spawn_supervisor(&mut desks[1], 5, spec(), &[ChildSpec::new(10)])?;
    run(&mut crew, &mut desks[1]);
    let child = pids(&crew, boss)[0];
    // an exit that was not told as the node is gathered
    desks[1].exit(child, CRASH)?;
    let settled = gather(desks)?.settle_unlisted()?;
    let history = settled.history()?;
    let mut desks = settled.resume()?;
    let mut jobs = vec![exits(child, 9, CRASH)];
    assert_eq!(crew.step(&mut desks[1], 1, 1, &mut jobs), Err(Fault::WrongDesk));
    assert_eq!(crew.go_on(&desks[0], &history), Err(Fault::WrongDesk));
    assert_eq!(jobs.len(), 1);
    crew.go_on(&desks[1], &history)?;
    let told = run(&mut crew, &mut desks[1]);
    let again = pids(&crew, boss)[0];
    assert!(told.contains(&exits(child, 10, CRASH)) && told.contains(&starts(again, 10, boss, true)));
    assert_eq!(told.len(), 2);
    // and once more, where all was told
    let mut desks = gather(desks)?.settle_unlisted()?.resume()?;
    crew.begin_again(&desks[1])?;
    assert_eq!((run(&mut crew, &mut desks[1]), pids(&crew, boss)), (vec![], vec![again]));
    Ok(())
}

#[test]
fn a_node_of_supervisors_goes_on_in_one_call() -> Result<(), Fault> {
    let mut desks = open(2, Config::default())?;
    let mut crews = [Crew::new(&desks[0])?, Crew::new(&desks[1])?];
    let mut bosses = vec![];
    for (crew, desk) in crews.iter_mut().zip(&mut desks) {
        bosses.push(crew.spawn_supervisor(desk, 5, spec(), &[ChildSpec::new(10)])?);
        run(crew, desk);
    }
    let child = pids(&crews[1], bosses[1])[0];
    // an exit that was not told
    desks[1].exit(child, CRASH)?;
    crews.swap(0, 1);
    let back = go_on(desks, &mut crews).expect_err("each is of another desk");
    assert_eq!(back.fault, Fault::WrongDesk);
    crews.swap(0, 1);
    let back = go_on(back.node, &mut crews[..1]).expect_err("there are two desks");
    assert_eq!(back.fault, Fault::BadDesks);
    let (mut desks, history) = go_on(back.node, &mut crews)?;
    assert!(history.count() > 4 && desks.iter().all(|desk| desk.event_count() == 0));
    assert_eq!(run(&mut crews[0], &mut desks[0]), []);
    let told = run(&mut crews[1], &mut desks[1]);
    let again = pids(&crews[1], bosses[1])[0];
    assert!(told.contains(&exits(child, 10, CRASH)) && told.contains(&starts(again, 10, bosses[1], true)));
    assert_eq!(told.len(), 2);
    // a node that was settled by calls of its own
    let (desks, _) = go_on(Node::Settled(gather(desks)?.settle_unlisted()?), &mut crews)?;
    assert_eq!((desks.len(), pids(&crews[1], bosses[1])), (2, vec![again]));
    Ok(())
}

#[test]
fn a_supervisor_is_spawned_on_the_desk_of_its_crew_alone() -> Result<(), Fault> {
    let mut desks = open(2, Config::default())?;
    let mut others = open(2, Config::default())?;
    let settled = gather(open(1, Config::default())?)?.settle_unlisted()?;
    let mut crew = Crew::new(&desks[1])?;
    for desk in [&mut desks[0], &mut others[1]] {
        assert_eq!(crew.spawn_supervisor(desk, 1, spec(), &[]), Err(Fault::WrongDesk));
        assert_eq!(crew.go_on(desk, &settled.history()?), Err(Fault::WrongDesk));
        assert_eq!(desk.event_count(), 0);
    }
    assert_eq!((crew.len(), crew.queued()), (0, 0));
    Ok(())
}

#[test]
fn types_go_to_other_threads() {
    fn goes<T: std::fmt::Debug + Send + Sync + 'static>() {}
    goes::<Crew>();
    goes::<Job>();
    goes::<Child>();
}

/// The structs and codes are those that the library says it has.
#[test]
fn structs_and_codes_are_the_librarys() {
    let (mut codes, mut child) = (RawSupervisorCodes::default(), RawChild::default());
    let (mut of_child, mut spec) = (RawChildSpec::default(), RawSupervisorSpec::default());
    let (mut counts, mut cause) = (RawChildCounts::default(), RawGaveUp::default());
    unsafe {
        pt_about_supervisors(&mut codes);
        pt_about_supervisor_spec(&mut spec);
        pt_about_child_spec(&mut of_child);
        pt_about_child(&mut child);
        pt_about_child_counts(&mut counts);
        pt_about_gave_up(&mut cause);
    }
    let pid = |first: u8| Pid { shard: first, slot: u32::from(first) + 1, version: u32::from(first) + 2 };
    assert_eq!(codes, SUPERVISOR_CODES);
    assert_eq!((spec.strategy, spec.timed, spec.has_parent), (1, true, true));
    assert_eq!((spec.parent, spec.most, spec.span), (pid(4), 7, 8));
    assert_eq!((of_child.tag, of_child.restart, of_child.shutdown, of_child.time), (1, 2, 3, 4));
    assert!(of_child.elsewhere);
    assert_eq!((child.has_pid, child.wanted, child.pid), (true, true, pid(3)));
    assert_eq!((child.restart, child.shutdown, child.time), (6, 7, 8));
    assert_eq!((counts.specs, counts.active, counts.restarting), (1, 2, 3));
    assert_eq!((cause.tag, cause.place, cause.reason.code, cause.reason.number), (1, 2, 3, 4));
    assert_eq!((cause.restarts, cause.span, cause.timed), (5, 6, true));
}
