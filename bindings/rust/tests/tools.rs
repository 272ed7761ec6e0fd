//! Timers, names and groups.

use pundewo::{
    Config, Fault, Fired, Groups, Holder, Item, Left, NameFault, Names, Pick, Pid, Ref, Timer, Timers, open,
};

#[test]
fn timers_fire_in_order_and_once() -> Result<(), Fault> {
    let mut timers = Timers::new()?;
    assert!(timers.is_empty() && timers.next().is_none() && timers.pop_due(u64::MAX).is_none());
    let ring = timers.start(30, 100)?;
    let poll = timers.start(10, 101)?;
    let late = timers.start(30, 102)?;
    assert_eq!((ring, poll), (Timer { at: 30, number: 0 }, Timer { at: 10, number: 1 }));
    assert_eq!((timers.len(), timers.next(), timers.get(late)), (3, Some(10), Some(102)));
    assert_eq!((timers.pop_due(9), timers.peek_due(9)), (None, None));
    let fired = Some(Fired { timer: poll, body: 101 });
    assert_eq!((timers.peek_due(12), timers.pop_due(12), timers.pop_due(12)), (fired, fired, None));
    assert_eq!(
        (timers.get(poll), timers.cancel(poll), timers.cancel(Timer { at: 1, number: 1 })),
        (None, false, false)
    );
    assert_eq!(timers.pop_due(30), Some(Fired { timer: ring, body: 100 }));
    assert_eq!((timers.cancel(late), timers.cancel(late), timers.pop_due(u64::MAX)), (true, false, None));
    assert_eq!((timers.len(), timers.start(u64::MAX, u64::MAX)?.number), (0, 3));
    assert_eq!(format!("{timers:?}"), "Timers { pending: 1 }");
    Ok(())
}

#[test]
fn a_name_is_of_one_process_until_it_is_forgotten() -> Result<(), Fault> {
    let mut desks = open(1, Config::default())?;
    let desk = &mut desks[0];
    let (keeper, line, other) = (desk.spawn()?, desk.spawn()?, desk.spawn()?);
    let mut names = Names::new()?;
    assert_eq!((names.whereis("line_12"), names.check("line_12", line)), (Ok(None), Ok(())));
    let monitor = desk.monitor(keeper, line)?;
    assert_eq!(names.register("line_12", line, monitor), Ok(()));
    assert_eq!((names.whereis("line_12"), names.name_of(line).as_deref()), (Ok(Some(line)), Some("line_12")));
    for taken in [names.check("line_12", other), names.register("line_12", other, monitor)] {
        assert_eq!(taken, Err(NameFault::Taken));
    }
    for second in [names.check("line_13", line), names.register("line_13", line, monitor)] {
        assert_eq!(second, Err(NameFault::HasName));
    }
    let longest = "abcdefghijklmnopqrstuvwxyz_01234";
    let reference = Ref { desk: 3, number: 4 };
    assert_eq!(names.register(longest, other, reference), Ok(()));
    assert_eq!((names.name_of(other).as_deref(), names.len()), (Some(longest), 2));
    desk.turn(16);
    desk.exit(line, pundewo::Reason::Normal)?;
    desk.turn(16);
    let Some(Item::Down(_, pid, _)) = desk.receive(keeper, Pick::Any)? else { panic!("no DOWN") };
    assert_eq!((names.forget(pid).as_deref(), names.forget(pid), names.name_of(pid)), (Some("line_12"), None, None));
    assert_eq!(names.whereis("line_12"), Ok(None));
    assert_eq!(names.unregister(longest), Ok(Some(Holder { pid: other, monitor: reference })));
    assert_eq!((names.unregister(longest), names.is_empty()), (Ok(None), true));
    Ok(())
}

#[test]
fn what_is_no_name_is_refused() -> Result<(), Fault> {
    let mut names = Names::new()?;
    let (p, m) = (Pid::default(), Ref { desk: 0, number: 1 });
    for text in ["", "1st", "_x", "line-1", "a b", "a\0b", "abcdefghijklmnopqrstuvwxyz0123456", "ä"] {
        assert_eq!(names.register(text, p, m), Err(NameFault::BadName));
        assert_eq!(names.check(text, p), Err(NameFault::BadName));
        assert_eq!(names.whereis(text), Err(NameFault::BadName));
        assert_eq!(names.unregister(text), Err(NameFault::BadName));
    }
    assert_eq!((names.len(), NameFault::BadName.to_string()), (0, "the text is no name".to_string()));
    Ok(())
}

#[test]
fn a_process_is_in_a_group_until_it_has_left_as_often_or_is_forgotten() -> Result<(), Fault> {
    let mut desks = open(1, Config::default())?;
    let (a, b) = (desks[0].spawn()?, desks[0].spawn()?);
    let [first, second] = [4, 5].map(|number| Ref { desk: 3, number });
    let mut groups = Groups::new()?;
    assert_eq!((groups.len(7), groups.times(7, a), groups.member_at(7, 0), groups.monitor_of(a)), (0, 0, None, None));
    assert_eq!((groups.leave(7, a), groups.forget(a), groups.group_at(a, 0)), (Left::NotThere, None, None));
    assert_eq!((groups.join(7, a, first), groups.join(7, a, second)), (Ok(first), Ok(first)));
    assert_eq!((groups.join(u64::MAX, a, second), groups.join(7, b, second)), (Ok(first), Ok(second)));
    assert_eq!((groups.times(7, a), groups.times(7, b), groups.times(u64::MAX, a)), (2, 1, 1));
    assert_eq!((groups.len(7), groups.len(8), groups.is_empty(8), groups.monitor_of(a)), (2, 0, true, Some(first)));
    let mut members: Vec<Pid> = groups.members(7).collect();
    members.sort_unstable();
    assert_eq!((members, groups.member_at(7, 2)), (vec![a, b], None));
    let mut all: Vec<u64> = groups.groups_of(a).collect();
    all.sort_unstable();
    assert_eq!((all, groups.group_at(a, 2)), (vec![7, u64::MAX], None));
    assert_eq!((groups.leave(7, a), groups.times(7, a), groups.leave(7, b)), (Left::Stays, 1, Left::Last(second)));
    assert_eq!((groups.leave(7, b), groups.monitor_of(b)), (Left::NotThere, None));
    assert_eq!((groups.forget(a), groups.forget(a), groups.len(7), groups.len(u64::MAX)), (Some(first), None, 0, 0));
    assert_eq!(format!("{groups:?}"), "Groups { .. }");
    Ok(())
}

#[test]
fn all_may_go_to_another_thread() {
    fn is_send<T: Send + Sync>() {}
    is_send::<Timers>();
    is_send::<Names>();
    is_send::<Groups>();
}
