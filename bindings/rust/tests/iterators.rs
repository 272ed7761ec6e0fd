//! What the iterators promise: their length, both ends, and no more after the last.

use pundewo::{Body, Config, Desk, Event, Item, Pid, Reason, Ref, gather, open};
use std::fmt::Debug;

/// Compares an iterator with the list of what it returns.
fn is_whole<I>(made: impl Fn() -> I, count: usize)
where
    I: DoubleEndedIterator + ExactSizeIterator + Clone + Debug,
    I::Item: PartialEq + Debug,
{
    let all: Vec<I::Item> = made().collect();
    assert_eq!((all.len(), made().len(), made().count()), (count, count, count));
    let mut back: Vec<I::Item> = made().rev().collect();
    back.reverse();
    assert_eq!(back, all);
    assert_eq!(format!("{:?}", made()), format!("{all:?}"));
    for at in 0..count + 2 {
        assert_eq!(made().nth(at).as_ref(), all.get(at));
        assert_eq!(made().nth_back(at).as_ref(), count.checked_sub(at + 1).map(|place| &all[place]));
        assert!(made().skip(at).eq(made().collect::<Vec<_>>().into_iter().skip(at)));
    }
    assert_eq!(made().last().as_ref(), all.last());
    let (mut ends, mut seen) = (made(), 0);
    while let Some(front) = ends.next() {
        assert_eq!(front, all[seen]);
        seen += 1;
        assert_eq!(ends.clone().next_back().as_ref(), if seen < count { all.last() } else { None });
        assert_eq!(ends.len(), count - seen);
    }
    assert!(ends.next().is_none() && ends.next_back().is_none());
}

/// Two desks on which five messages were sent: three have come, and two are left over.
fn played() -> (Vec<Desk>, Pid) {
    let mut desks = open(2, Config::default()).unwrap();
    let (a, b) = (desks[0].spawn().unwrap(), desks[1].spawn().unwrap());
    for num in 0..3 {
        desks[0].send(a, b, Body { kind: 1, num, who: None }).unwrap();
    }
    desks[0].turn(9);
    desks[1].turn(9);
    for num in 3..5 {
        desks[0].send(a, b, Body { kind: 1, num, who: None }).unwrap();
    }
    (desks, b)
}

#[test]
fn the_events_of_a_desk() {
    let (desks, _) = played();
    is_whole(|| desks[0].events(0), 6);
    is_whole(|| desks[0].events(4), 2);
    is_whole(|| desks[0].events(6), 0);
    is_whole(|| desks[0].events(usize::MAX), 0);
}

#[test]
fn the_items_of_a_mailbox() {
    let (desks, b) = played();
    is_whole(|| desks[1].waiting(b).unwrap(), 3);
    assert!(desks[0].waiting(b).is_none());
    let nums = desks[1].waiting(b).unwrap().map(|item| match item {
        Item::User(_, body) => body.num,
        _ => panic!("{item}"),
    });
    assert_eq!(nums.collect::<Vec<_>>(), [0, 1, 2]);
}

#[test]
fn the_links_and_monitors_of_a_process() {
    let mut desks = open(2, Config { slots: 8, ..Config::default() }).unwrap();
    let far = desks[1].spawn().unwrap();
    let desk = &mut desks[0];
    let parent = desk.spawn().unwrap();
    let children: Vec<Pid> = (0..4).map(|_| desk.spawn_child(parent, true).unwrap()).collect();
    let mut monitors: Vec<(Ref, Pid)> =
        children.iter().map(|&child| (desk.monitor(parent, child).unwrap(), child)).collect();
    monitors.push((desk.monitor(parent, far).unwrap(), far));
    desk.trap(parent, true).unwrap();
    desk.turn(99);
    desk.exit(children[1], Reason::Normal).unwrap();
    desk.turn(99);
    let (gone, _) = monitors.remove(1);
    let living = [children[0], children[2], children[3]];
    desks[1].turn(9);
    let desk = &desks[0];
    is_whole(|| desk.links(parent).unwrap(), 3);
    is_whole(|| desk.monitors(parent).unwrap(), 4);
    is_whole(|| desk.watchers(children[0]).unwrap(), 1);
    assert!(desk.links(parent).unwrap().map(|(peer, _)| peer).eq(living));
    for (peer, ids) in desk.links(parent).unwrap() {
        assert_eq!((desk.linked(parent, peer), desk.linked(peer, parent)), (Some(ids), Some(ids)));
        assert!(desk.links(peer).unwrap().eq([(parent, ids)]));
    }
    assert!(desk.monitors(parent).unwrap().eq(monitors.clone()));
    assert!(desk.watchers(children[0]).unwrap().eq([(monitors[0].0, parent)]));
    assert!(desks[1].watchers(far).unwrap().eq([(monitors[3].0, parent)]));
    assert_eq!(desk.watchers(parent).unwrap().len(), 0);
    assert!(desk.pids().eq([parent].into_iter().chain(living)));
    assert!(desk.pids().rev().eq([parent].into_iter().chain(living).rev()));
    assert_eq!((desk.lives_in(parent.slot), desk.lives_in(children[1].slot)), (Some(parent), None));
    assert_eq!((desk.lives_in(7), desk.lives_in(8), desk.lives_in(u32::MAX)), (None, None, None));
    assert_eq!((desk.traps(parent), desk.traps(children[0])), (Some(true), Some(false)));
    for other in [children[1], far] {
        assert!(desk.links(other).is_none() && desk.monitors(other).is_none());
        assert!(desk.watchers(other).is_none() && desk.traps(other).is_none());
    }
    // they continue over a resumption, and a DOWN that waits counts no more
    let desks = gather(desks).unwrap().settle().unwrap().resume().unwrap();
    assert!(desks[0].monitors(parent).unwrap().eq(monitors.clone()));
    assert!(monitors.iter().all(|(monitor, _)| *monitor != gone));
    assert!(desks[0].pids().eq([parent].into_iter().chain(living)));
}

#[test]
fn a_history_and_a_settled_node() {
    let (desks, _) = played();
    let gathered = gather(desks).unwrap();
    let history = gathered.history().unwrap();
    is_whole(|| history.events(), history.count());
    is_whole(|| history.left_over(), 2);
    let mut texts = Vec::new();
    for event in &history {
        texts.push(event.to_string());
    }
    let read: Vec<Event> = texts.iter().map(|text| text.parse().unwrap()).collect();
    assert!(history.events().eq(read));
    let quiet = gathered.settle().unwrap();
    is_whole(|| quiet.pids().unwrap(), 2);
    let settled = quiet.history().unwrap();
    is_whole(|| settled.left_over(), 0);
    assert_eq!(settled.events().count(), history.count() + 2);
}

#[test]
fn a_question_mark_makes_a_fault_of_each_error() {
    fn rested(desks: Vec<Desk>) -> Result<Vec<Desk>, pundewo::Fault> {
        Ok(gather(desks)?.settle()?.resume()?)
    }
    let (mut desks, _) = played();
    desks.swap(0, 1);
    assert_eq!(rested(desks).unwrap_err(), pundewo::Fault::NotOneNode);
    let (desks, _) = played();
    assert_eq!(rested(desks).unwrap().len(), 2);
}
