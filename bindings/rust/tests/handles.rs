//! What the types alone keep: desks of two nodes are not gathered together, and a dropped desk gives its memory back.

use pundewo::{Config, Fault, Reason, gather, open};

const CONFIG: Config = Config { slots: 4, top_version: 9, lane: 4, start: 0 };

#[test]
fn desks_of_two_nodes_come_back() {
    let mut desks = open(2, CONFIG).unwrap();
    let mut others = open(2, CONFIG).unwrap();
    std::mem::swap(&mut desks[1], &mut others[1]);
    let back = gather(desks).err().unwrap();
    assert_eq!(back.fault, Fault::NotOneNode);
    assert_eq!(back.desks.len(), 2);
}

#[test]
fn a_missing_desk_and_another_order_come_back() {
    let mut desks = open(3, CONFIG).unwrap();
    let last = desks.pop().unwrap();
    let mut desks = gather(desks).err().unwrap().desks;
    desks.insert(0, last);
    let mut desks = gather(desks).err().unwrap().desks;
    desks.rotate_left(1);
    assert_eq!(gather(desks).ok().unwrap().desks(), 3);
    assert_eq!(gather(Vec::new()).err().unwrap().fault, Fault::NotOneNode);
}

#[test]
fn desks_before_and_after_a_resumption_are_of_two_nodes() {
    let mut others = open(2, CONFIG).unwrap();
    let quiet = gather(open(2, CONFIG).unwrap()).ok().unwrap().settle().ok().unwrap();
    let mut desks = quiet.resume().unwrap();
    std::mem::swap(&mut desks[1], &mut others[1]);
    let mut desks = gather(desks).err().unwrap().desks;
    std::mem::swap(&mut desks[1], &mut others[1]);
    assert_eq!(gather(desks).ok().unwrap().desks(), 2);
}

#[test]
fn a_node_goes_on_without_a_list_of_its_pids() {
    let mut desks = open(2, CONFIG).unwrap();
    let pids: Vec<_> = desks.iter_mut().map(|desk| desk.spawn().unwrap()).collect();
    desks[0].exit(pids[0], Reason::Normal).unwrap();
    let quiet = gather(desks).ok().unwrap().settle_unlisted().unwrap();
    assert_eq!((quiet.desks(), quiet.handled()), (2, 0));
    assert_eq!(quiet.history().unwrap().count(), 3);
    assert_eq!(quiet.account(pids[0]).unwrap().ended, Some(Reason::Normal));
    let mut desks = quiet.resume().unwrap();
    assert!(!desks[0].alive(pids[0]) && desks[1].alive(pids[1]));
    let third = desks[0].spawn().unwrap();
    let quiet = gather(desks).ok().unwrap().settle_unlisted().unwrap();
    // made on request, once
    for _ in 0..2 {
        assert_eq!(quiet.pids().unwrap().collect::<Vec<_>>(), [pids[0], third, pids[1]]);
    }
    assert!(quiet.resume().unwrap()[0].alive(third));
}

#[test]
fn settings_out_of_range_are_told() {
    assert_eq!(open(0, CONFIG).err(), Some(Fault::BadDesks));
    assert_eq!(open(65, CONFIG).err(), Some(Fault::BadDesks));
    assert_eq!(open(300, CONFIG).err(), Some(Fault::BadDesks));
    assert_eq!(open(usize::MAX, CONFIG).err(), Some(Fault::BadDesks));
    assert_eq!(open(1, Config { slots: 0, ..CONFIG }).err(), Some(Fault::BadSlots));
    assert_eq!(open(1, Config { top_version: 0, ..CONFIG }).err(), Some(Fault::BadTopVersion));
    assert_eq!(open(1, Config { lane: 70_000, ..CONFIG }).err(), Some(Fault::BadLane));
    assert_eq!(open(1, Config { start: u64::MAX, ..CONFIG }).err(), Some(Fault::BadStart));
}

#[test]
fn desks_go_to_threads() {
    let mut desks = open(2, CONFIG).unwrap();
    let pids: Vec<_> = desks.iter_mut().map(|desk| desk.spawn().unwrap()).collect();
    let threads: Vec<_> = desks
        .into_iter()
        .zip(pids.clone())
        .map(|(mut desk, pid)| {
            std::thread::spawn(move || {
                desk.exit(pid, Reason::Other(7)).unwrap();
                desk
            })
        })
        .collect();
    let desks = threads.into_iter().map(|thread| thread.join().unwrap()).collect();
    let quiet = gather(desks).ok().unwrap().settle().ok().unwrap();
    assert_eq!(quiet.pids().unwrap().collect::<Vec<_>>(), pids);
    assert_eq!(quiet.account(pids[1]).unwrap().ended, Some(Reason::Other(7)));
}

#[test]
fn a_process_that_got_an_item_or_left_is_named() {
    let mut desks = open(1, CONFIG).unwrap();
    let desk = &mut desks[0];
    let (a, b) = (desk.spawn().unwrap(), desk.spawn().unwrap());
    let mut at = 0;
    assert_eq!(desk.next_woken(&mut at), None);
    assert_eq!(at, 2);
    desk.send(a, b, pundewo::Body { kind: 1, num: 1, who: Some(a) }).unwrap();
    desk.turn(9);
    desk.exit(a, Reason::Normal).unwrap();
    assert_eq!(desk.next_woken(&mut at), Some(b));
    assert_eq!(desk.next_woken(&mut at), Some(a));
    assert_eq!(desk.next_woken(&mut at), None);
    assert_eq!(desk.event_count(), at);
}

#[test]
fn a_desk_tells_what_it_lost_once() {
    let body = |num| pundewo::Body { kind: 1, num, who: None };
    let mut desks = open(1, CONFIG).unwrap();
    let desk = &mut desks[0];
    let (a, b) = (desk.spawn().unwrap(), desk.spawn().unwrap());
    desk.keep_losses(true);
    assert_eq!(desk.next_loss(), None);
    desk.send(a, b, body(1)).unwrap();
    desk.send(a, b, body(2)).unwrap();
    desk.turn(9);
    desk.send(a, b, body(3)).unwrap();
    desk.exit_signal(a, a, Reason::Other(7)).unwrap();
    desk.exit(b, Reason::Shutdown).unwrap();
    let quiet = gather(desks).ok().unwrap().settle().ok().unwrap();
    let desk = &mut quiet.resume().unwrap()[0];
    let items = |nums: &[i64]| nums.iter().map(|num| pundewo::Item::User(a, body(*num))).collect::<Vec<_>>();
    let told = std::iter::from_fn(|| desk.next_loss()).map(|loss| (loss.pid, loss.reason, loss.items));
    let wanted =
        [(b, Some(Reason::Shutdown), items(&[1, 2])), (b, None, items(&[3])), (a, Some(Reason::Other(7)), items(&[]))];
    assert_eq!(told.collect::<Vec<_>>(), wanted);
}
