//! What the types promise: errors go to other threads and say why, printed texts read back, and readers take `&self`.

use pundewo::{
    Account, Body, Config, Crew, Desk, DesksBack, Event, Fault, Gathered, Happened, History, Ids, Item, Job, LeftOver,
    LinkId, Next, Node, NodeBack, NotRead, NotTaken, Pick, Pid, Quiet, Reason, Ref, Resting, Signal, Turned, Unsettled,
    gather, open, runtime,
};
use std::collections::{BTreeSet, HashSet};
use std::error::Error;
use std::fmt::{Debug, Display};
use std::hash::Hash;
use std::str::FromStr;

/// Compiles alone if each error can be what `Box<dyn Error + Send + Sync>` holds.
#[test]
fn errors_go_to_other_threads() {
    fn goes<T: Error + Send + Sync + 'static>() {}
    goes::<Fault>();
    goes::<DesksBack>();
    goes::<Unsettled>();
    goes::<Resting>();
    goes::<NotRead>();
    goes::<NotTaken>();
    goes::<NodeBack>();
    goes::<runtime::StartFault>();
    goes::<runtime::SpawnFault>();
    goes::<runtime::StopFault>();
    goes::<runtime::CallFault>();
    goes::<runtime::ChildFault>();
}

#[test]
fn types_go_to_other_threads_and_are_printed() {
    fn goes<T: Debug + Send + Sync + 'static>() {}
    goes::<Desk>();
    goes::<Gathered>();
    goes::<Quiet>();
    goes::<History>();
    goes::<Config>();
    goes::<Crew>();
    goes::<Node>();
    goes::<runtime::Runtime>();
    goes::<runtime::Handle>();
    goes::<runtime::Address<Vec<u8>>>();
    goes::<runtime::Call<u8>>();
    goes::<runtime::Timer>();
    goes::<runtime::HistoryFile>();
    goes::<runtime::Halted>();
    goes::<runtime::Name<Vec<u8>>>();
    goes::<runtime::ChildInfo>();
    goes::<runtime::Started<Vec<u8>>>();
}

#[test]
fn what_holds_closures_goes_to_one_thread_at_a_time() {
    fn moves<T: Debug + Send + 'static>() {}
    moves::<runtime::Supervisor>();
    moves::<runtime::Child<Vec<u8>>>();
    moves::<runtime::ToSupervisor>();
}

#[test]
fn values_are_keys() {
    fn key<T: Copy + Debug + Eq + Hash + Send + Sync + 'static>() {}
    fn in_order<T: Ord + Hash>() {}
    key::<Config>();
    key::<Body>();
    key::<Item>();
    key::<Pick>();
    key::<Signal>();
    key::<Happened>();
    key::<Event>();
    key::<LeftOver>();
    key::<Account>();
    key::<Turned>();
    key::<Fault>();
    key::<Next>();
    key::<Job>();
    key::<NotTaken>();
    key::<runtime::Next>();
    key::<runtime::Selection>();
    key::<runtime::Restart>();
    key::<runtime::Shutdown>();
    key::<runtime::Target>();
    key::<runtime::Timer>();
    in_order::<Pid>();
    in_order::<Ref>();
    in_order::<LinkId>();
    in_order::<Ids>();
    in_order::<Reason>();
}

#[test]
fn any_error_is_passed_on_by_a_question_mark() -> Result<(), Box<dyn Error + Send + Sync>> {
    let mut desks = open(2, Config::default())?;
    let pid: Pid = "<0.0.1>".parse()?;
    assert_eq!(desks[0].spawn()?, pid);
    let quiet = gather(desks)?.settle()?;
    assert_eq!(quiet.resume()?.len(), 2);
    Ok(())
}

#[test]
fn the_settings_of_rattle_are_the_default() {
    assert_eq!(Config::default(), Config { slots: 1_024, top_version: u32::MAX, lane: 64, start: 0 });
    let mut desks = open(1, Config::default()).unwrap();
    for slot in 0..1_024 {
        assert_eq!(desks[0].spawn(), Ok(Pid { shard: 0, slot, version: 1 }));
    }
    assert_eq!(desks[0].spawn(), Err(Fault::Full));
}

/// A clock at its limit takes no more receipts, so such a node is not settled, and says so.
#[test]
fn a_node_that_is_not_settled_comes_back() {
    let mut desks = open(2, Config { start: (1 << 62) - 3, ..Config::default() }).unwrap();
    let (a, b) = (desks[0].spawn().unwrap(), desks[1].spawn().unwrap());
    for num in 0..2 {
        desks[1].send(b, a, Body { kind: 1, num, who: None }).unwrap();
    }
    let back = gather(desks).unwrap().settle().unwrap_err();
    assert_eq!(back.fault, Fault::Worn);
    assert_eq!(back.to_string(), "the node is not settled: the clock is at its limit");
    assert_eq!(format!("{back:?}"), "Unsettled { fault: Worn, gathered: Gathered { .. } }");
    assert_eq!(back.gathered.settle().unwrap_err().fault, Fault::Worn);
}

#[test]
fn readers_share_a_desk() {
    let mut desks = open(1, Config::default()).unwrap();
    let pid = desks[0].spawn().unwrap();
    desks[0].send(pid, pid, Body { kind: 1, num: 7, who: None }).unwrap();
    desks[0].turn(8);
    let desk = &desks[0];
    let texts = |desk: &Desk| desk.events(0).map(|event| event.to_string()).collect::<Vec<_>>();
    let told = texts(desk);
    std::thread::scope(|threads| {
        for _ in 0..4 {
            threads.spawn(|| {
                for _ in 0..200 {
                    assert!(desk.alive(pid) && desk.knows(pid) && desk.clock() == desk.event_count() as u64);
                    assert_eq!((texts(desk), desk.waiting(pid).unwrap().count(), desk.pending()), (told.clone(), 1, 0));
                }
            });
        }
    });
    let gathered = gather(desks).unwrap();
    let (one, other) = (gathered.history().unwrap(), gathered.history().unwrap());
    assert_eq!((gathered.desks(), one.count()), (1, told.len()));
    assert!(one.events().eq(other.events()) && one.left_over().eq(other.left_over()));
}

/// Reads the text of each value back, and refuses each of the other texts.
fn reads_back<T: FromStr<Err = NotRead> + Display + PartialEq + Debug>(values: &[T], others: &[&str]) {
    for value in values {
        assert_eq!(value.to_string().parse::<T>().as_ref(), Ok(value));
    }
    for text in others {
        let told = text.parse::<T>().unwrap_err().to_string();
        assert!(told.starts_with("the text is not "), "{text}: {told}");
    }
}

#[test]
fn printed_texts_read_back() {
    let pid = |shard, slot, version| Pid { shard, slot, version };
    let pids = [pid(0, 0, 1), pid(63, 65_535, 1), pid(10, 100, 20), pid(u8::MAX, u32::MAX, u32::MAX)];
    let others = [
        "", "<>", "<0.0>", "<0.0.1", "0.0.1>", "<0.0.1.2>", "<0..1>", "<00.0.1>", "<0.0.01>", "<+0.0.1>", "<-1.0.1>",
        "<256.0.1>", "<0.4294967296.1>", "<0.0.4294967296>", "<0.0.1> ", " <0.0.1>", "<0.0.0x1>", "<0.0.\u{661}>",
    ];
    reads_back(&pids, &others);
    let others = [
        "", "#", "#0", "#0.", "#.1", "~0.1x", "#0.1.2", "#256.1", "#0.18446744073709551616", "#0.01", "#0.+1", "~0.+1",
    ];
    let numbers = [(0, 0), (1, 7), (63, 1 << 62), (u8::MAX, u64::MAX)];
    reads_back(&numbers.map(|(desk, number)| Ref { desk, number }), &others);
    reads_back(&numbers.map(|(desk, number)| LinkId { desk, number }), &others);
    assert!("~0.1".parse::<Ref>().is_err() && "#0.1".parse::<LinkId>().is_err());
    let others = ["", "Normal", "normal ", "crash", "other", "other:", "other:-1", "other:007", "other:4294967296"];
    let reasons = [Reason::Normal, Reason::Kill, Reason::Killed, Reason::Noproc, Reason::Shutdown];
    reads_back(&reasons, &others);
    reads_back(&[0, 7, 10, u32::MAX].map(Reason::Other), &others);
}

#[test]
fn pids_and_references_are_in_order() {
    let pids = ["<1.0.1>", "<0.1.1>", "<0.0.2>", "<0.0.1>"].map(|text| text.parse::<Pid>().unwrap());
    let sorted: Vec<String> = BTreeSet::from(pids).iter().map(Pid::to_string).collect();
    assert_eq!(sorted, ["<0.0.1>", "<0.0.2>", "<0.1.1>", "<1.0.1>"]);
    let refs = ["#1.1", "#0.2", "#0.1"].map(|text| text.parse::<Ref>().unwrap());
    let sorted: Vec<String> = BTreeSet::from(refs).iter().map(Ref::to_string).collect();
    assert_eq!(sorted, ["#0.1", "#0.2", "#1.1"]);
    assert_eq!(HashSet::from([Reason::Normal, Reason::Other(1), Reason::Other(1)]).len(), 2);
}
