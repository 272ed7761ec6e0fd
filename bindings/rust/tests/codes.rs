//! Codes that mean nothing, which no value of this crate has: the library refuses them, and nothing has changed.

use pundewo::raw::*;
use pundewo::{Config, Fault, Pid};
use std::ptr::null_mut;

const BAD: [u32; 7] = [6, 7, 255, 256, 65_536, 1 << 31, u32::MAX];
const REFUSED: u32 = Fault::BadCode as u32;

/// A desk by its bare handle, with two processes, of which the first has an item.
fn desk() -> (Handle, Pid, Pid) {
    let mut handle = Handle { at: null_mut() };
    let (mut p, mut other) = (Pid::default(), Pid::default());
    let mut turned = RawTurned::default();
    // SAFETY: the handle is empty, and this is the only one of its desk; the references are to separate values.
    unsafe {
        assert_eq!(pt_open(&mut handle, 1, Config { slots: 4, ..Config::DEFAULT }), 0);
        assert_eq!((pt_spawn(&mut handle, &mut p), pt_spawn(&mut handle, &mut other)), (0, 0));
        assert_eq!(pt_send(&mut handle, other, p, RawBody { kind: 1, num: 7, ..RawBody::default() }), 0);
        assert_eq!((pt_turn(&mut handle, 9, &mut turned), turned.handled), (0, 1));
    }
    (handle, p, other)
}

/// The clock, the letters that wait, the events, and the items of p.
fn state(handle: &mut Handle, p: Pid) -> (u64, u64, usize, usize) {
    let mut told = (0, 0, 0, 0);
    // SAFETY: the handle is the only one of its desk; the references are to separate values.
    unsafe {
        assert_eq!((pt_clock(handle, &mut told.0), pt_pending(handle, &mut told.1)), (0, 0));
        assert_eq!((pt_event_count(handle, &mut told.2), pt_waiting(handle, p, &mut told.3)), (0, 0));
    }
    told
}

#[test]
fn a_bad_code_is_refused_and_changes_nothing() {
    let (mut handle, p, other) = desk();
    let before = state(&mut handle, p);
    for code in BAD {
        let (reason, pick) = (RawReason { code, number: 1 }, RawPick { code, kind: 1, ..RawPick::default() });
        let mut out = RawItem { code: 77, ..RawItem::default() };
        // SAFETY: as above.
        unsafe {
            assert_eq!((pt_receive(&mut handle, p, pick, &mut out), out.code), (REFUSED, 77));
            assert_eq!(pt_exit_signal(&mut handle, p, other, reason), REFUSED);
            assert_eq!(pt_exit(&mut handle, p, reason), REFUSED);
        }
        assert_eq!(state(&mut handle, p), before);
    }
    // SAFETY: as above.
    assert_eq!(unsafe { pt_give_up(&mut handle) }, 0);
}

#[test]
fn a_bad_code_comes_before_what_the_desk_refuses_and_behind_an_empty_handle() {
    let (mut handle, p, other) = desk();
    let strange = Pid { shard: 9, slot: 0, version: 1 };
    let mut none = Handle { at: null_mut() };
    for code in BAD {
        let (reason, pick) = (RawReason { code, number: 1 }, RawPick { code, ..RawPick::default() });
        let mut out = RawItem::default();
        // SAFETY: as above, and an empty handle is answered by a code.
        unsafe {
            assert_eq!(pt_receive(&mut handle, strange, pick, &mut out), REFUSED);
            assert_eq!(pt_exit_signal(&mut handle, p, strange, reason), REFUSED);
            assert_eq!(pt_exit(&mut handle, strange, reason), REFUSED);
            assert_eq!(pt_receive(&mut none, p, pick, &mut out), 9);
            assert_eq!(pt_exit_signal(&mut none, p, other, reason), 9);
            assert_eq!(pt_exit(&mut none, p, reason), 9);
        }
    }
    // SAFETY: as above.
    assert_eq!(unsafe { pt_give_up(&mut handle) }, 0);
}

/// The library refuses a crew with the desk of another, before this crate's own test of nodes and numbers.
#[test]
fn a_crew_with_another_desk_is_refused_and_changes_nothing() {
    let foreign = Fault::WrongDesk as u32;
    let mut handles = [Handle { at: null_mut() }, Handle { at: null_mut() }];
    let mut crew = Handle { at: null_mut() };
    let (mut p, mut jobs, first) = (Pid::default(), [RawJob { code: 77, ..RawJob::default() }], RawNext::default());
    let (mut count, mut turned, mut idle) = (7, RawTurned { posted: 7, ..RawTurned::default() }, true);
    // SAFETY: each handle is the only one of its desk or crew; the references are to separate values.
    unsafe {
        assert_eq!(pt_open(handles.as_mut_ptr(), 2, Config { slots: 4, ..Config::DEFAULT }), 0);
        assert_eq!(pt_crew_open(&mut crew), 0);
        let [own, other] = &mut handles;
        let wait = RawNext { pick: RawPick { code: 5, ..RawPick::default() }, ..first };
        assert_eq!(pt_crew_spawn(&mut crew, own, 3, wait, &mut p), 0);
        let mut out = Pid { shard: 7, slot: 7, version: 7 };
        assert_eq!(pt_crew_spawn(&mut crew, other, 3, wait, &mut out), foreign);
        assert_eq!(pt_crew_spawn_child(&mut crew, other, p, true, 3, wait, &mut out), foreign);
        assert_eq!(out, Pid { shard: 7, slot: 7, version: 7 });
        assert_eq!(pt_crew_step(&mut crew, other, 9, jobs.as_mut_ptr(), 1, &mut count, &mut turned), foreign);
        assert_eq!((jobs[0].code, count, turned.posted), (77, 7, 7));
        assert_eq!(pt_crew_note_loss(&mut crew, other, 0), foreign);
        assert_eq!((pt_crew_is_idle(&mut crew, other, &mut idle), idle), (foreign, true));
        let mut events = 0;
        assert_eq!((pt_event_count(other, &mut events), events), (0, 0));
        assert_eq!((pt_crew_len(&mut crew, &mut count), count), (0, 1));
        assert_eq!((pt_crew_is_idle(&mut crew, own, &mut idle), idle), (0, false));
        assert_eq!((pt_crew_give_up(&mut crew), pt_give_up(own), pt_give_up(other)), (0, 0, 0));
    }
}

#[test]
fn the_fault_says_what_is_wrong() {
    assert_eq!(Fault::BadCode.to_string(), "the code of a pick or of a reason means nothing");
}
