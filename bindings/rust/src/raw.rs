//! The C interface, as `pundewo.h` has it. Written by `bindings/abi.py`: change nothing here.
//!
//! `tests/about.rs` compares it with what the library says of itself.

use crate::{Config, Pid};
use std::mem::offset_of;

#[repr(C)]
#[derive(Debug)]
pub struct Handle {
    pub at: *mut u8,
}

// SAFETY: the library proves that the type of each handle is `Send`.
unsafe impl Send for Handle {}

pub const PT_OK: u32 = 0;
pub const PT_FULL: u32 = 1;
pub const PT_MEMORY: u32 = 2;
pub const PT_WORN: u32 = 3;
pub const PT_GONE: u32 = 4;
pub const PT_MYSELF: u32 = 5;
pub const PT_NOPROC: u32 = 6;
pub const PT_UNKNOWN: u32 = 7;
pub const PT_NOTHING: u32 = 8;
pub const PT_EMPTY: u32 = 9;
pub const PT_FILLED: u32 = 10;
pub const PT_BAD_DESKS: u32 = 11;
pub const PT_BAD_SLOTS: u32 = 12;
pub const PT_BAD_TOP_VERSION: u32 = 13;
pub const PT_BAD_LANE: u32 = 14;
pub const PT_BAD_START: u32 = 15;
pub const PT_BAD_CODE: u32 = 16;
pub const PT_NOT_RUNNING: u32 = 17;
pub const PT_WRONG_DESK: u32 = 18;
pub const PT_BAD_NAME: u32 = 19;
pub const PT_TAKEN: u32 = 20;
pub const PT_HAS_NAME: u32 = 21;
pub const PT_BAD_PLACES: u32 = 22;
pub const PT_CHILD_RUNNING: u32 = 23;
pub const PT_CHILD_RESTARTING: u32 = 24;
pub const PT_CHILD_PRESENT: u32 = 25;
pub const PT_UNLISTED: u32 = 26;

pub const PT_NORMAL: u32 = 0;
pub const PT_KILL: u32 = 1;
pub const PT_KILLED: u32 = 2;
pub const PT_NO_PROCESS: u32 = 3;
pub const PT_SHUTDOWN: u32 = 4;
pub const PT_OTHER: u32 = 5;

pub const PT_ITEM_USER: u32 = 0;
pub const PT_ITEM_EXIT: u32 = 1;
pub const PT_ITEM_DOWN: u32 = 2;
pub const PT_ITEM_ALIVE: u32 = 3;

pub const PT_PICK_KIND: u32 = 0;
pub const PT_PICK_FROM: u32 = 1;
pub const PT_PICK_EXIT_OF: u32 = 2;
pub const PT_PICK_DOWN_OF: u32 = 3;
pub const PT_PICK_ALIVE_OF: u32 = 4;
pub const PT_PICK_ANY: u32 = 5;

pub const PT_SIGNAL_MESSAGE: u32 = 0;
pub const PT_SIGNAL_LINK: u32 = 1;
pub const PT_SIGNAL_UNLINK: u32 = 2;
pub const PT_SIGNAL_EXIT: u32 = 3;
pub const PT_SIGNAL_LINK_EXIT: u32 = 4;
pub const PT_SIGNAL_MONITOR: u32 = 5;
pub const PT_SIGNAL_DEMONITOR: u32 = 6;
pub const PT_SIGNAL_DOWN: u32 = 7;
pub const PT_SIGNAL_ALIVE_ASK: u32 = 8;
pub const PT_SIGNAL_ALIVE_SAY: u32 = 9;

pub const PT_EVENT_BORN: u32 = 0;
pub const PT_EVENT_SAID: u32 = 1;
pub const PT_EVENT_CAME: u32 = 2;
pub const PT_EVENT_TOOK: u32 = 3;
pub const PT_EVENT_FLAG: u32 = 4;
pub const PT_EVENT_LEFT: u32 = 5;
pub const PT_EVENT_REFUSED: u32 = 6;

pub const PT_NEXT_WAIT: u32 = 0;
pub const PT_NEXT_WAIT_UNTIL: u32 = 1;
pub const PT_NEXT_PROCEED: u32 = 2;
pub const PT_NEXT_STOP: u32 = 3;
pub const PT_NEXT_RUNNING: u32 = 4;

pub const PT_JOB_START: u32 = 0;
pub const PT_JOB_PROCEED: u32 = 1;
pub const PT_JOB_ITEM: u32 = 2;
pub const PT_JOB_TIMEOUT: u32 = 3;
pub const PT_JOB_EXIT: u32 = 4;

pub const PT_ONE_FOR_ONE: u32 = 0;
pub const PT_ONE_FOR_ALL: u32 = 1;
pub const PT_REST_FOR_ONE: u32 = 2;

pub const PT_PERMANENT: u32 = 0;
pub const PT_TRANSIENT: u32 = 1;
pub const PT_TEMPORARY: u32 = 2;

pub const PT_SHUTDOWN_INFINITY: u32 = 0;
pub const PT_SHUTDOWN_AFTER: u32 = 1;
pub const PT_BRUTAL_KILL: u32 = 2;

pub const PT_HEARD_ANSWER: u32 = 0;
pub const PT_HEARD_SERVER_DOWN: u32 = 1;
pub const PT_HEARD_LATE: u32 = 2;
pub const PT_HEARD_NOT_MINE: u32 = 3;

#[repr(C)]
#[derive(Clone, Copy, Debug, Default)]
pub struct RawRef {
    pub desk: u8,
    pub number: u64,
}

#[repr(C)]
#[derive(Clone, Copy, Debug, Default)]
pub struct RawIds {
    pub one: RawRef,
    pub has_two: bool,
    pub two: RawRef,
}

#[repr(C)]
#[derive(Clone, Copy, Debug, Default)]
pub struct RawReason {
    pub code: u32,
    pub number: u32,
}

#[repr(C)]
#[derive(Clone, Copy, Debug, Default)]
pub struct RawBody {
    pub kind: u32,
    pub num: i64,
    pub has_who: bool,
    pub who: Pid,
}

#[repr(C)]
#[derive(Clone, Copy, Debug, Default)]
pub struct RawItem {
    pub code: u32,
    pub alive: bool,
    pub pid: Pid,
    pub reference: RawRef,
    pub reason: RawReason,
    pub body: RawBody,
}

#[repr(C)]
#[derive(Clone, Copy, Debug, Default)]
pub struct RawPick {
    pub code: u32,
    pub kind: u32,
    pub pid: Pid,
    pub reference: RawRef,
}

#[repr(C)]
#[derive(Clone, Copy, Debug, Default)]
pub struct RawSignal {
    pub code: u32,
    pub alive: bool,
    pub reason: RawReason,
    pub reference: RawRef,
    pub ids: RawIds,
    pub body: RawBody,
}

#[repr(C)]
#[derive(Clone, Copy, Debug, Default)]
pub struct RawEvent {
    pub stamp: u64,
    pub desk: u8,
    pub has_peer: bool,
    pub has_link: bool,
    pub on: bool,
    pub code: u32,
    pub pid: Pid,
    pub peer: Pid,
    pub link: RawRef,
    pub reason: RawReason,
    pub pick: RawPick,
    pub item: RawItem,
    pub signal: RawSignal,
}

#[repr(C)]
#[derive(Clone, Copy, Debug, Default)]
pub struct RawLeftOver {
    pub from_desk: u8,
    pub to_desk: u8,
    pub from: Pid,
    pub to: Pid,
    pub stamp: u64,
    pub signal: RawSignal,
}

#[repr(C)]
#[derive(Clone, Copy, Debug, Default)]
pub struct RawTurned {
    pub posted: u64,
    pub handled: u64,
    pub stopped: u32,
}

#[repr(C)]
#[derive(Clone, Copy, Debug, Default)]
pub struct RawAccount {
    pub has_ended: bool,
    pub ended: RawReason,
    pub arrived: u64,
    pub taken: u64,
    pub waiting: u64,
}

#[repr(C)]
#[derive(Clone, Copy, Debug, Default)]
pub struct RawLoss {
    pub has_exited: bool,
    pub pid: Pid,
    pub reason: RawReason,
    pub items: usize,
}

#[repr(C)]
#[derive(Clone, Copy, Debug, Default)]
pub struct RawNext {
    pub code: u32,
    pub reason: RawReason,
    pub until: u64,
    pub pick: RawPick,
}

#[repr(C)]
#[derive(Clone, Copy, Debug, Default)]
pub struct RawJob {
    pub code: u32,
    pub pid: Pid,
    pub tag: u64,
    pub item: RawItem,
    pub reason: RawReason,
    pub was: RawNext,
    pub has_supervisor: bool,
    pub again: bool,
    pub supervisor: Pid,
}

#[repr(C)]
#[derive(Clone, Copy, Debug, Default)]
pub struct RawAnswer {
    pub pid: Pid,
    pub next: RawNext,
}

#[repr(C)]
#[derive(Clone, Copy, Debug, Default)]
pub struct RawSupervisorSpec {
    pub strategy: u32,
    pub timed: bool,
    pub has_parent: bool,
    pub parent: Pid,
    pub most: usize,
    pub span: u64,
}

#[repr(C)]
#[derive(Clone, Copy, Debug, Default)]
pub struct RawChildSpec {
    pub tag: u64,
    pub restart: u32,
    pub shutdown: u32,
    pub time: u64,
    pub elsewhere: bool,
}

#[repr(C)]
#[derive(Clone, Copy, Debug, Default)]
pub struct RawChild {
    pub has_pid: bool,
    pub wanted: bool,
    pub pid: Pid,
    pub restart: u32,
    pub shutdown: u32,
    pub time: u64,
}

#[repr(C)]
#[derive(Clone, Copy, Debug, Default)]
pub struct RawChildCounts {
    pub specs: usize,
    pub active: usize,
    pub restarting: usize,
}

#[repr(C)]
#[derive(Clone, Copy, Debug, Default)]
pub struct RawGaveUp {
    pub tag: u64,
    pub place: usize,
    pub reason: RawReason,
    pub restarts: usize,
    pub span: u64,
    pub timed: bool,
}

#[repr(C)]
#[derive(Clone, Copy, Debug, Default)]
pub struct RawTimer {
    pub at: u64,
    pub number: u64,
}

#[repr(C)]
#[derive(Clone, Copy, Debug, Default)]
pub struct RawFired {
    pub timer: RawTimer,
    pub body: u64,
}

#[repr(C)]
#[derive(Clone, Copy, Debug, Default)]
pub struct RawName {
    pub letters: [u8; 32],
}

#[repr(C)]
#[derive(Clone, Copy, Debug, Default)]
pub struct RawHolder {
    pub pid: Pid,
    pub monitor: RawRef,
}

#[repr(C)]
#[derive(Clone, Copy, Debug, Default)]
pub struct RawCall {
    pub client: Pid,
    pub server: Pid,
    pub monitor: RawRef,
    pub has_deadline: bool,
    pub waits: bool,
    pub left_open: bool,
    pub deadline: u64,
}

#[repr(C)]
#[derive(Clone, Copy, Debug, Default)]
pub struct RawRequest {
    pub from: Pid,
    pub asks: u32,
    pub number: i64,
}

#[repr(C)]
#[derive(Clone, Copy, Debug, Default)]
pub struct RawHeard {
    pub code: u32,
    pub answer: u32,
    pub reason: RawReason,
}

#[repr(C)]
#[derive(Clone, Copy, Debug, Default)]
pub struct RawPost {
    pub to: Pid,
    pub body: RawBody,
}

#[repr(C)]
#[derive(Clone, Copy, Debug, Default, PartialEq, Eq)]
pub struct RawCodes {
    pub done: u32,
    pub full: u32,
    pub memory: u32,
    pub worn: u32,
    pub gone: u32,
    pub myself: u32,
    pub noproc: u32,
    pub unknown: u32,
    pub nothing: u32,
    pub empty: u32,
    pub filled: u32,
    pub bad_desks: u32,
    pub bad_slots: u32,
    pub bad_top_version: u32,
    pub bad_lane: u32,
    pub bad_start: u32,
    pub bad_code: u32,
    pub not_running: u32,
    pub wrong_desk: u32,
    pub bad_name: u32,
    pub taken: u32,
    pub has_name: u32,
    pub bad_places: u32,
    pub unlisted: u32,
    pub reason_normal: u32,
    pub reason_kill: u32,
    pub reason_killed: u32,
    pub reason_noproc: u32,
    pub reason_shutdown: u32,
    pub reason_other: u32,
    pub item_user: u32,
    pub item_exit: u32,
    pub item_down: u32,
    pub item_alive: u32,
    pub pick_kind: u32,
    pub pick_from: u32,
    pub pick_exit_of: u32,
    pub pick_down_of: u32,
    pub pick_alive_of: u32,
    pub pick_any: u32,
    pub signal_message: u32,
    pub signal_link: u32,
    pub signal_unlink: u32,
    pub signal_exit: u32,
    pub signal_link_exit: u32,
    pub signal_monitor: u32,
    pub signal_demonitor: u32,
    pub signal_down: u32,
    pub signal_alive_ask: u32,
    pub signal_alive_say: u32,
    pub event_born: u32,
    pub event_said: u32,
    pub event_came: u32,
    pub event_took: u32,
    pub event_flag: u32,
    pub event_left: u32,
    pub event_refused: u32,
    pub next_wait: u32,
    pub next_wait_until: u32,
    pub next_proceed: u32,
    pub next_stop: u32,
    pub next_running: u32,
    pub job_start: u32,
    pub job_proceed: u32,
    pub job_item: u32,
    pub job_timeout: u32,
    pub job_exit: u32,
}

#[repr(C)]
#[derive(Clone, Copy, Debug, Default)]
pub struct RawSizes {
    pub pid: usize,
    pub reference: usize,
    pub ids: usize,
    pub reason: usize,
    pub body: usize,
    pub item: usize,
    pub pick: usize,
    pub signal: usize,
    pub event: usize,
    pub left_over: usize,
    pub turned: usize,
    pub account: usize,
    pub config: usize,
    pub next: usize,
    pub job: usize,
    pub answer: usize,
    pub loss: usize,
    pub timer: usize,
    pub fired: usize,
    pub name: usize,
    pub holder: usize,
    pub codes: usize,
}

#[repr(C)]
#[derive(Clone, Copy, Debug, Default)]
pub struct RawAskingAbout {
    pub call: RawCall,
    pub request: RawRequest,
    pub heard: RawHeard,
    pub call_size: usize,
    pub request_size: usize,
    pub heard_size: usize,
}

#[repr(C)]
#[derive(Clone, Copy, Debug, Default, PartialEq, Eq)]
pub struct RawSupervisorCodes {
    pub one_for_one: u32,
    pub one_for_all: u32,
    pub rest_for_one: u32,
    pub permanent: u32,
    pub transient: u32,
    pub temporary: u32,
    pub infinity: u32,
    pub after: u32,
    pub brutal_kill: u32,
    pub supervisor_spec: usize,
    pub child_spec: usize,
    pub child: usize,
    pub child_running: u32,
    pub child_restarting: u32,
    pub child_present: u32,
    pub child_counts: usize,
    pub gave_up: usize,
}

pub const PT_CONFIG_DEFAULT: Config = Config { slots: 1_024, top_version: u32::MAX, lane: 64, start: 0 };

/// What the library says, if it is that of these sources.
pub const CODES: RawCodes = RawCodes {
    done: PT_OK,
    full: PT_FULL,
    memory: PT_MEMORY,
    worn: PT_WORN,
    gone: PT_GONE,
    myself: PT_MYSELF,
    noproc: PT_NOPROC,
    unknown: PT_UNKNOWN,
    nothing: PT_NOTHING,
    empty: PT_EMPTY,
    filled: PT_FILLED,
    bad_desks: PT_BAD_DESKS,
    bad_slots: PT_BAD_SLOTS,
    bad_top_version: PT_BAD_TOP_VERSION,
    bad_lane: PT_BAD_LANE,
    bad_start: PT_BAD_START,
    bad_code: PT_BAD_CODE,
    not_running: PT_NOT_RUNNING,
    wrong_desk: PT_WRONG_DESK,
    bad_name: PT_BAD_NAME,
    taken: PT_TAKEN,
    has_name: PT_HAS_NAME,
    bad_places: PT_BAD_PLACES,
    unlisted: PT_UNLISTED,
    reason_normal: PT_NORMAL,
    reason_kill: PT_KILL,
    reason_killed: PT_KILLED,
    reason_noproc: PT_NO_PROCESS,
    reason_shutdown: PT_SHUTDOWN,
    reason_other: PT_OTHER,
    item_user: PT_ITEM_USER,
    item_exit: PT_ITEM_EXIT,
    item_down: PT_ITEM_DOWN,
    item_alive: PT_ITEM_ALIVE,
    pick_kind: PT_PICK_KIND,
    pick_from: PT_PICK_FROM,
    pick_exit_of: PT_PICK_EXIT_OF,
    pick_down_of: PT_PICK_DOWN_OF,
    pick_alive_of: PT_PICK_ALIVE_OF,
    pick_any: PT_PICK_ANY,
    signal_message: PT_SIGNAL_MESSAGE,
    signal_link: PT_SIGNAL_LINK,
    signal_unlink: PT_SIGNAL_UNLINK,
    signal_exit: PT_SIGNAL_EXIT,
    signal_link_exit: PT_SIGNAL_LINK_EXIT,
    signal_monitor: PT_SIGNAL_MONITOR,
    signal_demonitor: PT_SIGNAL_DEMONITOR,
    signal_down: PT_SIGNAL_DOWN,
    signal_alive_ask: PT_SIGNAL_ALIVE_ASK,
    signal_alive_say: PT_SIGNAL_ALIVE_SAY,
    event_born: PT_EVENT_BORN,
    event_said: PT_EVENT_SAID,
    event_came: PT_EVENT_CAME,
    event_took: PT_EVENT_TOOK,
    event_flag: PT_EVENT_FLAG,
    event_left: PT_EVENT_LEFT,
    event_refused: PT_EVENT_REFUSED,
    next_wait: PT_NEXT_WAIT,
    next_wait_until: PT_NEXT_WAIT_UNTIL,
    next_proceed: PT_NEXT_PROCEED,
    next_stop: PT_NEXT_STOP,
    next_running: PT_NEXT_RUNNING,
    job_start: PT_JOB_START,
    job_proceed: PT_JOB_PROCEED,
    job_item: PT_JOB_ITEM,
    job_timeout: PT_JOB_TIMEOUT,
    job_exit: PT_JOB_EXIT,
};

/// What the library says, if it is that of these sources.
pub const SIZES: RawSizes = RawSizes {
    pid: size_of::<Pid>(),
    reference: size_of::<RawRef>(),
    ids: size_of::<RawIds>(),
    reason: size_of::<RawReason>(),
    body: size_of::<RawBody>(),
    item: size_of::<RawItem>(),
    pick: size_of::<RawPick>(),
    signal: size_of::<RawSignal>(),
    event: size_of::<RawEvent>(),
    left_over: size_of::<RawLeftOver>(),
    turned: size_of::<RawTurned>(),
    account: size_of::<RawAccount>(),
    config: size_of::<Config>(),
    next: size_of::<RawNext>(),
    job: size_of::<RawJob>(),
    answer: size_of::<RawAnswer>(),
    loss: size_of::<RawLoss>(),
    timer: size_of::<RawTimer>(),
    fired: size_of::<RawFired>(),
    name: size_of::<RawName>(),
    holder: size_of::<RawHolder>(),
    codes: size_of::<RawCodes>(),
};

/// What the library says, if it is that of these sources.
pub const SUPERVISOR_CODES: RawSupervisorCodes = RawSupervisorCodes {
    one_for_one: PT_ONE_FOR_ONE,
    one_for_all: PT_ONE_FOR_ALL,
    rest_for_one: PT_REST_FOR_ONE,
    permanent: PT_PERMANENT,
    transient: PT_TRANSIENT,
    temporary: PT_TEMPORARY,
    infinity: PT_SHUTDOWN_INFINITY,
    after: PT_SHUTDOWN_AFTER,
    brutal_kill: PT_BRUTAL_KILL,
    supervisor_spec: size_of::<RawSupervisorSpec>(),
    child_spec: size_of::<RawChildSpec>(),
    child: size_of::<RawChild>(),
    child_running: PT_CHILD_RUNNING,
    child_restarting: PT_CHILD_RESTARTING,
    child_present: PT_CHILD_PRESENT,
    child_counts: size_of::<RawChildCounts>(),
    gave_up: size_of::<RawGaveUp>(),
};

const _: () = assert!(size_of::<Pid>() == 12);
const _: () = assert!(offset_of!(Pid, shard) == 0);
const _: () = assert!(offset_of!(Pid, slot) == 4);
const _: () = assert!(offset_of!(Pid, version) == 8);
const _: () = assert!(size_of::<RawRef>() == 16);
const _: () = assert!(size_of::<RawIds>() == 40);
const _: () = assert!(size_of::<RawReason>() == 8);
const _: () = assert!(size_of::<RawBody>() == 32);
const _: () = assert!(size_of::<RawItem>() == 80);
const _: () = assert!(size_of::<RawPick>() == 40);
const _: () = assert!(size_of::<RawSignal>() == 104);
const _: () = assert!(size_of::<RawEvent>() == 288);
const _: () = assert!(size_of::<RawLeftOver>() == 144);
const _: () = assert!(size_of::<RawTurned>() == 24);
const _: () = assert!(size_of::<RawAccount>() == 40);
const _: () = assert!(size_of::<Config>() == 24);
const _: () = assert!(offset_of!(Config, slots) == 0);
const _: () = assert!(offset_of!(Config, top_version) == 4);
const _: () = assert!(offset_of!(Config, lane) == 8);
const _: () = assert!(offset_of!(Config, start) == 16);
const _: () = assert!(size_of::<RawLoss>() == 32);
const _: () = assert!(size_of::<RawNext>() == 64);
const _: () = assert!(size_of::<RawJob>() == 192);
const _: () = assert!(size_of::<RawAnswer>() == 80);
const _: () = assert!(size_of::<RawSupervisorSpec>() == 40);
const _: () = assert!(size_of::<RawChildSpec>() == 32);
const _: () = assert!(size_of::<RawChild>() == 32);
const _: () = assert!(size_of::<RawChildCounts>() == 24);
const _: () = assert!(size_of::<RawGaveUp>() == 48);
const _: () = assert!(size_of::<RawTimer>() == 16);
const _: () = assert!(size_of::<RawFired>() == 24);
const _: () = assert!(size_of::<RawName>() == 32);
const _: () = assert!(size_of::<RawHolder>() == 32);
const _: () = assert!(size_of::<RawCall>() == 56);
const _: () = assert!(size_of::<RawRequest>() == 24);
const _: () = assert!(size_of::<RawHeard>() == 16);
const _: () = assert!(size_of::<RawPost>() == 48);
const _: () = assert!(size_of::<RawCodes>() == 268);
const _: () = assert!(size_of::<RawSizes>() == 176);
const _: () = assert!(size_of::<RawAskingAbout>() == 120);
const _: () = assert!(size_of::<RawSupervisorCodes>() == 96);

unsafe extern "C" {
    /// The first byte of a text that ends with a zero.
    pub static pundewo_build: std::ffi::c_char;

    pub fn pt_open(desks: *mut Handle, count: usize, config: Config) -> u32;
    pub fn pt_gather(desks: *mut Handle, count: usize, out: &mut Handle) -> u32;
    pub fn pt_settle(node: &mut Handle, out: &mut Handle) -> u32;
    pub fn pt_settle_unlisted(node: &mut Handle, out: &mut Handle) -> u32;
    pub fn pt_quiet_list(node: &mut Handle) -> u32;
    pub fn pt_resume(node: &mut Handle, desks: *mut Handle, count: usize) -> u32;
    pub fn pt_give_up(desk: &mut Handle) -> u32;
    pub fn pt_gathered_give_up(node: &mut Handle) -> u32;
    pub fn pt_quiet_give_up(node: &mut Handle) -> u32;
    pub fn pt_history_give_up(history: &mut Handle) -> u32;
    pub fn pt_crew_give_up(crew: &mut Handle) -> u32;
    pub fn pt_timers_give_up(timers: &mut Handle) -> u32;
    pub fn pt_names_give_up(names: &mut Handle) -> u32;
    pub fn pt_groups_give_up(groups: &mut Handle) -> u32;
    pub fn pt_door_give_up(door: &mut Handle) -> u32;
    pub fn pt_way_in_give_up(way_in: &mut Handle) -> u32;
    pub fn pt_spawn(desk: &mut Handle, out: &mut Pid) -> u32;
    pub fn pt_spawn_child(desk: &mut Handle, parent: Pid, linked: bool, out: &mut Pid) -> u32;
    pub fn pt_send(desk: &mut Handle, from: Pid, to: Pid, body: RawBody) -> u32;
    pub fn pt_exit_signal(desk: &mut Handle, from: Pid, to: Pid, reason: RawReason) -> u32;
    pub fn pt_link(desk: &mut Handle, p: Pid, to: Pid) -> u32;
    pub fn pt_unlink(desk: &mut Handle, p: Pid, to: Pid) -> u32;
    pub fn pt_monitor(desk: &mut Handle, watcher: Pid, target: Pid, out: &mut RawRef) -> u32;
    pub fn pt_demonitor(desk: &mut Handle, watcher: Pid, monitor: RawRef, flush: bool, wrote: &mut bool) -> u32;
    pub fn pt_ask_alive(desk: &mut Handle, p: Pid, target: Pid, out: &mut RawRef) -> u32;
    pub fn pt_trap(desk: &mut Handle, p: Pid, on: bool, was: &mut bool) -> u32;
    pub fn pt_receive(desk: &mut Handle, p: Pid, pick: RawPick, out: &mut RawItem) -> u32;
    pub fn pt_exit(desk: &mut Handle, p: Pid, reason: RawReason) -> u32;
    pub fn pt_turn(desk: &mut Handle, budget: u32, out: &mut RawTurned) -> u32;
    pub fn pt_letters_out(desk: &mut Handle, out: &mut u64) -> u32;
    pub fn pt_has_letters(desk: &mut Handle, out: &mut bool) -> u32;
    pub fn pt_look_from(desk: &mut Handle, from: u8) -> u32;
    pub fn pt_next_from(desk: &mut Handle, out: &mut u8) -> u32;
    pub fn pt_ask(desk: &mut Handle, me: Pid, server: Pid, asks: u32, out: &mut RawCall) -> u32;
    pub fn pt_ask_until(desk: &mut Handle, me: Pid, server: Pid, asks: u32, deadline: u64, out: &mut RawCall) -> u32;
    pub fn pt_hear(desk: &mut Handle, call: &mut RawCall, item: RawItem, out: &mut RawHeard) -> u32;
    pub fn pt_expire(desk: &mut Handle, call: &mut RawCall, now: u64, out: &mut bool) -> u32;
    pub fn pt_request_of(item: RawItem, out: &mut RawRequest) -> u32;
    pub fn pt_is_call(me: Pid, item: RawItem, out: &mut bool) -> u32;
    pub fn pt_reply(desk: &mut Handle, me: Pid, request: RawRequest, answer: u32) -> u32;
    pub fn pt_door_open(door: &mut Handle, way_in: &mut Handle, places: u32) -> u32;
    pub fn pt_door_post(door: &mut Handle, post: RawPost) -> u32;
    pub fn pt_way_in_take(way_in: &mut Handle, out: &mut RawPost) -> u32;
    pub fn pt_way_in_len(way_in: &mut Handle, out: &mut usize) -> u32;
    pub fn pt_keep_losses(desk: &mut Handle, on: bool) -> u32;
    pub fn pt_loss_at(desk: &mut Handle, place: usize, out: &mut RawLoss) -> u32;
    pub fn pt_loss_item(desk: &mut Handle, place: usize, item: usize, out: &mut RawItem) -> u32;
    pub fn pt_next_loss(desk: &mut Handle) -> u32;
    pub fn pt_crew_open(crew: &mut Handle) -> u32;
    pub fn pt_crew_spawn(crew: &mut Handle, desk: &mut Handle, tag: u64, first: RawNext, out: &mut Pid) -> u32;
    pub fn pt_crew_spawn_child(
        crew: &mut Handle,
        desk: &mut Handle,
        parent: Pid,
        linked: bool,
        tag: u64,
        first: RawNext,
        out: &mut Pid,
    ) -> u32;
    pub fn pt_crew_spawn_supervisor(
        crew: &mut Handle,
        desk: &mut Handle,
        tag: u64,
        spec: RawSupervisorSpec,
        children: *const RawChildSpec,
        count: usize,
        out: &mut Pid,
    ) -> u32;
    pub fn pt_crew_supervise(
        crew: &mut Handle,
        p: Pid,
        spec: RawSupervisorSpec,
        children: *const RawChildSpec,
        count: usize,
    ) -> u32;
    pub fn pt_crew_step(
        crew: &mut Handle,
        desk: &mut Handle,
        budget: u32,
        jobs: *mut RawJob,
        most: usize,
        count: &mut usize,
        turned: &mut RawTurned,
    ) -> u32;
    pub fn pt_crew_answer(crew: &mut Handle, answers: *const RawAnswer, count: usize, taken: &mut usize) -> u32;
    pub fn pt_crew_note_loss(crew: &mut Handle, desk: &mut Handle, place: usize) -> u32;
    pub fn pt_crew_set_time(crew: &mut Handle, now: u64) -> u32;
    pub fn pt_crews_go_on(
        crews: *mut Handle,
        crew_count: usize,
        desks: *mut Handle,
        desk_count: usize,
        gathered: &mut Handle,
        settled: &mut Handle,
        history: &mut Handle,
    ) -> u32;
    pub fn pt_crew_go_on(crew: &mut Handle, history: &mut Handle) -> u32;
    pub fn pt_crew_begin_again(crew: &mut Handle) -> u32;
    pub fn pt_crew_next_time(crew: &mut Handle, out: &mut u64) -> u32;
    pub fn pt_crew_tag(crew: &mut Handle, p: Pid, out: &mut u64) -> u32;
    pub fn pt_crew_next(crew: &mut Handle, p: Pid, out: &mut RawNext) -> u32;
    pub fn pt_crew_len(crew: &mut Handle, out: &mut usize) -> u32;
    pub fn pt_crew_queued(crew: &mut Handle, out: &mut usize) -> u32;
    pub fn pt_crew_is_idle(crew: &mut Handle, desk: &mut Handle, out: &mut bool) -> u32;
    pub fn pt_crew_refused(crew: &mut Handle, out: &mut bool) -> u32;
    pub fn pt_crew_children(crew: &mut Handle, p: Pid, out: &mut usize) -> u32;
    pub fn pt_crew_child(crew: &mut Handle, p: Pid, place: usize, out: &mut RawChild) -> u32;
    pub fn pt_crew_start_child(crew: &mut Handle, p: Pid, child: RawChildSpec, place: &mut usize) -> u32;
    pub fn pt_crew_terminate_child(crew: &mut Handle, p: Pid, tag: u64) -> u32;
    pub fn pt_crew_restart_child(crew: &mut Handle, p: Pid, tag: u64) -> u32;
    pub fn pt_crew_child_to_start(crew: &mut Handle, p: Pid, tag: &mut u64) -> u32;
    pub fn pt_crew_child_started(crew: &mut Handle, p: Pid, tag: u64, child: Pid) -> u32;
    pub fn pt_crew_child_not_started(crew: &mut Handle, p: Pid, tag: u64) -> u32;
    pub fn pt_crew_delete_child(crew: &mut Handle, p: Pid, tag: u64, place: &mut usize) -> u32;
    pub fn pt_crew_count_children(crew: &mut Handle, p: Pid, out: &mut RawChildCounts) -> u32;
    pub fn pt_crew_gave_up(crew: &mut Handle, p: Pid, out: &mut RawGaveUp) -> u32;
    pub fn pt_timers_open(timers: &mut Handle) -> u32;
    pub fn pt_timers_start(timers: &mut Handle, at: u64, body: u64, out: &mut RawTimer) -> u32;
    pub fn pt_timers_cancel(timers: &mut Handle, timer: RawTimer) -> u32;
    pub fn pt_timers_pop_due(timers: &mut Handle, now: u64, out: &mut RawFired) -> u32;
    pub fn pt_timers_peek_due(timers: &mut Handle, now: u64, out: &mut RawFired) -> u32;
    pub fn pt_timers_next(timers: &mut Handle, out: &mut u64) -> u32;
    pub fn pt_timers_get(timers: &mut Handle, timer: RawTimer, out: &mut u64) -> u32;
    pub fn pt_timers_len(timers: &mut Handle, out: &mut usize) -> u32;
    pub fn pt_names_open(names: &mut Handle) -> u32;
    pub fn pt_names_register(names: &mut Handle, name: *const u8, length: usize, p: Pid, monitor: RawRef) -> u32;
    pub fn pt_names_check(names: &mut Handle, name: *const u8, length: usize, p: Pid) -> u32;
    pub fn pt_names_whereis(names: &mut Handle, name: *const u8, length: usize, out: &mut Pid) -> u32;
    pub fn pt_names_unregister(names: &mut Handle, name: *const u8, length: usize, out: &mut RawHolder) -> u32;
    pub fn pt_names_forget(names: &mut Handle, p: Pid, out: &mut RawName) -> u32;
    pub fn pt_names_name_of(names: &mut Handle, p: Pid, out: &mut RawName) -> u32;
    pub fn pt_names_len(names: &mut Handle, out: &mut usize) -> u32;
    pub fn pt_groups_open(groups: &mut Handle) -> u32;
    pub fn pt_groups_join(groups: &mut Handle, group: u64, p: Pid, monitor: RawRef, out: &mut RawRef) -> u32;
    pub fn pt_groups_leave(groups: &mut Handle, group: u64, p: Pid, last: &mut bool, out: &mut RawRef) -> u32;
    pub fn pt_groups_forget(groups: &mut Handle, p: Pid, out: &mut RawRef) -> u32;
    pub fn pt_groups_monitor_of(groups: &mut Handle, p: Pid, out: &mut RawRef) -> u32;
    pub fn pt_groups_times(groups: &mut Handle, group: u64, p: Pid, out: &mut u64) -> u32;
    pub fn pt_groups_len(groups: &mut Handle, group: u64, out: &mut usize) -> u32;
    pub fn pt_groups_member_at(groups: &mut Handle, group: u64, place: usize, out: &mut Pid) -> u32;
    pub fn pt_groups_group_at(groups: &mut Handle, p: Pid, place: usize, out: &mut u64) -> u32;
    pub fn pt_clock(desk: &mut Handle, out: &mut u64) -> u32;
    pub fn pt_number(desk: &mut Handle, out: &mut u8) -> u32;
    pub fn pt_alive(desk: &mut Handle, p: Pid, out: &mut bool) -> u32;
    pub fn pt_knows(desk: &mut Handle, p: Pid, out: &mut bool) -> u32;
    pub fn pt_pending(desk: &mut Handle, out: &mut u64) -> u32;
    pub fn pt_vacant(desk: &mut Handle, out: &mut Pid) -> u32;
    pub fn pt_waiting(desk: &mut Handle, p: Pid, out: &mut usize) -> u32;
    pub fn pt_peek(desk: &mut Handle, p: Pid, place: usize, out: &mut RawItem) -> u32;
    pub fn pt_linked(desk: &mut Handle, p: Pid, peer: Pid, out: &mut RawIds) -> u32;
    pub fn pt_link_count(desk: &mut Handle, p: Pid, out: &mut usize) -> u32;
    pub fn pt_link_at(desk: &mut Handle, p: Pid, place: usize, peer: &mut Pid, ids: &mut RawIds) -> u32;
    pub fn pt_monitor_count(desk: &mut Handle, p: Pid, out: &mut usize) -> u32;
    pub fn pt_monitor_at(desk: &mut Handle, p: Pid, place: usize, monitor: &mut RawRef, target: &mut Pid) -> u32;
    pub fn pt_watcher_count(desk: &mut Handle, p: Pid, out: &mut usize) -> u32;
    pub fn pt_watcher_at(desk: &mut Handle, p: Pid, place: usize, monitor: &mut RawRef, watcher: &mut Pid) -> u32;
    pub fn pt_traps(desk: &mut Handle, p: Pid, out: &mut bool) -> u32;
    pub fn pt_lives_in(desk: &mut Handle, slot: u32, out: &mut Pid) -> u32;
    pub fn pt_event_count(desk: &mut Handle, out: &mut usize) -> u32;
    pub fn pt_event_at(desk: &mut Handle, place: usize, out: &mut RawEvent) -> u32;
    pub fn pt_next_woken(desk: &mut Handle, at: &mut usize, out: &mut Pid) -> u32;
    pub fn pt_gathered_desks(node: &mut Handle, out: &mut u8) -> u32;
    pub fn pt_gathered_history(node: &mut Handle, out: &mut Handle) -> u32;
    pub fn pt_quiet_history(node: &mut Handle, out: &mut Handle) -> u32;
    pub fn pt_quiet_desks(node: &mut Handle, out: &mut u8) -> u32;
    pub fn pt_quiet_handled(node: &mut Handle, out: &mut u64) -> u32;
    pub fn pt_quiet_pid_count(node: &mut Handle, out: &mut usize) -> u32;
    pub fn pt_quiet_pid_at(node: &mut Handle, place: usize, out: &mut Pid) -> u32;
    pub fn pt_quiet_account(node: &mut Handle, p: Pid, out: &mut RawAccount) -> u32;
    pub fn pt_quiet_linked(node: &mut Handle, p: Pid, peer: Pid, out: &mut RawIds) -> u32;
    pub fn pt_quiet_kept(node: &mut Handle, target: Pid, monitor: RawRef, out: &mut bool) -> u32;
    pub fn pt_quiet_watching(node: &mut Handle, watcher: Pid, monitor: RawRef, out: &mut bool) -> u32;
    pub fn pt_history_count(history: &mut Handle, out: &mut usize) -> u32;
    pub fn pt_history_at(history: &mut Handle, place: usize, out: &mut RawEvent) -> u32;
    pub fn pt_history_left_count(history: &mut Handle, out: &mut usize) -> u32;
    pub fn pt_history_left_at(history: &mut Handle, place: usize, out: &mut RawLeftOver) -> u32;
    pub fn pt_about_codes(out: &mut RawCodes);
    pub fn pt_about_sizes(out: &mut RawSizes);
    pub fn pt_about_event(out: &mut RawEvent);
    pub fn pt_about_left_over(out: &mut RawLeftOver);
    pub fn pt_about_turned(out: &mut RawTurned);
    pub fn pt_about_account(out: &mut RawAccount);
    pub fn pt_about_loss(out: &mut RawLoss);
    pub fn pt_about_fired(out: &mut RawFired);
    pub fn pt_about_holder(out: &mut RawHolder);
    pub fn pt_about_config(out: &mut Config);
    pub fn pt_about_job(out: &mut RawJob);
    pub fn pt_about_answer(out: &mut RawAnswer);
    pub fn pt_about_asking(out: &mut RawAskingAbout);
    pub fn pt_about_post(out: &mut RawPost, size: &mut usize);
    pub fn pt_about_supervisors(out: &mut RawSupervisorCodes);
    pub fn pt_about_supervisor_spec(out: &mut RawSupervisorSpec);
    pub fn pt_about_child_spec(out: &mut RawChildSpec);
    pub fn pt_about_child(out: &mut RawChild);
    pub fn pt_about_child_counts(out: &mut RawChildCounts);
    pub fn pt_about_gave_up(out: &mut RawGaveUp);
}
