//! Compares what the library says of itself with this crate: sizes, where the fields stand, and codes.

use pundewo::raw::*;
use pundewo::{Config, Pid};
use std::mem::size_of;

/// The numbers of the fields of a sample, in order.
trait Fields {
    fn fields(&self, to: &mut Vec<u64>);
}

macro_rules! fields {
    ($name:ty: $($field:ident)*) => {
        impl Fields for $name {
            fn fields(&self, to: &mut Vec<u64>) {
                $(self.$field.fields(to);)*
            }
        }
    };
}

macro_rules! number {
    ($($name:ty)*) => {
        $(impl Fields for $name {
            fn fields(&self, to: &mut Vec<u64>) {
                to.push(*self as u64);
            }
        })*
    };
}

number!(u8 u32 u64 i64 usize);

impl Fields for bool {
    fn fields(&self, to: &mut Vec<u64>) {
        // a bool of a sample is true, and counts as the number that it stands at
        assert!(*self);
        to.push(to.len() as u64 + 1);
    }
}

fields!(Pid: shard slot version);
fields!(RawRef: desk number);
fields!(RawIds: one has_two two);
fields!(RawReason: code number);
fields!(RawBody: kind num has_who who);
fields!(RawItem: code alive pid reference reason body);
fields!(RawPick: code kind pid reference);
fields!(RawSignal: code alive reason reference ids body);
fields!(RawEvent: stamp desk has_peer has_link on code pid peer link reason pick item signal);
fields!(RawLeftOver: from_desk to_desk from to stamp signal);
fields!(RawTurned: posted handled stopped);
fields!(RawAccount: has_ended ended arrived taken waiting);
fields!(Config: slots top_version lane start);
fields!(RawNext: code reason until pick);
fields!(RawLoss: has_exited pid reason items);
fields!(RawJob: code pid tag item reason was);
fields!(RawAnswer: pid next);
fields!(RawTimer: at number);
fields!(RawFired: timer body);
fields!(RawHolder: pid monitor);
fields!(RawCall: client server monitor has_deadline waits left_open deadline);
fields!(RawRequest: from asks number);
fields!(RawHeard: code answer reason);
fields!(RawPost: to body);

fn in_order(sample: &impl Fields) {
    let mut told = Vec::new();
    sample.fields(&mut told);
    assert_eq!(told, (1..=told.len() as u64).collect::<Vec<u64>>());
}

#[test]
fn each_field_stands_where_the_library_has_it() {
    let mut event = RawEvent::default();
    let mut left_over = RawLeftOver::default();
    let mut turned = RawTurned::default();
    let mut account = RawAccount::default();
    let mut config = Config::default();
    let mut loss = RawLoss::default();
    let mut job = RawJob::default();
    let mut answer = RawAnswer::default();
    let mut fired = RawFired::default();
    let mut holder = RawHolder::default();
    unsafe {
        pt_about_event(&mut event);
        pt_about_left_over(&mut left_over);
        pt_about_turned(&mut turned);
        pt_about_account(&mut account);
        pt_about_config(&mut config);
        pt_about_loss(&mut loss);
        pt_about_job(&mut job);
        pt_about_answer(&mut answer);
        pt_about_fired(&mut fired);
        pt_about_holder(&mut holder);
    }
    in_order(&event);
    in_order(&left_over);
    in_order(&turned);
    in_order(&account);
    in_order(&config);
    in_order(&loss);
    in_order(&job);
    in_order(&answer);
    in_order(&fired);
    in_order(&holder);
}

#[test]
fn the_structs_of_calls_are_the_librarys() {
    let (mut about, mut post, mut size) = (RawAskingAbout::default(), RawPost::default(), 0);
    unsafe {
        pt_about_asking(&mut about);
        pt_about_post(&mut post, &mut size);
    }
    in_order(&about.call);
    in_order(&about.request);
    in_order(&about.heard);
    in_order(&post);
    let told = [about.call_size, about.request_size, about.heard_size, size];
    assert_eq!(told, [size_of::<RawCall>(), size_of::<RawRequest>(), size_of::<RawHeard>(), size_of::<RawPost>()]);
}

#[test]
fn each_size_is_the_librarys() {
    let mut told = RawSizes::default();
    unsafe { pt_about_sizes(&mut told) };
    assert_eq!(format!("{told:?}"), format!("{SIZES:?}"));
}

#[test]
fn each_code_is_the_librarys() {
    let mut told = RawCodes::default();
    unsafe { pt_about_codes(&mut told) };
    assert_eq!(told, CODES);
}
