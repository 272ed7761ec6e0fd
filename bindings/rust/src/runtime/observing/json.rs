//! A look as JSON, for the page.

use super::super::{ChildInfo, Restart};
use super::view::{DeskView, First, Longest, Place, ProcessView, SilentDesk, SupervisorView, View, WaitsFor};
use crate::supervisors::Strategy;
use crate::{Item, Pid};
use std::fmt::Write as _;
use std::time::Duration;

/// What has a form in JSON.
pub(super) trait Json {
    fn put(&self, out: &mut String);
}

/// An object with these fields.
fn object(out: &mut String, fields: &[(&str, &dyn Json)]) {
    out.push('{');
    for (place, (name, value)) in fields.iter().enumerate() {
        let _ = write!(out, "{}\"{name}\":", if place == 0 { "" } else { "," });
        value.put(out);
    }
    out.push('}');
}

/// The text of an object with one field.
pub(super) fn one(name: &str, value: &str) -> String {
    let mut out = String::new();
    object(&mut out, &[(name, &value)]);
    out
}

/// A number, as it prints.
macro_rules! numbers {
    ($($number:ty)*) => {
        $(impl Json for $number {
            fn put(&self, out: &mut String) {
                let _ = write!(out, "{self}");
            }
        })*
    };
}

numbers!(u8 u64 usize bool);

impl Json for &str {
    fn put(&self, out: &mut String) {
        out.push('"');
        for one in self.chars() {
            match one {
                '"' | '\\' => out.extend(['\\', one]),
                one if one.is_control() => _ = write!(out, "\\u{:04x}", u32::from(one)),
                one => out.push(one),
            }
        }
        out.push('"');
    }
}

impl Json for String {
    fn put(&self, out: &mut String) {
        self.as_str().put(out);
    }
}

impl<T: Json> Json for Option<T> {
    fn put(&self, out: &mut String) {
        match self {
            Some(value) => value.put(out),
            None => out.push_str("null"),
        }
    }
}

impl<T: Json> Json for Vec<T> {
    fn put(&self, out: &mut String) {
        out.push('[');
        for (place, value) in self.iter().enumerate() {
            if place > 0 {
                out.push(',');
            }
            value.put(out);
        }
        out.push(']');
    }
}

impl<T: Json> Json for First<T> {
    fn put(&self, out: &mut String) {
        object(out, &[("count", &self.count), ("first", &self.first)]);
    }
}

/// A time, in seconds.
impl Json for Duration {
    fn put(&self, out: &mut String) {
        let _ = write!(out, "{:.6}", self.as_secs_f64());
    }
}

/// What prints as the library prints it.
macro_rules! printed {
    ($($printed:ty)*) => {
        $(impl Json for $printed {
            fn put(&self, out: &mut String) {
                self.to_string().put(out);
            }
        })*
    };
}

printed!(Pid Item);

impl Json for Place {
    fn put(&self, out: &mut String) {
        format!("{}.{}", self.desk, self.seat).put(out);
    }
}

impl Json for WaitsFor {
    fn put(&self, out: &mut String) {
        match self {
            WaitsFor::Anything => "any".put(out),
            WaitsFor::Pick(pick) => pick.to_string().put(out),
            WaitsFor::Selection(selection) => selection.to_string().put(out),
            WaitsFor::Nothing => "nothing".put(out),
        }
    }
}

impl Json for Longest {
    fn put(&self, out: &mut String) {
        object(out, &[("pid", &self.pid), ("behaviour", &self.behaviour), ("seconds", &self.time)]);
    }
}

/// A process whose handler runs.
impl Json for (Pid, &str) {
    fn put(&self, out: &mut String) {
        object(out, &[("pid", &self.0), ("behaviour", &self.1)]);
    }
}

impl Json for SilentDesk {
    fn put(&self, out: &mut String) {
        object(out, &[("desk", &self.desk), ("running", &self.running)]);
    }
}

impl Json for DeskView {
    fn put(&self, out: &mut String) {
        let fields: [(&str, &dyn Json); 12] = [
            ("desk", &self.desk),
            ("processes", &self.processes),
            ("supervisors", &self.supervisors),
            ("messages", &self.messages),
            ("handlers", &self.handlers),
            ("restarts", &self.restarts),
            ("losses", &self.losses),
            ("longest", &self.longest),
            ("queue", &self.queue),
            ("waiting_for_room", &self.waiting_for_room),
            ("journal", &self.journal),
            ("clock", &self.clock),
        ];
        object(out, &fields);
    }
}

impl Json for ProcessView {
    fn put(&self, out: &mut String) {
        let fields: [(&str, &dyn Json); 13] = [
            ("pid", &self.pid),
            ("behaviour", &self.behaviour),
            ("parent", &self.parent),
            ("names", &self.names),
            ("waits_for", &self.waits_for),
            ("time_left", &self.time_left),
            ("mailbox", &self.mailbox),
            ("aside", &self.aside),
            ("calls", &self.calls),
            ("links", &self.links),
            ("monitors", &self.monitors),
            ("watchers", &self.watchers),
            ("traps_exits", &self.traps_exits),
        ];
        object(out, &fields);
    }
}

impl Json for Strategy {
    fn put(&self, out: &mut String) {
        let text = match self {
            Strategy::OneForOne => "one_for_one",
            Strategy::OneForAll => "one_for_all",
            Strategy::RestForOne => "rest_for_one",
        };
        text.put(out);
    }
}

impl Json for Restart {
    fn put(&self, out: &mut String) {
        let text = match self {
            Restart::Permanent => "permanent",
            Restart::Transient => "transient",
            Restart::Temporary => "temporary",
        };
        text.put(out);
    }
}

impl Json for ChildInfo {
    fn put(&self, out: &mut String) {
        let fields: [(&str, &dyn Json); 6] = [
            ("place", &self.place),
            ("name", &self.name),
            ("pid", &self.pid),
            ("behaviour", &self.behaviour),
            ("restart", &self.restart),
            ("started", &self.started),
        ];
        object(out, &fields);
    }
}

impl Json for SupervisorView {
    fn put(&self, out: &mut String) {
        let fields: [(&str, &dyn Json); 6] = [
            ("pid", &self.pid),
            ("parent", &self.parent),
            ("depth", &self.depth),
            ("strategy", &self.strategy),
            ("restarts", &self.restarts),
            ("children", &self.children),
        ];
        object(out, &fields);
    }
}

/// How many bytes of memory the program has, if the system says so.
pub(super) fn memory() -> Option<u64> {
    let text = std::fs::read_to_string("/proc/self/status").ok()?;
    let line = text.lines().find_map(|line| line.strip_prefix("VmRSS:"))?;
    let kilobytes: u64 = line.trim().strip_suffix(" kB")?.parse().ok()?;
    Some(kilobytes * 1_024)
}

impl Json for View {
    fn put(&self, out: &mut String) {
        let fields: [(&str, &dyn Json); 14] = [
            ("uptime", &self.uptime),
            ("took", &self.took),
            ("is_over", &self.is_over),
            ("alive", &self.alive),
            ("spawned", &self.spawned),
            ("crashes", &self.panics),
            ("epochs", &self.epochs),
            ("archived", &self.archived),
            ("memory", &memory()),
            ("desks", &self.desks),
            ("silent", &self.silent),
            ("processes", &self.processes),
            ("next", &self.next),
            ("supervisors", &self.supervisors),
        ];
        object(out, &fields);
    }
}
