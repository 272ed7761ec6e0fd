//! A look in the text format that Prometheus reads.

use super::json::memory;
use super::view::{DeskView, View};
use std::fmt::Write as _;

/// What is told of each desk: the name, the type, what it is, and how it is read.
type OfDesk = (&'static str, &'static str, &'static str, fn(&DeskView) -> f64);

const OF_DESK: [OfDesk; 10] = [
    ("pundewo_processes", "gauge", "Processes that live.", |desk| desk.processes as f64),
    ("pundewo_supervisors", "gauge", "Supervisors that live.", |desk| desk.supervisors as f64),
    ("pundewo_messages_total", "counter", "Messages that processes have taken.", |desk| desk.messages as f64),
    ("pundewo_handlers_total", "counter", "Handlers that ran.", |desk| desk.handlers as f64),
    ("pundewo_restarts_total", "counter", "Restarts that supervisors have made.", |desk| desk.restarts as f64),
    ("pundewo_losses_total", "counter", "Messages to processes that have exited.", |desk| desk.losses as f64),
    ("pundewo_longest_handler_seconds", "gauge", "The longest run of a handler.", |desk| {
        desk.longest.map_or(0.0, |longest| longest.time.as_secs_f64())
    }),
    ("pundewo_queue", "gauge", "Processes that may have something to do.", |desk| desk.queue as f64),
    ("pundewo_waiting_for_room", "gauge", "Signals that wait for room in a lane.", |desk| desk.waiting_for_room as f64),
    ("pundewo_journal_events", "gauge", "Events in the journal.", |desk| desk.journal as f64),
];

/// What is told of the run.
fn of_run(view: &View) -> [(&'static str, &'static str, &'static str, f64); 6] {
    [
        ("pundewo_uptime_seconds", "gauge", "How long the run has run.", view.uptime.as_secs_f64()),
        ("pundewo_spawned_total", "counter", "Processes that were spawned.", view.spawned as f64),
        ("pundewo_crashes_total", "counter", "Processes that crashed.", view.panics as f64),
        ("pundewo_epochs_total", "counter", "Epochs that have ended.", view.epochs as f64),
        ("pundewo_archived_events_total", "counter", "Events that the sink got.", view.archived as f64),
        ("pundewo_memory_bytes", "gauge", "Memory of the program.", memory().unwrap_or(0) as f64),
    ]
}

fn head(out: &mut String, name: &str, kind: &str, about: &str) {
    let _ = writeln!(out, "# HELP {name} {about}\n# TYPE {name} {kind}");
}

/// The text. A desk that did not answer has a 0 in `pundewo_desk_up`, and no other line.
pub(super) fn text(view: &View) -> String {
    let mut out = String::new();
    for (name, kind, about, value) in of_run(view) {
        head(&mut out, name, kind, about);
        let _ = writeln!(out, "{name} {value}");
    }
    for (name, kind, about, read) in OF_DESK {
        head(&mut out, name, kind, about);
        for desk in &view.desks {
            let _ = writeln!(out, "{name}{{desk=\"{}\"}} {}", desk.desk, read(desk));
        }
    }
    head(&mut out, "pundewo_desk_up", "gauge", "Whether the desk answered in time.");
    let answered = view.desks.iter().map(|desk| (desk.desk, 1));
    for (desk, up) in answered.chain(view.silent.iter().map(|silent| (silent.desk, 0))) {
        let _ = writeln!(out, "pundewo_desk_up{{desk=\"{desk}\"}} {up}");
    }
    out
}
