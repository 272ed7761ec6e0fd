//! Where what another node sends goes: the thread that reads hands it to the usher of a desk.

use crate::connection::Connection;
use crate::control::{Control, Whom};
use crate::report::Report;
use crate::serving::{Door, Incoming, Kind, incoming, refused};
use crate::term::{ErlangPid, ErlangRef, Term};
use crate::usher::{Came, ToUsher};
use pundewo::{Pid, Reason};
use std::sync::Arc;
use std::thread;
use std::time::Duration;

/// How long the thread that reads rests before it looks again whether a process takes more.
const LOOK: Duration = Duration::from_millis(1);

/// Hands something to the usher of a desk. It waits if the inbox of the desk has a bound.
fn to_usher(connection: &Arc<Connection>, desk: u8, came: Came) {
    if let Some(usher) = connection.gateway.ushers.get(usize::from(desk)) {
        if !usher.send(ToUsher::Of(connection.clone(), came)) {
            connection.break_off(crate::report::Broken::Left);
        }
    }
}

/// The process that a pid of this node names.
fn own(connection: &Connection, pid: &ErlangPid) -> Option<Pid> {
    connection.gateway.own(pid)
}

/// All proxies of a connection exit.
pub(crate) fn broken(connection: &Arc<Connection>) {
    for usher in &connection.gateway.ushers {
        usher.send(ToUsher::Of(connection.clone(), Came::Broken));
    }
}

/// Does what a packet says.
pub(crate) fn route(connection: &Arc<Connection>, control: Control, term: Option<Term>) {
    match control {
        Control::Send { from, to } => {
            if let Some(term) = term {
                message(connection, from, &to, term);
            }
        }
        Control::Link { from, to } => link(connection, from, to),
        Control::Unlink { id, from, to } => unlink(connection, id, from, to),
        Control::Exit { from, to, reason } => exit(connection, &to, &reason, |_, reason| Came::Exit(from, reason)),
        Control::ExitSignal { from, to, reason } => {
            exit(connection, &to, &reason, |pid, reason| Came::Signal(from, pid, reason));
        }
        Control::Monitor { from, to, reference } => monitor(connection, from, to, reference),
        Control::Demonitor { from, to, reference } => demonitor(connection, from, &to, reference),
        Control::Down { to, reason, .. } => exit(connection, &to, &reason, Came::Down),
        Control::UnlinkAck { .. } | Control::AliasSend { .. } | Control::Other => {}
    }
}

fn link(connection: &Arc<Connection>, from: ErlangPid, to: ErlangPid) {
    match own(connection, &to) {
        Some(pid) => to_usher(connection, pid.shard, Came::Link(from, pid)),
        None => connection.tell(Control::Exit { from: to, to: from, reason: Term::atom("noproc") }),
    }
}

fn unlink(connection: &Arc<Connection>, id: Option<Term>, from: ErlangPid, to: ErlangPid) {
    match (own(connection, &to), id) {
        (Some(pid), id) => to_usher(connection, pid.shard, Came::Unlink(id, from, pid)),
        (None, Some(id)) => connection.tell(Control::UnlinkAck { id, from: to, to: from }),
        (None, None) => {}
    }
}

/// Hands on an exit reason for a process of this node.
fn exit(connection: &Arc<Connection>, to: &ErlangPid, reason: &Term, came: impl FnOnce(Pid, Reason) -> Came) {
    if let Some(pid) = own(connection, to) {
        let reason = connection.gateway.reasons.of(reason);
        to_usher(connection, pid.shard, came(pid, reason));
    }
}

fn message(connection: &Arc<Connection>, from: Option<ErlangPid>, to: &Whom, term: Term) {
    let door = match to {
        Whom::Name(name) => match own_name(connection, name, term, from) {
            Ok(()) => return,
            Err((term, from)) => {
                let door = connection.gateway.name(name);
                return match door {
                    Some(door) => deliver(connection, from, to, &*door, term),
                    None => nobody(connection, to),
                };
            }
        },
        Whom::Pid(pid) => own(connection, pid),
    };
    match door {
        None => nobody(connection, to),
        Some(pid) => match connection.gateway.door(pid) {
            Some(door) => deliver(connection, from, to, &*door, term),
            None => to_usher(connection, pid.shard, Came::Term(pid, term)),
        },
    }
}

fn nobody(connection: &Connection, to: &Whom) {
    connection.gateway.report(&Report::Nobody { node: &connection.node, to: &to.term().to_string() });
}

/// Converts what came, and has it sent. It waits while too much waits for the process.
fn deliver(connection: &Arc<Connection>, from: Option<ErlangPid>, to: &Whom, door: &dyn Door, term: Term) {
    let most = connection.gateway.settings.waiting;
    let waits = || {
        let usher = door.pid().and_then(|pid| connection.gateway.ushers.get(usize::from(pid.shard)));
        usher.map_or(0, |usher| usher.waiting()) + door.waiting() >= most
    };
    while waits() && connection.is_open() && !connection.gateway.run.is_over() {
        thread::sleep(LOOK);
    }
    let incoming = incoming(connection, from.clone(), term);
    let caller = incoming.caller().cloned();
    // (a call names who waits for its answer)
    let from = incoming.from().cloned().or(from);
    match door.open(incoming) {
        Some(Ok((pid, parcel))) => to_usher(connection, pid.shard, Came::Message(from, parcel)),
        Some(Err(refusal)) => refused(connection, &to.term().to_string(), caller.as_ref(), refusal.name()),
        None => nobody(connection, to),
    }
}

/// The names that each node has: `net_kernel`, which answers `net_adm:ping`, and `pundewo`, which says what is served. What is
/// for another comes back.
fn own_name(
    connection: &Arc<Connection>,
    name: &str,
    term: Term,
    from: Option<ErlangPid>,
) -> Result<(), (Term, Option<ErlangPid>)> {
    if !is_own_name(name) {
        return Err((term, from));
    }
    let incoming: Incoming = incoming(connection, from, term);
    let (Kind::Call, Some(caller)) = (incoming.kind(), incoming.caller()) else { return Ok(()) };
    let request = incoming.term();
    let answer = match name {
        "net_kernel" if request.tagged("is_auth").is_some() => Term::atom("yes"),
        "pundewo" if request.is_atom("names") => connection.gateway.names_term(),
        _ => {
            refused(connection, name, Some(caller), "unknown_request");
            return Ok(());
        }
    };
    let _ = caller.reply(answer);
    Ok(())
}

fn is_own_name(name: &str) -> bool {
    matches!(name, "net_kernel" | "pundewo")
}

fn monitor(connection: &Arc<Connection>, from: ErlangPid, to: Whom, reference: ErlangRef) {
    let pid = match &to {
        // (the gateway's own names are there as long as the connection is)
        Whom::Name(name) if is_own_name(name) => return,
        Whom::Name(name) => connection.gateway.name(name).and_then(|door| door.pid()),
        Whom::Pid(pid) => own(connection, pid),
    };
    match pid {
        Some(pid) => {
            if let Whom::Name(_) = &to {
                connection.note(&reference, pid.shard);
            }
            to_usher(connection, pid.shard, Came::Monitor(from, pid, to, reference));
        }
        None => connection.tell(Control::Down { from: to, to: from, reference, reason: Term::atom("noproc") }),
    }
}

fn demonitor(connection: &Arc<Connection>, from: ErlangPid, to: &Whom, reference: ErlangRef) {
    let desk = match to {
        Whom::Name(_) => connection.noted(&reference),
        Whom::Pid(pid) => own(connection, pid).map(|pid| pid.shard),
    };
    if let Some(desk) = desk {
        to_usher(connection, desk, Came::Demonitor(from, reference));
    }
}
