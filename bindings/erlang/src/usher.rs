//! Ushers: on each desk a process by which all comes in that other nodes send to the desk's processes, in the order in which it
//! was read. It hands on what a process sends to the proxy of that process, if there is one. So messages, links, monitors and
//! exits of one process stay in order.

use crate::connection::Connection;
use crate::control::{Control, Whom};
use crate::gateway::Inner;
use crate::proxy::{For, NoProxy, ToProxy, proxy};
use crate::reason::NOCONNECTION;
use crate::report::Report;
use crate::serving::Parcel;
use crate::term::{ErlangPid, ErlangRef, Term};
use pundewo::runtime::{Address, Behaviour, Context, Event, Next, Reply};
use pundewo::{Pid, Reason};
use std::sync::{Arc, OnceLock};

/// What an usher is told.
pub(crate) enum ToUsher {
    /// Something of a connection.
    Of(Arc<Connection>, Came),
    /// It is to say when a process has exited, since terms are sent to that.
    Watch(Pid),
    /// The gateway leaves.
    Leave,
}

/// What has come.
pub(crate) enum Came {
    Message(Option<ErlangPid>, Box<dyn Parcel>),
    /// For a process that is none of those that are served: a proxy, perhaps.
    Term(Pid, Term),
    Link(ErlangPid, Pid),
    Unlink(Option<Term>, ErlangPid, Pid),
    /// A process has exited that was linked.
    Exit(ErlangPid, Reason),
    /// A process has exited that this proxy has monitored.
    Down(Pid, Reason),
    Signal(ErlangPid, Pid, Reason),
    Monitor(ErlangPid, Pid, Whom, ErlangRef),
    Demonitor(ErlangPid, ErlangRef),
    /// Somebody outside wants a proxy, for a call.
    Find(Whom, Reply<Result<Address<ToProxy>, NoProxy>>),
    Broken,
}

pub(crate) struct Usher(pub(crate) Arc<OnceLock<Arc<Inner>>>);

impl Usher {
    fn message(
        cx: &mut Context<'_, ToUsher>,
        connection: &Arc<Connection>,
        from: Option<ErlangPid>,
        parcel: Box<dyn Parcel>,
    ) {
        let desk = cx.pid().shard;
        let whom = from.map(Whom::Pid);
        let known = whom.as_ref().and_then(|whom| connection.boards.of_process(desk, whom));
        let by = match (known, whom) {
            (Some(known), _) => known,
            (None, Some(whom)) if parcel.asks() => match proxy(connection, cx, &whom, For::Itself) {
                Ok(made) => made,
                Err(_) => return parcel.refuse("system_limit"),
            },
            (None, None) if parcel.asks() => return parcel.refuse("system_limit"),
            (None, _) => return parcel.by_usher(cx),
        };
        cx.send(&by, ToProxy::Deliver(parcel));
    }

    fn link(cx: &mut Context<'_, ToUsher>, connection: &Arc<Connection>, from: ErlangPid, to: Pid) {
        match proxy(connection, cx, &Whom::Pid(from.clone()), For::Itself) {
            Ok(by) => _ = cx.send(&by, ToProxy::Link(to)),
            Err(_) => {
                let own = connection.gateway.pid_of(to);
                connection.tell(Control::Exit { from: own, to: from, reason: Term::atom("system_limit") });
            }
        }
    }

    fn monitor(
        cx: &mut Context<'_, ToUsher>,
        connection: &Arc<Connection>,
        from: ErlangPid,
        to: Pid,
        named: Whom,
        reference: ErlangRef,
    ) {
        match proxy(connection, cx, &Whom::Pid(from.clone()), For::Itself) {
            Ok(by) => _ = cx.send(&by, ToProxy::Monitor(to, named, reference)),
            Err(_) => {
                let reason = Term::atom("system_limit");
                connection.tell(Control::Down { from: named, to: from, reference, reason });
            }
        }
    }

    fn to_known(
        cx: &mut Context<'_, ToUsher>,
        connection: &Arc<Connection>,
        from: ErlangPid,
        message: ToProxy,
    ) -> bool {
        match connection.boards.of_process(cx.pid().shard, &Whom::Pid(from)) {
            Some(known) => cx.send(&known, message),
            None => false,
        }
    }

    fn died(cx: &mut Context<'_, ToUsher>, connection: &Arc<Connection>, whom: &Whom, reason: Reason) {
        if let Some(known) = connection.boards.take(cx.pid().shard, whom) {
            cx.send(&known, ToProxy::Died(reason));
        }
    }

    fn unlink(cx: &mut Context<'_, ToUsher>, connection: &Arc<Connection>, id: Option<Term>, from: ErlangPid, to: Pid) {
        let told = Usher::to_known(cx, connection, from.clone(), ToProxy::Unlink(id.clone(), to));
        if let (false, Some(id)) = (told, id) {
            connection.tell(Control::UnlinkAck { id, from: connection.gateway.pid_of(to), to: from });
        }
    }

    fn signal(cx: &mut Context<'_, ToUsher>, connection: &Arc<Connection>, from: ErlangPid, to: Pid, reason: Reason) {
        if !Usher::to_known(cx, connection, from, ToProxy::Signal(to, reason)) {
            // (a process that is not there gets no signal)
            let _ = cx.exit(to, reason);
        }
    }

    /// A term for a process that takes none in is for a proxy, or for nobody.
    fn term(cx: &mut Context<'_, ToUsher>, connection: &Arc<Connection>, to: Pid, term: Term) {
        match connection.boards.by_pid(to) {
            Some(known) => _ = cx.send(&known, ToProxy::Answer(term)),
            None => connection.gateway.report(&Report::Nobody { node: &connection.node, to: &to.to_string() }),
        }
    }

    fn came(&self, cx: &mut Context<'_, ToUsher>, connection: &Arc<Connection>, came: Came) {
        match came {
            Came::Message(from, parcel) => Usher::message(cx, connection, from, parcel),
            Came::Term(to, term) => Usher::term(cx, connection, to, term),
            Came::Link(from, to) => Usher::link(cx, connection, from, to),
            Came::Unlink(id, from, to) => Usher::unlink(cx, connection, id, from, to),
            Came::Exit(from, reason) => Usher::died(cx, connection, &Whom::Pid(from), reason),
            Came::Down(proxy, reason) => {
                if let Some(whom) = connection.boards.whom(proxy) {
                    Usher::died(cx, connection, &whom, reason);
                }
            }
            Came::Signal(from, to, reason) => Usher::signal(cx, connection, from, to, reason),
            Came::Monitor(from, to, named, reference) => Usher::monitor(cx, connection, from, to, named, reference),
            Came::Demonitor(from, reference) => {
                Usher::to_known(cx, connection, from, ToProxy::Demonitor(reference));
            }
            Came::Find(whom, reply) => {
                let found = proxy(connection, cx, &whom, For::Watch);
                cx.reply(reply, found);
            }
            Came::Broken => {
                for known in connection.boards.close(cx.pid().shard) {
                    cx.send(&known, ToProxy::Died(NOCONNECTION));
                }
            }
        }
    }
}

impl Behaviour for Usher {
    type Message = ToUsher;

    fn handle(&mut self, cx: &mut Context<'_, ToUsher>, event: Event<ToUsher>) -> Next {
        match event {
            Event::Message(ToUsher::Of(connection, came)) => self.came(cx, &connection, came),
            Event::Message(ToUsher::Watch(pid)) => _ = cx.monitor(pid),
            Event::Message(ToUsher::Leave) => return Next::DONE,
            Event::Down(down) => {
                if let Some(gateway) = self.0.get() {
                    gateway.shut(down.pid);
                }
            }
            _ => {}
        }
        Next::Wait
    }

    /// The run ends, or the usher was killed: without it the node is none.
    fn ended(self, _: Reason) {
        if let Some(gateway) = self.0.get() {
            gateway.leave();
        }
    }
}
