//! What two nodes say to each other: a packet has a control message, and perhaps the term that is sent.

use crate::format::{TermFault, read_term, write_term};
use crate::term::{ErlangPid, ErlangRef, Term};
use std::sync::Arc;
use std::vec::IntoIter;

const LINK: i64 = 1;
const SEND: i64 = 2;
const EXIT: i64 = 3;
const UNLINK: i64 = 4;
const REG_SEND: i64 = 6;
const EXIT2: i64 = 8;
const SEND_TT: i64 = 12;
const EXIT_TT: i64 = 13;
const REG_SEND_TT: i64 = 16;
const EXIT2_TT: i64 = 18;
const MONITOR_P: i64 = 19;
const DEMONITOR_P: i64 = 20;
const MONITOR_P_EXIT: i64 = 21;
const SEND_SENDER: i64 = 22;
const SEND_SENDER_TT: i64 = 23;
const ALIAS_SEND: i64 = 33;
const UNLINK_ID: i64 = 35;
const UNLINK_ID_ACK: i64 = 36;

/// The first byte of a packet.
const PASS_THROUGH: u8 = b'p';

/// Whom a node names: a process of its own or of the other, by its pid or by its registered name.
#[derive(Clone, Debug, PartialEq, Eq, Hash)]
pub(crate) enum Whom {
    Pid(ErlangPid),
    Name(Arc<str>),
}

impl Whom {
    fn of(term: Term) -> Option<Whom> {
        match term {
            Term::Pid(pid) => Some(Whom::Pid(pid)),
            Term::Atom(name) => Some(Whom::Name(name)),
            _ => None,
        }
    }

    pub(crate) fn term(&self) -> Term {
        match self {
            Whom::Pid(pid) => Term::Pid(pid.clone()),
            Whom::Name(name) => Term::Atom(name.clone()),
        }
    }
}

/// A control message.
#[derive(Clone, Debug, PartialEq)]
pub(crate) enum Control {
    Link {
        from: ErlangPid,
        to: ErlangPid,
    },
    Unlink {
        id: Option<Term>,
        from: ErlangPid,
        to: ErlangPid,
    },
    UnlinkAck {
        id: Term,
        from: ErlangPid,
        to: ErlangPid,
    },
    Send {
        from: Option<ErlangPid>,
        to: Whom,
    },
    AliasSend {
        from: ErlangPid,
        alias: ErlangRef,
    },
    /// A linked process has exited.
    Exit {
        from: ErlangPid,
        to: ErlangPid,
        reason: Term,
    },
    /// `exit/2`.
    ExitSignal {
        from: ErlangPid,
        to: ErlangPid,
        reason: Term,
    },
    Monitor {
        from: ErlangPid,
        to: Whom,
        reference: ErlangRef,
    },
    Demonitor {
        from: ErlangPid,
        to: Whom,
        reference: ErlangRef,
    },
    Down {
        from: Whom,
        to: ErlangPid,
        reference: ErlangRef,
        reason: Term,
    },
    /// What this node does not take part in, as a group leader.
    Other,
}

impl Control {
    /// Reads a packet.
    pub(crate) fn read(packet: &[u8]) -> Result<(Control, Option<Term>), TermFault> {
        let (first, rest) = packet.split_first().ok_or(TermFault::Short)?;
        if *first != PASS_THROUGH {
            return Err(TermFault::Unknown(*first));
        }
        let (control, rest) = read_term(rest)?;
        let control = Control::of(control).ok_or(TermFault::Unknown(*first))?;
        if rest.is_empty() {
            return Ok((control, None));
        }
        let (term, rest) = read_term(rest)?;
        if rest.is_empty() { Ok((control, Some(term))) } else { Err(TermFault::Unknown(rest[0])) }
    }

    fn of(term: Term) -> Option<Control> {
        let Term::Tuple(parts) = term else { return None };
        let mut parts = Parts(parts.into_iter());
        let kind = parts.any()?.as_integer()?;
        match kind {
            SEND | SEND_TT | SEND_SENDER | SEND_SENDER_TT | REG_SEND | REG_SEND_TT | ALIAS_SEND => parts.message(kind),
            LINK | UNLINK | UNLINK_ID | UNLINK_ID_ACK => parts.link(kind),
            EXIT | EXIT_TT | EXIT2 | EXIT2_TT => parts.exit(kind),
            MONITOR_P | DEMONITOR_P | MONITOR_P_EXIT => parts.monitor(kind),
            _ => Some(Control::Other),
        }
    }

    fn term(self) -> Term {
        let (kind, rest) = match self {
            Control::Link { from, to } => (LINK, vec![from.into(), to.into()]),
            Control::Unlink { id: None, from, to } => (UNLINK, vec![from.into(), to.into()]),
            Control::Unlink { id: Some(id), from, to } => (UNLINK_ID, vec![id, from.into(), to.into()]),
            Control::UnlinkAck { id, from, to } => (UNLINK_ID_ACK, vec![id, from.into(), to.into()]),
            Control::Send { from: Some(from), to: Whom::Name(name) } => {
                (REG_SEND, vec![from.into(), Term::atom(""), Term::Atom(name)])
            }
            Control::Send { from: Some(from), to } => (SEND_SENDER, vec![from.into(), to.term()]),
            Control::Send { from: None, to } => (SEND, vec![Term::atom(""), to.term()]),
            Control::AliasSend { from, alias } => (ALIAS_SEND, vec![from.into(), alias.into()]),
            Control::Exit { from, to, reason } => (EXIT, vec![from.into(), to.into(), reason]),
            Control::ExitSignal { from, to, reason } => (EXIT2, vec![from.into(), to.into(), reason]),
            Control::Monitor { from, to, reference } => (MONITOR_P, vec![from.into(), to.term(), reference.into()]),
            Control::Demonitor { from, to, reference } => (DEMONITOR_P, vec![from.into(), to.term(), reference.into()]),
            Control::Down { from, to, reference, reason } => {
                (MONITOR_P_EXIT, vec![from.term(), to.into(), reference.into(), reason])
            }
            Control::Other => (0, Vec::new()),
        };
        Term::Tuple([Term::Integer(kind)].into_iter().chain(rest).collect())
    }

    /// The packet, with its length before it.
    pub(crate) fn packet(self, message: Option<&Term>) -> Vec<u8> {
        let mut bytes = vec![0, 0, 0, 0, PASS_THROUGH];
        write_term(&mut bytes, &self.term());
        if let Some(message) = message {
            write_term(&mut bytes, message);
        }
        let length = u32::try_from(bytes.len() - 4).unwrap_or(u32::MAX);
        bytes[..4].copy_from_slice(&length.to_be_bytes());
        bytes
    }
}

/// What comes behind the kind of a control message.
struct Parts(IntoIter<Term>);

impl Parts {
    fn any(&mut self) -> Option<Term> {
        self.0.next()
    }

    fn pid(&mut self) -> Option<ErlangPid> {
        match self.any()? {
            Term::Pid(pid) => Some(pid),
            _ => None,
        }
    }

    fn whom(&mut self) -> Option<Whom> {
        Whom::of(self.any()?)
    }

    fn reference(&mut self) -> Option<ErlangRef> {
        match self.any()? {
            Term::Reference(reference) => Some(*reference),
            _ => None,
        }
    }

    fn message(&mut self, kind: i64) -> Option<Control> {
        Some(match kind {
            ALIAS_SEND => Control::AliasSend { from: self.pid()?, alias: self.reference()? },
            REG_SEND | REG_SEND_TT => {
                let from = Some(self.pid()?);
                // (a cookie was here once)
                self.any()?;
                Control::Send { from, to: self.whom()? }
            }
            SEND_SENDER | SEND_SENDER_TT => Control::Send { from: Some(self.pid()?), to: Whom::Pid(self.pid()?) },
            _ => {
                self.any()?;
                Control::Send { from: None, to: Whom::Pid(self.pid()?) }
            }
        })
    }

    fn link(&mut self, kind: i64) -> Option<Control> {
        let id = if matches!(kind, UNLINK_ID | UNLINK_ID_ACK) { Some(self.any()?) } else { None };
        let (from, to) = (self.pid()?, self.pid()?);
        Some(match (kind, id) {
            (LINK, _) => Control::Link { from, to },
            (UNLINK_ID_ACK, Some(id)) => Control::UnlinkAck { id, from, to },
            (_, id) => Control::Unlink { id, from, to },
        })
    }

    fn exit(&mut self, kind: i64) -> Option<Control> {
        let (from, to) = (self.pid()?, self.pid()?);
        if matches!(kind, EXIT_TT | EXIT2_TT) {
            // (a token of a trace)
            self.any()?;
        }
        let reason = self.any()?;
        Some(match kind {
            EXIT | EXIT_TT => Control::Exit { from, to, reason },
            _ => Control::ExitSignal { from, to, reason },
        })
    }

    fn monitor(&mut self, kind: i64) -> Option<Control> {
        Some(match kind {
            MONITOR_P => Control::Monitor { from: self.pid()?, to: self.whom()?, reference: self.reference()? },
            DEMONITOR_P => Control::Demonitor { from: self.pid()?, to: self.whom()?, reference: self.reference()? },
            _ => {
                let (from, to, reference) = (self.whom()?, self.pid()?, self.reference()?);
                Control::Down { from, to, reference, reason: self.any()? }
            }
        })
    }
}
