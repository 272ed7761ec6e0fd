//! A node of an Erlang cluster, whose processes are those of Pundewo's [runtime](pundewo::runtime).
//!
//! A [`Gateway`] makes a run a hidden node. Processes that it [serves](Gateway::serve) get what Erlang's processes send them,
//! by `!`, `gen_server:cast` and `gen_server:call`: a conversion makes a message of each [`Term`], or refuses it. Processes
//! send to those of Erlang, ask, link and monitor them by calls of the gateway.
//!
//! A process of Erlang that is linked or monitored is a process of the table: its proxy. So links, monitors, exit reasons and
//! order are the table's.
//!
//! OTP's own library `ei` makes a connection. What comes over it is read here, where each length is compared with what is
//! there. `unsafe` code is in the module that calls `ei`, and nowhere else.

#![deny(missing_debug_implementations, missing_docs, unsafe_code)]

#[cfg(doctest)]
#[doc = include_str!("../README.md")]
struct Readme;

#[cfg(doctest)]
#[doc = include_str!("../../../docs/ERLANG_CLUSTER.md")]
struct Page;

#[cfg(test)]
extern crate self as pundewo_erlang;

#[cfg(test)]
mod bad_peers;
mod connection;
mod control;
mod cookie;
#[allow(unsafe_code)]
mod ei;
mod format;
mod gateway;
mod proxy;
mod reason;
mod report;
mod routing;
mod serving;
mod term;
mod usher;

pub use connection::Unsent;
pub use cookie::{Cookie, CookieFault};
pub use format::TermFault;
pub use gateway::{Builder, Gateway, JoinFault, Remote, RemoteFault};
pub use reason::{ANOTHER, NOCONNECTION};
pub use report::{Broken, Report};
pub use serving::{Caller, Delivery, Incoming, Kind, Refusal, Served};
pub use term::{ErlangPid, ErlangRef, Opaque, Term};
