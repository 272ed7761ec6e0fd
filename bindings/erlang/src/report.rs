//! What a gateway tells the program of itself.

use std::fmt;

/// What has happened at a gateway: what the closure of [`Builder::report`](crate::Builder::report) gets, on whatever thread.
#[derive(Clone, Copy, Debug)]
#[non_exhaustive]
pub enum Report<'a> {
    /// A node is connected.
    Up {
        /// Its name.
        node: &'a str,
    },
    /// A connection has broken, or there was none. All proxies of processes of that node exit with `noconnection`.
    Broken {
        /// The name of the other node.
        node: &'a str,
        /// Why.
        why: Broken,
    },
    /// A program connected that did not become a node: it may not know the cookie.
    NotANode,
    /// What came has nobody to go to: no process has the name or the pid.
    Nobody {
        /// The name of the other node.
        node: &'a str,
        /// The registered name, or the pid.
        to: &'a str,
    },
    /// A conversion refused what came, or panicked. The one who called was told so.
    Refused {
        /// The name of the other node.
        node: &'a str,
        /// The registered name, or the pid.
        to: &'a str,
        /// The name of the refusal.
        why: &'a str,
    },
}

/// Why a connection has broken.
#[derive(Clone, Copy, Debug, PartialEq, Eq, Hash)]
#[non_exhaustive]
pub enum Broken {
    /// The other node closed it, or the network did.
    Closed,
    /// There was none: the node is not known to `epmd`, is not reached, or refused this one.
    NotMade,
    /// Nothing came for the time of a tick.
    Silent,
    /// The other node reads too slowly: more waited for it than may.
    NotReading,
    /// What came is no packet, or has a term that is none.
    Malformed,
    /// A packet was larger than may be.
    TooLarge,
    /// Another connection with a node of this name was made.
    Replaced,
    /// This node has left.
    Left,
}

impl fmt::Display for Broken {
    fn fmt(&self, f: &mut fmt::Formatter<'_>) -> fmt::Result {
        f.write_str(match self {
            Broken::Closed => "it was closed",
            Broken::NotMade => "it was not made",
            Broken::Silent => "nothing came for the time of a tick",
            Broken::NotReading => "the other node does not read",
            Broken::Malformed => "what came is malformed",
            Broken::TooLarge => "what came is too large",
            Broken::Replaced => "the node has made another",
            Broken::Left => "this node has left",
        })
    }
}

impl fmt::Display for Report<'_> {
    fn fmt(&self, f: &mut fmt::Formatter<'_>) -> fmt::Result {
        match self {
            Report::Up { node } => write!(f, "{node} is connected"),
            Report::Broken { node, why } => write!(f, "the connection with {node} is broken: {why}"),
            Report::NotANode => f.write_str("a program connected that did not become a node"),
            Report::Nobody { node, to } => write!(f, "{node} sends to {to}, and nobody is there"),
            Report::Refused { node, to, why } => write!(f, "{node} sends to {to}, and is refused: {why}"),
        }
    }
}

pub(crate) type Reporter = Box<dyn Fn(&Report<'_>) + Send + Sync>;
