//! A run watched while it runs: what it is at a moment, its events as they come, and a page that shows it.
//!
//! A look is a task of each desk, which the thread of the desk does between two of its steps. No desk waits for another,
//! nothing is locked meanwhile, and no event is made: the history of a run that was looked at is that of any other.

mod json;
mod look;
mod metrics;
mod observer;
mod record;
mod request;
mod tap;
mod view;

pub use observer::Observer;
pub use tap::{Tap, Tapped};
pub use view::{DeskView, First, Longest, Look, Place, ProcessView, SilentDesk, SupervisorView, View, WaitsFor};

pub(crate) use look::Outline;
pub(crate) use record::Record;
pub(crate) use tap::Taps;
