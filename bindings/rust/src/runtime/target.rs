//! Which process a call is about.

use super::address::Address;
use super::hub::Hub;
use crate::{Fault, Pid};

/// Which process a call is about: a [`Pid`], which is one of the run itself, or an [`Address`], which knows its run.
///
/// Processes of two runs may have equal pids. So an address of another run is refused as [`Fault::OtherRun`]: it can only be
/// sent to. And no address turns into a pid by itself; [`Address::pid`] does that, and drops the run.
///
/// ```compile_fail,E0277
/// use pundewo::runtime::{Address, Pid};
///
/// fn bare(address: &Address<()>) -> Pid {
///     address.into()
/// }
/// ```
#[derive(Clone, Copy, Debug, PartialEq, Eq, Hash)]
pub struct Target {
    pid: Pid,
    /// The number of the run, if it is known.
    run: Option<u64>,
}

impl From<Pid> for Target {
    fn from(pid: Pid) -> Target {
        Target { pid, run: None }
    }
}

impl<M: Send + 'static> From<&Address<M>> for Target {
    fn from(address: &Address<M>) -> Target {
        Target { pid: address.pid(), run: Some(address.hub.run) }
    }
}

impl Target {
    /// The pid, if it is one of this run.
    pub(crate) fn pid_in(self, hub: &Hub) -> Result<Pid, Fault> {
        match self.run {
            Some(run) if run != hub.run => Err(Fault::OtherRun),
            _ => Ok(self.pid),
        }
    }

    /// The same for a process that may exit: not one of those that send what comes from outside.
    pub(crate) fn mortal_in(self, hub: &Hub) -> Result<Pid, Fault> {
        let pid = self.pid_in(hub)?;
        if hub.is_porter(pid) { Err(Fault::Outside) } else { Ok(pid) }
    }
}
