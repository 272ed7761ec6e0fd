//! Processes that a task spawns.

use super::address::Address;
use super::behaviour::Behaviour;
use super::promise::Promise;
use super::run::SpawnFault;
use super::worker::{Parent, Worker};
use crate::Reason;
use std::fmt;
use std::future::Future;
use std::pin::Pin;
use std::sync::Arc;
use std::task::{Context, Poll};

type Spawned<M> = Promise<Result<Address<M>, SpawnFault>>;

/// A process that is being spawned: what [`Handle::spawn_async`](super::Handle::spawn_async) returns. A task awaits its
/// address. Dropped before its end, no process is spawned, or the one that was is killed.
#[must_use = "dropped, it kills the process"]
pub struct Spawning<M: Send + 'static>(Arc<Spawned<M>>);

impl<M: Send + 'static> fmt::Debug for Spawning<M> {
    fn fmt(&self, f: &mut fmt::Formatter<'_>) -> fmt::Result {
        f.write_str("Spawning(..)")
    }
}

/// The one who spawns it. Dropped, it says that the run is over or halts.
struct Spawner<M: Send + 'static>(Arc<Spawned<M>>);

impl<M: Send + 'static> Drop for Spawner<M> {
    fn drop(&mut self) {
        let _ = self.0.give(Err(SpawnFault::Over));
    }
}

impl<M: Send + 'static> Spawning<M> {
    /// A process with this behaviour, and what the thread of its desk has to do.
    pub(crate) fn of<B: Behaviour<Message = M>>(
        behaviour: B,
    ) -> (Spawning<M>, impl FnOnce(&mut Worker) + Send + 'static) {
        let spawned = Arc::new(Promise::new());
        let spawner = Spawner(spawned.clone());
        let work = move |worker: &mut Worker| {
            if !spawner.0.is_open() {
                return;
            }
            let given = worker.spawn(Parent::Outside, behaviour).map_err(SpawnFault::Table);
            if let Err(Ok(address)) = spawner.0.give(given) {
                worker.signal(address.pid(), Reason::Kill);
            }
        };
        (Spawning(spawned), work)
    }
}

impl<M: Send + 'static> Future for Spawning<M> {
    type Output = Result<Address<M>, SpawnFault>;

    fn poll(self: Pin<&mut Self>, cx: &mut Context<'_>) -> Poll<Self::Output> {
        self.0.poll(cx)
    }
}

impl<M: Send + 'static> Drop for Spawning<M> {
    fn drop(&mut self) {
        // (an address that was given and not taken: its process is nobody's)
        if let Some(Ok(address)) = self.0.give_up() {
            address.kill();
        }
    }
}
