//! Names of processes that are started again.

use super::address::Address;
use super::inbox::locked;
use super::paces::{NAMES, is_trial, no_wait, touch};
use std::fmt;
use std::sync::{Arc, Condvar, Mutex, MutexGuard, PoisonError};
use std::time::Duration;

/// A name for a process, as for a child of a supervisor, which leads to the one that runs now: a registered name of Erlang,
/// with the type of the messages.
///
/// A child that is started again is another process, with another address. Its name stays: the supervisor gives it to
/// each process that it starts with it ([`Child::named`](super::Child::named)). A name may be cloned and go to any
/// thread. It keeps no process alive, and is a name for one child: of two with the same name it is that of the last one.
///
/// Two names are equal if one is a clone of the other.
pub struct Name<M>(Arc<Named<M>>);

struct Named<M> {
    text: String,
    process: Mutex<Option<Address<M>>>,
    given: Condvar,
}

/// The names that a process has.
#[derive(Default)]
pub(crate) struct Names(Mutex<Vec<String>>);

impl Names {
    pub(crate) fn list(&self) -> Vec<String> {
        locked(&self.0).clone()
    }

    fn add(&self, name: &str) {
        locked(&self.0).push(name.to_owned());
    }

    fn remove(&self, name: &str) {
        let mut names = locked(&self.0);
        if let Some(place) = names.iter().position(|it| it == name) {
            names.remove(place);
        }
    }
}

impl<M: Send + 'static> Name<M> {
    /// A name that no process has. The text is for those who read the list of children.
    #[must_use]
    pub fn new(text: impl Into<String>) -> Name<M> {
        Name(Arc::new(Named { text: text.into(), process: Mutex::new(None), given: Condvar::new() }))
    }

    /// Its text.
    #[must_use]
    pub fn text(&self) -> &str {
        &self.0.text
    }

    /// The process that has the name: Erlang's `whereis`. `None` if it has exited, and its successor is not there yet.
    #[must_use]
    pub fn whereis(&self) -> Option<Address<M>> {
        let found = self.process().clone();
        found.filter(|address| address.mailbox.is_open())
    }

    /// The same, but it waits until a process has the name, for so long at most. A behaviour should not: it would hold up
    /// its desk, and with it perhaps the supervisor.
    #[must_use]
    pub fn wait(&self, limit: Duration) -> Option<Address<M>> {
        if is_trial() {
            return Some(self.whereis().unwrap_or_else(|| no_wait("Name::wait", "Name::whereis")));
        }
        let vacant = |process: &mut Option<Address<M>>| !process.as_ref().is_some_and(|it| it.mailbox.is_open());
        let waited = self.0.given.wait_timeout_while(self.process(), limit, vacant);
        let (process, waited) = waited.unwrap_or_else(PoisonError::into_inner);
        // (the process may exit at any time: it had not as it was found)
        if waited.timed_out() { None } else { process.clone() }
    }

    /// Sends the process that has the name a message from outside, from any thread, as [`Address::send`]. It returns
    /// `false`, and the message is dropped, if no process has the name.
    pub fn send(&self, message: M) -> bool {
        self.whereis().is_some_and(|address| address.send(message))
    }

    /// Gives a process the name: Erlang's `register`. It has it until it exits. It returns `false`, and nothing changes, if the
    /// process has exited, or if a live process has the name.
    ///
    /// A child of a supervisor gets its name by [`Child::named`](super::Child::named), also as it is started again.
    ///
    /// ```
    /// use pundewo::runtime::{Behaviour, Context, Event, Name, Next, Runtime};
    ///
    /// struct Clerk;
    ///
    /// impl Behaviour for Clerk {
    ///     type Message = &'static str;
    ///
    ///     fn handle(&mut self, _: &mut Context<'_, &'static str>, _: Event<&'static str>) -> Next {
    ///         Next::Wait
    ///     }
    /// }
    ///
    /// let runtime = Runtime::builder().desks(1).start()?;
    /// let (first, second) = (runtime.spawn(Clerk)?, runtime.spawn(Clerk)?);
    /// let clerk = Name::new("clerk");
    /// assert!(clerk.register(&first) && !clerk.register(&second));
    /// assert!(clerk.send("a letter") && clerk.whereis() == Some(first));
    /// assert!(clerk.unregister() && clerk.register(&second) && clerk.whereis() == Some(second));
    /// runtime.stop()?;
    /// assert_eq!((clerk.whereis(), clerk.unregister()), (None, false));
    /// # Ok::<(), Box<dyn std::error::Error>>(())
    /// ```
    pub fn register(&self, process: &Address<M>) -> bool {
        let mut named = self.process();
        let is_taken = named.as_ref().is_some_and(|it| it.mailbox.is_open());
        if is_taken || !process.mailbox.is_open() {
            return false;
        }
        let before = self.move_to(&mut named, Some(process.clone()));
        drop(named);
        self.0.given.notify_all();
        drop(before);
        true
    }

    /// Takes the name from the process that has it: Erlang's `unregister`. It returns `false` if no live process has it.
    pub fn unregister(&self) -> bool {
        let before = self.move_to(&mut self.process(), None);
        before.is_some_and(|address| address.mailbox.is_open())
    }

    /// The name is another process's, or nobody's. It returns the address of the one that had it.
    fn move_to(&self, named: &mut Option<Address<M>>, to: Option<Address<M>>) -> Option<Address<M>> {
        let before = std::mem::replace(named, to);
        before.iter().for_each(|address| address.mailbox.names.remove(&self.0.text));
        named.iter().for_each(|address| address.mailbox.names.add(&self.0.text));
        before
    }

    fn process(&self) -> MutexGuard<'_, Option<Address<M>>> {
        touch(NAMES);
        locked(&self.0.process)
    }

    /// Gives a process the name.
    pub(crate) fn give(&self, to: Address<M>) {
        let before = self.move_to(&mut self.process(), Some(to));
        self.0.given.notify_all();
        drop(before);
    }

    /// Takes the name from this process, if it has it.
    pub(crate) fn take(&self, from: &Address<M>) {
        let mut process = self.process();
        let taken = if process.as_ref() == Some(from) { self.move_to(&mut process, None) } else { None };
        drop(process);
        drop(taken);
    }
}

impl<M> Clone for Name<M> {
    fn clone(&self) -> Name<M> {
        Name(self.0.clone())
    }
}

impl<M> PartialEq for Name<M> {
    fn eq(&self, other: &Name<M>) -> bool {
        Arc::ptr_eq(&self.0, &other.0)
    }
}

impl<M> Eq for Name<M> {}

impl<M> fmt::Debug for Name<M> {
    fn fmt(&self, f: &mut fmt::Formatter<'_>) -> fmt::Result {
        write!(f, "Name({:?})", self.0.text)
    }
}

impl<M> fmt::Display for Name<M> {
    fn fmt(&self, f: &mut fmt::Formatter<'_>) -> fmt::Result {
        f.write_str(&self.0.text)
    }
}
