//! What processes of Erlang send to processes of this node: served names, conversions, and the calls of `gen_server`.

use crate::connection::{Connection, Unsent};
use crate::control::{Control, Whom};
use crate::proxy::ToProxy;
use crate::report::Report;
use crate::term::{ErlangPid, Term};
use crate::usher::ToUsher;
use pundewo::Pid;
use pundewo::runtime::{Address, Answer, Call, CallFault, Context, Name, Reply};
use std::fmt;
use std::marker::PhantomData;
use std::panic::{AssertUnwindSafe, catch_unwind};
use std::sync::Arc;
use std::time::Duration;

/// For how long a server may take to answer a call by a [`Reply`]. Erlang's caller has a time of its own.
const LONGEST: Duration = Duration::from_secs(3_600);

/// What came from Erlang for a process of this node.
#[derive(Debug)]
pub struct Incoming {
    term: Term,
    kind: Kind,
    from: Option<ErlangPid>,
    caller: Option<Caller>,
}

/// How it was sent.
#[derive(Clone, Copy, Debug, PartialEq, Eq, Hash)]
#[non_exhaustive]
pub enum Kind {
    /// By `!`.
    Info,
    /// By `gen_server:cast`.
    Cast,
    /// By `gen_server:call`, whose caller waits for an answer.
    Call,
}

impl Incoming {
    /// What was sent: of a call or a cast the request.
    #[must_use]
    pub fn term(&self) -> &Term {
        &self.term
    }

    /// The same, taken out.
    #[must_use]
    pub fn into_term(self) -> Term {
        self.term
    }

    /// How it was sent.
    #[must_use]
    pub fn kind(&self) -> Kind {
        self.kind
    }

    /// Who sent it, if that is known.
    #[must_use]
    pub fn from(&self) -> Option<&ErlangPid> {
        self.from.as_ref()
    }

    /// The caller, for a behaviour that answers by [`Caller::reply`]. It is there once, for a call.
    #[must_use]
    pub fn take_caller(&mut self) -> Option<Caller> {
        self.caller.take()
    }
}

/// Why a conversion takes no message of what came. A caller gets `{error, {refused, Name}}`.
#[derive(Clone, Debug, PartialEq, Eq, Hash)]
pub struct Refusal(Arc<str>);

impl Refusal {
    /// A refusal with this name, which Erlang gets as an atom.
    #[must_use]
    pub fn new(name: &str) -> Refusal {
        Refusal(crate::term::atom(name))
    }

    /// Its name.
    #[must_use]
    pub fn name(&self) -> &str {
        &self.0
    }
}

impl fmt::Display for Refusal {
    fn fmt(&self, f: &mut fmt::Formatter<'_>) -> fmt::Result {
        f.write_str(&self.0)
    }
}

impl std::error::Error for Refusal {}

/// What a conversion makes of what came.
pub struct Delivery<M>(Made<M>);

enum Made<M> {
    Tell(M),
    Ask(Box<dyn Asks<M>>),
}

impl<M> fmt::Debug for Delivery<M> {
    fn fmt(&self, f: &mut fmt::Formatter<'_>) -> fmt::Result {
        f.write_str(match self.0 {
            Made::Tell(_) => "Delivery::tell(..)",
            Made::Ask(_) => "Delivery::ask(..)",
        })
    }
}

impl<M: Send + 'static> Delivery<M> {
    /// The process gets this message. If that was a call whose caller was not taken out, the caller gets `ok` as it is sent.
    #[must_use]
    pub fn tell(message: M) -> Delivery<M> {
        Delivery(Made::Tell(message))
    }

    /// The process gets the message that `ask` makes of a [`Reply`], and the caller gets the term that `answer` makes of what
    /// the process replies. If nobody calls, the answer is dropped.
    ///
    /// The answer goes through the proxy of the caller. What the process sends the caller by [`Gateway::send`] right after it
    /// may arrive before it: a process that does both takes a [`Caller`].
    ///
    /// [`Gateway::send`]: crate::Gateway::send
    #[must_use]
    pub fn ask<R: Send + 'static>(
        ask: impl FnOnce(Reply<R>) -> M + Send + 'static,
        answer: impl FnOnce(R) -> Term + Send + 'static,
    ) -> Delivery<M> {
        Delivery(Made::Ask(Box::new(Asking { ask, answer, of: PhantomData })))
    }
}

trait Asks<M>: Send {
    fn ask(self: Box<Self>, cx: &mut Context<'_, ToProxy>, to: &Address<M>) -> Result<Box<dyn Answers>, ()>;
}

/// A call that a proxy has made of a process, whatever the type of the answer is.
pub(crate) trait Answers: Send {
    fn is_of(&self, answer: &Answer) -> bool;
    fn term(self: Box<Self>, answer: Answer) -> Option<Result<Term, CallFault>>;
    /// Whether the process that was asked has not exited.
    fn is_alive(&self) -> bool;
}

struct Asking<R, A, T> {
    ask: A,
    answer: T,
    of: PhantomData<fn() -> R>,
}

struct Asked<M, R, T> {
    server: Address<M>,
    call: Call<R>,
    answer: T,
}

impl<M, R, A, T> Asks<M> for Asking<R, A, T>
where
    M: Send + 'static,
    R: Send + 'static,
    A: FnOnce(Reply<R>) -> M + Send,
    T: FnOnce(R) -> Term + Send + 'static,
{
    fn ask(self: Box<Self>, cx: &mut Context<'_, ToProxy>, to: &Address<M>) -> Result<Box<dyn Answers>, ()> {
        let Asking { ask, answer, .. } = *self;
        let call = cx.call(to, LONGEST, ask).map_err(|_| ())?;
        Ok(Box::new(Asked { server: to.clone(), call, answer }))
    }
}

impl<M, R, T> Answers for Asked<M, R, T>
where
    M: Send + 'static,
    R: Send + 'static,
    T: FnOnce(R) -> Term + Send,
{
    fn is_of(&self, answer: &Answer) -> bool {
        answer.is_of(&self.call)
    }

    fn term(self: Box<Self>, answer: Answer) -> Option<Result<Term, CallFault>> {
        let Asked { call, answer: convert, .. } = *self;
        let given = answer.to(&call).ok()?;
        Some(given.map(convert))
    }

    fn is_alive(&self) -> bool {
        is_alive(&self.server)
    }
}

/// An Erlang process that has called by `gen_server:call`, and waits for the answer.
///
/// Dropped, it leaves the caller to its time, or to the news that the process has exited: as a `gen_server` that does not
/// answer.
#[derive(Clone)]
pub struct Caller {
    connection: Arc<Connection>,
    to: ErlangPid,
    tag: Term,
    /// The process that was called.
    server: Option<Pid>,
}

impl fmt::Debug for Caller {
    fn fmt(&self, f: &mut fmt::Formatter<'_>) -> fmt::Result {
        write!(f, "Caller({})", self.to)
    }
}

impl Caller {
    /// Who it is.
    #[must_use]
    pub fn pid(&self) -> &ErlangPid {
        &self.to
    }

    /// Answers: Erlang's `gen_server:reply`. It never waits. A second answer comes to nobody, as one that is late.
    ///
    /// # Errors
    ///
    /// [`Unsent`].
    pub fn reply(&self, answer: impl Into<Term>) -> Result<(), Unsent> {
        let message = Term::tuple([self.tag.clone(), answer.into()]);
        let from = self.connection.gateway.pid_or_own(self.server);
        // (a caller by an alias has given that up once its time is over)
        let control = match &self.tag {
            Term::Improper(parts, alias) if matches!(&parts[..], [first] if first.is_atom("alias")) => match &**alias {
                Term::Reference(alias) => Control::AliasSend { from, alias: (**alias).clone() },
                _ => Control::Send { from: Some(from), to: Whom::Pid(self.to.clone()) },
            },
            _ => Control::Send { from: Some(from), to: Whom::Pid(self.to.clone()) },
        };
        self.connection.push(control, Some(&message))
    }

    /// Answers that the call is refused.
    pub(crate) fn refuse(&self, why: &str) {
        let refused = Term::tuple([Term::atom("refused"), Term::atom(why)]);
        let _ = self.reply(Term::tuple([Term::atom("error"), refused]));
    }
}

/// A call of an Erlang process that a process of this node is to answer.
pub(crate) trait Pending: Send {
    fn is_of(&self, answer: &Answer) -> bool;
    fn answer(self: Box<Self>, answer: Answer);
}

struct Owed {
    asked: Box<dyn Answers>,
    caller: Option<Caller>,
}

impl Pending for Owed {
    fn is_of(&self, answer: &Answer) -> bool {
        self.asked.is_of(answer)
    }

    fn answer(self: Box<Self>, answer: Answer) {
        let Owed { asked, caller } = *self;
        let is_alive = asked.is_alive();
        // (what makes the term is the program's own)
        let given = catch_unwind(AssertUnwindSafe(|| asked.term(answer)));
        let Some(caller) = caller else { return };
        match given {
            Ok(Some(Ok(term))) => {
                if caller.reply(term) == Err(Unsent::TooLarge) {
                    caller.refuse("too_large");
                }
            }
            // (the monitor of the caller tells of the exit)
            Ok(Some(Err(_))) if !is_alive => {}
            Ok(Some(Err(CallFault::Timeout(_)))) => caller.refuse("timeout"),
            Ok(Some(Err(CallFault::Dropped))) => caller.refuse("dropped"),
            Ok(Some(Err(_)) | None) => {}
            Err(_) => caller.refuse("conversion_panicked"),
        }
    }
}

/// Which process is served: one, or the one that has a name now.
pub enum Served<M> {
    /// This process.
    Process(Address<M>),
    /// The process that has this name, as a child of a supervisor.
    Named(Name<M>),
}

impl<M: Send + 'static> fmt::Debug for Served<M> {
    fn fmt(&self, f: &mut fmt::Formatter<'_>) -> fmt::Result {
        match self {
            Served::Process(address) => write!(f, "Served({address})"),
            Served::Named(name) => write!(f, "Served({name:?})"),
        }
    }
}

impl<M> Clone for Served<M> {
    fn clone(&self) -> Served<M> {
        match self {
            Served::Process(address) => Served::Process(address.clone()),
            Served::Named(name) => Served::Named(name.clone()),
        }
    }
}

impl<M: Send + 'static> From<&Address<M>> for Served<M> {
    fn from(address: &Address<M>) -> Served<M> {
        Served::Process(address.clone())
    }
}

impl<M: Send + 'static> From<&Name<M>> for Served<M> {
    fn from(name: &Name<M>) -> Served<M> {
        Served::Named(name.clone())
    }
}

impl<M: Send + 'static> Served<M> {
    fn now(&self) -> Option<Address<M>> {
        match self {
            Served::Process(address) => Some(address.clone()),
            Served::Named(name) => name.whereis(),
        }
    }
}

/// What is to be sent of what came, and to whom. `None` if nobody is there.
pub(crate) type Opened = Option<Result<(Pid, Box<dyn Parcel>), Refusal>>;

/// A way in for terms.
pub(crate) trait Door: Send + Sync {
    /// The process behind it now.
    fn pid(&self) -> Option<Pid>;
    /// How many messages wait for it.
    fn waiting(&self) -> usize;
    /// Converts what came.
    fn open(&self, incoming: Incoming) -> Opened;
}

pub(crate) struct Converted<M, F> {
    pub(crate) to: Served<M>,
    pub(crate) convert: F,
}

impl<M, F> Door for Converted<M, F>
where
    M: Send + 'static,
    F: Fn(&mut Incoming) -> Result<Delivery<M>, Refusal> + Send + Sync,
{
    fn pid(&self) -> Option<Pid> {
        self.to.now().map(|address| address.pid())
    }

    fn waiting(&self) -> usize {
        self.to.now().map_or(0, |address| address.waiting())
    }

    fn open(&self, mut incoming: Incoming) -> Opened {
        let to = self.to.now()?;
        let pid = to.pid();
        let mut caller = incoming.caller.clone();
        if let Some(caller) = &mut caller {
            caller.server = Some(pid);
        }
        incoming.caller.clone_from(&caller);
        let converted = catch_unwind(AssertUnwindSafe(|| (self.convert)(&mut incoming)));
        let made = match converted.unwrap_or_else(|_| Err(Refusal::new("conversion_panicked"))) {
            Ok(Delivery(made)) => made,
            Err(refusal) => return Some(Err(refusal)),
        };
        // (a caller that was taken out is answered by the process)
        let owed = incoming.caller.take();
        Some(Ok((pid, Box::new(Letter { to, made, owed, caller }))))
    }
}

/// A message on its way to a process, whatever its type is.
pub(crate) trait Parcel: Send {
    /// Whether a proxy has to send it, since it waits for an answer.
    fn asks(&self) -> bool;
    fn by_usher(self: Box<Self>, cx: &mut Context<'_, ToUsher>);
    fn by_proxy(self: Box<Self>, cx: &mut Context<'_, ToProxy>) -> Option<Box<dyn Pending>>;
    /// It is not sent: the caller is told so.
    fn refuse(self: Box<Self>, why: &str);
}

/// Whether a process has not exited.
fn is_alive<M: Send + 'static>(process: &Address<M>) -> bool {
    Name::new("").register(process)
}

struct Letter<M> {
    to: Address<M>,
    made: Made<M>,
    /// The caller who gets `ok`, or the answer.
    owed: Option<Caller>,
    /// The caller, whoever answers.
    caller: Option<Caller>,
}

impl<M: Send + 'static> Letter<M> {
    fn tell<N: Send + 'static>(
        cx: &mut Context<'_, N>,
        to: &Address<M>,
        message: M,
        owed: Option<&Caller>,
        caller: Option<&Caller>,
    ) {
        if cx.send(to, message) {
            if let Some(owed) = owed {
                let _ = owed.reply(Term::atom("ok"));
            }
        } else if is_alive(to) {
            // (it takes no more)
            caller.into_iter().for_each(|caller| caller.refuse("full"));
        }
    }
}

impl<M: Send + 'static> Parcel for Letter<M> {
    fn asks(&self) -> bool {
        matches!(self.made, Made::Ask(_))
    }

    fn by_usher(self: Box<Self>, cx: &mut Context<'_, ToUsher>) {
        let Letter { to, made, owed, caller } = *self;
        if let Made::Tell(message) = made {
            Letter::tell(cx, &to, message, owed.as_ref(), caller.as_ref());
        }
    }

    fn by_proxy(self: Box<Self>, cx: &mut Context<'_, ToProxy>) -> Option<Box<dyn Pending>> {
        let Letter { to, made, owed, caller } = *self;
        match made {
            Made::Tell(message) => {
                Letter::tell(cx, &to, message, owed.as_ref(), caller.as_ref());
                None
            }
            Made::Ask(asks) => match asks.ask(cx, &to) {
                Ok(asked) => Some(Box::new(Owed { asked, caller: owed })),
                Err(()) => {
                    caller.iter().for_each(|caller| caller.refuse("system_limit"));
                    None
                }
            },
        }
    }

    fn refuse(self: Box<Self>, why: &str) {
        self.caller.iter().for_each(|caller| caller.refuse(why));
    }
}

/// What came, by the protocol of `gen_server`.
pub(crate) fn incoming(connection: &Arc<Connection>, from: Option<ErlangPid>, term: Term) -> Incoming {
    if let Some([Term::Tuple(caller), _]) = term.tagged("$gen_call") {
        if let [Term::Pid(to), _] = &caller[..] {
            if to.node == connection.node {
                return call_of(connection, term);
            }
        }
    }
    if let Some([_]) = term.tagged("$gen_cast") {
        let request = last_of(term);
        return Incoming { term: request, kind: Kind::Cast, from, caller: None };
    }
    Incoming { term, kind: Kind::Info, from, caller: None }
}

/// The last part of a tuple.
fn last_of(term: Term) -> Term {
    match term {
        Term::Tuple(mut parts) => parts.pop().unwrap_or(Term::List(Vec::new())),
        other => other,
    }
}

fn call_of(connection: &Arc<Connection>, term: Term) -> Incoming {
    let Term::Tuple(parts) = term else { unreachable!("a tuple was seen") };
    let mut parts = parts.into_iter().skip(1);
    let (caller, request) = (parts.next(), parts.next().unwrap_or(Term::List(Vec::new())));
    let caller = caller.and_then(|caller| match caller {
        Term::Tuple(parts) => match <[Term; 2]>::try_from(parts) {
            Ok([Term::Pid(to), tag]) => Some(Caller { connection: connection.clone(), to, tag, server: None }),
            _ => None,
        },
        _ => None,
    });
    let from = caller.as_ref().map(|caller| caller.to.clone());
    Incoming { term: request, kind: Kind::Call, from, caller }
}

/// Answers a call of one of the gateway's own names, or refuses what came.
pub(crate) fn refused(connection: &Connection, to: &str, caller: Option<&Caller>, why: &str) {
    connection.gateway.report(&Report::Refused { node: &connection.node, to, why });
    if let Some(caller) = caller {
        caller.refuse(why);
    }
}

impl Incoming {
    pub(crate) fn caller(&self) -> Option<&Caller> {
        self.caller.as_ref()
    }
}
