//! Calls that are answered, where the letters of a desk are, and the way in for threads without a desk.

use crate::raw::{self, Handle, RawCall, RawHeard, RawItem, RawPost, RawRequest};
use crate::{Body, Desk, Fault, Held, Item, NONE, NOTHING, OK, Pid, Reason, Ref, fault_of, found, told};
use std::fmt;

/// What a door answers once its way in was given up.
const GONE: u32 = Fault::Gone as u32;

/// A request that arrived: who asks, what, and the number that its answer carries.
#[derive(Clone, Copy, Debug, PartialEq, Eq, Hash)]
pub struct Request {
    /// Who asks.
    pub from: Pid,
    /// What is asked, as a number of the program's own.
    pub asks: u32,
    /// The number that the answer carries.
    pub number: i64,
}

impl Request {
    /// The request that the item is, or `None` if it is none. A request is a message that names its own sender.
    pub fn of(item: Item) -> Option<Request> {
        let mut out = RawRequest::default();
        // SAFETY: the item is of plain numbers, and the reference is to a value of this call.
        let code = unsafe { raw::pt_request_of(item.into(), &mut out) };
        found(code, Request { from: out.from, asks: out.asks, number: out.number })
    }
}

impl Item {
    /// Whether this item, which `me` got, is a message of a call: a request, which names its own sender, or an answer, which
    /// names `me`. The kind of such a message is what is asked, or the answer itself.
    ///
    /// So ask this before you read a kind as one of your own. A message of your own is told too if its body names its sender
    /// or its receiver, so send none that does. A `DOWN` is an item as any: [`Call::hear`] reads that of a call.
    ///
    /// ```
    /// use pundewo::{Body, Item, Pid};
    ///
    /// let [me, other] = [1, 2].map(|slot| Pid { shard: 0, slot, version: 1 });
    /// let message = |who| Item::User(other, Body { kind: 3, num: 7, who });
    /// assert!(message(Some(other)).is_call(me)); // a request
    /// assert!(message(Some(me)).is_call(me)); // an answer, and 3 is what was answered
    /// assert!(!message(None).is_call(me)); // a message of the kind 3
    /// ```
    pub fn is_call(self, me: Pid) -> bool {
        let mut out = false;
        // SAFETY: the item is of plain numbers, and the reference is to a value of this call.
        unsafe { raw::pt_is_call(me, self.into(), &mut out) };
        out
    }
}

/// What an item means to a call.
#[derive(Clone, Copy, Debug, PartialEq, Eq, Hash)]
pub enum Heard {
    /// Its answer. The call has ended.
    Answer(u32),
    /// Its server has exited with this reason, and there is no answer. The call has ended.
    ServerDown(Reason),
    /// Its answer or its `DOWN`, after the call had ended. Nothing is left to do with it.
    Late,
    /// Nothing of this call.
    NotMine,
}

impl From<RawHeard> for Heard {
    fn from(raw: RawHeard) -> Heard {
        match raw.code {
            raw::PT_HEARD_ANSWER => Heard::Answer(raw.answer),
            raw::PT_HEARD_SERVER_DOWN => Heard::ServerDown(raw.reason.into()),
            raw::PT_HEARD_LATE => Heard::Late,
            _ => Heard::NotMine,
        }
    }
}

/// A call that was made, of one process to another: Erlang's `gen_server:call` without its `receive`.
///
/// It ends once: by its answer or by the exit of its server, which [`hear`](Call::hear) reports, or by its deadline, which
/// [`expire`](Call::expire) reports. A call that is dropped is answered to nobody.
///
/// ```
/// use pundewo::{Config, Heard, Pick, Request, open};
///
/// let mut desks = open(1, Config::default())?;
/// let desk = &mut desks[0];
/// let (client, server) = (desk.spawn()?, desk.spawn()?);
/// let mut call = desk.ask(client, server, 21)?;
/// desk.turn(16);
/// let request = Request::of(desk.receive(server, Pick::Any)?.unwrap()).unwrap();
/// desk.reply(server, request, 2 * request.asks)?;
/// desk.turn(16);
/// let item = desk.receive(client, Pick::Any)?.unwrap();
/// assert_eq!(call.hear(desk, item), Heard::Answer(42));
/// assert!(!call.is_open());
/// # Ok::<(), pundewo::Fault>(())
/// ```
#[derive(Debug)]
pub struct Call {
    raw: RawCall,
}

// SAFETY of the calls below: the desk's handle is the only one of its desk, and this call alone has it; the references are to
// separate values.
impl Call {
    /// The process that asked.
    pub fn client(&self) -> Pid {
        self.raw.client
    }

    /// The process that was asked.
    pub fn server(&self) -> Pid {
        self.raw.server
    }

    /// The monitor of the server.
    pub fn monitor(&self) -> Ref {
        self.raw.monitor.into()
    }

    /// Whether it still waits for its answer, or for the exit of its server.
    pub fn is_open(&self) -> bool {
        self.raw.waits
    }

    /// The moment at which its client has to call [`expire`](Call::expire): the deadline, if it has one and is open.
    pub fn deadline(&self) -> Option<u64> {
        (self.raw.waits && self.raw.has_deadline).then_some(self.raw.deadline)
    }

    /// The monitor that could not be cancelled as the call ended, for want of memory or stamps: [`Desk::demonitor`] cancels
    /// it. If it is left, its `DOWN` may arrive, which is [`Heard::Late`].
    pub fn left_open(&self) -> Option<Ref> {
        self.raw.left_open.then_some(self.raw.monitor.into())
    }

    /// Reads an item that the client got, and returns what it means to this call. If the call ends by it, its monitor is
    /// cancelled, or [`left_open`](Call::left_open) returns it. The desk is that of the client.
    pub fn hear(&mut self, desk: &mut Desk, item: Item) -> Heard {
        let mut out = RawHeard::default();
        unsafe { raw::pt_hear(desk.handle.own(), &mut self.raw, item.into(), &mut out) };
        out.into()
    }

    /// Reports the time, and returns whether the call ends by its deadline now: it is open, and the deadline is not above
    /// `now`. Its monitor is cancelled then, as in [`hear`](Call::hear). Show the call first what waits in the mailbox: an
    /// answer that arrives later is [`Heard::Late`].
    pub fn expire(&mut self, desk: &mut Desk, now: u64) -> bool {
        let mut out = false;
        unsafe { raw::pt_expire(desk.handle.own(), &mut self.raw, now, &mut out) };
        out
    }
}

/// Why a request was not sent.
#[derive(Clone, Copy, Debug, PartialEq, Eq, Hash)]
pub struct AskFault {
    /// Why the request was not sent.
    pub fault: Fault,
    /// The monitor of the call, if cancelling it failed too: [`Desk::demonitor`] cancels it. If it is left, its `DOWN` may
    /// arrive, and belongs to no call.
    pub left_open: Option<Ref>,
}

impl fmt::Display for AskFault {
    fn fmt(&self, f: &mut fmt::Formatter<'_>) -> fmt::Result {
        self.fault.fmt(f)?;
        if self.left_open.is_some() { f.write_str(", and its monitor is still open") } else { Ok(()) }
    }
}

impl std::error::Error for AskFault {}

impl From<AskFault> for Fault {
    fn from(asked: AskFault) -> Fault {
        asked.fault
    }
}

/// The call that was asked, or why it was not.
fn asked(code: u32, raw: RawCall) -> Result<Call, AskFault> {
    let call = Call { raw };
    match told(code) {
        Ok(()) => Ok(call),
        Err(fault) => Err(AskFault { fault, left_open: call.left_open() }),
    }
}

impl Desk {
    /// Asks a server: monitors it, and sends it the request under the number of the monitor.
    ///
    /// # Errors
    ///
    /// As [`monitor`](Desk::monitor), and nothing is asked then; [`Fault::Worn`] and [`Fault::Memory`] too if the request
    /// was not sent. The monitor is cancelled then, or [`AskFault::left_open`] has it.
    pub fn ask(&mut self, me: Pid, server: Pid, asks: u32) -> Result<Call, AskFault> {
        let mut raw = RawCall::default();
        let code = unsafe { raw::pt_ask(self.handle.own(), me, server, asks, &mut raw) };
        asked(code, raw)
    }

    /// Asks a server, by a call that ends at a moment if it is open then. The moment is a time of the program's own clock,
    /// and may have passed.
    ///
    /// # Errors
    ///
    /// As [`ask`](Desk::ask).
    pub fn ask_until(&mut self, me: Pid, server: Pid, asks: u32, deadline: u64) -> Result<Call, AskFault> {
        let mut raw = RawCall::default();
        let code = unsafe { raw::pt_ask_until(self.handle.own(), me, server, asks, deadline, &mut raw) };
        asked(code, raw)
    }

    /// Answers a request: Erlang's `gen_server:reply`, at once or later.
    ///
    /// # Errors
    ///
    /// As [`send`](Desk::send). If the client has exited, there is nothing left to do.
    pub fn reply(&mut self, me: Pid, request: Request, answer: u32) -> Result<(), Fault> {
        let raw = RawRequest { from: request.from, asks: request.asks, number: request.number };
        told(unsafe { raw::pt_reply(self.handle.own(), me, raw, answer) })
    }

    /// The desks for which letters wait in the outbox, a bit for each, the lowest that of desk 0.
    ///
    /// A turn posts to no others. So a program whose threads sleep asks right before a turn, and wakes the threads of these
    /// desks right after it.
    pub fn letters_out(&self) -> u64 {
        let mut out = 0;
        unsafe { raw::pt_letters_out(&mut self.handle.lent(), &mut out) };
        out
    }

    /// Whether a letter waits in this desk, or in a lane to it that shows one. If not, a turn does nothing until another desk
    /// posts to this one.
    pub fn has_letters(&mut self) -> bool {
        let mut out = false;
        unsafe { raw::pt_has_letters(self.handle.own(), &mut out) };
        out
    }

    /// Lets the next turn look at the lane from desk `from` before the others. So `turn(1)` handles the oldest letter of that
    /// lane, if it shows one. Does nothing if the node has no such desk.
    pub fn look_from(&mut self, from: u8) {
        unsafe { raw::pt_look_from(self.handle.own(), from) };
    }

    /// The desk whose lane the next letter comes from: the first that shows one, from where the next turn looks first. `None`
    /// if no lane shows a letter.
    pub fn next_from(&mut self) -> Option<u8> {
        let mut out = 0;
        let code = unsafe { raw::pt_next_from(self.handle.own(), &mut out) };
        found(code, out)
    }
}

/// A message from a thread without a desk, to a process of any desk.
#[derive(Clone, Copy, Debug, PartialEq, Eq, Hash)]
pub struct Post {
    /// The receiver.
    pub to: Pid,
    /// What it gets.
    pub body: Body,
}

/// The end of a way in that a thread without a desk holds, as a socket's reader.
///
/// What is taken out at the [`WayIn`] is what was handed in here, in order, each message once. No call waits, and none wakes
/// another thread. Once the [`WayIn`] is dropped, [`post`](Door::post) fails with [`PostError::Gone`].
///
/// ```
/// use pundewo::{Body, Post, Pid, way_in};
///
/// let (mut door, mut way_in) = way_in(8)?;
/// let post = Post { to: Pid { shard: 0, slot: 0, version: 1 }, body: Body { kind: 1, num: 7, who: None } };
/// std::thread::spawn(move || door.post(post)).join().unwrap().unwrap();
/// assert_eq!((way_in.take(), way_in.take()), (Some(post), None));
/// # Ok::<(), pundewo::Fault>(())
/// ```
pub struct Door {
    handle: Held,
}

/// Why a message was not handed in, with the message.
#[derive(Clone, Copy, Debug, PartialEq, Eq, Hash)]
pub enum PostError {
    /// The door knows of no free place. The call may be made again.
    Full(Post),
    /// The [`WayIn`] was dropped: nobody takes anything out any more.
    Gone(Post),
}

impl PostError {
    /// The message that was not handed in.
    pub fn into_post(self) -> Post {
        match self {
            PostError::Full(post) | PostError::Gone(post) => post,
        }
    }
}

impl fmt::Display for PostError {
    fn fmt(&self, f: &mut fmt::Formatter<'_>) -> fmt::Result {
        f.write_str(match self {
            PostError::Full(_) => "the door knows of no free place",
            PostError::Gone(_) => "the way in was given up",
        })
    }
}

impl std::error::Error for PostError {}

/// The end of a way in that the thread of a desk holds.
pub struct WayIn {
    handle: Held,
}

impl fmt::Debug for Door {
    fn fmt(&self, f: &mut fmt::Formatter<'_>) -> fmt::Result {
        f.write_str("Door")
    }
}

impl fmt::Debug for WayIn {
    fn fmt(&self, f: &mut fmt::Formatter<'_>) -> fmt::Result {
        f.write_str("WayIn")
    }
}

impl Drop for Door {
    fn drop(&mut self) {
        // SAFETY: the handle is the only one of its door.
        unsafe { raw::pt_door_give_up(self.handle.own()) };
    }
}

impl Drop for WayIn {
    fn drop(&mut self) {
        // SAFETY: the handle is the only one of its end.
        unsafe { raw::pt_way_in_give_up(self.handle.own()) };
    }
}

/// Makes a way in with so many places, at least one.
///
/// # Errors
///
/// [`Fault::BadPlaces`], if `places` is 0; [`Fault::Memory`], if there is none.
pub fn way_in(places: u32) -> Result<(Door, WayIn), Fault> {
    let (mut door, mut way_in): (Handle, Handle) = (NONE, NONE);
    // SAFETY: both handles are empty.
    told(unsafe { raw::pt_door_open(&mut door, &mut way_in, places) })?;
    Ok((Door { handle: Held::new(door) }, WayIn { handle: Held::new(way_in) }))
}

// SAFETY of the calls below: the handle is the only one of what it has, and this call alone has it.
impl Door {
    /// Hands in a message. It waits in the way in then, and is dropped with it if nobody takes it out before.
    ///
    /// # Errors
    ///
    /// The message comes back, and nothing has changed: with [`PostError::Gone`] if the [`WayIn`] was dropped, and otherwise
    /// with [`PostError::Full`] if the door knows of no free place.
    pub fn post(&mut self, post: Post) -> Result<(), PostError> {
        let raw = RawPost { to: post.to, body: post.body.into() };
        match unsafe { raw::pt_door_post(self.handle.own(), raw) } {
            OK => Ok(()),
            GONE => Err(PostError::Gone(post)),
            _ => Err(PostError::Full(post)),
        }
    }
}

impl WayIn {
    /// Takes out the oldest message that waits, or `None` if none does. Send it on as a process of the desk.
    pub fn take(&mut self) -> Option<Post> {
        let mut out = RawPost::default();
        match unsafe { raw::pt_way_in_take(self.handle.own(), &mut out) } {
            OK => Some(Post { to: out.to, body: out.body.into() }),
            NOTHING => None,
            code => unreachable!("{}", fault_of(code)),
        }
    }

    /// The number of messages that wait. More may be handed in at any time.
    pub fn waiting(&mut self) -> usize {
        let mut out = 0;
        unsafe { raw::pt_way_in_len(self.handle.own(), &mut out) };
        out
    }
}

impl From<Item> for RawItem {
    fn from(item: Item) -> RawItem {
        let blank = RawItem::default();
        match item {
            Item::User(pid, body) => RawItem { code: raw::PT_ITEM_USER, pid, body: body.into(), ..blank },
            Item::Exit(pid, reason) => RawItem { code: raw::PT_ITEM_EXIT, pid, reason: reason.into(), ..blank },
            Item::Down(monitor, pid, reason) => {
                RawItem { code: raw::PT_ITEM_DOWN, pid, reference: monitor.into(), reason: reason.into(), ..blank }
            }
            Item::Alive(question, pid, alive) => {
                RawItem { code: raw::PT_ITEM_ALIVE, alive, pid, reference: question.into(), ..blank }
            }
        }
    }
}
