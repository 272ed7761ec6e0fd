//! The runtime while its desks are at work all the time: orders, meetings, exits, crashes, alarms and answers come all the same.

use pundewo::runtime::{
    Address, Behaviour, Call, CallFault, Context, Event, Next, PANIC, Reason, Reply, Runtime, StopFault, Timer,
};
use std::sync::atomic::{AtomicU64, Ordering::SeqCst};
use std::sync::mpsc::{Sender, channel};
use std::sync::{Arc, OnceLock};
use std::time::{Duration, Instant};

const LONG: Duration = Duration::from_secs(120);
const DESKS: u8 = 4;

/// A process that sends itself a message again and again, so its desk never rests.
struct Spins;

impl Behaviour for Spins {
    type Message = ();

    fn started(&mut self, cx: &mut Context<'_, ()>) -> Next {
        let me = cx.me().clone();
        cx.send(&me, ());
        Next::Wait
    }

    fn handle(&mut self, cx: &mut Context<'_, ()>, event: Event<()>) -> Next {
        if let Event::Message(()) = event {
            let me = cx.me().clone();
            cx.send(&me, ());
        }
        Next::Wait
    }
}

/// A run whose desks have that many of them each.
fn busy(each: u8, every: usize) -> Runtime {
    let runtime = Runtime::builder().desks(DESKS.into()).going_on_every(every).start().expect("a run");
    for place in 0..DESKS * each {
        runtime.spawn_on(place % DESKS, Spins).expect("a process");
    }
    runtime
}

#[test]
fn busy_desks_hear_the_orders_of_those_outside() {
    for every in [300, 20_000, 1_000_000] {
        let begun = Instant::now();
        assert_eq!(busy(3, every).stop().expect("a summary").panics, 0);
        // (the last handle of a run that is dropped kills all)
        drop(busy(1, every));
        let runtime = busy(2, every);
        runtime.handle().stop();
        assert_eq!(runtime.wait().expect("a summary").spawned, u64::from(2 * DESKS));
        let drained = busy(1, every).drain(Duration::from_millis(20));
        assert!(matches!(drained, Err(StopFault::NotDrained { .. })), "{drained:?}");
        assert!(begun.elapsed() < LONG);
    }
}

#[test]
fn busy_desks_meet_and_nothing_that_comes_from_outside_is_lost() {
    let runtime = busy(2, 2_000);
    let counted = Arc::new(AtomicU64::new(0));
    let counters: Vec<_> =
        (0..DESKS).map(|desk| runtime.spawn_on(desk, Counts(counted.clone())).expect("a process")).collect();
    for number in 0..20_000 {
        assert!(counters[number % counters.len()].send(()));
    }
    let until = Instant::now() + LONG;
    while (counted.load(SeqCst) < 20_000 || runtime.epochs() < 3) && Instant::now() < until {
        std::thread::sleep(Duration::from_millis(1));
    }
    assert_eq!(counted.load(SeqCst), 20_000);
    assert!(runtime.stop().expect("a summary").epochs > 3);
}

struct Counts(Arc<AtomicU64>);

impl Behaviour for Counts {
    type Message = ();

    fn handle(&mut self, _: &mut Context<'_, ()>, event: Event<()>) -> Next {
        if let Event::Message(()) = event {
            self.0.fetch_add(1, SeqCst);
        }
        Next::Wait
    }
}

/// A process that exits in this way once it is told to. It notes why as it ends.
struct Leaves(Reason, Arc<OnceLock<Reason>>);

impl Behaviour for Leaves {
    type Message = Token;

    fn handle(&mut self, _: &mut Context<'_, Token>, _: Event<Token>) -> Next {
        if self.0 == PANIC {
            // (a panic that prints nothing)
            std::panic::resume_unwind(Box::new("it was to panic"));
        }
        Next::Stop(self.0)
    }

    fn ended(self, why: Reason) {
        self.1.set(why).expect("one end");
    }
}

/// A value that counts how many of its kind are there.
struct Token(Arc<AtomicU64>);

impl Token {
    fn new(count: &Arc<AtomicU64>) -> Token {
        count.fetch_add(1, SeqCst);
        Token(count.clone())
    }
}

impl Drop for Token {
    fn drop(&mut self) {
        self.0.fetch_sub(1, SeqCst);
    }
}

/// Spawns processes on its own desk, one after the other, and on another one, and hears of each exit.
struct Watches {
    left: u32,
    other: u8,
    tokens: Arc<AtomicU64>,
    ended: Arc<OnceLock<Reason>>,
    wanted: Reason,
    of: Option<Address<Token>>,
    spawned: Option<Call<Result<Address<Token>, pundewo::Fault>>>,
    done: Sender<u32>,
}

impl Watches {
    fn go_on(&mut self, cx: &mut Context<'_, ()>) -> Next {
        let Some(left) = self.left.checked_sub(1) else {
            self.done.send(0).expect("a receiver");
            return Next::DONE;
        };
        self.left = left;
        self.wanted = [Reason::Normal, Reason::Other(7), PANIC][left as usize % 3];
        self.ended = Arc::default();
        let leaves = Leaves(self.wanted, self.ended.clone());
        if left % 2 == 0 {
            let leaves = cx.spawn(leaves).expect("a process");
            self.watch(cx, leaves);
        } else {
            self.spawned = Some(cx.spawn_on(self.other, leaves));
        }
        Next::Wait
    }

    /// Monitors it, tells it to exit, and sends more, which it does not take.
    fn watch(&mut self, cx: &mut Context<'_, ()>, leaves: Address<Token>) {
        cx.monitor(&leaves).expect("a monitor");
        assert!(cx.send(&leaves, Token::new(&self.tokens)));
        // (it may have exited by then, on another desk)
        let _ = (0..2).map(|_| cx.send(&leaves, Token::new(&self.tokens))).count();
        self.of = Some(leaves);
    }
}

impl Behaviour for Watches {
    type Message = ();

    fn started(&mut self, cx: &mut Context<'_, ()>) -> Next {
        self.go_on(cx)
    }

    fn handle(&mut self, cx: &mut Context<'_, ()>, event: Event<()>) -> Next {
        match event {
            Event::Answer(answer) => {
                let call = self.spawned.take().expect("a spawn that is on its way");
                let leaves = answer.to(&call).expect("its answer").expect("an answer").expect("a process");
                self.watch(cx, leaves);
                Next::Wait
            }
            Event::Down(down) => {
                let of = self.of.take().expect("one that is watched");
                assert_eq!((down.pid, down.reason), (of.pid(), self.wanted));
                assert_eq!(down.panic.is_some(), self.wanted == PANIC);
                if self.wanted != PANIC {
                    // (who hears of the exit finds nothing of it)
                    assert_eq!(self.ended.get(), Some(&self.wanted));
                    assert!(!cx.send(&of, Token::new(&self.tokens)));
                }
                self.go_on(cx)
            }
            _ => panic!("{event:?}"),
        }
    }
}

#[test]
fn each_exit_on_busy_desks_is_heard_once_and_nothing_of_it_is_left() {
    const EACH: u32 = 300;
    // (of the epochs some end between an exit and the step that tells of it)
    for every in [200, 50_000] {
        let runtime = busy(1, every);
        let tokens = Arc::new(AtomicU64::new(0));
        let (give, done) = channel();
        for place in 0..DESKS * 3 {
            let watches = Watches {
                left: EACH,
                other: (place + 1) % DESKS,
                tokens: tokens.clone(),
                ended: Arc::default(),
                wanted: Reason::Normal,
                of: None,
                spawned: None,
                done: give.clone(),
            };
            runtime.spawn_on(place % DESKS, watches).expect("a process");
        }
        for _ in 0..DESKS * 3 {
            done.recv_timeout(LONG).expect("all in time");
        }
        let watchers = u64::from(DESKS) * 3;
        let summary = runtime.stop().expect("a summary");
        assert_eq!(summary.spawned, watchers * (u64::from(EACH) + 1) + u64::from(DESKS));
        assert_eq!((summary.panics, tokens.load(SeqCst)), (watchers * u64::from(EACH) / 3, 0));
    }
}

enum Ask {
    Small(Reply<Token>),
    Text(Reply<String>),
    Large(Reply<[u64; 100]>),
    Dropped(#[expect(dead_code, reason = "it is dropped with it")] Reply<()>),
    Never(Reply<u8>),
}

/// Answers all but one kind of requests.
struct Answers(Arc<AtomicU64>, Vec<Reply<u8>>);

impl Behaviour for Answers {
    type Message = Ask;

    fn handle(&mut self, cx: &mut Context<'_, Ask>, event: Event<Ask>) -> Next {
        match event {
            Event::Message(Ask::Small(reply)) => cx.reply(reply, Token::new(&self.0)),
            Event::Message(Ask::Text(reply)) => reply.send("text".into()),
            Event::Message(Ask::Large(reply)) => cx.reply(reply, [7; 100]),
            Event::Message(Ask::Never(reply)) => self.1.push(reply),
            _ => {}
        }
        Next::Wait
    }
}

/// Makes calls of five kinds at a time. Of the answers of tokens it drops some as they are.
struct Asks {
    server: Address<Ask>,
    left: u32,
    limit: Duration,
    begun: Instant,
    small: Option<Call<Token>>,
    text: Option<Call<String>>,
    large: Option<Call<[u64; 100]>>,
    dropped: Option<Call<()>>,
    never: Option<Call<u8>>,
    /// How many of these are open.
    open: u32,
    done: Sender<u32>,
}

impl Asks {
    fn go_on(&mut self, cx: &mut Context<'_, ()>) -> Next {
        if self.left == 0 {
            self.done.send(0).expect("a receiver");
            return Next::DONE;
        }
        self.left -= 1;
        (self.open, self.begun) = (5, Instant::now());
        self.small = cx.call(&self.server, LONG, Ask::Small).ok();
        self.text = cx.call(&self.server, LONG, Ask::Text).ok();
        self.never = cx.call(&self.server, self.limit, Ask::Never).ok();
        self.large = cx.call(&self.server, LONG, Ask::Large).ok();
        self.dropped = cx.call(&self.server, LONG, Ask::Dropped).ok();
        Next::Wait
    }
}

/// Whether it is the answer of this call, which is open.
fn is_of<R>(answer: &pundewo::runtime::Answer, call: &Option<Call<R>>) -> bool {
    call.as_ref().is_some_and(|call| answer.is_of(call))
}

impl Behaviour for Asks {
    type Message = ();

    fn started(&mut self, cx: &mut Context<'_, ()>) -> Next {
        self.go_on(cx)
    }

    fn handle(&mut self, cx: &mut Context<'_, ()>, event: Event<()>) -> Next {
        let Event::Answer(answer) = event else { panic!("{event:?}") };
        let never = self.never.expect("a call");
        if is_of(&answer, &self.small) {
            let call = self.small.take().expect("the call");
            if self.left % 2 == 0 {
                assert!(answer.to(&call).expect("its answer").is_ok());
            }
        } else if is_of(&answer, &self.text) {
            let call = self.text.take().expect("the call");
            // (as the answer of another call it comes back as it was)
            let answer = answer.to(&never).expect_err("another's");
            assert_eq!(answer.to(&call).expect("its answer"), Ok("text".into()));
        } else if is_of(&answer, &self.large) {
            let call = self.large.take().expect("the call");
            assert_eq!(answer.to(&call).expect("its answer"), Ok([7; 100]));
        } else if is_of(&answer, &self.dropped) {
            let call = self.dropped.take().expect("the call");
            assert_eq!(answer.to(&call).expect("its answer"), Err(CallFault::Dropped));
        } else {
            let late = answer.to(&never).expect("its answer");
            assert!(matches!(late, Err(CallFault::Timeout(_))) && self.begun.elapsed() >= self.limit, "{late:?}");
        }
        self.open -= 1;
        if self.open == 0 { self.go_on(cx) } else { Next::Wait }
    }
}

#[test]
fn answers_of_all_types_come_once_and_no_time_is_over_early_on_busy_desks() {
    let runtime = busy(2, 10_000);
    let tokens = Arc::new(AtomicU64::new(0));
    let (give, done) = channel();
    let servers: Vec<_> = (0..DESKS)
        .map(|desk| runtime.spawn_on(desk, Answers(tokens.clone(), Vec::new())).expect("a process"))
        .collect();
    for place in 0..DESKS * 4 {
        let asks = Asks {
            server: servers[usize::from(place + place / DESKS) % servers.len()].clone(),
            left: 20,
            limit: Duration::from_millis(30),
            begun: Instant::now(),
            small: None,
            text: None,
            large: None,
            dropped: None,
            never: None,
            open: 0,
            done: give.clone(),
        };
        runtime.spawn_on(place % DESKS, asks).expect("a process");
    }
    for _ in 0..DESKS * 4 {
        done.recv_timeout(LONG).expect("all in time");
    }
    assert_eq!(runtime.stop().expect("a summary").panics, 0);
    assert_eq!(tokens.load(SeqCst), 0);
}

/// A process that is at work for so long with each message that it sends itself.
struct Toils(Duration);

impl Behaviour for Toils {
    type Message = ();

    fn started(&mut self, cx: &mut Context<'_, ()>) -> Next {
        let me = cx.me().clone();
        cx.send(&me, ());
        Next::Wait
    }

    fn handle(&mut self, cx: &mut Context<'_, ()>, _: Event<()>) -> Next {
        std::thread::sleep(self.0);
        self.started(cx)
    }
}

/// A run of one desk with two of them, which come to a round of at least ten milliseconds.
fn toiling() -> Runtime {
    let runtime = Runtime::builder().desks(1).start().expect("a run");
    for _ in 0..2 {
        runtime.spawn(Toils(Duration::from_millis(5))).expect("a process");
    }
    runtime
}

/// Sends itself a message after a short time, and waits for a longer one, again and again.
struct Hears {
    left: u32,
    timer: Option<Timer>,
    /// How many of the messages came before the longer time was over, and how many did not.
    came: [u32; 2],
    done: Sender<[u32; 2]>,
}

impl Hears {
    fn go_on(&mut self, cx: &mut Context<'_, u32>) -> Next {
        if self.left == 0 {
            self.done.send(self.came).expect("a receiver");
            return Next::DONE;
        }
        let me = cx.me().clone();
        self.timer = Some(cx.send_after(Duration::from_millis(1), &me, self.left));
        Next::WaitFor(Duration::from_millis(30))
    }
}

impl Behaviour for Hears {
    type Message = u32;

    fn started(&mut self, cx: &mut Context<'_, u32>) -> Next {
        self.go_on(cx)
    }

    fn handle(&mut self, cx: &mut Context<'_, u32>, event: Event<u32>) -> Next {
        let timer = self.timer.take().expect("a timer");
        match event {
            Event::Message(number) if number == self.left => self.came[0] += 1,
            Event::Timeout => {
                assert!(cx.cancel(timer), "it is neither sent nor to be sent");
                self.came[1] += 1;
            }
            _ => panic!("{event:?}"),
        }
        self.left -= 1;
        self.go_on(cx)
    }
}

#[test]
fn what_is_sent_after_a_time_comes_before_a_longer_time_is_over_where_handlers_take_long() {
    let runtime = toiling();
    let (done, came) = channel();
    runtime.spawn(Hears { left: 20, timer: None, came: [0; 2], done }).expect("a process");
    assert_eq!(came.recv_timeout(LONG), Ok([20, 0]));
    runtime.stop().expect("a summary");
}
