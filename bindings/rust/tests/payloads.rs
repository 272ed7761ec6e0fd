//! Values that count themselves: each is dropped once, and handled at most once, over crashes, exits, going on, calls,
//! timers and the end of a run.

use pundewo::History;
use pundewo::runtime::{Address, Behaviour, Context, Event, Next, Reason, Reply, Runtime, StopFault};
use std::sync::atomic::{AtomicU64, Ordering::SeqCst};
use std::sync::{Arc, Mutex};
use std::time::{Duration, Instant};

const LONG: Duration = Duration::from_secs(120);

type Error = Box<dyn std::error::Error>;

/// What became of the values, by their numbers.
#[derive(Default)]
struct Ledger {
    made: AtomicU64,
    dropped: Mutex<Vec<u32>>,
    handled: Mutex<Vec<u32>>,
}

struct Counted {
    number: usize,
    ledger: Arc<Ledger>,
}

fn add(to: &Mutex<Vec<u32>>, number: usize) {
    let mut all = to.lock().expect("a ledger");
    let length = all.len().max(number + 1);
    all.resize(length, 0);
    all[number] += 1;
}

impl Ledger {
    fn value(self: &Arc<Ledger>) -> Counted {
        let number = usize::try_from(self.made.fetch_add(1, SeqCst)).expect("a number");
        Counted { number, ledger: self.clone() }
    }

    /// Each value was dropped once, and handled at most once.
    fn balance(&self) {
        let made = usize::try_from(self.made.load(SeqCst)).expect("a number");
        let dropped = self.dropped.lock().expect("a ledger");
        assert!(
            dropped.len() == made && dropped.iter().all(|&times| times == 1),
            "{} made, {} dropped",
            made,
            dropped.len()
        );
        assert!(self.handled.lock().expect("a ledger").iter().all(|&times| times <= 1));
    }

    fn is_balanced(&self) -> bool {
        let dropped = self.dropped.lock().expect("a ledger").iter().filter(|&&times| times > 0).count();
        dropped as u64 == self.made.load(SeqCst)
    }
}

impl Drop for Counted {
    fn drop(&mut self) {
        add(&self.ledger.dropped, self.number);
    }
}

enum Message {
    Value(Counted),
    Peer(Address<Message>, Counted),
    Ask(Counted, Reply<Counted>),
}

/// Does something else each time, by a number that it draws. Its own state is a value, too.
struct Chaotic {
    draw: u64,
    ledger: Arc<Ledger>,
    peers: Vec<Address<Message>>,
    kept: Vec<Counted>,
    replies: Vec<Reply<Counted>>,
    lives: Arc<AtomicU64>,
}

impl Chaotic {
    fn new(draw: u64, ledger: &Arc<Ledger>, lives: &Arc<AtomicU64>) -> Chaotic {
        lives.fetch_add(1, SeqCst);
        let kept = vec![ledger.value()];
        Chaotic { draw, ledger: ledger.clone(), peers: vec![], kept, replies: vec![], lives: lives.clone() }
    }

    fn draw(&mut self, below: u64) -> u64 {
        self.draw = self.draw.wrapping_mul(6_364_136_223_846_793_005).wrapping_add(1_442_695_040_888_963_407);
        (self.draw >> 33) % below
    }

    /// Something with another process.
    fn act(&mut self, cx: &mut Context<'_, Message>, peer: &Address<Message>) {
        let value = self.ledger.value();
        match self.draw(16) {
            0 => drop(cx.send_after(Duration::from_micros(300), peer, Message::Value(value))),
            1 => {
                let timer = cx.send_after(Duration::from_millis(1), peer, Message::Value(value));
                assert!(cx.cancel(timer));
            }
            2 => drop(cx.call(peer, Duration::from_micros(700), |reply| Message::Ask(value, reply))),
            3 => drop(cx.link(peer)),
            4 => drop(cx.monitor(peer)),
            5 => drop(cx.exit(peer, Reason::Kill)),
            6 => drop(peer.send(Message::Value(value))),
            7 => {
                let desk = u8::try_from(self.draw(5)).expect("a desk");
                cx.spawn_on(desk, Chaotic::new(self.draw, &self.ledger, &self.lives));
            }
            8 => drop(cx.send(peer, Message::Peer(cx.me().clone(), value))),
            9 => drop(cx.spawn_linked(Chaotic::new(self.draw, &self.ledger, &self.lives))),
            _ => drop(cx.send(peer, Message::Value(value))),
        }
    }

    fn take(&mut self, value: Counted) {
        add(&self.ledger.handled, value.number);
        if self.draw(3) == 0 {
            self.kept.push(value);
        }
    }
}

impl Behaviour for Chaotic {
    type Message = Message;

    fn handle(&mut self, cx: &mut Context<'_, Message>, event: Event<Message>) -> Next {
        match event {
            Event::Message(Message::Value(value)) => self.take(value),
            Event::Message(Message::Peer(peer, value)) => {
                self.take(value);
                self.peers.push(peer);
            }
            Event::Message(Message::Ask(value, reply)) => {
                self.take(value);
                match self.draw(4) {
                    0 => self.replies.push(reply),
                    1 => drop(reply),
                    2 => reply.send(self.ledger.value()),
                    _ => cx.reply(reply, self.ledger.value()),
                }
            }
            _ => {}
        }
        let peers = std::mem::take(&mut self.peers);
        for _ in 0..2 {
            if let Some(peer) = peers.get(usize::try_from(self.draw(8)).expect("a place")) {
                self.act(cx, peer);
            }
        }
        self.peers = peers;
        self.peers.truncate(8);
        match self.draw(60) {
            0 => panic!("drawn"),
            1 => Next::DONE,
            2 => Next::Stop(Reason::Other(3)),
            3 => Next::Proceed,
            4 => Next::WaitFor(Duration::from_micros(200)),
            _ => Next::Wait,
        }
    }

    fn ended(self, _: Reason) {
        self.lives.fetch_sub(1, SeqCst);
    }
}

/// Lets processes act at random, with more of them coming from outside, until so many epochs have ended or the run halts.
fn storm(runtime: &Runtime, ledger: &Arc<Ledger>, lives: &Arc<AtomicU64>, epochs: u64) {
    let until = Instant::now() + LONG;
    let mut peers: Vec<Address<Message>> = Vec::new();
    for draw in 1.. {
        if runtime.epochs() >= epochs || runtime.is_over() {
            return;
        }
        assert!(Instant::now() < until);
        match runtime.spawn(Chaotic::new(draw, ledger, lives)) {
            Ok(process) => peers.push(process),
            Err(_) => {
                for peer in peers.iter().step_by(7) {
                    runtime.exit(peer, Reason::Kill).expect("a process of this run");
                }
            }
        }
        peers.drain(..peers.len().saturating_sub(40));
        for (peer, other) in peers.iter().zip(peers.iter().rev()) {
            peer.send(Message::Peer(other.clone(), ledger.value()));
            peer.send(Message::Value(ledger.value()));
        }
        if let Some(peer) = peers.first() {
            drop(runtime.call(peer, Duration::from_millis(1), |reply| Message::Ask(ledger.value(), reply)));
        }
    }
}

fn quiet_panics() {
    let usual = std::panic::take_hook();
    std::panic::set_hook(Box::new(move |what| {
        if what.payload().downcast_ref::<&str>() != Some(&"drawn") {
            usual(what);
        }
    }));
}

fn settings() -> (Arc<Ledger>, Arc<AtomicU64>, pundewo::runtime::Builder) {
    (Arc::default(), Arc::default(), Runtime::builder().desks(4).slots(40).lane(2).going_on_every(500))
}

#[test]
fn each_value_is_dropped_once() -> Result<(), Error> {
    quiet_panics();
    let (ledger, lives, builder) = settings();
    let runtime = builder.start()?;
    storm(&runtime, &ledger, &lives, 200);
    let summary = runtime.stop()?;
    assert!(summary.epochs > 200 && summary.panics > 5 && summary.spawned > 100, "{summary:?}");
    ledger.balance();
    Ok(())
}

#[test]
fn a_run_that_is_dropped_drops_all() -> Result<(), Error> {
    quiet_panics();
    let (ledger, lives, builder) = settings();
    let runtime = builder.start()?;
    storm(&runtime, &ledger, &lives, 10);
    drop(runtime);
    // (its threads end by themselves)
    let until = Instant::now() + LONG;
    while !ledger.is_balanced() && Instant::now() < until {
        std::thread::sleep(Duration::from_millis(5));
    }
    ledger.balance();
    Ok(())
}

#[test]
fn a_run_that_halts_keeps_all_until_it_is_dropped() -> Result<(), Error> {
    quiet_panics();
    let (ledger, lives, builder) = settings();
    let mut left = 3;
    let sink = move |_: &History| {
        left -= 1;
        if left < 0 { Err("no room".into()) } else { Ok(()) }
    };
    let runtime = builder.archive(sink).start()?;
    storm(&runtime, &ledger, &lives, u64::MAX);
    let StopFault::Halted(halted) = runtime.stop().expect_err("it halted") else { panic!("it halted") };
    // it goes on with another sink, halts again, and is dropped
    let mut left = 3;
    let sink = move |_: &History| {
        left -= 1;
        if left < 0 { Err("no room".into()) } else { Ok(()) }
    };
    let runtime = halted.with_archive(sink).go_on().map_err(|halted| halted.to_string())?;
    storm(&runtime, &ledger, &lives, u64::MAX);
    let StopFault::Halted(halted) = runtime.stop().expect_err("it halted") else { panic!("it halted") };
    assert!(!ledger.is_balanced());
    drop(halted);
    ledger.balance();
    Ok(())
}

/// A value that panics as it is dropped.
struct Thorn;

impl Drop for Thorn {
    fn drop(&mut self) {
        std::panic::resume_unwind(Box::new("a thorn"));
    }
}

/// Keeps what it is sent in timers that go off much later.
struct Keeps;

impl Behaviour for Keeps {
    type Message = Thorn;

    fn handle(&mut self, cx: &mut Context<'_, Thorn>, event: Event<Thorn>) -> Next {
        if let Event::Message(thorn) = event {
            let me = cx.me().clone();
            cx.send_after(Duration::from_secs(100_000), &me, thorn);
        }
        Next::Wait
    }
}

#[test]
fn values_in_timers_that_panic_as_they_are_dropped_harm_no_end_of_a_run() -> Result<(), Error> {
    for drained in [false, true] {
        let runtime = Runtime::builder().desks(2).start()?;
        let keeps = runtime.spawn(Keeps)?;
        (0..3).for_each(|_| assert!(keeps.send(Thorn)));
        while drained && keeps.waiting() > 0 {}
        assert_eq!(if drained { runtime.drain(LONG)? } else { runtime.stop()? }.panics, 0);
    }
    Ok(())
}

/// Answers with such values.
struct Thorns;

impl Behaviour for Thorns {
    type Message = Reply<Thorn>;

    fn handle(&mut self, cx: &mut Context<'_, Reply<Thorn>>, event: Event<Reply<Thorn>>) -> Next {
        if let Event::Message(reply) = event {
            cx.reply(reply, Thorn);
        }
        Next::Wait
    }
}

/// Postpones two of them, and exits.
struct Postpones(Address<Reply<Thorn>>, u32);

impl Behaviour for Postpones {
    type Message = ();

    fn started(&mut self, cx: &mut Context<'_, ()>) -> Next {
        for _ in 0..2 {
            cx.call(&self.0, LONG, |reply| reply).expect("a call");
        }
        Next::Wait
    }

    fn handle(&mut self, cx: &mut Context<'_, ()>, event: Event<()>) -> Next {
        assert!(matches!(event, Event::Answer(_)) && cx.postpone(event));
        self.1 += 1;
        if self.1 == 2 { Next::DONE } else { Next::Wait }
    }
}

#[test]
fn answers_that_were_postponed_and_panic_as_they_are_dropped_harm_no_run() -> Result<(), Error> {
    for desks in 1..=2 {
        let runtime = Runtime::builder().desks(desks).start()?;
        let thorns = runtime.spawn(Thorns)?;
        let postpones = runtime.spawn(Postpones(thorns, 0))?;
        let mut watch = runtime.mailbox::<()>()?;
        watch.monitor(&postpones)?;
        assert!(matches!(watch.recv_within(LONG), Some(Event::Down(_))));
        assert_eq!(runtime.stop()?.panics, 0);
    }
    Ok(())
}
