//! A door's lock with a code: a state machine with a time for each state, a time for each event, and what it postpones, as one
//! of Erlang's `gen_statem`.
//!
//!     cargo run --example code_lock
//!
//! - It is locked until the buttons of its code are pressed. If no button is pressed for a while, it forgets those that were:
//!   the time of an event, which is `Next::WaitFor`.
//! - It is open for a time: the time of a state, which is a timer that goes as the state is left.
//! - While it is open, buttons that are pressed wait, in order: `Next::Select`.
//! - While it is locked, a wish for another code is postponed: `cx.postpone`. It is told again as the state changes.

use pundewo::runtime::{Behaviour, Context, Event, Next, Reply, Runtime, Selection, Timer};
use std::error::Error;
use std::mem;
use std::sync::mpsc::{Receiver, Sender, channel};
use std::time::Duration;

const LONG: Duration = Duration::from_secs(60);
/// How long it stays open, and how long it remembers a button.
const STAYS_OPEN: Duration = Duration::from_millis(50);
const REMEMBERS: Duration = Duration::from_secs(1);

/// The kind of a button, which waits while the lock is open.
const BUTTON: u32 = 1;

enum ToLock {
    Button(u8),
    /// Somebody pulls the door shut.
    Shut,
    /// It is to have another code: the answer is how many buttons that has.
    Change(Vec<u8>, Reply<usize>),
    IsOpen(Reply<bool>),
    /// The state with this number has lasted for its time.
    Over(u64),
}

#[derive(Debug)]
enum State {
    /// It is locked, and these buttons were pressed.
    Locked(Vec<u8>),
    Open,
}

struct Lock {
    code: Vec<u8>,
    state: State,
    /// How many states there were before, and the timer of this one.
    number: u64,
    timer: Option<Timer>,
    notes: Sender<&'static str>,
}

impl Lock {
    fn new(code: &[u8], notes: Sender<&'static str>) -> Lock {
        Lock { code: code.to_vec(), state: State::Locked(Vec::new()), number: 0, timer: None, notes }
    }

    fn note(&self, what: &'static str) {
        let _ = self.notes.send(what);
    }

    /// The state changes: its timer goes, and what was postponed is told again.
    fn change_state(&mut self, cx: &mut Context<'_, ToLock>, state: State) {
        self.state = state;
        self.number += 1;
        if let Some(timer) = self.timer.take() {
            cx.cancel(timer);
        }
        cx.retry();
    }

    fn open(&mut self, cx: &mut Context<'_, ToLock>) {
        self.note("open");
        self.change_state(cx, State::Open);
        let me = cx.me().clone();
        self.timer = Some(cx.send_after(STAYS_OPEN, &me, ToLock::Over(self.number)));
    }

    fn press(&mut self, cx: &mut Context<'_, ToLock>, button: u8) {
        let State::Locked(pressed) = &mut self.state else { unreachable!("buttons wait while it is open") };
        pressed.push(button);
        if pressed.len() < self.code.len() {
            return;
        }
        if mem::take(pressed) == self.code {
            self.open(cx);
        } else {
            self.note("wrong");
        }
    }

    /// What it is told while it is locked.
    fn locked(&mut self, cx: &mut Context<'_, ToLock>, event: Event<ToLock>) {
        match event {
            Event::Message(ToLock::Button(button)) => self.press(cx, button),
            Event::Message(ToLock::IsOpen(reply)) => cx.reply(reply, false),
            Event::Message(ToLock::Change(..)) => _ = cx.postpone(event),
            // (buttons were pressed, and no more in time)
            Event::Timeout => {
                self.note("forgotten");
                self.state = State::Locked(Vec::new());
            }
            _ => {}
        }
    }

    /// What it is told while it is open.
    fn opened(&mut self, cx: &mut Context<'_, ToLock>, event: Event<ToLock>) {
        match event {
            // (a timer may have gone off as its state was left)
            Event::Message(ToLock::Over(number)) if number != self.number => {}
            Event::Message(ToLock::Over(_) | ToLock::Shut) => {
                self.note("locked");
                self.change_state(cx, State::Locked(Vec::new()));
            }
            Event::Message(ToLock::Change(code, reply)) => {
                self.note("another code");
                cx.reply(reply, code.len());
                self.code = code;
            }
            Event::Message(ToLock::IsOpen(reply)) => cx.reply(reply, true),
            _ => {}
        }
    }

    /// What it waits for in its state.
    fn next(&self) -> Next {
        match &self.state {
            State::Locked(pressed) if pressed.is_empty() => Next::Wait,
            State::Locked(_) => Next::WaitFor(REMEMBERS),
            State::Open => Next::Select(Selection::all_but(&[BUTTON])),
        }
    }
}

impl Behaviour for Lock {
    type Message = ToLock;

    fn handle(&mut self, cx: &mut Context<'_, ToLock>, event: Event<ToLock>) -> Next {
        match self.state {
            State::Locked(_) => self.locked(cx, event),
            State::Open => self.opened(cx, event),
        }
        self.next()
    }

    fn kind(message: &ToLock) -> u32 {
        match message {
            ToLock::Button(_) => BUTTON,
            _ => 0,
        }
    }
}

fn hears(notes: &Receiver<&'static str>, wanted: &[&str]) -> Result<(), Box<dyn Error>> {
    for wanted in wanted {
        let note = notes.recv_timeout(LONG)?;
        println!("{note}");
        assert_eq!(note, *wanted);
    }
    Ok(())
}

fn main() -> Result<(), Box<dyn Error>> {
    let (give, notes) = channel();
    let runtime = Runtime::builder().desks(1).start()?;
    let lock = runtime.spawn(Lock::new(&[1, 2, 3], give))?;
    let press = |buttons: &[u8]| buttons.iter().for_each(|&button| assert!(lock.send(ToLock::Button(button))));

    press(&[1, 2]);
    hears(&notes, &["forgotten"])?;
    press(&[3, 1, 2]);
    hears(&notes, &["wrong"])?;

    // a wish for another code waits until it is open, and two buttons until it is locked by its time
    let change = lock.ask(|reply| ToLock::Change(vec![4, 5], reply));
    press(&[1, 2, 3, 4, 5]);
    hears(&notes, &["open", "another code", "locked", "open"])?;
    println!("{} buttons", change.wait(LONG)?);

    // somebody pulls the door shut, unless its time was over before
    lock.send(ToLock::Shut);
    press(&[4, 5]);
    hears(&notes, &["locked", "open", "locked"])?;
    assert!(!runtime.call(&lock, LONG, ToLock::IsOpen)?);
    runtime.stop()?;
    Ok(())
}
