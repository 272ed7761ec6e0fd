//! A telephone exchange: lines under supervisors, and a caller for each call. A line rings until somebody picks up, or the
//! caller has waited for long enough. At a noise in a call the line's process panics: its partner gets the `DOWN`, and calls
//! the same name again, which another process has soon.
//!
//!     cargo run --release --example exchange -- HISTORY CALLERS [BYTES]
//!
//! It prints what came of the calls: for 400 callers it takes a second or two. Its status is 1 if a call or a word is lost, or
//! if a partner does not hear of a crash. `pt_audit` judges the file HISTORY. With
//! BYTES the history goes to files of so many bytes, HISTORY.000001.000001 and so on.

use pundewo::runtime::{
    Address, Behaviour, Call, CallFault, Child, Context, Event, HistoryFile, Name, Next, Pid, Ref, Reply, Runtime,
    Supervisor, Timer, ToSupervisor,
};
use std::sync::Arc;
use std::sync::atomic::{AtomicU64, Ordering::SeqCst};
use std::sync::mpsc::{Sender, channel};
use std::time::Duration;

const DESKS: u8 = 4;
/// The lines of each desk.
const LINES: usize = 4;
/// Where nobody is at home.
const AWAY: &str = "line 0";
/// How long it takes to pick up, how long a caller waits for that, and how long until it tries again.
const STEPS: Duration = Duration::from_millis(2);
const RINGS: Duration = Duration::from_millis(50);
const AGAIN: Next = Next::WaitFor(Duration::from_millis(20));
const LONG: Duration = Duration::from_secs(60);
/// How many words a caller says, without the noise.
pub const WORDS: u32 = 5;

/// How many words the lines heard, and how many callers heard of a crash.
#[derive(Default)]
pub struct Tally {
    pub heard: AtomicU64,
    pub cut_off: AtomicU64,
}

pub enum ToLine {
    /// The answer is `true` when somebody picks up, and `false` if the line is busy.
    Ring(Pid, Reply<bool>),
    PickUp,
    Say(Reply<()>),
    Noise,
    HangUp(Pid),
}

/// With which caller a line is busy.
enum Line {
    Idle,
    Rings(Pid, Reply<bool>, Option<Timer>),
    Talks(Pid),
}

struct Phone {
    home: bool,
    line: Line,
    tally: Arc<Tally>,
}

impl Behaviour for Phone {
    type Message = ToLine;

    fn handle(&mut self, cx: &mut Context<'_, ToLine>, event: Event<ToLine>) -> Next {
        let Event::Message(message) = event else { return Next::Wait };
        let line = std::mem::replace(&mut self.line, Line::Idle);
        self.line = match (message, line) {
            (ToLine::Ring(caller, reply), Line::Idle) => {
                let hand = self.home.then(|| cx.send_after(STEPS, &cx.me().clone(), ToLine::PickUp));
                Line::Rings(caller, reply, hand)
            }
            (ToLine::Ring(_, reply), line) => {
                cx.reply(reply, false);
                line
            }
            (ToLine::PickUp, Line::Rings(caller, reply, _)) => {
                cx.reply(reply, true);
                Line::Talks(caller)
            }
            (ToLine::Say(reply), line) => {
                self.tally.heard.fetch_add(1, SeqCst);
                cx.reply(reply, ());
                line
            }
            (ToLine::Noise, _) => panic!("it does not stand the noise"),
            (ToLine::HangUp(by), Line::Rings(caller, _, hand)) if by == caller => {
                hand.into_iter().for_each(|hand| _ = cx.cancel(hand));
                Line::Idle
            }
            (ToLine::HangUp(by), Line::Talks(caller)) if by == caller => Line::Idle,
            (_, line) => line,
        };
        Next::Wait
    }
}

enum Doing {
    Waits,
    Rings(Address<ToLine>, Call<bool>),
    /// It has said a word that was not heard yet, or made a noise.
    Talks(Address<ToLine>, Ref),
}

pub struct Caller {
    line: Name<ToLine>,
    words: u32,
    noisy: bool,
    doing: Doing,
    tally: Arc<Tally>,
    /// Whether it has talked to the end, and how many words it has said.
    tell: Sender<(bool, u32)>,
}

impl Caller {
    pub fn new(line: Name<ToLine>, noisy: bool, tally: Arc<Tally>, tell: Sender<(bool, u32)>) -> Caller {
        Caller { line, words: WORDS, noisy, doing: Doing::Waits, tally, tell }
    }

    fn ring(&mut self, cx: &mut Context<'_, ()>) -> Next {
        let Some(line) = self.line.whereis() else { return AGAIN };
        let me = cx.pid();
        let Ok(call) = cx.call(&line, RINGS, |reply| ToLine::Ring(me, reply)) else { return AGAIN };
        self.doing = Doing::Rings(line, call);
        Next::Wait
    }

    /// Says the next word, makes a noise, or hangs up.
    fn talk(&mut self, cx: &mut Context<'_, ()>, line: Address<ToLine>, monitor: Ref) -> Next {
        if self.words == 0 {
            return self.hang_up(cx, &line, true);
        } else if self.words == 1 && self.noisy {
            cx.send(&line, ToLine::Noise);
        } else if cx.call(&line, LONG, ToLine::Say).is_ok() {
            self.words -= 1;
        }
        self.doing = Doing::Talks(line, monitor);
        Next::Wait
    }

    fn hang_up(&self, cx: &mut Context<'_, ()>, line: &Address<ToLine>, talked: bool) -> Next {
        cx.send(line, ToLine::HangUp(cx.pid()));
        let _ = self.tell.send((talked, WORDS - self.words));
        Next::DONE
    }
}

impl Behaviour for Caller {
    type Message = ();

    fn started(&mut self, cx: &mut Context<'_, ()>) -> Next {
        self.ring(cx)
    }

    fn handle(&mut self, cx: &mut Context<'_, ()>, event: Event<()>) -> Next {
        match (event, std::mem::replace(&mut self.doing, Doing::Waits)) {
            (Event::Answer(answer), Doing::Rings(line, call)) => match answer.to(&call) {
                Ok(Ok(true)) => match cx.monitor(&line) {
                    Ok(monitor) => self.talk(cx, line, monitor),
                    Err(_) => AGAIN,
                },
                Ok(Err(CallFault::Timeout(_))) => self.hang_up(cx, &line, false),
                _ => AGAIN,
            },
            (Event::Answer(_), Doing::Talks(line, monitor)) => self.talk(cx, line, monitor),
            (Event::Down(down), Doing::Talks(_, monitor)) if down.monitor == monitor && down.panic.is_some() => {
                self.noisy = false;
                self.tally.cut_off.fetch_add(1, SeqCst);
                AGAIN
            }
            _ => self.ring(cx),
        }
    }
}

/// A supervisor of the lines of a desk.
pub fn exchange(names: &[Name<ToLine>], tally: &Arc<Tally>) -> Supervisor {
    names.iter().fold(Supervisor::one_for_one().limit(1_000, Duration::from_secs(1)), |supervisor, name| {
        let (tally, home) = (tally.clone(), name.text() != AWAY);
        let make = move || Phone { home, line: Line::Idle, tally: tally.clone() };
        supervisor.child(Child::permanent(make).named(name))
    })
}

fn main() -> Result<(), Box<dyn std::error::Error>> {
    let words: Vec<String> = std::env::args().collect();
    let (callers, sink) = match &words[..] {
        [_, history, callers] => (callers, HistoryFile::create(history)?),
        [_, history, callers, bytes] => (callers, HistoryFile::rotating(history, bytes.parse()?)?),
        _ => return Err("exchange HISTORY CALLERS [BYTES]".into()),
    };
    let (callers, tally) = (callers.parse()?, Arc::new(Tally::default()));
    let names: Vec<_> = (0..DESKS as usize * LINES).map(|number| Name::new(format!("line {number}"))).collect();
    let runtime = Runtime::builder().desks(DESKS.into()).going_on_every(1_000).archive(sink).start()?;
    let observer = runtime.observe(0)?;
    eprintln!("{observer}");
    let lines = (0..DESKS).zip(names.chunks(LINES));
    let lines = lines.map(|(desk, names)| runtime.spawn_on(desk, exchange(names, &tally)));
    let lines = lines.collect::<Result<Vec<_>, _>>()?;
    let (tell, ends) = channel();
    for number in 0..callers {
        let (line, tally, tell) = (names[number % names.len()].clone(), tally.clone(), tell.clone());
        runtime.spawn(Caller::new(line, number % 7 == 3, tally, tell))?;
        std::thread::sleep(STEPS);
    }
    drop(tell);
    let ends: Vec<(bool, u32)> = std::iter::from_fn(|| ends.recv_timeout(LONG).ok()).collect();
    let mut started = 0;
    for supervisor in &lines {
        let lines = runtime.call(supervisor, LONG, ToSupervisor::which_children)?;
        started += lines.iter().filter(|line| line.is_alive()).map(|line| line.started).sum::<u64>();
    }
    let crashes = runtime.stop()?.panics;
    let (talked, said) =
        ends.iter().fold((0, 0), |(talked, said), end| (talked + usize::from(end.0), said + u64::from(end.1)));
    let [heard, cut_off] = [&tally.heard, &tally.cut_off].map(|count| count.load(SeqCst));
    println!("{callers} callers: {talked} talked, {} had no answer; {said} words, {heard} heard", ends.len() - talked);
    println!("{crashes} crashes, {cut_off} heard of by the partner; {started} lines started");
    if (ends.len(), said, crashes, started) != (callers, heard, cut_off, names.len() as u64 + crashes) {
        return Err("a call, a word or a crash is lost".into());
    }
    println!("nothing lost");
    Ok(())
}
