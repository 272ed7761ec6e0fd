//! Many processes under load, and a page of them: runners throw balls to each other, each two milliseconds after it came, and
//! clerks under a supervisor crash now and then.
//!
//!     cargo run --release --example many -- HISTORY RUNNERS SECONDS
//!
//! It prints the address of the page first. It runs for so many seconds, or until its input ends. At the end each ball is caught: its status is 1 if one is lost, or if its history does
//! not have each throw, which `pt_audit` judges in the file HISTORY.

use pundewo::runtime::{Address, Behaviour, Child, Context, Event, HistoryFile, Next, Runtime, Supervisor};
use std::io::{self, BufRead};
use std::sync::atomic::{AtomicBool, AtomicU64, Ordering::SeqCst};
use std::sync::mpsc::channel;
use std::sync::{Arc, OnceLock};
use std::thread;
use std::time::{Duration, Instant};

const DESKS: usize = 4;
const BALLS: u64 = 64;
const CLERKS: usize = 4;
/// How long a ball is held.
const HELD: Duration = Duration::from_millis(2);
/// How long the last balls may take.
const LONG: Duration = Duration::from_secs(60);

#[derive(Default)]
struct Field {
    runners: OnceLock<Vec<Address<Ball>>>,
    is_ending: AtomicBool,
    thrown: AtomicU64,
    handled: AtomicU64,
    caught: AtomicU64,
}

struct Ball;

struct Runner(Arc<Field>);

impl Behaviour for Runner {
    type Message = Ball;

    fn handle(&mut self, cx: &mut Context<'_, Ball>, event: Event<Ball>) -> Next {
        let (Event::Message(ball), Some(runners)) = (event, self.0.runners.get()) else { return Next::Wait };
        self.0.handled.fetch_add(1, SeqCst);
        if self.0.is_ending.load(SeqCst) {
            self.0.caught.fetch_add(1, SeqCst);
        } else {
            let number = self.0.thrown.fetch_add(1, SeqCst) as usize;
            cx.send_after(HELD, &runners[number * 7_919 % runners.len()], ball);
        }
        Next::Wait
    }
}

/// Works each ten milliseconds. The fiftieth piece of work crashes it.
struct Clerk(u32);

impl Behaviour for Clerk {
    type Message = ();

    fn handle(&mut self, _: &mut Context<'_, ()>, _: Event<()>) -> Next {
        self.0 += 1;
        assert!(self.0 < 50, "the fiftieth");
        Next::WaitFor(Duration::from_millis(10))
    }

    fn started(&mut self, _: &mut Context<'_, ()>) -> Next {
        Next::WaitFor(Duration::from_millis(10))
    }

    fn inspect(&self) -> String {
        format!("{} pieces of work done", self.0)
    }
}

fn clerks() -> Supervisor {
    let supervisor = Supervisor::one_for_one().limit(1_000, Duration::from_secs(1));
    (0..CLERKS).fold(supervisor, |supervisor, _| supervisor.child(Child::permanent(|| Clerk(0))))
}

/// Waits until the input ends, for so long at most.
fn input_ends_within(limit: Duration) {
    let (tell, ended) = channel::<()>();
    thread::spawn(move || {
        io::stdin().lock().lines().for_each(drop);
        drop(tell);
    });
    let _ = ended.recv_timeout(limit);
}

fn main() -> Result<(), Box<dyn std::error::Error>> {
    let words: Vec<String> = std::env::args().collect();
    let [_, history, runners, seconds] = &words[..] else { return Err("many HISTORY RUNNERS SECONDS".into()) };
    let (runners, seconds): (usize, u64) = (runners.parse()?, seconds.parse()?);
    std::panic::set_hook(Box::new(|_| {})); // (clerks are to crash)
    let slots = u32::try_from(runners / DESKS + 64)?;
    let sink = HistoryFile::create(history)?;
    let runtime = Runtime::builder().desks(DESKS).slots(slots).lane(1_024).archive(sink).start()?;
    let field = Arc::new(Field::default());
    let all = (0..runners).map(|number| runtime.spawn_on((number % DESKS) as u8, Runner(field.clone())));
    let all = all.collect::<Result<Vec<_>, _>>()?;
    runtime.spawn(clerks())?;
    let observer = runtime.observe(0)?;
    println!("{observer}");
    let all = field.runners.get_or_init(|| all);
    (0..BALLS as usize).for_each(|number| _ = all[number * 313 % runners].send(Ball));
    input_ends_within(Duration::from_secs(seconds));
    field.is_ending.store(true, SeqCst);
    let until = Instant::now() + LONG;
    while field.caught.load(SeqCst) < BALLS && Instant::now() < until {
        thread::sleep(HELD);
    }
    let summary = runtime.stop_within(LONG)?;
    let [thrown, handled, caught] = [&field.thrown, &field.handled, &field.caught].map(|count| count.load(SeqCst));
    println!(
        "{runners} runners: {thrown} throws, {handled} handled, {caught} of {BALLS} caught; {} crashes",
        summary.panics
    );
    if caught != BALLS || handled != thrown + BALLS {
        return Err("a ball is lost".into());
    }
    println!("nothing lost");
    Ok(())
}
