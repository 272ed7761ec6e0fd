//! A run of very many processes that is watched, page by page, while it works: runners throw balls to each other, each two
//! milliseconds after it came, and on each desk a process notes how long it waits for its turn.
//!
//!     cargo run --release --example pages -- HISTORY RUNNERS SECONDS
//!
//! It looks at all processes, in pages of 1,000, for so many seconds, and not at all for as many before. It prints how long
//! one look stops a desk, in milliseconds of the desk's processor. At the end each ball is caught, and the views have counted
//! each message: its status is 1 if one is lost. `pt_audit` judges the file HISTORY.

use pundewo::Pid;
use pundewo::runtime::{Address, Behaviour, Context, Event, HistoryFile, Look, Next, Runtime};
use std::collections::HashSet;
use std::error::Error;
use std::sync::atomic::{AtomicBool, AtomicU64, Ordering::SeqCst};
use std::sync::{Arc, OnceLock};
use std::thread;
use std::time::{Duration, Instant};

const DESKS: usize = 4;
const BALLS: u64 = 64;
const PAGE: usize = 1_000;
/// How long a ball is held.
const HELD: Duration = Duration::from_millis(2);
/// How often a pacer has its turn.
const PACE: Duration = Duration::from_millis(1);
/// How long the last balls, and one look, may take.
const LONG: Duration = Duration::from_secs(60);

#[derive(Default)]
struct Field {
    runners: OnceLock<Vec<Address<Ball>>>,
    is_ending: AtomicBool,
    thrown: AtomicU64,
    handled: AtomicU64,
    caught: AtomicU64,
    /// The longest time that a pacer waited for its turn, in nanoseconds of its desk's processor.
    longest: AtomicU64,
}

struct Ball;

struct Runner(Arc<Field>);

impl Behaviour for Runner {
    type Message = Ball;

    fn handle(&mut self, cx: &mut Context<'_, Ball>, event: Event<Ball>) -> Next {
        let (Event::Message(ball), Some(runners)) = (event, self.0.runners.get()) else { return Next::Wait };
        self.0.handled.fetch_add(1, SeqCst);
        if self.0.is_ending.load(SeqCst) {
            self.0.caught.fetch_add(1, SeqCst);
        } else {
            let number = self.0.thrown.fetch_add(1, SeqCst) as usize;
            cx.send_after(HELD, &runners[number * 7_919 % runners.len()], ball);
        }
        Next::Wait
    }
}

/// Notes the longest time of the processor that was between two of its turns.
struct Pacer {
    field: Arc<Field>,
    last: Option<u64>,
}

impl Pacer {
    fn pace(&mut self) -> Next {
        let now = processor_time();
        if let Some(last) = self.last.replace(now) {
            self.field.longest.fetch_max(now - last, SeqCst);
        }
        Next::WaitFor(PACE)
    }
}

impl Behaviour for Pacer {
    type Message = ();

    fn started(&mut self, _: &mut Context<'_, ()>) -> Next {
        self.pace()
    }

    fn handle(&mut self, _: &mut Context<'_, ()>, _: Event<()>) -> Next {
        self.pace()
    }
}

#[repr(C)]
struct Timespec {
    seconds: i64,
    nanoseconds: i64,
}

extern "C" {
    fn clock_gettime(clock: i32, at: *mut Timespec) -> i32;
}

/// How many nanoseconds of a processor this thread has had. (Linux' `CLOCK_THREAD_CPUTIME_ID` is 3)
fn processor_time() -> u64 {
    let mut at = Timespec { seconds: 0, nanoseconds: 0 };
    // SAFETY: the call writes one timespec, which is there.
    let code = unsafe { clock_gettime(3, &mut at) };
    assert_eq!(code, 0, "there is such a clock");
    (at.seconds * 1_000_000_000 + at.nanoseconds).unsigned_abs()
}

/// Looks that were made, or left out, and how long each stopped a desk.
struct Watch<'a> {
    runtime: &'a Runtime,
    field: &'a Field,
    stops: Vec<u64>,
    epochs: u64,
}

impl Watch<'_> {
    /// Does this, and notes how long a pacer waited around it.
    fn noting<T>(&mut self, does: impl FnOnce(&Runtime) -> T) -> T {
        thread::sleep(4 * PACE);
        self.field.longest.store(0, SeqCst);
        let got = does(self.runtime);
        thread::sleep(4 * PACE);
        self.stops.push(self.field.longest.load(SeqCst));
        got
    }

    /// Looks at all pages once: how many there are, and who is on them.
    fn page_through(&mut self) -> Result<(usize, HashSet<Pid>), Box<dyn Error>> {
        let mut look = Look { processes: PAGE, limit: LONG, ..Look::default() };
        let (mut found, mut count) = (HashSet::new(), 0);
        loop {
            let view = self.noting(|runtime| runtime.look(&look));
            if !view.silent.is_empty() || view.processes.len() > PAGE {
                return Err("a desk is silent, or a page is too long".into());
            }
            if !view.processes.iter().all(|process| found.insert(process.pid)) {
                return Err("a process is on two pages".into());
            }
            count += 1;
            look.after = view.next;
            if look.after.is_none() {
                return Ok((count, found));
            }
        }
    }

    /// What was noted so far, in milliseconds, and how many epochs have ended meanwhile.
    fn told(&mut self) -> String {
        let mut stops = std::mem::take(&mut self.stops);
        stops.sort_unstable();
        let of = |part: usize| stops[(stops.len() - 1) * part / 100] as f64 / 1e6;
        let (middle, most, last) = (of(50), of(99), of(100));
        let before = std::mem::replace(&mut self.epochs, self.runtime.summary().epochs);
        format!(
            "{} times, {middle:.2} ms at the median, {most:.2} ms 99 times of 100, {last:.2} ms at most; {} epochs ended",
            stops.len(),
            self.epochs - before
        )
    }
}

/// Not watched at first, and then watched for as long.
fn watch(runtime: &Runtime, field: &Field, limit: Duration) -> Result<(), Box<dyn Error>> {
    let mut watch = Watch { runtime, field, stops: Vec::new(), epochs: runtime.summary().epochs };
    let begun = Instant::now();
    while begun.elapsed() < limit {
        watch.noting(|_| ());
    }
    println!("without a look a desk is stopped: {}", watch.told());
    let begun = Instant::now();
    let (mut count, mut found) = watch.page_through()?;
    while begun.elapsed() < limit {
        (count, found) = watch.page_through()?;
    }
    let runners = field.runners.get().ok_or("no runners")?;
    if !runners.iter().all(|runner| found.contains(&runner.pid())) {
        return Err("a runner is on no page".into());
    }
    println!("{} processes are on {count} pages", found.len());
    println!("with a look at a page it is stopped: {}", watch.told());
    Ok(())
}

fn main() -> Result<(), Box<dyn Error>> {
    let words: Vec<String> = std::env::args().collect();
    let [_, history, runners, seconds] = &words[..] else { return Err("pages HISTORY RUNNERS SECONDS".into()) };
    let (runners, seconds): (usize, u64) = (runners.parse()?, seconds.parse()?);
    let slots = u32::try_from(runners / DESKS + 64)?;
    let sink = HistoryFile::create(history)?;
    let runtime = Runtime::builder().desks(DESKS).slots(slots).lane(1_024).archive(sink).start()?;
    let field = Arc::new(Field::default());
    let all = (0..runners).map(|number| runtime.spawn_on((number % DESKS) as u8, Runner(field.clone())));
    let all = all.collect::<Result<Vec<_>, _>>()?;
    for desk in 0..DESKS {
        runtime.spawn_on(desk as u8, Pacer { field: field.clone(), last: None })?;
    }
    let all = field.runners.get_or_init(|| all);
    (0..BALLS as usize).for_each(|number| _ = all[number * 313 % runners].send(Ball));
    watch(&runtime, &field, Duration::from_secs(seconds))?;
    field.is_ending.store(true, SeqCst);
    let until = Instant::now() + LONG;
    while field.caught.load(SeqCst) < BALLS && Instant::now() < until {
        thread::sleep(HELD);
    }
    let view = runtime.look(&Look { processes: 1, limit: LONG, ..Look::default() });
    let counted: u64 = view.desks.iter().map(|desk| desk.messages).sum();
    let lost: u64 = view.desks.iter().map(|desk| desk.losses).sum();
    runtime.stop_within(LONG)?;
    let [thrown, handled, caught] = [&field.thrown, &field.handled, &field.caught].map(|count| count.load(SeqCst));
    println!(
        "{runners} runners: {thrown} throws, {handled} handled, {caught} of {BALLS} caught; the view has {counted} messages and {lost} lost"
    );
    if caught != BALLS || handled != thrown + BALLS || counted != handled || lost != 0 {
        return Err("a ball is lost".into());
    }
    Ok(())
}
