//! The load of the chat: it starts the server, lets connections say numbered lines, of which some crash their processes
//! once a second and come again, and looks that nothing is lost and nothing comes out of order. It looks at the server's
//! time while all are idle, and at its memory after half of the time and at the end. The last line is its verdict.
//!
//!     cargo build --release --examples
//!     chat_load SERVER HISTORY CONNECTIONS RATE SECONDS CRASHES [watched]
//!
//! SERVER is the program of the example `chat`, HISTORY the file for it, RATE how many lines a connection says in a second,
//! and CRASHES how many of the connections crash. With `watched` others look at the server's page meanwhile: its address is
//! printed first, and the server's time is not judged, since the looks take some of it.

use std::collections::HashMap;
use std::io::{self, BufRead, BufReader, Write};
use std::net::{SocketAddr, TcpStream};
use std::process::{Child, Command, Stdio};
use std::sync::atomic::{AtomicBool, AtomicU64, Ordering::SeqCst};
use std::sync::{Barrier, Mutex};
use std::thread;
use std::time::{Duration, Instant};

type Fault = Box<dyn std::error::Error + Send + Sync>;

const ROOMS: usize = 20;
/// After so much silence it is looked whether all has come.
const SILENCE: Duration = Duration::from_millis(200);
/// How long it is waited for what has not come.
const PATIENCE: Duration = Duration::from_secs(120);
/// A run of this time has epochs enough to see that memory is flat.
const LONG: Duration = Duration::from_secs(10);
/// How long the idle server is looked at, how many hundredths of a second it may have taken then (0.5 % of a core), and how often
/// it is looked at most until it rests.
const IDLE: Duration = Duration::from_secs(4);
const IDLE_TICKS: u64 = 2;
const LOOKS: u32 = 10;

/// What was said in the rooms, and what came of it.
#[derive(Default)]
struct Tally {
    /// How many lines each speaker said, with its room.
    said: Mutex<HashMap<u64, (usize, u64)>>,
    crashes: Mutex<HashMap<usize, u64>>,
    speakers: AtomicU64,
    /// How many connections have not said all yet.
    speaking: AtomicU64,
    heard: AtomicU64,
    slowest: AtomicU64,
}

/// What one connection heard.
#[derive(Default)]
struct Heard {
    next: HashMap<u64, u64>,
    gone: u64,
}

struct Load {
    server: SocketAddr,
    rate: u32,
    time: Duration,
    /// How often the idle server is looked at, until it rests.
    looks: u32,
    begun: Instant,
    /// All are there; they begin; they are done.
    joined: Barrier,
    begin: Barrier,
    done: Barrier,
    tally: Tally,
}

impl Load {
    /// Joins a room, and waits until the room says so.
    fn join(&self, room: usize) -> io::Result<TcpStream> {
        let mut stream = TcpStream::connect(self.server)?;
        stream.set_nodelay(true)?;
        stream.write_all(format!("{room}\n").as_bytes())?;
        // (no byte more is read than these)
        let mut line = [0; 8];
        io::Read::read_exact(&mut stream, &mut line)?;
        if &line == b"welcome\n" { Ok(stream) } else { Err(io::Error::other("no welcome")) }
    }

    /// Listens until all has come that was said in this room, or the connection ends. Without a room only the latter.
    fn listen(&self, stream: &TcpStream, room: Option<usize>) -> Result<Heard, Fault> {
        let (mut heard, mut lines, mut line) = (Heard::default(), BufReader::new(stream), String::new());
        let latest = Instant::now() + self.time + PATIENCE;
        loop {
            match lines.read_line(&mut line) {
                Ok(0) => return Ok(heard),
                Ok(_) if line.starts_with("gone ") => heard.gone += 1,
                Ok(_) => self.hear(line.trim(), &mut heard, room.is_some())?,
                // (what came of a line stays)
                Err(fault) if fault.kind() == io::ErrorKind::WouldBlock => match room {
                    Some(room) if self.lacks(room, &heard).is_some() && Instant::now() < latest => continue,
                    _ => return Ok(heard),
                },
                Err(_) => return Ok(heard),
            }
            line.clear();
        }
    }

    /// What has not come of that which was said in a room, or that some still speak.
    fn lacks(&self, room: usize, heard: &Heard) -> Option<String> {
        if self.tally.speaking.load(SeqCst) > 0 {
            return Some("some still speak".into());
        }
        for (speaker, &(_, count)) in self.tally.said.lock().expect("a tally").iter().filter(|(_, said)| said.0 == room)
        {
            let came = heard.next.get(speaker).copied().unwrap_or(0);
            if came != count {
                return Some(format!("speaker {speaker} said {count} lines, and {came} came"));
            }
        }
        let crashes = self.tally.crashes.lock().expect("a tally").get(&room).copied().unwrap_or(0);
        (heard.gone != crashes)
            .then(|| format!("{crashes} crashed in room {room}, and of {} there is news", heard.gone))
    }

    /// A line is the number of its speaker, its number among the speaker's, and when it was said.
    fn hear(&self, line: &str, heard: &mut Heard, first: bool) -> Result<(), Fault> {
        let words: Vec<u64> = line.split(' ').map(str::parse).collect::<Result<_, _>>()?;
        let [speaker, number, at] = words[..] else { return Err(format!("a line {line:?}").into()) };
        let next = heard.next.entry(speaker).or_insert(if first { 0 } else { number });
        if *next != number {
            return Err(format!("speaker {speaker} said {number}, and {next} did not come").into());
        }
        *next += 1;
        self.tally.heard.fetch_add(1, SeqCst);
        let late = u64::try_from(self.begun.elapsed().as_micros())?.saturating_sub(at);
        self.tally.slowest.fetch_max(late, SeqCst);
        Ok(())
    }

    /// Says lines until then.
    fn say(&self, mut stream: &TcpStream, room: usize, until: Instant) -> Result<(), Fault> {
        let speaker = self.tally.speakers.fetch_add(1, SeqCst);
        let mut at = Instant::now();
        for number in 0.. {
            thread::sleep(at.saturating_duration_since(Instant::now()));
            at += Duration::from_secs(1) / self.rate;
            if Instant::now() >= until {
                break;
            }
            stream.write_all(format!("{speaker} {number} {}\n", self.begun.elapsed().as_micros()).as_bytes())?;
            self.tally.said.lock().expect("a tally").insert(speaker, (room, number + 1));
        }
        Ok(())
    }

    /// A connection that stays: it hears all that is said in its room.
    fn stay(&self, room: usize) -> Result<(), Fault> {
        let stream = self.join(room)?;
        self.joined.wait();
        self.begin.wait();
        stream.set_read_timeout(Some(SILENCE))?;
        let heard = thread::scope(|threads| {
            let listens = threads.spawn(|| self.listen(&stream, Some(room)));
            let said = self.say(&stream, room, Instant::now() + self.time);
            self.tally.speaking.fetch_sub(1, SeqCst);
            said?;
            listens.join().expect("a listener")
        });
        self.done.wait();
        self.lacks(room, &heard?).map_or(Ok(()), |lack| Err(lack.into()))
    }

    /// A connection that crashes once a second, and comes again.
    fn crash(&self, room: usize) -> Result<(), Fault> {
        let mut stream = self.join(room)?;
        self.joined.wait();
        self.begin.wait();
        let until = Instant::now() + self.time;
        let outcome = loop {
            let said = thread::scope(|threads| {
                let listens = threads.spawn(|| self.listen(&stream, None));
                self.say(&stream, room, until.min(Instant::now() + Duration::from_secs(1)))?;
                *self.tally.crashes.lock().expect("a tally").entry(room).or_default() += 1;
                (&stream).write_all(b"crash\n")?;
                listens.join().expect("a listener")
            });
            if said.is_err() || Instant::now() + Duration::from_millis(500) >= until {
                break said.map(drop);
            }
            stream = self.join(room)?;
        };
        self.tally.speaking.fetch_sub(1, SeqCst);
        self.done.wait();
        outcome
    }
}

/// The time that a process took, in hundredths of a second.
fn ticks(process: u32) -> Result<u64, Fault> {
    let stat = std::fs::read_to_string(format!("/proc/{process}/stat"))?;
    let words = stat.rsplit(')').next().unwrap_or_default().split_whitespace();
    let times: Vec<u64> = words.skip(11).take(2).map(str::parse).collect::<Result<_, _>>()?;
    Ok(times.iter().sum())
}

/// The memory that a process has, in kilobytes.
fn memory(process: u32) -> Result<u64, Fault> {
    let statm = std::fs::read_to_string(format!("/proc/{process}/statm"))?;
    Ok(statm.split(' ').nth(1).unwrap_or_default().parse::<u64>()? * 4)
}

/// The time that a process takes in a while, in hundredths of a second.
fn ticks_in_a_while(process: u32) -> Result<u64, Fault> {
    let before = ticks(process)?;
    thread::sleep(IDLE);
    Ok(ticks(process)? - before)
}

/// Looks at the server while the others talk: idle first, and then at its memory. It returns what it takes idle, and its
/// memory after half of the time and at the end.
fn look(load: &Load, process: u32, over: &AtomicBool) -> Result<(u64, u64, u64), Fault> {
    load.joined.wait();
    // (on a busy machine it may take a while until it has nothing to do; one that never rests takes more in every while)
    let mut idle = ticks_in_a_while(process);
    for _ in 1..load.looks {
        if !matches!(idle, Ok(ticks) if ticks > IDLE_TICKS) {
            break;
        }
        idle = ticks_in_a_while(process);
    }
    load.begin.wait();
    let idle = idle?;
    thread::sleep(load.time / 2);
    let early = memory(process)?;
    let mut late = early;
    while !over.load(SeqCst) {
        late = memory(process)?;
        thread::sleep(Duration::from_millis(100));
    }
    Ok((idle, early, late))
}

/// Lets all connections talk.
fn talk(load: &Load, connections: usize, crashing: usize, process: u32) -> Result<(u64, u64, u64), Fault> {
    let over = AtomicBool::new(false);
    thread::scope(|threads| {
        let looks = threads.spawn(|| look(load, process, &over));
        let talk = |me| move || if me < crashing { load.crash(me % ROOMS) } else { load.stay(me % ROOMS) };
        let talks: Vec<_> = (0..connections).map(|me| threads.spawn(talk(me))).collect();
        let outcomes: Vec<_> = talks.into_iter().map(|talks| talks.join().expect("a connection")).collect();
        over.store(true, SeqCst);
        let looked = looks.join().expect("a look")?;
        outcomes.into_iter().collect::<Result<Vec<()>, Fault>>()?;
        Ok(looked)
    })
}

/// Starts the server, and prints the address of its page.
fn start(server: &str, history: &str) -> Result<(Child, SocketAddr, BufReader<impl io::Read>), Fault> {
    let mut command = Command::new(server);
    let command = command.args(["0", history]).stdin(Stdio::piped()).stdout(Stdio::piped()).stderr(Stdio::null());
    let mut child = command.spawn()?;
    let mut lines = BufReader::new(child.stdout.take().ok_or("no output")?);
    let (mut line, mut page) = (String::new(), String::new());
    lines.read_line(&mut line)?;
    lines.read_line(&mut page)?;
    println!("{}", page.trim());
    Ok((child, line.trim().parse()?, lines))
}

impl Load {
    fn new(server: SocketAddr, connections: usize, rate: u32, time: Duration, looks: u32) -> Load {
        let barrier = |more| Barrier::new(connections + more);
        let (joined, begin, done) = (barrier(1), barrier(1), barrier(0));
        let tally = Tally { speaking: AtomicU64::new(connections as u64), ..Tally::default() };
        Load { server, rate, time, looks, begun: Instant::now(), joined, begin, done, tally }
    }

    /// Prints what came of it, and returns how many crashed.
    fn report(&self) -> u64 {
        let crashes: u64 = self.tally.crashes.lock().expect("a tally").values().sum();
        let said: u64 = self.tally.said.lock().expect("a tally").values().map(|said| said.1).sum();
        let (heard, slowest) = (self.tally.heard.load(SeqCst), self.tally.slowest.load(SeqCst));
        println!("said {said} heard {heard} crashes {crashes} slowest {slowest} us");
        crashes
    }
}

fn main() -> Result<(), Fault> {
    let words: Vec<String> = std::env::args().collect();
    let [_, server, history, connections, rate, seconds, crashing, watched @ ..] = &words[..] else {
        return Err("chat_load SERVER HISTORY CONNECTIONS RATE SECONDS CRASHES [watched]".into());
    };
    let (connections, crashing) = (connections.parse()?, crashing.parse()?);
    let (mut child, server, mut lines) = start(server, history)?;
    let looks = if watched.is_empty() { LOOKS } else { 1 };
    let load = Load::new(server, connections, rate.parse()?, Duration::from_secs(seconds.parse()?), looks);
    let (idle, early, late) = talk(&load, connections, crashing, child.id())?;
    drop(child.stdin.take());
    let mut summary = String::new();
    lines.read_line(&mut summary)?;
    let crashes = load.report();
    // (a tick is a hundredth of a second)
    let share = idle as f64 / IDLE.as_secs_f64();
    println!("idle {share} % of a core; memory {early} kB after half of the time, {late} kB at the end");
    println!("{}", summary.trim());
    if !child.wait()?.success() || !summary.contains(&format!("panics: {crashes} ")) {
        return Err("the server did not end well, or counts other crashes".into());
    }
    if idle > IDLE_TICKS && watched.is_empty() {
        return Err("the server does not rest".into());
    }
    // (in a short run there is no epoch before half of the time)
    if load.time >= LONG && late > early + early / 4 {
        return Err("the memory of the server grows".into());
    }
    let memory = if load.time >= LONG { "its memory is flat" } else { "the run is too short to judge its memory" };
    let rest = if watched.is_empty() { "idle it rests" } else { "it is looked at, so its time is not judged" };
    println!("passed: nothing lost, nothing out of order, each crash one DOWN; {rest}, and {memory}");
    Ok(())
}
