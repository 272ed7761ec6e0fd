//! A TCP chat: a process for each room and for each connection. The first line of a connection is the number of its room;
//! each line after it goes to all who are in the room. At the line `crash` the connection's process panics: its room gets
//! the `DOWN`, and tells the others. The server ends at the end of its input.
//!
//!     cargo run --release --example chat -- PORT HISTORY
//!
//! The history of the run goes into the file HISTORY, which `pt_audit` judges. `chat_load` is the other end.
//!
//! All that a client may make the server keep has a bound. What goes beyond one is refused by a line that begins with
//! `refused: `, and then the connection is closed (`bindings/bad_clients.py`).

use pundewo::runtime::{Address, Behaviour, Context, Event, Group, Handle, HistoryFile, Next, Runtime};
use std::io::{self, BufRead, BufReader, Read, Write};
use std::net::{Shutdown, TcpListener, TcpStream};
use std::sync::atomic::{AtomicUsize, Ordering::SeqCst};
use std::sync::{Arc, Mutex, mpsc};
use std::time::{Duration, Instant};

/// How many bytes a line has at most, and how many connections are served at a time.
const LONGEST: usize = 4_096;
const CONNECTIONS: usize = 500;
/// How many bytes may wait for a client that does not read, with so many for each line beside its own.
const UNREAD: usize = 1 << 18;
const LINE: usize = 64;
/// How many lines of a client may be on their way. A client that says more is read later.
const WINDOW: usize = 32;
/// How long a client may take to read what it is told last, and for how long a write may wait for it.
const LINGER: Duration = Duration::from_secs(1);
const PATIENCE: Duration = Duration::from_secs(5);

/// A line is on its way until this is dropped: one more of its client may be read then.
pub struct Permit(pub Arc<Mutex<mpsc::Receiver<()>>>);

impl Drop for Permit {
    fn drop(&mut self) {
        let _ = self.0.lock().map(|permits| permits.try_recv());
    }
}

/// A line for all in a room. It is on its way until each of them has it.
pub struct Line {
    text: Arc<str>,
    _permit: Option<Permit>,
}

impl Line {
    fn told(text: impl Into<Arc<str>>, permit: Option<Permit>) -> Arc<Line> {
        Arc::new(Line { text: text.into(), _permit: permit })
    }
}

pub enum ToRoom {
    Join(Address<ToMember>),
    Say(String, Permit),
}

/// Those who are in the room.
pub struct Room(pub Group<ToMember>);

impl Room {
    fn tell(&self, cx: &mut Context<'_, ToRoom>, line: &Arc<Line>) {
        cx.send_all(&self.0, |_| ToMember::Told(line.clone()));
    }
}

impl Behaviour for Room {
    type Message = ToRoom;

    fn handle(&mut self, cx: &mut Context<'_, ToRoom>, event: Event<ToRoom>) -> Next {
        match event {
            Event::Message(ToRoom::Say(text, permit)) => self.tell(cx, &Line::told(text, Some(permit))),
            Event::Message(ToRoom::Join(member)) if cx.monitor(&member).is_ok() && self.0.join(&member).is_ok() => {
                cx.send(&member, ToMember::Told(Line::told("welcome", None)));
            }
            Event::Down(down) => {
                let text = format!("gone {} {}", down.pid, down.panic.as_deref().unwrap_or("by itself"));
                self.tell(cx, &Line::told(text, None));
            }
            _ => {}
        }
        Next::Wait
    }
}

pub enum ToMember {
    Heard(String, Permit),
    Told(Arc<Line>),
    Refused(String),
    Closed,
}

/// What is to be written to a client, and how many bytes of it wait.
pub struct Out {
    texts: mpsc::Sender<Arc<str>>,
    waiting: Arc<AtomicUsize>,
}

impl Out {
    pub fn new(texts: mpsc::Sender<Arc<str>>, waiting: Arc<AtomicUsize>) -> Out {
        Out { texts, waiting }
    }

    /// Has a text written, and returns whether not too much waits.
    fn write(&self, text: Arc<str>) -> bool {
        let before = self.waiting.fetch_add(text.len() + LINE, SeqCst);
        self.texts.send(text).is_ok() && before < UNREAD
    }
}

pub struct Member {
    rooms: Arc<Vec<Address<ToRoom>>>,
    room: Option<Address<ToRoom>>,
    out: Out,
}

impl Member {
    pub fn new(rooms: Arc<Vec<Address<ToRoom>>>, out: Out) -> Member {
        Member { rooms, room: None, out }
    }

    /// It exits, and this is the last that its client is told.
    fn refuse(&self, why: &str) -> Next {
        self.out.write(format!("refused: {why}").into());
        Next::DONE
    }
}

impl Behaviour for Member {
    type Message = ToMember;

    fn handle(&mut self, cx: &mut Context<'_, ToMember>, event: Event<ToMember>) -> Next {
        match (event, &self.room) {
            (Event::Message(ToMember::Told(line)), _) => {
                if !self.out.write(line.text.clone()) {
                    return self.refuse(&format!("more than {UNREAD} bytes wait to be read"));
                }
            }
            (Event::Message(ToMember::Refused(why)), _) => return self.refuse(&why),
            (Event::Message(ToMember::Heard(text, _)), _) if text == "crash" => panic!("it crashed"),
            (Event::Message(ToMember::Heard(text, permit)), Some(room)) => _ = cx.send(room, ToRoom::Say(text, permit)),
            (Event::Message(ToMember::Heard(text, _)), None) => {
                let number = text.parse().unwrap_or(usize::MAX);
                let Some(room) = self.rooms.get(number) else { return self.refuse("there is no such room") };
                cx.send(room, ToRoom::Join(cx.me().clone()));
                self.room = Some(room.clone());
            }
            _ => return Next::DONE,
        }
        Next::Wait
    }
}

/// A connection that is served. There is room for another as it is dropped.
struct Served {
    stream: TcpStream,
    open: Arc<AtomicUsize>,
}

impl Drop for Served {
    fn drop(&mut self) {
        self.open.fetch_sub(1, SeqCst);
    }
}

/// The next line, `None` at the end of the connection, or why it is refused.
fn next_line(from: &mut impl BufRead) -> Result<Option<String>, String> {
    let mut line = String::new();
    // (with its end, of two bytes at most)
    from.take(LONGEST as u64 + 2).read_line(&mut line).map_err(|fault| fault.to_string())?;
    let text = line.strip_suffix('\n').map_or(&*line, |text| text.strip_suffix('\r').unwrap_or(text));
    match text.len() {
        _ if line.is_empty() => Ok(None),
        0..=LONGEST => Ok(Some(text.to_owned())),
        _ => Err(format!("a line is longer than {LONGEST} bytes")),
    }
}

/// Reads a connection for its process, and waits while too many of its lines are on their way.
fn listen(stream: &TcpStream, member: &Address<ToMember>) {
    let mut from = BufReader::new(stream);
    let (give, permits) = mpsc::sync_channel(WINDOW);
    let permits = Arc::new(Mutex::new(permits));
    loop {
        let told = match next_line(&mut from) {
            Ok(Some(line)) if give.send(()).is_ok() => ToMember::Heard(line, Permit(permits.clone())),
            Ok(_) => ToMember::Closed,
            Err(why) => ToMember::Refused(why),
        };
        let is_line = matches!(told, ToMember::Heard(..));
        if !member.send(told) || !is_line {
            return;
        }
    }
}

/// Writes to a connection until its process has exited.
fn write(mut stream: &TcpStream, texts: &mpsc::Receiver<Arc<str>>, waiting: &AtomicUsize) -> io::Result<()> {
    while let Ok(text) = texts.recv() {
        let (mut lines, mut count) = (format!("{text}\n"), text.len() + LINE);
        // (what waits as well is written by the same call of the system)
        for text in texts.try_iter() {
            lines.extend([&*text, "\n"]);
            count += text.len() + LINE;
        }
        stream.write_all(lines.as_bytes())?;
        waiting.fetch_sub(count, SeqCst);
    }
    Ok(())
}

/// Closes a connection. What still comes is read and dropped for a while, since the client would else lose what it was told
/// last.
fn close(mut stream: &TcpStream) {
    let (until, mut dropped) = (Instant::now() + LINGER, [0; LONGEST]);
    let _ = stream.shutdown(Shutdown::Write).and_then(|()| stream.set_read_timeout(Some(LINGER)));
    while Instant::now() < until && stream.read(&mut dropped).is_ok_and(|count| count > 0) {}
    let _ = stream.shutdown(Shutdown::Both);
}

/// A thread that reads a connection for its process, and one that writes to it.
fn serve(served: Served, rooms: &Arc<Vec<Address<ToRoom>>>, handle: &Handle) -> io::Result<()> {
    served.stream.set_nodelay(true)?;
    served.stream.set_write_timeout(Some(PATIENCE))?;
    let ((texts, get), waiting) = (mpsc::channel(), Arc::<AtomicUsize>::default());
    let member = Member::new(rooms.clone(), Out::new(texts, waiting.clone()));
    let member = handle.spawn(member).map_err(|fault| io::Error::other(fault.to_string()))?;
    let (served, thread) = (Arc::new(served), std::thread::Builder::new);
    let (reads, to, of) = (served.clone(), member.clone(), member.clone());
    let reader = thread().spawn(move || listen(&reads.stream, &to));
    let writer = thread().spawn(move || {
        if write(&served.stream, &get, &waiting).is_err() {
            of.send(ToMember::Closed);
        }
        close(&served.stream);
    });
    if reader.is_err() || writer.is_err() {
        member.send(ToMember::Refused("no thread is free".into()));
    }
    Ok(())
}

/// Serves a connection, if not too many are open.
fn accept(mut stream: TcpStream, open: &Arc<AtomicUsize>, rooms: &Arc<Vec<Address<ToRoom>>>, handle: &Handle) {
    if open.load(SeqCst) == CONNECTIONS {
        // (what does not fit into the connection's own buffer is not waited for)
        let told = format!("refused: {CONNECTIONS} connections are open\n");
        let _ = stream.set_nonblocking(true).and_then(|()| stream.write_all(told.as_bytes()));
        return;
    }
    open.fetch_add(1, SeqCst);
    // (if no process is free, the connection is closed)
    let _ = serve(Served { stream, open: open.clone() }, rooms, handle);
}

fn main() -> Result<(), Box<dyn std::error::Error>> {
    let words: Vec<String> = std::env::args().collect();
    let [_, port, history] = &words[..] else { return Err("chat PORT HISTORY".into()) };
    let runtime =
        Runtime::builder().desks(4).lane(1_024).going_on_every(2_000).archive(HistoryFile::create(history)?).start()?;
    let room = |number: u32| runtime.spawn(Room(Group::new(&runtime, format!("room {number}"))));
    let rooms = Arc::new((0..20).map(room).collect::<Result<Vec<_>, _>>()?);
    let listener = TcpListener::bind(("127.0.0.1", port.parse()?))?;
    println!("{}", listener.local_addr()?);
    let observer = runtime.observe(0)?;
    println!("{observer}");
    let (handle, open) = (runtime.handle(), Arc::default());
    std::thread::spawn(move || {
        for stream in listener.incoming() {
            match stream {
                Ok(stream) => accept(stream, &open, &rooms, &handle),
                // (as where no file is free: others close soon)
                Err(_) => std::thread::sleep(Duration::from_millis(50)),
            }
        }
    });
    io::stdin().lines().for_each(drop);
    println!("{:?}", runtime.stop()?);
    Ok(())
}
