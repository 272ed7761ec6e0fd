//! The page of a run over HTTP: what is served, what is refused, and that a run loses nothing meanwhile.

use pundewo::runtime::{Behaviour, Context, Event, Name, Next, Observer, Reply, Runtime};
use std::io::{Read, Write};
use std::net::{Shutdown, TcpStream};
use std::sync::Arc;
use std::sync::atomic::{AtomicBool, AtomicU64, Ordering::SeqCst};
use std::thread;
use std::time::{Duration, Instant};

const LONG: Duration = Duration::from_secs(120);

type Error = Box<dyn std::error::Error>;

/// Counts what it is sent, and says how much that was.
struct Counter(u64);

enum ToCounter {
    Add(u64),
    Read(Reply<u64>),
}

impl Behaviour for Counter {
    type Message = ToCounter;

    fn handle(&mut self, cx: &mut Context<'_, ToCounter>, event: Event<ToCounter>) -> Next {
        match event {
            Event::Message(ToCounter::Add(more)) => self.0 += more,
            Event::Message(ToCounter::Read(reply)) => cx.reply(reply, self.0),
            _ => {}
        }
        Next::Wait
    }

    fn inspect(&self) -> String {
        format!("<b>\"{}\"\n\u{1}é", self.0)
    }
}

/// What is answered to these bytes once there is a place. (those who were answered before may have theirs for a while)
fn say(observer: &Observer, bytes: &[u8]) -> Result<String, Error> {
    let began = Instant::now();
    loop {
        let answer = say_once(observer, bytes)?;
        if !answer.starts_with("HTTP/1.1 503 ") || began.elapsed() > LONG {
            return Ok(answer);
        }
        thread::sleep(Duration::from_millis(5));
    }
}

fn say_once(observer: &Observer, bytes: &[u8]) -> Result<String, Error> {
    let mut stream = TcpStream::connect(observer.address())?;
    stream.set_read_timeout(Some(LONG))?;
    // (what is refused may be answered before all is written)
    let _ = stream.write_all(bytes);
    let mut answer = Vec::new();
    let read = stream.read_to_end(&mut answer);
    if answer.is_empty() {
        read?;
    }
    Ok(String::from_utf8(answer)?)
}

fn get(observer: &Observer, path: &str, more: &str) -> Result<(String, String), Error> {
    let answer = say(observer, format!("GET {path} HTTP/1.1\r\nHost: x\r\n{more}\r\n").as_bytes())?;
    let (head, body) = answer.split_once("\r\n\r\n").ok_or("no head")?;
    assert!(head.contains(&format!("Content-Length: {}\r\n", body.len())), "{head}");
    Ok((head.to_owned(), body.to_owned()))
}

/// What is answered once each desk, and the process that is asked, has answered the server in time.
fn get_all(observer: &Observer, path: &str) -> Result<(String, String), Error> {
    let began = Instant::now();
    loop {
        let (head, body) = get(observer, path, "")?;
        let lacks = body.contains("\"silent\":[{") || body.contains("no answer in time");
        let is_down = body.lines().any(|line| line.starts_with("pundewo_desk_up") && line.ends_with(" 0"));
        if !(lacks || is_down) || began.elapsed() > LONG {
            return Ok((head, body));
        }
    }
}

fn ours(observer: &Observer, path: &str) -> String {
    format!("/{}/{path}", observer.token())
}

#[test]
fn the_page_and_what_it_asks_for_are_served() -> Result<(), Error> {
    let runtime = Runtime::builder().desks(2).start()?;
    let counter = runtime.spawn(Counter(7))?;
    assert!(Name::new("a \"name\"").register(&counter));
    let observer = runtime.observe(0)?;
    assert_eq!(observer.to_string(), format!("http://{}/{}/", observer.address(), observer.token()));
    assert!(observer.address().ip().is_loopback() && observer.token().len() == 32);
    let (head, page) = get(&observer, &ours(&observer, ""), "")?;
    assert!(head.starts_with("HTTP/1.1 200 OK\r\nContent-Type: text/html; charset=utf-8\r\n"), "{head}");
    for needs in ["default-src 'none'", "Cache-Control: no-store", "nosniff", "no-referrer", "frame-ancestors 'none'"] {
        assert!(head.contains(needs), "{needs}");
    }
    assert!(page.starts_with("<!doctype html>") && page.ends_with("</html>\n"));
    let (head, state) = get_all(&observer, &ours(&observer, "state"))?;
    assert!(head.contains("Content-Type: application/json") && state.starts_with("{\"uptime\":"), "{state}");
    let process = format!("{{\"pid\":\"{}\",\"behaviour\":\"observer::Counter\",\"parent\":null,", counter.pid());
    assert!(state.contains(&process) && state.contains("\"names\":[\"a \\\"name\\\"\"]"), "{state}");
    assert!(
        state.contains("\"waits_for\":\"any\",\"time_left\":null,\"mailbox\":{\"count\":0,\"first\":[]}"),
        "{state}"
    );
    let pid = counter.pid();
    let inspect = |version| ours(&observer, &format!("inspect?pid={}.{}.{version}", pid.shard, pid.slot));
    let text = get_all(&observer, &inspect(pid.version))?.1;
    assert_eq!(text, "{\"text\":\"<b>\\\"7\\\"\\u000a\\u0001é\"}");
    assert_eq!(get_all(&observer, &inspect(99))?.1, "{\"fault\":\"the process has exited\"}");
    runtime.stop()?;
    assert!(get(&observer, &ours(&observer, "state"), "")?.1.contains("\"is_over\":true"));
    let address = observer.address();
    drop(observer);
    assert!(TcpStream::connect_timeout(&address, Duration::from_secs(1)).is_err());
    Ok(())
}

#[test]
fn prometheus_reads_the_counts() -> Result<(), Error> {
    let runtime = Runtime::builder().desks(2).start()?;
    let counter = runtime.spawn_on(1, Counter(0))?;
    counter.send(ToCounter::Add(2));
    assert_eq!(runtime.call(&counter, LONG, ToCounter::Read)?, 2);
    let observer = runtime.observe(0)?;
    let (head, text) = get_all(&observer, &ours(&observer, "metrics"))?;
    assert!(head.contains("Content-Type: text/plain; version=0.0.4; charset=utf-8\r\n"));
    for line in ["pundewo_messages_total{desk=\"1\"} 2", "pundewo_spawned_total 1", "pundewo_desk_up{desk=\"0\"} 1"] {
        assert!(text.lines().any(|it| it == line), "{text}");
    }
    for line in text.lines().filter(|line| !line.starts_with("# HELP ") && !line.starts_with("# TYPE ")) {
        let (name, value) = line.rsplit_once(' ').ok_or("no value")?;
        assert!(name.starts_with("pundewo_") && value.parse::<f64>().is_ok(), "{line}");
    }
    let bearer = format!("Authorization: Bearer {}\r\n", observer.token());
    assert!(get(&observer, "/metrics", &bearer)?.0.starts_with("HTTP/1.1 200 "));
    assert!(get(&observer, "/metrics", "Authorization: Bearer 0\r\n")?.0.starts_with("HTTP/1.1 404 "));
    runtime.stop()?;
    Ok(())
}

#[test]
fn bad_requests_are_answered_with_an_error() -> Result<(), Error> {
    let runtime = Runtime::builder().desks(1).start()?;
    let observer = runtime.observe(0)?;
    let token = observer.token().to_owned();
    for path in ["/", "/x/", "/state", "/metrics", "/../etc/passwd", "/favicon.ico", &token, &format!("/{token}")] {
        assert!(get(&observer, path, "")?.0.starts_with("HTTP/1.1 404 "), "{path}");
    }
    for path in ["x", "state/", "../state"] {
        assert!(get(&observer, &ours(&observer, path), "")?.0.starts_with("HTTP/1.1 404 "), "{path}");
    }
    for path in
        ["state?after=1", "state?after=x.1", "state?after=999.1", "inspect", "inspect?pid=1.2", "inspect?pid=a.b.c"]
    {
        assert!(get(&observer, &ours(&observer, path), "")?.0.starts_with("HTTP/1.1 400 "), "{path}");
    }
    for method in ["POST", "PUT", "DELETE", "HEAD", "get"] {
        let answer = say(&observer, format!("{method} /{token}/ HTTP/1.1\r\n\r\n").as_bytes())?;
        assert!(answer.starts_with("HTTP/1.1 405 ") && answer.contains("Allow: GET\r\n"), "{answer}");
    }
    for bytes in
        [&b"\r\n\r\n"[..], b"GET\r\n\r\n", b"GET / HTTP/2\r\n\r\n", b"\xff\r\n\r\n", b"GET / x HTTP/1.1\r\n\r\n"]
    {
        assert!(say(&observer, bytes)?.starts_with("HTTP/1.1 400 "), "{bytes:?}");
    }
    let long = [b"GET / HTTP/1.1\r\nX: ".to_vec(), vec![b'x'; 20_000]].concat();
    assert!(say(&observer, &long)?.starts_with("HTTP/1.1 431 "));
    let began = Instant::now();
    assert!(say(&observer, b"GET /")?.starts_with("HTTP/1.1 408 "));
    assert!(began.elapsed() < LONG);
    runtime.stop()?;
    Ok(())
}

#[test]
fn slow_clients_are_turned_away_beyond_a_bound() -> Result<(), Error> {
    let runtime = Runtime::builder().desks(1).start()?;
    let observer = runtime.observe(0)?;
    let slow = (0..40).map(|_| TcpStream::connect(observer.address())).collect::<Result<Vec<_>, _>>()?;
    let mut statuses = Vec::new();
    for mut stream in slow {
        stream.set_read_timeout(Some(LONG))?;
        let mut status = [0; 12];
        stream.read_exact(&mut status)?;
        statuses.push(status);
    }
    let count = |status: &[u8; 12]| statuses.iter().filter(|it| *it == status).count();
    assert_eq!((count(b"HTTP/1.1 408"), count(b"HTTP/1.1 503")), (16, 24));
    assert!(get(&observer, &ours(&observer, ""), "")?.0.starts_with("HTTP/1.1 200 "));
    runtime.stop()?;
    Ok(())
}

/// Sends each number to the other, less one.
struct Player(Arc<AtomicU64>);

struct Ball(u64, pundewo::runtime::Address<Ball>);

impl Behaviour for Player {
    type Message = Ball;

    fn handle(&mut self, cx: &mut Context<'_, Ball>, event: Event<Ball>) -> Next {
        if let Event::Message(Ball(left, from)) = event {
            self.0.fetch_add(1, SeqCst);
            if left > 0 {
                let me = cx.me().clone();
                assert!(cx.send(&from, Ball(left - 1, me)));
            }
        }
        Next::Wait
    }
}

/// Asks for the state and the counts until all is over, and counts how often it was answered.
fn polls(observer: &Observer, is_over: &AtomicBool, answered: &AtomicU64) {
    while !is_over.load(SeqCst) {
        for path in ["state", "metrics"] {
            let answer = get(observer, &ours(observer, path), "");
            answered.fetch_add(answer.is_ok_and(|(head, _)| head.starts_with("HTTP/1.1 200 ")).into(), SeqCst);
        }
    }
}

/// Clients that say nothing, say nonsense, do not read, or go at once.
fn disturbs(observer: &Observer, is_over: &AtomicBool) {
    let mut held = Vec::new();
    while !is_over.load(SeqCst) {
        let _ = say_once(observer, b"POST / HTTP/1.1\r\n\r\n");
        let _ = say_once(observer, &[b'x'; 9_000]);
        for bytes in [&b""[..], b"GET /", format!("GET {} HTTP/1.1\r\n\r\n", ours(observer, "state")).as_bytes()] {
            if let Ok(mut stream) = TcpStream::connect(observer.address()) {
                let _ = stream.write_all(bytes);
                let _ = stream.shutdown(Shutdown::Write);
                held.push(stream);
            }
        }
        held.drain(..held.len().saturating_sub(5));
        thread::sleep(Duration::from_millis(20));
    }
}

#[test]
fn a_run_that_is_observed_loses_nothing() -> Result<(), Error> {
    const PAIRS: u64 = 20;
    const BALLS: u64 = 2_000;
    let runtime = Runtime::builder().desks(4).going_on_every(2_000).start()?;
    let (observer, is_over, played) = (runtime.observe(0)?, AtomicBool::new(false), Arc::new(AtomicU64::new(0)));
    let answered = AtomicU64::new(0);
    thread::scope(|scope| -> Result<(), Error> {
        scope.spawn(|| polls(&observer, &is_over, &answered));
        scope.spawn(|| disturbs(&observer, &is_over));
        for _ in 0..PAIRS {
            let [one, other] = [runtime.spawn(Player(played.clone()))?, runtime.spawn(Player(played.clone()))?];
            assert!(one.send(Ball(BALLS - 1, other)));
        }
        let began = Instant::now();
        let lacks = || played.load(SeqCst) < PAIRS * BALLS || answered.load(SeqCst) <= 5;
        while began.elapsed() < Duration::from_secs(2) || lacks() && began.elapsed() < LONG {
            thread::sleep(Duration::from_millis(10));
        }
        is_over.store(true, SeqCst);
        Ok(())
    })?;
    assert!(answered.load(SeqCst) > 5, "{answered:?}");
    assert_eq!(played.load(SeqCst), PAIRS * BALLS);
    let view = runtime.view();
    assert_eq!(view.desks.iter().map(|it| it.messages).sum::<u64>(), PAIRS * BALLS);
    assert_eq!((runtime.stop()?.panics, view.desks.iter().map(|it| it.losses).sum::<u64>()), (0, 0));
    Ok(())
}
