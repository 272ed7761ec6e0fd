//! A request of HTTP, of which as much is read as is needed, and its response.

use std::io::{self, Read, Write};
use std::net::{Shutdown, TcpStream};
use std::time::{Duration, Instant};

/// How long a request may take to come, and how many bytes it may have.
const PATIENCE: Duration = Duration::from_secs(2);
const MOST: usize = 8_192;
/// How long the response may take to go.
const WRITING: Duration = Duration::from_secs(5);

/// What is asked for.
pub(super) struct Request {
    pub(super) path: String,
    pub(super) query: String,
    /// What is behind `Authorization: Bearer`.
    pub(super) bearer: String,
}

/// What is answered: the status, the type of the body, and the body.
pub(super) struct Response {
    pub(super) status: &'static str,
    pub(super) kind: &'static str,
    pub(super) body: String,
}

impl Response {
    /// The answer to what is not served, with its reason in the body.
    pub(super) fn refused(status: &'static str) -> Response {
        Response { status, kind: "text/plain; charset=utf-8", body: format!("{status}\n") }
    }
}

/// Reads a request, in time and within its bound, or says what is wrong with it. `None` if nobody is there any more.
pub(super) fn read(stream: &mut TcpStream) -> Option<Result<Request, Response>> {
    let until = Instant::now() + PATIENCE;
    let (mut read, mut part) = (Vec::new(), [0; 1_024]);
    loop {
        if let Some(end) = read.windows(4).position(|bytes| bytes == b"\r\n\r\n") {
            return Some(parse(&read[..end]));
        }
        if read.len() > MOST {
            return Some(Err(Response::refused("431 Request Header Fields Too Large")));
        }
        let left = until.saturating_duration_since(Instant::now());
        if left.is_zero() || stream.set_read_timeout(Some(left)).is_err() {
            return Some(Err(Response::refused("408 Request Timeout")));
        }
        match stream.read(&mut part) {
            Ok(0) => return None,
            Ok(count) => read.extend_from_slice(&part[..count]),
            Err(fault) if is_early(&fault) => {}
            Err(_) => return None,
        }
    }
}

fn is_early(fault: &io::Error) -> bool {
    matches!(fault.kind(), io::ErrorKind::WouldBlock | io::ErrorKind::TimedOut | io::ErrorKind::Interrupted)
}

/// The request that these lines are.
fn parse(head: &[u8]) -> Result<Request, Response> {
    let bad = || Response::refused("400 Bad Request");
    let text = std::str::from_utf8(head).map_err(|_| bad())?;
    let mut lines = text.split("\r\n");
    let words: Vec<&str> = lines.next().unwrap_or_default().split(' ').collect();
    let [method, target, "HTTP/1.0" | "HTTP/1.1"] = words[..] else { return Err(bad()) };
    if method != "GET" {
        return Err(Response::refused("405 Method Not Allowed"));
    }
    let (path, query) = target.split_once('?').unwrap_or((target, ""));
    let bearers =
        lines.filter_map(|line| line.split_once(':')).filter(|(name, _)| name.eq_ignore_ascii_case("authorization"));
    let bearer = bearers.filter_map(|(_, value)| value.trim().strip_prefix("Bearer ")).next().unwrap_or_default();
    Ok(Request { path: path.to_owned(), query: query.to_owned(), bearer: bearer.to_owned() })
}

impl Request {
    /// The value of a field of the query.
    pub(super) fn field(&self, name: &str) -> Option<&str> {
        self.query
            .split('&')
            .filter_map(|field| field.split_once('='))
            .find(|(it, _)| *it == name)
            .map(|(_, value)| value)
    }
}

/// What a browser may do with the page: it loads nothing, asks this server alone, and is in no frame.
const POLICY: &str = "default-src 'none'; style-src 'unsafe-inline'; script-src 'unsafe-inline'; connect-src 'self'; \
                      base-uri 'none'; form-action 'none'; frame-ancestors 'none'";

/// Writes the response, and ends the connection.
pub(super) fn write(stream: &mut TcpStream, response: &Response) -> io::Result<()> {
    let Response { status, kind, body } = response;
    let allow = if status.starts_with("405") { "Allow: GET\r\n" } else { "" };
    let head = format!(
        "HTTP/1.1 {status}\r\nContent-Type: {kind}\r\nContent-Length: {}\r\n{allow}Content-Security-Policy: {POLICY}\r\n\
         Cache-Control: no-store\r\nX-Content-Type-Options: nosniff\r\nReferrer-Policy: no-referrer\r\nConnection: close\r\n\r\n",
        body.len()
    );
    let until = Instant::now() + WRITING;
    send(stream, head.as_bytes(), until)?;
    send(stream, body.as_bytes(), until)?;
    stream.shutdown(Shutdown::Write)?;
    drain(stream)
}

/// Answers that too many are served, if that may be written at once.
pub(super) fn turn_away(mut stream: TcpStream) {
    let head = b"HTTP/1.1 503 Service Unavailable\r\nContent-Length: 0\r\nRetry-After: 1\r\nConnection: close\r\n\r\n";
    let _ = stream.set_nonblocking(true).and_then(|()| stream.write(head));
}

/// Writes all of this, unless the time is over before its reader has taken it.
fn send(stream: &mut TcpStream, mut bytes: &[u8], until: Instant) -> io::Result<()> {
    while !bytes.is_empty() {
        let left = until.saturating_duration_since(Instant::now());
        if left.is_zero() {
            return Err(io::ErrorKind::TimedOut.into());
        }
        stream.set_write_timeout(Some(left))?;
        let count = stream.write(bytes)?;
        bytes = &bytes[count..];
    }
    Ok(())
}

/// Reads what else has come, within a bound. (a connection that is closed before that is reset, and the response with it)
fn drain(stream: &mut TcpStream) -> io::Result<()> {
    stream.set_read_timeout(Some(Duration::from_millis(200)))?;
    let mut part = [0; 4_096];
    for _ in 0..16 {
        if stream.read(&mut part)? == 0 {
            break;
        }
    }
    Ok(())
}
