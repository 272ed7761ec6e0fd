//! A counter that an Erlang cluster sees.
//!
//!     cargo run --example counter -- counter@127.0.0.1 [COOKIE] [HISTORY]
//!
//! The file COOKIE has the cookie; without it that is `~/.erlang.cookie`. The history of the run goes into the file HISTORY,
//! which `pt_audit` judges. The program ends at the end of its input.

use pundewo::runtime::{Answer, Behaviour, Call, Context, Event, HistoryFile, Next, Reply, Runtime};
use pundewo_erlang::{Caller, Cookie, Delivery, Gateway, Incoming, Refusal, Remote, Term};
use std::env;
use std::error::Error;
use std::io::{self, BufRead};
use std::time::Duration;

struct Counter {
    gateway: Gateway,
    count: i64,
    /// The calls of Erlang's processes, and who waits for what comes of each.
    asked: Vec<(Call<Term>, Caller)>,
}

enum Request {
    Add(i64),
    Read(Reply<i64>),
    /// Asks a process of Erlang what it makes of the count, and tells the caller.
    Ask(Remote, Caller),
    Crash,
}

impl Counter {
    fn ask(&mut self, cx: &mut Context<'_, Request>, server: &Remote, caller: Caller) {
        match self.gateway.call(cx, server, Duration::from_secs(5), self.count) {
            Ok(call) => self.asked.push((call, caller)),
            Err(_) => _ = caller.reply(Term::atom("not_asked")),
        }
    }

    fn answered(&mut self, answer: Answer) {
        let Some(place) = self.asked.iter().position(|(call, _)| answer.is_of(call)) else { return };
        let (call, caller) = self.asked.swap_remove(place);
        let term = match answer.to(&call) {
            Ok(Ok(term)) => term,
            _ => Term::atom("no_answer"),
        };
        // (if the connection has broken, Erlang's caller knows)
        let _ = caller.reply(term);
    }
}

impl Behaviour for Counter {
    type Message = Request;

    fn handle(&mut self, cx: &mut Context<'_, Request>, event: Event<Request>) -> Next {
        match event {
            Event::Message(Request::Add(more)) => self.count += more,
            Event::Message(Request::Read(reply)) => cx.reply(reply, self.count),
            Event::Message(Request::Ask(server, caller)) => self.ask(cx, &server, caller),
            Event::Message(Request::Crash) => panic!("it was told to crash"),
            Event::Answer(answer) => self.answered(answer),
            _ => {}
        }
        Next::Wait
    }
}

/// What Erlang's terms are to the counter.
fn convert(incoming: &mut Incoming) -> Result<Delivery<Request>, Refusal> {
    let term = incoming.term().clone();
    if let Some([more]) = term.tagged("add") {
        let more = more.as_integer().ok_or(Refusal::new("not_an_integer"))?;
        return Ok(Delivery::tell(Request::Add(more)));
    }
    if let Some([Term::Pid(server)]) = term.tagged("ask") {
        let caller = incoming.take_caller().ok_or(Refusal::new("not_a_call"))?;
        return Ok(Delivery::tell(Request::Ask(server.into(), caller)));
    }
    match term.as_atom() {
        Some("read") => Ok(Delivery::ask(Request::Read, Term::from)),
        Some("crash") => Ok(Delivery::tell(Request::Crash)),
        _ => Err(Refusal::new("unknown_request")),
    }
}

fn main() -> Result<(), Box<dyn Error>> {
    let mut arguments = env::args().skip(1);
    let node = arguments.next().ok_or("counter NODE [COOKIE] [HISTORY]")?;
    let cookie = arguments.next().map_or_else(Cookie::of_home, Cookie::from_file)?;
    let mut builder = Runtime::builder().desks(2);
    if let Some(history) = arguments.next() {
        builder = builder.archive(HistoryFile::create(history)?);
    }
    let runtime = builder.start()?;
    let gateway = Gateway::builder(&runtime).report(|what| eprintln!("{what}")).join(&node, &cookie)?;
    let counter = runtime.spawn(Counter { gateway: gateway.clone(), count: 0, asked: Vec::new() })?;
    gateway.serve("counter", &counter, convert);
    println!("{node} serves the counter");
    io::stdin().lock().lines().for_each(drop);
    runtime.stop()?;
    Ok(())
}
