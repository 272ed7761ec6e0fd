//! runtime_counts WORKLOAD TIMES [DESKS [EVERY]]: does a workload of `pundewo::runtime` so many times on one desk, or on so
//! many, and prints nothing. The node goes on once a journal has more than EVERY events. `checks/instructions/count.py` counts
//! the instructions, and `bench/beside.py` measures the time.
//!
//! `message`, `call` and `spawn` are of two processes. `own` and `all` are messages between 64 processes on each desk: `own` in
//! pairs of one desk, `all` each to one of the next desk.

use pundewo::Fault;
use pundewo::runtime::{Address, Behaviour, Call, Context, Event, Next, Reply, Runtime, SpawnFault};
use std::error::Error;
use std::time::Duration;

/// How many processes `own` and `all` have on each desk.
const MANY: u64 = 64;

/// How long a call may take: longer than a run under valgrind.
const LIMIT: Duration = Duration::from_secs(600);

/// One of two processes that send each other a message. One of them knows the other from the first, and tells it.
struct Player {
    other: Option<Address<Ball>>,
}

enum Ball {
    /// The other player is this one.
    Of(Address<Ball>),
    /// So many messages are left.
    Left(u64),
}

impl Behaviour for Player {
    type Message = Ball;

    fn started(&mut self, cx: &mut Context<'_, Ball>) -> Next {
        if let Some(other) = &self.other {
            let me = cx.me().clone();
            cx.send(other, Ball::Of(me));
        }
        Next::Wait
    }

    fn handle(&mut self, cx: &mut Context<'_, Ball>, event: Event<Ball>) -> Next {
        match event {
            Event::Message(Ball::Of(other)) => self.other = Some(other),
            Event::Message(Ball::Left(left)) => {
                if let Some(other) = &self.other {
                    cx.send(other, Ball::Left(left.saturating_sub(1)));
                }
                if left == 0 {
                    return Next::DONE;
                }
            }
            _ => {}
        }
        Next::Wait
    }
}

/// A process that answers.
struct Server;

enum Request {
    Next(u64, Reply<u64>),
    End,
}

impl Behaviour for Server {
    type Message = Request;

    fn handle(&mut self, cx: &mut Context<'_, Request>, event: Event<Request>) -> Next {
        match event {
            Event::Message(Request::Next(number, reply)) => cx.reply(reply, number + 1),
            Event::Message(Request::End) => return Next::DONE,
            _ => {}
        }
        Next::Wait
    }
}

/// A process that calls another one, so many times.
struct Client {
    server: Address<Request>,
    done: u64,
    times: u64,
    call: Option<Call<u64>>,
}

impl Client {
    fn go_on(&mut self, cx: &mut Context<'_, ()>) -> Next {
        if self.done == self.times {
            cx.send(&self.server, Request::End);
            return Next::DONE;
        }
        let done = self.done;
        self.call = cx.call(&self.server, LIMIT, |reply| Request::Next(done, reply)).ok();
        if self.call.is_some() { Next::Wait } else { panic!("a call that could not be made") }
    }
}

impl Behaviour for Client {
    type Message = ();

    fn started(&mut self, cx: &mut Context<'_, ()>) -> Next {
        self.go_on(cx)
    }

    fn handle(&mut self, cx: &mut Context<'_, ()>, event: Event<()>) -> Next {
        if let (Event::Answer(answer), Some(call)) = (event, &self.call) {
            let Ok(Ok(done)) = answer.to(call) else { panic!("a call that was not answered") };
            self.done = done;
            return self.go_on(cx);
        }
        Next::Wait
    }
}

/// A process that exits at once.
struct Child;

impl Behaviour for Child {
    type Message = ();

    fn started(&mut self, _: &mut Context<'_, ()>) -> Next {
        Next::DONE
    }

    fn handle(&mut self, _: &mut Context<'_, ()>, _: Event<()>) -> Next {
        Next::Wait
    }
}

/// A process that spawns another one and waits for its DOWN, so many times.
struct Parent {
    left: u64,
}

impl Parent {
    fn go_on(&mut self, cx: &mut Context<'_, ()>) -> Result<Next, Fault> {
        if self.left == 0 {
            return Ok(Next::DONE);
        }
        self.left -= 1;
        let child = cx.spawn(Child)?;
        cx.monitor(&child)?;
        Ok(Next::Wait)
    }
}

impl Behaviour for Parent {
    type Message = ();

    fn started(&mut self, cx: &mut Context<'_, ()>) -> Next {
        self.go_on(cx).expect("a child")
    }

    fn handle(&mut self, cx: &mut Context<'_, ()>, event: Event<()>) -> Next {
        match event {
            Event::Down(_) => self.go_on(cx).expect("a child"),
            _ => Next::Wait,
        }
    }
}

/// Pairs of processes that send each other a message, so many in all. The second of each pair is so many desks further on.
fn pairs(runtime: &Runtime, desks: u8, further: u8, times: u64) -> Result<(), SpawnFault> {
    let count = u64::from(desks) * MANY / 2;
    for place in 0..count {
        let desk = (place % u64::from(desks)) as u8;
        let other = runtime.spawn_on((desk + further) % desks, Player { other: None })?;
        let one = runtime.spawn_on(desk, Player { other: Some(other) })?;
        one.send(Ball::Left(times / count));
    }
    Ok(())
}

fn main() -> Result<(), Box<dyn Error + Send + Sync>> {
    let words: Vec<String> = std::env::args().collect();
    let [_, workload, times, rest @ ..] = &words[..] else {
        return Err("wanted: runtime_counts WORKLOAD TIMES [DESKS [EVERY]]".into());
    };
    let times: u64 = times.parse()?;
    let desks: u8 = rest.first().map_or(Ok(1), |desks| desks.parse())?;
    let builder = Runtime::builder().desks(desks.into());
    let runtime = match rest.get(1) {
        Some(every) => builder.going_on_every(every.parse()?).start()?,
        None => builder.start()?,
    };
    match workload.as_str() {
        "own" => pairs(&runtime, desks, 0, times)?,
        "all" => pairs(&runtime, desks, 1, times)?,
        "message" => {
            let other = runtime.spawn(Player { other: None })?;
            runtime.spawn(Player { other: Some(other) })?.send(Ball::Left(times));
        }
        "call" => {
            let server = runtime.spawn(Server)?;
            runtime.spawn(Client { server, done: 0, times, call: None })?;
        }
        "spawn" => {
            runtime.spawn(Parent { left: times })?;
        }
        _ => return Err(format!("no workload '{workload}'").into()),
    }
    runtime.wait()?;
    Ok(())
}
