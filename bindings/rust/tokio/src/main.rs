//! A line server of tokio: its tasks read and write the sockets, and ask behaviours of Pundewo, which they await. Then its
//! load: connections that ask again and again, of which some die in the middle of a call. Some requests crash their server.
//!
//!     cargo run --release -- CONNECTIONS LINES
//!
//! A line `add ACCOUNT NUMBER` is answered by `total NUMBER`, and `break ACCOUNT` by `crashed: TEXT`. It prints how long the
//! answers took. Its status is 1 if a line is lost or answered twice.

use pundewo::runtime::{
    Asking, Behaviour, CallFault, Child, Context, Event, Name, Next, PANIC, Reason, Reply, Runtime, Supervisor,
};
use std::io;
use std::sync::Arc;
use std::sync::atomic::{AtomicU64, Ordering::SeqCst};
use std::time::{Duration, Instant};
use tokio::io::{AsyncBufReadExt, AsyncWriteExt, BufReader};
use tokio::net::tcp::OwnedReadHalf;
use tokio::net::{TcpListener, TcpStream};
use tokio::time::timeout;

type Fault = Box<dyn std::error::Error + Send + Sync>;

const DESKS: u8 = 4;
const ACCOUNTS: usize = 16;
const LIMIT: Duration = Duration::from_secs(30);

/// What became of the lines.
#[derive(Default)]
struct Tally {
    /// What the accounts have handled.
    handled: AtomicU64,
    /// How many calls the server has made, how many were answered, and how many heard of a crash.
    asked: AtomicU64,
    answered: AtomicU64,
    crashed: AtomicU64,
}

fn add(to: &AtomicU64) {
    to.fetch_add(1, SeqCst);
}

enum ToAccount {
    Add(u64, Reply<u64>),
    Break(Reply<u64>),
}

struct Account(u64, Arc<Tally>);

impl Behaviour for Account {
    type Message = ToAccount;

    fn handle(&mut self, cx: &mut Context<'_, ToAccount>, event: Event<ToAccount>) -> Next {
        match event {
            Event::Message(ToAccount::Add(more, reply)) => {
                self.0 += more;
                add(&self.1.handled);
                cx.reply(reply, self.0);
            }
            // (without the usual text of a panic on the screen)
            Event::Message(ToAccount::Break(_reply)) => {
                std::panic::resume_unwind(Box::new(format!("broken at {}", self.0)))
            }
            _ => {}
        }
        Next::Wait
    }
}

/// The server: who has which account, and what becomes of the lines.
struct Server {
    accounts: Vec<Name<ToAccount>>,
    tally: Arc<Tally>,
}

impl Server {
    async fn answer(&self, line: &str) -> String {
        let words: Vec<&str> = line.split(' ').collect();
        let (account, number) = match words[..] {
            ["add", account, number] => (account, number.parse().ok()),
            ["break", account] => (account, None),
            _ => return "what?\n".into(),
        };
        let Some(account) = account.parse().ok().and_then(|place: usize| self.accounts.get(place)) else {
            return "what?\n".into();
        };
        // (it is started again)
        let Some(account) = account.whereis() else { return "crashed: before\n".into() };
        let asking = match number {
            Some(number) => account.ask(|reply| ToAccount::Add(number, reply)),
            None => account.ask(ToAccount::Break),
        };
        add(&self.tally.asked);
        match in_time(asking).await {
            Ok(total) => {
                add(&self.tally.answered);
                format!("total {total}\n")
            }
            Err(CallFault::Down(PANIC | Reason::Noproc, text)) => {
                add(&self.tally.crashed);
                format!("crashed: {}\n", text.as_deref().unwrap_or("before"))
            }
            Err(fault) => format!("failed: {fault}\n"),
        }
    }

    /// Serves a connection until it ends. (what it asked is answered all the same)
    async fn serve(&self, socket: TcpStream) -> io::Result<()> {
        let (reads, mut writes) = socket.into_split();
        let mut lines = BufReader::new(reads).lines();
        while let Some(line) = lines.next_line().await? {
            writes.write_all(self.answer(&line).await.as_bytes()).await?;
        }
        Ok(())
    }
}

/// A call, with a time by the executor's own timer.
async fn in_time(mut asking: Asking<u64>) -> Result<u64, CallFault> {
    match timeout(LIMIT, &mut asking).await {
        Ok(ended) => ended,
        Err(_) => Err(asking.late()),
    }
}

async fn accept(server: Arc<Server>, listener: TcpListener) {
    while let Ok((socket, _)) = listener.accept().await {
        let server = server.clone();
        tokio::spawn(async move { server.serve(socket).await });
    }
}

struct Client {
    number: usize,
    port: u16,
    socket: Option<(BufReader<OwnedReadHalf>, tokio::net::tcp::OwnedWriteHalf)>,
    times: Vec<Duration>,
    died: u64,
}

impl Client {
    /// Says a line, and hears its answer. A connection that dies hears none, and the next line comes by another.
    async fn say(&mut self, line: &str, dies: bool) -> Result<(), Fault> {
        if self.socket.is_none() {
            let socket = TcpStream::connect(("127.0.0.1", self.port)).await?;
            socket.set_nodelay(true)?;
            let (reads, writes) = socket.into_split();
            self.socket = Some((BufReader::new(reads), writes));
        }
        let (reads, writes) = self.socket.as_mut().expect("a connection");
        let begun = Instant::now();
        writes.write_all(line.as_bytes()).await?;
        if dies {
            self.died += 1;
            self.socket = None;
            return Ok(());
        }
        let mut answer = String::new();
        timeout(LIMIT, reads.read_line(&mut answer)).await??;
        if !answer.starts_with("total ") && !answer.starts_with("crashed: ") {
            return Err(format!("{line:?} was answered {answer:?}").into());
        }
        self.times.push(begun.elapsed());
        Ok(())
    }

    async fn run(mut self, lines: usize) -> Result<Client, Fault> {
        for turn in 0..lines {
            let (draw, account) = (self.number * 7_919 + turn * 104_729, (self.number + turn) % ACCOUNTS);
            match draw % 1_009 {
                0 => self.say(&format!("break {account}\n"), false).await?,
                draw => self.say(&format!("add {account} {turn}\n"), draw % 50 == 1).await?,
            }
        }
        Ok(self)
    }
}

async fn load(port: u16, connections: usize, lines: usize) -> Result<(Vec<Duration>, u64), Fault> {
    let clients: Vec<_> = (0..connections)
        .map(|number| tokio::spawn(Client { number, port, socket: None, times: Vec::new(), died: 0 }.run(lines)))
        .collect();
    let (mut times, mut died) = (Vec::new(), 0);
    for client in clients {
        let client = client.await??;
        times.extend(client.times);
        died += client.died;
    }
    times.sort_unstable();
    Ok((times, died))
}

fn main() -> Result<(), Fault> {
    let mut words = std::env::args().skip(1).map(|word| word.parse::<usize>());
    let (connections, lines) = (words.next().unwrap_or(Ok(200))?, words.next().unwrap_or(Ok(200))?);
    let runtime = Runtime::builder().desks(DESKS.into()).inbox(1_000).start()?;
    let tally = Arc::new(Tally::default());
    let accounts: Vec<Name<ToAccount>> = (0..ACCOUNTS).map(|number| Name::new(format!("account {number}"))).collect();
    for (desk, names) in (0..DESKS).zip(accounts.chunks(ACCOUNTS / usize::from(DESKS))) {
        let mut supervisor = Supervisor::one_for_one().limit(10_000, Duration::from_secs(1));
        for name in names {
            let tally = tally.clone();
            supervisor = supervisor.child(Child::permanent(move || Account(0, tally.clone())).named(name));
        }
        runtime.spawn_on(desk, supervisor)?;
    }
    let executor = tokio::runtime::Builder::new_multi_thread().worker_threads(2).enable_all().build()?;
    let server = Arc::new(Server { accounts, tally: tally.clone() });
    let (times, died) = executor.block_on(async {
        let listener = TcpListener::bind(("127.0.0.1", 0)).await?;
        let port = listener.local_addr()?.port();
        tokio::spawn(accept(server, listener));
        load(port, connections, lines).await
    })?;
    // what waits is handled, and answered by the tasks
    let summary = runtime.drain(LIMIT)?;
    executor.shutdown_timeout(LIMIT);
    let part = |of: usize| times[(times.len() - 1) * of / 1_000];
    println!("{connections} connections said {} lines; {died} of them died in a call", connections * lines);
    println!("answers: p50 {:?}, p99 {:?}, the worst {:?}", part(500), part(990), part(1_000));
    let [handled, asked, answered, crashed] =
        [&tally.handled, &tally.asked, &tally.answered, &tally.crashed].map(|count| count.load(SeqCst));
    println!("{asked} asked, {answered} answered, {crashed} heard of {} crashes", summary.panics);
    if handled != answered || asked != answered + crashed || times.len() as u64 + died != (connections * lines) as u64 {
        return Err(format!("lost: {handled} lines were handled").into());
    }
    println!("nothing is lost");
    Ok(())
}
