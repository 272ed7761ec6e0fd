//! A cluster of its own for the tests: an `epmd` on a free port, a home with a cookie, and Erlang nodes that end with the test.

#![allow(dead_code, reason = "each test takes some of it")]

use pundewo::runtime::{Behaviour, CallFault, Context, Event, Handle, Next};
use pundewo_erlang::{Cookie, Gateway, Incoming, Term};
use std::fs;
use std::io::{BufRead, BufReader};
use std::net::{Ipv4Addr, TcpListener, TcpStream};
use std::os::unix::fs::PermissionsExt;
use std::path::{Path, PathBuf};
use std::process::{Child, ChildStdin, Command, Stdio};
use std::sync::mpsc::{Receiver, Sender, channel};
use std::sync::{Mutex, OnceLock};
use std::time::{Duration, Instant};

pub const LIMIT: Duration = Duration::from_secs(120);

pub struct Cluster {
    pub home: PathBuf,
    pub port: u16,
    /// The addresses of this program's nodes and of Erlang's, and what starts a program where Erlang's nodes are.
    pub here: Ipv4Addr,
    pub there: Ipv4Addr,
    start: Vec<String>,
    // (they end as their input does, with the test, and remove the home)
    _epmd: Mutex<Vec<Child>>,
}

/// The cluster of this program, or `None` if Erlang is not there.
pub fn cluster() -> Option<&'static Cluster> {
    static CLUSTER: OnceLock<Option<Cluster>> = OnceLock::new();
    CLUSTER.get_or_init(begin).as_ref()
}

fn begin() -> Option<Cluster> {
    let erl = Command::new("erl").args(["-noshell", "-eval", "halt()."]).status();
    if !erl.is_ok_and(|status| status.success()) {
        println!("Erlang is not there: nothing is tried (apt-get install erlang-base)");
        return None;
    }
    let home = std::env::temp_dir().join(format!("pundewo-erlang-{}", std::process::id()));
    fs::create_dir_all(&home).expect("a folder");
    write_cookie(&home.join(".erlang.cookie"), &format!("cookie{}", std::process::id()));
    let sources = Path::new(env!("CARGO_MANIFEST_DIR"));
    let compiled = Command::new("erlc")
        .args(["-Wall", "-Werror", "-o"])
        .arg(&home)
        .args([
            sources.join("tests/pundewo_peer.erl"),
            sources.join("tests/pundewo_tests.erl"),
            sources.join("erl/pundewo.erl"),
        ])
        .status();
    assert!(compiled.expect("erlc").success());
    let port = free_port();
    std::env::set_var("ERL_EPMD_PORT", port.to_string());
    std::env::set_var("ERL_EPMD_ADDRESS", "127.0.0.1");
    let (here, there, start) = places();
    let mut epmds = vec![epmd(&[], port, here, &home)];
    if !start.is_empty() {
        epmds.push(epmd(&start, port, there, &home));
    }
    until("epmd", || [here, there].iter().all(|host| TcpStream::connect((*host, port)).is_ok()));
    Some(Cluster { home, port, here, there, start, _epmd: Mutex::new(epmds) })
}

/// The loopback, or `PUNDEWO_ERLANG_PLACES`: both addresses, and the words that start a program at the second one.
fn places() -> (Ipv4Addr, Ipv4Addr, Vec<String>) {
    let Ok(text) = std::env::var("PUNDEWO_ERLANG_PLACES") else {
        return (Ipv4Addr::LOCALHOST, Ipv4Addr::LOCALHOST, Vec::new());
    };
    let words: Vec<String> = text.split_whitespace().map(String::from).collect();
    let address = |place: usize| words[place].parse().expect("an address");
    (address(0), address(1), words[2..].to_vec())
}

/// Starts an `epmd`, which ends as its input does.
fn epmd(start: &[String], port: u16, address: Ipv4Addr, home: &Path) -> Child {
    let serves = "epmd -port \"$1\" -address \"$2\" & read -r line; kill $!; rm -rf \"$3\"";
    let mut shell = started_by(start, "sh");
    shell.args(["-c", serves, "sh", &port.to_string(), &address.to_string()]).arg(home);
    shell.stdin(Stdio::piped()).spawn().expect("epmd")
}

/// A program, behind the words that start it where it is to be.
fn started_by(start: &[String], program: &str) -> Command {
    let mut words = start.iter().map(String::as_str).chain([program]);
    let mut command = Command::new(words.next().expect("a program"));
    command.args(words);
    command
}

pub fn write_cookie(path: &Path, text: &str) {
    fs::write(path, text).expect("a cookie");
    fs::set_permissions(path, fs::Permissions::from_mode(0o400)).expect("a cookie");
}

fn free_port() -> u16 {
    TcpListener::bind("127.0.0.1:0").and_then(|listener| listener.local_addr()).expect("a port").port()
}

/// Waits until something is so.
pub fn until(what: &str, mut is_so: impl FnMut() -> bool) {
    let begun = Instant::now();
    while !is_so() {
        assert!(begun.elapsed() < LIMIT, "in {LIMIT:?} there is no {what}");
        std::thread::sleep(Duration::from_millis(5));
    }
}

impl Cluster {
    pub fn cookie(&self) -> Cookie {
        Cookie::from_file(self.home.join(".erlang.cookie")).expect("a cookie")
    }

    /// The command of an Erlang node.
    pub fn erl(&self, alive: &str) -> Command {
        let mut command = started_by(&self.start, "erl");
        command.args(["-noshell", "-name", &format!("{alive}@{}", self.there), "-pa"]).arg(&self.home);
        let address = self.there.octets().map(|byte| byte.to_string()).join(",");
        command.args(["+S", "2:2", "-kernel", "inet_dist_use_interface", &format!("{{{address}}}")]);
        command.args(["-s", "pundewo_peer", "main"]);
        command.env("HOME", &self.home).stdin(Stdio::piped()).stdout(Stdio::piped());
        command
    }

    /// Starts an Erlang node.
    pub fn node(&self, alive: &str) -> Node {
        self.node_by(alive, self.erl(alive))
    }

    /// Starts one by a command that was made with this name.
    pub fn node_by(&self, alive: &str, mut command: Command) -> Node {
        let name = format!("{alive}@{}", self.there);
        let mut child = command.spawn().expect("erl");
        let mut output = BufReader::new(child.stdout.take().expect("its output"));
        let mut line = String::new();
        output.read_line(&mut line).expect("a line");
        assert_eq!(line, "ready\n");
        // (what its logger says is read, or it would end)
        std::thread::spawn(move || std::io::copy(&mut output, &mut std::io::sink()));
        let input = child.stdin.take();
        Node { name, child, input }
    }
}

/// An Erlang node, which ends as this is dropped.
pub struct Node {
    pub name: String,
    child: Child,
    input: Option<ChildStdin>,
}

impl Node {
    /// Sends its process a signal of Unix. (what starts it becomes it)
    pub fn signal(&self, signal: &str) {
        let sent = Command::new("kill").args([signal, &self.child.id().to_string()]).status();
        assert!(sent.expect("kill").success());
    }

    /// Calls a function of a module there: Erlang's `rpc:call`.
    pub fn rpc(&self, gateway: &Gateway, module: &str, function: &str, arguments: impl Into<Vec<Term>>) -> Term {
        self.asked(gateway, module, function, arguments)
            .unwrap_or_else(|fault| panic!("{}: {module}:{function}: {fault}", self.name))
    }

    /// The same, or `None` if the connection breaks meanwhile.
    pub fn try_rpc(
        &self,
        gateway: &Gateway,
        module: &str,
        function: &str,
        arguments: impl Into<Vec<Term>>,
    ) -> Option<Term> {
        self.asked(gateway, module, function, arguments).ok()
    }

    fn asked(
        &self,
        gateway: &Gateway,
        module: &str,
        function: &str,
        arguments: impl Into<Vec<Term>>,
    ) -> Result<Term, CallFault> {
        let request = [
            Term::atom("call"),
            Term::atom(module),
            Term::atom(function),
            Term::List(arguments.into()),
            Term::atom("user"),
        ];
        gateway.ask(("rex", self.name.as_str()), LIMIT, Term::tuple(request))
    }

    /// Has it run a case of the peer.
    pub fn run(&self, gateway: &Gateway, case: &str, arguments: impl Into<Vec<Term>>) -> Term {
        self.rpc(gateway, "pundewo_peer", "run", [Term::atom(case), Term::List(arguments.into())])
    }

    /// The same, as Erlang prints it.
    pub fn text(&self, gateway: &Gateway, case: &str, arguments: impl Into<Vec<Term>>) -> String {
        self.run(gateway, case, arguments).to_string()
    }

    /// Spawns a process there that does as it is told.
    pub fn echo(&self, gateway: &Gateway, name: &str) -> pundewo_erlang::ErlangPid {
        let pid = self.rpc(gateway, "pundewo_peer", "echo_start", [Term::atom(name)]);
        pid.as_pid().unwrap_or_else(|| panic!("a pid, and not {pid}")).clone()
    }
}

impl Drop for Node {
    fn drop(&mut self) {
        self.input = None;
        let _ = self.child.kill();
        let _ = self.child.wait();
    }
}

/// `{name, Node}`.
pub fn at(name: &str, gateway: &Gateway) -> Term {
    Term::tuple([Term::atom(name), Term::atom(gateway.node())])
}

/// A process that tells a test what it is told, and does what it is told to do: a closure.
pub struct Puppet(pub Sender<String>);

pub type Deed = Box<dyn FnOnce(&mut Context<'_, ToPuppet>) -> Next + Send>;

pub enum ToPuppet {
    Term(Term),
    Do(Deed),
}

impl Behaviour for Puppet {
    type Message = ToPuppet;

    fn handle(&mut self, cx: &mut Context<'_, ToPuppet>, event: Event<ToPuppet>) -> Next {
        let told = match event {
            Event::Message(ToPuppet::Do(deed)) => return deed(cx),
            Event::Message(ToPuppet::Term(term)) if term.is_atom("crash") => panic!("it was told to crash"),
            Event::Message(ToPuppet::Term(term)) => format!("term {term}"),
            Event::Down(down) => format!("down {}", down.reason),
            Event::Exit(exit) => format!("exit {}", exit.reason),
            Event::Answer(answer) => format!("{answer:?}"),
            _ => "something else".into(),
        };
        let _ = self.0.send(told);
        Next::Wait
    }

    fn ended(self, why: pundewo::Reason) {
        let _ = self.0.send(format!("ended {why}"));
    }
}

pub struct Puppets {
    pub address: pundewo::runtime::Address<ToPuppet>,
    pub told: Receiver<String>,
}

impl Puppets {
    pub fn new(run: &Handle) -> Puppets {
        let (give, told) = channel();
        Puppets { address: run.spawn(Puppet(give)).expect("a process"), told }
    }

    /// One whose pid takes terms.
    pub fn exposed(run: &Handle, gateway: &Gateway) -> (Puppets, Term) {
        let puppet = Puppets::new(run);
        let pid = gateway.expose(&puppet.address, |incoming: &mut Incoming| {
            Ok(pundewo_erlang::Delivery::tell(ToPuppet::Term(incoming.term().clone())))
        });
        (puppet, pid.into())
    }

    /// Has it do something in its handler, and returns what that returns.
    pub fn does<T: Send + 'static>(&self, work: impl FnOnce(&mut Context<'_, ToPuppet>) -> T + Send + 'static) -> T {
        let (give, get) = channel();
        let deed = move |cx: &mut Context<'_, ToPuppet>| {
            let _ = give.send(work(cx));
            Next::Wait
        };
        assert!(self.address.send(ToPuppet::Do(Box::new(deed))));
        get.recv_timeout(LIMIT).expect("what it did")
    }

    /// Has it exit.
    pub fn stops(&self, reason: pundewo::Reason) {
        self.address.send(ToPuppet::Do(Box::new(move |_| Next::Stop(reason))));
    }

    /// What it was told next.
    pub fn hears(&self) -> String {
        self.told.recv_timeout(LIMIT).unwrap_or_else(|_| "nothing".into())
    }

    /// Whether it hears nothing for a while.
    pub fn is_quiet(&self) -> bool {
        match self.told.recv_timeout(Duration::from_millis(300)) {
            Ok(told) => {
                println!("it was told {told}");
                false
            }
            Err(_) => true,
        }
    }
}

/// Ends a run, some of whose processes may trap exits, and stay until they are killed.
pub fn ends(run: pundewo::runtime::Runtime) {
    match run.stop_within(Duration::from_millis(50)) {
        Ok(_) | Err(pundewo::runtime::StopFault::WouldNotEnd { .. }) => {}
        Err(fault) => panic!("{fault}"),
    }
}
