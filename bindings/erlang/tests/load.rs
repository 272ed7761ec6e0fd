//! Two Erlang nodes and two of this kind under load, with connections that are cut and made again. Counts on both sides: all that
//! was sent arrives in order and once while the connection stands, what was lost was lost with a connection, and each linked
//! process hears of an exit once.
//!
//! `PUNDEWO_ERLANG_LOAD=5` makes five times as much of it. `PUNDEWO_ERLANG_HISTORIES` names a folder for the histories of all
//! runs, which `pt_audit` judges, and for the counts of both sides, which `counts.py` compares with them. Where nodes are is in
//! `PUNDEWO_ERLANG_PLACES` (see `support`), and `PUNDEWO_ERLANG_WIRE` has the words before `down` and `up` that cut the network
//! between both places.

mod support;

use pundewo::runtime::{Address, Behaviour, Context, Event, HistoryFile, Next, Runtime};
use pundewo::{Pid, Reason};
use pundewo_erlang::{Delivery, ErlangPid, Gateway, Incoming, NOCONNECTION, Refusal, Term};
use std::collections::BTreeMap;
use std::env;
use std::fmt::Write;
use std::fs;
use std::path::PathBuf;
use std::process::Command;
use std::sync::{Arc, Mutex};
use std::thread;
use std::time::{Duration, Instant};
use support::{Cluster, LIMIT, Node, Puppets, cluster, until};

/// After so many messages a sender rests for a millisecond, so that a cut does not take all that is to come.
const PACE: u64 = 5;
/// After so long and a quarter of it without a sign of the other node a connection breaks, and how long a node is stopped.
const TICK: Duration = Duration::from_secs(2);
const STOPPED: Duration = Duration::from_secs(3);

fn times() -> u64 {
    env::var("PUNDEWO_ERLANG_LOAD").ok().and_then(|text| text.parse().ok()).unwrap_or(1)
}

fn folder(cluster: &Cluster) -> PathBuf {
    env::var_os("PUNDEWO_ERLANG_HISTORIES").map_or(cluster.home.clone(), PathBuf::from)
}

fn started(cluster: &Cluster, name: &str, tick: Duration) -> (Runtime, Gateway) {
    let history = HistoryFile::create(folder(cluster).join(format!("{name}.history"))).expect("a file");
    let builder = Runtime::builder().desks(2).slots(4_096).lane(1_024).going_on_every(20_000).archive(history);
    let run = builder.start().expect("a run");
    let builder = Gateway::builder(&run).listen(cluster.here).tick(tick).proxies(2_048);
    let gateway = builder.join(&format!("{name}@{}", cluster.here), &cluster.cookie()).expect("a node");
    (run, gateway)
}

/// What both sides have counted, line by line, for the script that compares it with the histories.
#[derive(Default)]
struct Counts(String);

impl Counts {
    fn add(&mut self, line: &str) {
        writeln!(self.0, "{line}").expect("a text");
    }

    /// What one sink says of its senders.
    fn sink(&mut self, sink: &str, said: &Saids) {
        for (sender, Said { count, last, wrong }) in said {
            self.add(&format!("came {sink} {sender} {count} {last} {wrong}"));
        }
    }

    fn write(self, cluster: &Cluster, name: &str) {
        fs::write(folder(cluster).join(format!("{name}.counts")), self.0).expect("a file");
    }
}

/// What a sink has counted of one sender: how many have come, the last number, and how many were no greater than one before.
#[derive(Clone, Copy, Debug, Default, PartialEq)]
struct Said {
    count: u64,
    last: u64,
    wrong: u64,
}

type Saids = BTreeMap<u64, Said>;

fn total(said: &Saids) -> u64 {
    said.values().map(|said| said.count).sum()
}

/// Looks whether the numbers of each sender come in order and once.
struct Sink(Arc<Mutex<Saids>>);

impl Behaviour for Sink {
    type Message = (u64, u64);

    fn handle(&mut self, _: &mut Context<'_, (u64, u64)>, event: Event<(u64, u64)>) -> Next {
        if let Event::Message((sender, number)) = event {
            let mut all = self.0.lock().expect("counts");
            let said = all.entry(sender).or_default();
            said.count += 1;
            if number > said.last {
                said.last = number;
            } else {
                said.wrong += 1;
            }
        }
        Next::Wait
    }
}

fn numbers(incoming: &mut Incoming) -> Result<Delivery<(u64, u64)>, Refusal> {
    let Some([sender, number, _]) = incoming.term().tagged("number") else { return Err(Refusal::new("no_number")) };
    let pair = sender.as_integer().zip(number.as_integer()).ok_or(Refusal::new("no_number"))?;
    Ok(Delivery::tell((pair.0 as u64, pair.1 as u64)))
}

/// A sink of this node, and what it has counted.
struct Here {
    pid: Pid,
    said: Arc<Mutex<Saids>>,
}

impl Here {
    fn new(run: &Runtime, gateway: &Gateway) -> Here {
        let said = Arc::<Mutex<Saids>>::default();
        let sink: Address<(u64, u64)> = run.spawn(Sink(said.clone())).expect("a process");
        assert!(gateway.serve("sink", &sink, numbers));
        Here { pid: sink.pid(), said }
    }

    fn said(&self) -> Saids {
        self.said.lock().expect("counts").clone()
    }
}

/// What the sink of an Erlang node has counted.
fn sink_there(node: &Node, gateway: &Gateway) -> Saids {
    let said = node.rpc(gateway, "pundewo_peer", "sink_said", [Term::atom("sink")]);
    let number = |term: &Term| term.as_integer().expect("a count") as u64;
    let pair = |pair: &Term| {
        let [sender, counts] = pair.as_tuple().expect("a pair") else { panic!("{pair} is no pair") };
        let [count, last, wrong] = counts.as_tuple().expect("counts") else { panic!("{counts} is no count") };
        (number(sender), Said { count: number(count), last: number(last), wrong: number(wrong) })
    };
    said.as_list().expect("counts").iter().map(pair).collect()
}

/// Sends numbers, and returns how many were refused, since the connection had broken.
fn send(gateway: &Gateway, to: (&str, &str), sender: u64, count: u64, pace: u64) -> u64 {
    let mut refused = 0;
    for number in 1..=count {
        let term = [Term::atom("number"), Term::from(sender), Term::from(number), Term::from(vec![0; 32])];
        refused += u64::from(gateway.send(to, Term::tuple(term)).is_err());
        if number % pace == 0 {
            thread::sleep(Duration::from_millis(1));
        }
    }
    refused
}

fn flood(node: &Node, gateway: &Gateway, to: &str, senders: std::ops::Range<u64>, count: u64, pace: u64) {
    let to = Term::tuple([Term::atom("sink"), Term::atom(to)]);
    let senders = Term::list(senders.map(Term::from));
    let arguments = [to, senders, Term::from(count), Term::from(32), Term::from(pace)];
    // (by a process that outlives the connection)
    let spawn = [Term::atom("pundewo_peer"), Term::atom("flood"), Term::list(arguments)];
    node.rpc(gateway, "erlang", "spawn", spawn);
}

fn report(what: &str, count: u64, begun: Instant) {
    let took = begun.elapsed();
    println!("{what}: {count} in {took:.2?}, {:.0} a second", count as f64 / took.as_secs_f64());
}

#[test]
fn all_that_is_sent_arrives_in_order_and_once_while_the_connection_stands() {
    let Some(cluster) = cluster() else { return };
    let (node, (run, gateway)) = (cluster.node("load_a"), started(cluster, "steady", 15 * TICK));
    let count = 5_000 * times();
    let all: Saids = (0..4).map(|sender| (sender, Said { count, last: count, wrong: 0 })).collect();
    let sink = Here::new(&run, &gateway);
    let begun = Instant::now();
    flood(&node, &gateway, gateway.node(), 0..4, count, 10_000_000);
    until("end of the messages", || total(&sink.said()) == 4 * count);
    report("from Erlang", 4 * count, begun);
    assert_eq!(sink.said(), all);
    node.rpc(&gateway, "pundewo_peer", "sink_start", [Term::atom("sink")]);
    let begun = Instant::now();
    thread::scope(|threads| {
        for sender in 0..4 {
            let (gateway, node) = (&gateway, &node);
            threads.spawn(move || assert_eq!(send(gateway, ("sink", &node.name), sender, count, 1_000), 0));
        }
    });
    until("end of the messages", || total(&sink_there(&node, &gateway)) == 4 * count);
    report("to Erlang", 4 * count, begun);
    let there = sink_there(&node, &gateway);
    assert_eq!(there, all);
    let mut counts = Counts::default();
    for name in ["steady", "load_a"] {
        (0..4).for_each(|sender| counts.add(&format!("sent {name} {sender} {count} 0")));
    }
    counts.add(&format!("process steady steady {}", sink.pid));
    counts.sink("steady", &sink.said());
    counts.sink("load_a", &there);
    counts.add("cuts 0");
    counts.write(cluster, "steady");
    calls(&node, &run, &gateway);
    run.stop_within(LIMIT).expect("an end");
}

/// Calls of Erlang, one after the other.
fn calls(node: &Node, run: &Runtime, gateway: &Gateway) {
    let echo = run.spawn(Answers).expect("a process");
    gateway.serve("echo", &echo, |incoming| {
        let caller = incoming.take_caller().ok_or(Refusal::new("no_call"))?;
        Ok(Delivery::tell((caller, incoming.term().clone())))
    });
    let begun = Instant::now();
    let to = Term::tuple([Term::atom("echo"), Term::atom(gateway.node())]);
    let calls = 1_000 * times();
    let requests = Term::list((0..calls).map(Term::from));
    // (each is answered once, by what it has asked)
    assert_eq!(node.run(gateway, "calls", [to, requests.clone()]), requests);
    report("calls from Erlang, one after the other", calls, begun);
}

/// Answers each caller.
struct Answers;

impl Behaviour for Answers {
    type Message = (pundewo_erlang::Caller, Term);

    fn handle(&mut self, _: &mut Context<'_, Self::Message>, event: Event<Self::Message>) -> Next {
        if let Event::Message((caller, term)) = event {
            caller.reply(term).expect("a connection");
        }
        Next::Wait
    }
}

/// Two Erlang nodes and two of this kind, of which each is connected with each.
struct Sides {
    nodes: [Node; 2],
    runs: [(Runtime, Gateway); 2],
}

impl Sides {
    fn new(cluster: &Cluster, name: &str, tick: Duration) -> Sides {
        let nodes = ["a", "b"].map(|side| {
            let alive = format!("{name}_{side}");
            let mut command = cluster.erl(&alive);
            // (Erlang says four times in this time that it is there)
            command.args(["-kernel", "net_ticktime", &(2 * tick).as_secs().to_string()]);
            cluster.node_by(&alive, command)
        });
        let runs = ["a", "b"].map(|side| started(cluster, &format!("{name}s_{side}"), tick));
        for (_, gateway) in &runs {
            nodes.iter().for_each(|node| gateway.connect(&node.name, LIMIT).expect("a connection"));
        }
        Sides { nodes, runs }
    }

    fn gateway(&self, place: usize) -> &Gateway {
        &self.runs[place].1
    }

    /// Each connection of an Erlang node and one of this kind.
    fn pairs(&self) -> impl Iterator<Item = (usize, &Gateway, usize, &Node)> {
        (0..4).map(|pair| (pair % 2, self.gateway(pair % 2), pair / 2, &self.nodes[pair / 2]))
    }

    /// Sends over all connections, both ways, while they are cut. It returns how many were refused, for each way from here.
    fn send(&self, count: u64) -> Vec<(usize, usize, u64)> {
        for (_, gateway, sender, node) in self.pairs() {
            let sender = sender as u64;
            flood(node, gateway, gateway.node(), sender..sender + 1, count, PACE);
        }
        thread::scope(|threads| {
            let sends = |(place, gateway, there, node): (usize, &'_ Gateway, usize, &'_ Node)| {
                let (gateway, name) = (gateway.clone(), node.name.clone());
                let sends = move || send(&gateway, ("sink", &name), place as u64, count, PACE);
                (place, there, threads.spawn(sends))
            };
            let senders: Vec<_> = self.pairs().map(sends).collect();
            (0..8).for_each(|number| self.cut(number));
            senders.into_iter().map(|(place, there, sender)| (place, there, sender.join().expect("a sender"))).collect()
        })
    }

    /// Cuts a connection: by this side, by the other, by a socket that is closed below it, or by a node that is stopped.
    fn cut(&self, number: usize) {
        let (gateway, node) = (self.gateway(number % 2), &self.nodes[number / 2 % 2]);
        thread::sleep(Duration::from_millis(250));
        match (number + number / 4) % 4 {
            0 => _ = gateway.disconnect(&node.name),
            1 => tell(gateway, node, "erlang", "disconnect_node"),
            2 => tell(gateway, node, "pundewo_peer", "close_socket"),
            _ => stop(node),
        }
    }

    /// Waits until all has arrived that arrives. (a sink there is asked by the one side, whose connection stands then)
    fn rest(&self, sinks: &[Here]) {
        let floods = |node: &Node| {
            let asked = node.try_rpc(self.gateway(0), "pundewo_peer", "flooding", []);
            asked.is_none_or(|names| names.as_list().is_none_or(|names| !names.is_empty()))
        };
        until("end of the senders", || !self.nodes.iter().any(floods));
        let counts = || {
            let there: u64 = self.nodes.iter().map(|node| total(&sink_there(node, self.gateway(0)))).sum();
            sinks.iter().map(|sink| total(&sink.said())).sum::<u64>() + there
        };
        let mut last = (counts(), Instant::now());
        until("rest", || {
            let now = counts();
            if now != last.0 {
                last = (now, Instant::now());
            }
            last.1.elapsed() > Duration::from_secs(1)
        });
    }
}

/// Has an Erlang node call a function with the name of this one. (by a cast: the answer of a call would be lost)
fn tell(gateway: &Gateway, node: &Node, module: &str, function: &str) {
    let names = Term::list([Term::atom(gateway.node())]);
    let call = [Term::atom("cast"), Term::atom(module), Term::atom(function), names, Term::atom("user")];
    let _ = gateway.cast(("rex", node.name.as_str()), Term::tuple(call));
}

/// Stops a node until its connections break, or takes the network between both places away.
fn stop(node: &Node) {
    let wire = env::var("PUNDEWO_ERLANG_WIRE").ok();
    let set = |how: &str| {
        let Some(wire) = &wire else { return };
        let mut words = wire.split_whitespace();
        let mut command = Command::new(words.next().expect("a program"));
        assert!(command.args(words).arg(how).status().expect("a network").success());
    };
    match wire {
        None => node.signal("-STOP"),
        Some(_) => set("down"),
    }
    thread::sleep(STOPPED);
    match wire {
        None => node.signal("-CONT"),
        Some(_) => set("up"),
    }
}

#[test]
fn nothing_arrives_twice_or_out_of_order_while_connections_are_cut() {
    let Some(cluster) = cluster() else { return };
    let sides = Sides::new(cluster, "cut", TICK);
    let count = 25_000 * times();
    let sinks = [0, 1].map(|place| Here::new(&sides.runs[place].0, sides.gateway(place)));
    for node in &sides.nodes {
        node.rpc(sides.gateway(0), "pundewo_peer", "sink_start", [Term::atom("sink")]);
    }
    let begun = Instant::now();
    let refused = sides.send(count);
    sides.rest(&sinks);
    let took = begun.elapsed();
    let mut counts = Counts::default();
    for (place, there, refused) in refused {
        counts.add(&format!("sent cut_{} {place} {count} {refused}", ["a", "b"][there]));
        counts.add(&format!("sent cuts_{} {there} {count} 0", ["a", "b"][place]));
    }
    after_the_cuts(&sides, &mut counts);
    sides.rest(&sinks);
    let here: Vec<Saids> = sinks.iter().map(Here::said).collect();
    let there: Vec<Saids> = sides.nodes.iter().map(|node| sink_there(node, sides.gateway(0))).collect();
    for (place, side) in ["a", "b"].iter().enumerate() {
        counts.add(&format!("process cuts_{side} cuts_{side} {}", sinks[place].pid));
        counts.sink(&format!("cuts_{side}"), &here[place]);
        counts.sink(&format!("cut_{side}"), &there[place]);
    }
    counts.add("cuts 8");
    counts.write(cluster, "cuts");
    for (what, said) in [("from Erlang", here), ("to Erlang", there)] {
        let arrived: u64 = said.iter().map(total).sum();
        let all = 4 * count + 20;
        println!("{what}, with eight cuts: of {all} {arrived} arrived, in {took:.2?}");
        assert!(
            said.iter().flat_map(BTreeMap::values).all(|said| said.wrong == 0 && said.count <= said.last),
            "{said:?}"
        );
        assert!(arrived > all / 10 && arrived <= all, "{said:?}");
    }
    sides.runs.into_iter().for_each(|(run, _)| _ = run.stop_within(LIMIT).expect("an end"));
}

/// After the last cut all goes on: what is sent then arrives, all of it.
fn after_the_cuts(sides: &Sides, counts: &mut Counts) {
    for (place, side) in ["a", "b"].iter().enumerate() {
        let (gateway, node) = (sides.gateway(place), &sides.nodes[place]);
        until("end of the cuts", || gateway.connect(&node.name, LIMIT).is_ok());
        assert_eq!(send(gateway, ("sink", &node.name), 99, 10, PACE), 0);
        let number = |number: u64| [Term::atom("number"), Term::from(99), Term::from(number), Term::from("")];
        let terms = Term::list((1..=10).map(|it| Term::tuple(number(it))));
        node.run(gateway, "send_name", [Term::atom("sink"), Term::atom(gateway.node()), terms]);
        let came = |said: &Saids| said.get(&99).is_some_and(|said| (said.count, said.last) == (10, 10));
        until("last messages there", || came(&sink_there(node, gateway)));
        counts.add(&format!("sent cut_{side} 99 10 0"));
        counts.add(&format!("sent cuts_{side} 99 10 0"));
    }
}

/// A process of this node and one of Erlang's, which are linked.
struct Pair {
    puppet: Puppets,
    partner: ErlangPid,
    place: usize,
    there: usize,
}

/// Pairs of each run with each node. Every other one is linked from here, the others from there.
fn paired(sides: &Sides, count: usize) -> Vec<Pair> {
    let place = |number: usize| (number % 2, number / 2 % 2);
    let puppets: Vec<(Puppets, Term)> = (0..count)
        .map(|number| {
            let (run, gateway) = &sides.runs[place(number).0];
            Puppets::exposed(run, gateway)
        })
        .collect();
    let mut partners = [0, 1].map(|there| {
        let of = |(number, (_, pid)): (usize, &(Puppets, Term))| (place(number).1 == there).then(|| pid.clone());
        let pids = Term::list(puppets.iter().enumerate().filter_map(of));
        let partners = sides.nodes[there].rpc(sides.gateway(0), "pundewo_peer", "pairs_start", [pids]);
        partners.as_list().expect("pids").to_vec().into_iter()
    });
    let pair = |(number, (puppet, _)): (usize, (Puppets, Term))| {
        let (place, there) = place(number);
        let partner = partners[there].next().expect("a partner").as_pid().expect("a pid").clone();
        let (links, to) = (sides.gateway(place).clone(), partner.clone());
        if number / 4 % 2 == 0 {
            puppet.does(|cx| cx.trap_exits(true)).expect("a flag");
            links.send(&to, Term::atom("link")).expect("a connection");
        } else {
            puppet.does(move |cx| cx.trap_exits(true).map(|()| links.link(cx, &to))).expect("a flag").expect("a proxy");
        }
        Pair { puppet, partner, place, there }
    };
    puppets.into_iter().enumerate().map(pair).collect()
}

/// What the Erlang processes of all pairs have been told, as Erlang prints it.
fn told_there(sides: &Sides) -> Vec<String> {
    let said = |node: &Node| node.rpc(sides.gateway(0), "pundewo_peer", "pairs_said", [Term::atom("pairs")]);
    sides.nodes.iter().map(|node| said(node).to_string()).collect()
}

#[test]
fn each_of_many_linked_pairs_hears_of_an_exit_once() {
    let Some(cluster) = cluster() else { return };
    let sides = Sides::new(cluster, "pair", 15 * TICK);
    let count = 1_000;
    let begun = Instant::now();
    let pairs = paired(&sides, count);
    let is_linked = |pair: &Pair| {
        let info = [pair.partner.clone().into(), Term::atom("links")];
        let links = sides.nodes[pair.there].rpc(sides.gateway(pair.place), "erlang", "process_info", info);
        links.to_string() != "{links,[]}"
    };
    pairs.iter().for_each(|pair| until("link", || is_linked(pair)));
    report("linked pairs of two nodes and two", count as u64, begun);
    // a quarter ends here, a quarter there, and half by cuts
    // (as many of each node)
    let (ours, theirs) = (count / 4 / 4 * 4, count / 2);
    pairs[..ours].iter().for_each(|pair| pair.puppet.stops(Reason::Other(1)));
    let bye = Term::tuple([Term::atom("exit"), Term::atom("bye")]);
    for pair in &pairs[ours..theirs] {
        sides.gateway(pair.place).send(&pair.partner, bye.clone()).expect("a connection");
    }
    pairs[..ours].iter().for_each(|pair| assert_eq!(pair.puppet.hears(), "ended other:1"));
    for pair in &pairs[ours..theirs] {
        let bye = sides.gateway(pair.place).reason_of(&Term::atom("bye"));
        assert_eq!(pair.puppet.hears(), format!("exit {bye}"));
    }
    let right = |cut: usize| {
        let cut = if cut > 0 { format!("{{noconnection,{}}},", cut / 2) } else { String::new() };
        let said = format!("[{cut}{{{{pundewo,1}},{}}}]", ours / 2);
        vec![said.clone(), said]
    };
    until("exits there", || told_there(&sides) == right(0));
    sides.pairs().for_each(|(_, gateway, _, node)| assert!(gateway.disconnect(&node.name)));
    pairs[theirs..].iter().for_each(|pair| assert_eq!(pair.puppet.hears(), format!("exit {NOCONNECTION}")));
    for (_, gateway, _, node) in sides.pairs() {
        until("end of the connection", || gateway.connect(&node.name, LIMIT).is_ok());
    }
    until("counts", || told_there(&sides) == right(count - theirs));
    thread::sleep(Duration::from_millis(200));
    assert_eq!(told_there(&sides), right(count - theirs));
    assert!(pairs.iter().all(|pair| pair.puppet.told.try_recv().is_err()), "each hears once");
    let mut counts = Counts::default();
    counts.add(&format!("exits {NOCONNECTION} {} pairs_a pairs_b", count - theirs));
    counts.write(cluster, "pairs");
    println!(
        "{count} linked pairs: {ours} ended here, {} there, {} by a cut, each told once",
        theirs - ours,
        count - theirs
    );
    pairs.iter().for_each(|pair| pair.puppet.stops(Reason::Normal));
    sides.runs.into_iter().for_each(|(run, _)| _ = run.stop_within(LIMIT).expect("an end"));
}
