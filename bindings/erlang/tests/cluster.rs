//! What processes of an Erlang node and of this one do to each other: messages, calls, links and monitors, both ways.

mod support;

use pundewo::runtime::{
    Behaviour, CallFault, Child, Context, Event, HistoryFile, Name, Next, Reply, Runtime, Supervisor,
};
use pundewo::{Reason, runtime::PANIC};
use pundewo_erlang::{
    Caller, Cookie, CookieFault, Delivery, Gateway, Incoming, JoinFault, Kind, NOCONNECTION, Refusal,
};
use pundewo_erlang::{Remote, Term, Unsent};
use std::fs;
use std::os::unix::fs::PermissionsExt;
use std::process::{Command, Stdio};
use std::time::{Duration, Instant};
use support::{LIMIT, Puppets, at, cluster, ends, until, write_cookie};

struct Counter(i64);

enum Request {
    Add(i64),
    Read(Reply<i64>),
    /// Answers by the caller, or keeps it and answers with the next.
    Echo(Caller, Term),
    Silent(Caller),
    Crash(Option<Reply<i64>>),
}

impl Behaviour for Counter {
    type Message = Request;

    fn handle(&mut self, cx: &mut Context<'_, Request>, event: Event<Request>) -> Next {
        match event {
            Event::Message(Request::Add(more)) => self.0 += more,
            Event::Message(Request::Read(reply)) => cx.reply(reply, self.0),
            Event::Message(Request::Echo(caller, term)) => caller.reply(term).expect("a connection"),
            Event::Message(Request::Silent(caller)) => {
                std::thread::spawn(move || {
                    std::thread::sleep(Duration::from_millis(300));
                    caller.reply("late")
                });
            }
            Event::Message(Request::Crash(_reply)) => panic!("it was told to crash"),
            _ => {}
        }
        Next::Wait
    }
}

fn convert(incoming: &mut Incoming) -> Result<Delivery<Request>, Refusal> {
    let term = incoming.term().clone();
    if let Some([more]) = term.tagged("add") {
        let more = more.as_integer().ok_or(Refusal::new("not_an_integer"))?;
        return Ok(Delivery::tell(Request::Add(more)));
    }
    if let Some([term]) = term.tagged("echo") {
        let caller = incoming.take_caller().ok_or(Refusal::new("not_a_call"))?;
        return Ok(Delivery::tell(Request::Echo(caller, term.clone())));
    }
    match (term.as_atom(), incoming.kind()) {
        (Some("read"), _) => Ok(Delivery::ask(Request::Read, Term::from)),
        (Some("silent"), Kind::Call) => {
            Ok(Delivery::tell(Request::Silent(incoming.take_caller().expect("the caller of a call"))))
        }
        (Some("crash"), _) => Ok(Delivery::tell(Request::Crash(None))),
        (Some("crash_in_call"), _) => Ok(Delivery::ask(|reply| Request::Crash(Some(reply)), Term::from)),
        (Some("panic"), _) => panic!("a conversion that panics"),
        _ => Err(Refusal::new("unknown_request")),
    }
}

fn a_run() -> Runtime {
    Runtime::builder().desks(2).start().expect("a run")
}

#[test]
fn a_node_joins_hidden_and_keeps_the_cookie_to_itself() {
    let Some(cluster) = cluster() else { return };
    let (run, node) = (a_run(), cluster.node("joins_a"));
    let gateway = Gateway::builder(&run)
        .report(|what| println!("{what}"))
        .join("joins@127.0.0.1", &cluster.cookie())
        .expect("a node");
    gateway.connect(&node.name, LIMIT).expect("a connection");
    assert_eq!((gateway.nodes(), gateway.node()), (vec![node.name.clone()], "joins@127.0.0.1"));
    assert_eq!(node.text(&gateway, "node_kinds", [Term::atom(gateway.node())]), "{pong,false,true}");
    // only this machine connects
    let listens = fs::read_to_string("/proc/self/net/tcp").expect("the sockets");
    let names = Command::new("epmd").args(["-port", &cluster.port.to_string(), "-names"]).output().expect("epmd");
    let names = String::from_utf8(names.stdout).expect("a text");
    let port = names.lines().find_map(|line| line.strip_prefix("name joins at port ")).expect("the port");
    let port = format!(":{:04X} ", port.parse::<u16>().expect("a number"));
    let own: Vec<&str> = listens.lines().filter_map(|line| line.split_whitespace().nth(1)).collect();
    let listeners = own.iter().filter(|local| format!("{local} ").ends_with(&port));
    assert!(listeners.clone().count() > 0 && listeners.clone().all(|local| local.starts_with("0100007F")));
    // a name is one node's
    let taken = Gateway::join(&run, "joins@127.0.0.1", &cluster.cookie());
    assert!(matches!(taken, Err(JoinFault::Epmd)), "{taken:?}");
    let bad = Gateway::join(&run, "joins", &cluster.cookie());
    assert!(matches!(bad, Err(JoinFault::BadName)), "{bad:?}");
    // another cookie is none
    let stranger =
        Gateway::join(&run, "stranger@127.0.0.1", &Cookie::new("another").expect("a cookie")).expect("a node");
    assert_eq!(stranger.connect(&node.name, LIMIT), Err(Unsent::Broken));
    assert_eq!(stranger.connect(gateway.node(), LIMIT), Err(Unsent::Broken));
    assert_eq!(stranger.connect("nobody@127.0.0.1", LIMIT), Err(Unsent::Broken));
    assert_eq!(stranger.connect("nobody@192.0.2.1", LIMIT), Err(Unsent::Broken));
    assert_eq!(stranger.connect("nobody", LIMIT), Err(Unsent::NotANode));
    assert_eq!(gateway.nodes(), std::slice::from_ref(&node.name));
    let mut command = cluster.erl("joins_b");
    command.args(["-setcookie", "another"]);
    let other = cluster.node_by("joins_b", command);
    assert!(other.run(&stranger, "ping", [Term::atom(gateway.node())]).is_atom("pang"));
    assert!(other.run(&stranger, "ping", [Term::atom(stranger.node())]).is_atom("pong"));
    let mut taken = cluster.erl("joins");
    taken.stdin(Stdio::null()).stderr(Stdio::null());
    assert!(!taken.status().expect("erl").success());
    assert_eq!(gateway.nodes(), std::slice::from_ref(&node.name));
    // the cookie is in nothing that is printed
    let arguments = fs::read_to_string("/proc/self/cmdline").expect("the arguments");
    let text = fs::read_to_string(cluster.home.join(".erlang.cookie")).expect("a cookie");
    assert!(!arguments.contains(&text) && !format!("{:?}{gateway:?}", cluster.cookie()).contains(&text));
    ends(run);
    // the node has left, though a program that it started (the other node) runs still
    until("end of the node", || !epmd_names(cluster.port).contains("joins at"));
}

fn epmd_names(port: u16) -> String {
    let names = Command::new("epmd").args(["-port", &port.to_string(), "-names"]).output().expect("epmd");
    String::from_utf8(names.stdout).expect("a text")
}

#[test]
fn a_cookie_is_its_owners_alone() {
    let Some(cluster) = cluster() else { return };
    let path = cluster.home.join("open_cookie");
    write_cookie(&path, "open");
    fs::set_permissions(&path, fs::Permissions::from_mode(0o644)).expect("a file");
    assert!(matches!(Cookie::from_file(&path), Err(CookieFault::Open(_))));
    assert!(matches!(Cookie::from_file(cluster.home.join("none")), Err(CookieFault::File(..))));
    for bad in ["", "two words", &"x".repeat(600)] {
        assert!(matches!(Cookie::new(bad), Err(CookieFault::Bad)));
    }
}

#[test]
fn processes_are_served_to_erlang() {
    let Some(cluster) = cluster() else { return };
    let (run, node) = (a_run(), cluster.node("served_a"));
    let gateway = Gateway::join(&run, "served@127.0.0.1", &cluster.cookie()).expect("a node");
    let counter = run.spawn(Counter(0)).expect("a process");
    assert!(gateway.serve("counter", &counter, convert) && !gateway.serve("counter", &counter, convert));
    let (here, pid) = (at("counter", &gateway), Term::from(gateway.pid(&counter)));
    let call = |to: &Term, request: Term| node.text(&gateway, "call", [to.clone(), request, Term::from(5_000)]);
    let add = |number: i64| Term::tuple([Term::atom("add"), Term::from(number)]);
    // by `!` and `cast`, by name and by pid, and calls
    node.run(&gateway, "send", [here.clone(), Term::list([add(1), add(2)])]);
    node.run(&gateway, "cast", [here.clone(), Term::list([add(3)])]);
    node.run(&gateway, "send", [pid.clone(), Term::list([add(4)])]);
    assert_eq!(call(&here, Term::atom("read")), "{answer,10}");
    assert_eq!(call(&pid, Term::atom("read")), "{answer,10}");
    assert_eq!(call(&here, add(1)), "{answer,ok}");
    // each kind of term
    let terms = node.rpc(&gateway, "erl_eval", "exprs", every_term(&node, &gateway));
    let terms = terms.as_tuple().expect("a value")[1].clone();
    let echo =
        node.run(&gateway, "call", [here.clone(), Term::tuple([Term::atom("echo"), terms.clone()]), Term::from(5_000)]);
    assert_eq!(echo, Term::tuple([Term::atom("answer"), terms.clone()]));
    let same = node.rpc(&gateway, "erlang", "=:=", [terms.clone(), echo.as_tuple().expect("a pair")[1].clone()]);
    assert!(same.is_atom("true"));
    // what is refused
    assert_eq!(call(&here, Term::atom("nonsense")), "{answer,{error,{refused,unknown_request}}}");
    assert_eq!(
        call(&here, Term::tuple([Term::atom("add"), Term::from("x")])),
        "{answer,{error,{refused,not_an_integer}}}"
    );
    assert_eq!(call(&here, Term::atom("panic")), "{answer,{error,{refused,conversion_panicked}}}");
    assert_eq!(call(&at("nobody", &gateway), Term::atom("read")), "{exit,noproc}");
    // a late answer comes to nobody
    assert_eq!(node.text(&gateway, "late_call", [here.clone(), Term::atom("silent")]), "nothing");
    // a crash in a call, and a call of a process that has exited
    let crashed = "{exit,{panic,<<\"it was told to crash\">>}}";
    assert_eq!(call(&here, Term::atom("crash_in_call")), crashed);
    assert_eq!(call(&here, Term::atom("read")), "{exit,noproc}");
    assert_eq!(call(&pid, Term::atom("read")), "{exit,noproc}");
    // a name of a supervised process leads to the one that runs now
    let name = Name::new("counter");
    let named = name.clone();
    let supervisor = Supervisor::one_for_one().child(Child::permanent(|| Counter(0)).named(&named));
    run.spawn(supervisor).expect("a supervisor");
    assert!(gateway.unserve("counter") && gateway.serve("counter", &name, convert));
    name.wait(LIMIT).expect("a child");
    assert_eq!(call(&here, add(5)), "{answer,ok}");
    assert_eq!(call(&here, Term::atom("crash_in_call")), crashed);
    until("child that was started again", || call(&here, Term::atom("read")) == "{answer,0}");
    // the module for Erlang, by its own tests, which cut the connection
    let asks = Gateway::join(&run, "tries@127.0.0.1", &cluster.cookie()).expect("a node");
    let tried = node.rpc(&asks, "pundewo_tests", "run", [Term::atom(gateway.node())]);
    assert!(tried.is_atom("ok"), "{tried}");
    ends(run);
}

/// The arguments of an evaluation that makes terms of each kind.
fn every_term(node: &support::Node, gateway: &Gateway) -> Vec<Term> {
    let text = "{[], [1, 255, -1, 1 bsl 31, 1 bsl 63, -(1 bsl 63), 1 bsl 64, -(1 bsl 200), 1 bsl 4000], 1.5, 'ä b', \"text\", \
                <<1,2,3:4>>, <<\"bytes\">>, #{a => #{}, 1 => [x|y]}, self(), make_ref(), fun erlang:abs/1, fun() -> a end, \
                hd(erlang:ports()), list_to_tuple(lists:seq(1, 300)), lists:seq(1, 70000), \
                binary:copy(<<7>>, 10485760)}.";
    let scanned = node.rpc(gateway, "erl_scan", "string", [characters(text)]);
    let tokens = scanned.as_tuple().expect("tokens")[1].clone();
    let parsed = node.rpc(gateway, "erl_parse", "parse_exprs", [tokens]);
    vec![parsed.as_tuple().expect("expressions")[1].clone(), Term::List(Vec::new())]
}

fn characters(text: &str) -> Term {
    Term::list(text.chars().map(|character| Term::from(character as i32)))
}

#[test]
fn processes_of_erlang_are_sent_to_and_asked() {
    let Some(cluster) = cluster() else { return };
    let (run, node) = (a_run(), cluster.node("asked_a"));
    let gateway = Gateway::join(&run, "asked@127.0.0.1", &cluster.cookie()).expect("a node");
    let (puppet, me) = Puppets::exposed(&run, &gateway);
    // by pid and by name, in order
    let echo = node.echo(&gateway, "echo");
    let send = |number: i64| Term::tuple([Term::atom("send"), me.clone(), Term::from(number)]);
    gateway.send(&echo, send(1)).expect("a connection");
    gateway.send(("echo", node.name.as_str()), send(2)).expect("a connection");
    gateway.send(&echo, send(3)).expect("a connection");
    assert_eq!([puppet.hears(), puppet.hears(), puppet.hears()], ["term 1", "term 2", "term 3"]);
    // calls from outside
    node.rpc(&gateway, "pundewo_peer", "server_start", [Term::atom("server"), Term::from(7)]);
    let server = Remote::from(("server", node.name.as_str()));
    let echo_of = |term: Term| Term::tuple([Term::atom("echo"), term]);
    assert_eq!(gateway.ask(&server, LIMIT, Term::atom("state")), Ok(Term::from(7)));
    gateway.cast(&server, 8).expect("a connection");
    assert_eq!(gateway.ask(&server, LIMIT, Term::atom("state")), Ok(Term::from(8)));
    assert_eq!(gateway.ask(("nobody", node.name.as_str()), LIMIT, 1), Err(CallFault::Down(Reason::Noproc, None)));
    assert_eq!(gateway.ask(("a", "nobody@127.0.0.1"), LIMIT, 1), Err(CallFault::Down(NOCONNECTION, None)));
    let silent = gateway.ask(&server, Duration::from_millis(200), Term::atom("silent"));
    assert!(matches!(silent, Err(CallFault::Timeout(_))), "{silent:?}");
    // calls of a process
    let call = |request: Term, limit: u64| {
        let (gateway, server) = (gateway.clone(), server.clone());
        puppet
            .does(move |cx| gateway.call(cx, &server, Duration::from_millis(limit), request).map(drop))
            .expect("a call");
        puppet.hears()
    };
    assert!(call(echo_of(Term::from("yes")), 20_000).contains("given: Ok("));
    assert!(call(Term::atom("silent"), 100).contains("Timeout"));
    let crash = Term::tuple([Term::atom("crash"), Term::atom("boom")]);
    let crashed = call(crash, 20_000);
    let boom = gateway.reason_of(&Term::atom("boom"));
    assert!(crashed.contains(&format!("Down({boom:?}, None)")), "{crashed}");
    assert!(call(Term::atom("state"), 20_000).contains("Down(Noproc, None)"));
    // no proxy is left that nobody needs: ushers, the puppet
    until("end of the proxies", || run.summary().spawned > 3 && is_at_rest(&node, &gateway, &echo));
    ends(run);
}

/// Whether nobody monitors a process there, nor is linked with it.
fn is_at_rest(node: &support::Node, gateway: &Gateway, pid: &pundewo_erlang::ErlangPid) -> bool {
    let info =
        |item: &str| node.rpc(gateway, "erlang", "process_info", [pid.clone().into(), Term::atom(item)]).to_string();
    info("links") == "{links,[]}" && info("monitored_by") == "{monitored_by,[]}"
}

#[test]
fn links_and_monitors_of_erlang() {
    let Some(cluster) = cluster() else { return };
    let (run, node) = (a_run(), cluster.node("links_a"));
    let gateway = Gateway::join(&run, "links@127.0.0.1", &cluster.cookie()).expect("a node");
    let (crash, nothing) = (Term::atom("crash"), Term::atom("nothing"));
    let panic = "{panic,<<\"it was told to crash\">>}";
    for kind in ["link", "monitor"] {
        let tag = if kind == "link" { "exit" } else { "down" };
        // it crashes, exits with the table's reasons, or with one of Erlang's
        let (_puppet, pid) = Puppets::exposed(&run, &gateway);
        assert_eq!(node.text(&gateway, kind, [pid.clone(), crash.clone()]), format!("{{{tag},{panic}}}"));
        assert_eq!(node.text(&gateway, kind, [pid, nothing.clone()]), format!("{{{tag},noproc}}"));
        let reasons = [
            (Reason::Normal, "normal"),
            (Reason::Shutdown, "shutdown"),
            (Reason::Other(7), "{pundewo,7}"),
            (gateway.reason_of(&Term::tuple([Term::atom("why"), Term::from(1)])), "{why,1}"),
        ];
        for (reason, text) in reasons {
            let puppet = Puppets::new(&run);
            let stops = move |_: &mut Incoming| {
                Ok(Delivery::tell(support::ToPuppet::Do(Box::new(move |_| Next::Stop(reason)))))
            };
            // (what it is sent comes behind the link)
            let pid = Term::from(gateway.expose(&puppet.address, stops));
            assert_eq!(node.text(&gateway, kind, [pid, Term::atom("stop")]), format!("{{{tag},{text}}}"));
        }
        // taken away
        let (_puppet, pid) = Puppets::exposed(&run, &gateway);
        let away = if kind == "link" { "unlink" } else { "demonitor" };
        assert_eq!(node.text(&gateway, away, [pid, crash.clone()]), "nothing");
    }
    // an Erlang process exits: a process that traps exits hears of it, another exits
    for traps in [true, false] {
        let (puppet, pid) = Puppets::exposed(&run, &gateway);
        puppet.does(move |cx| cx.trap_exits(traps)).expect("a flag");
        let why = Term::tuple([Term::atom("bad"), Term::from(1)]);
        node.run(&gateway, "link_and_exit", [pid, Term::from(3), why.clone()]);
        assert_eq!([1, 2, 3].map(|_| puppet.hears()), [1, 2, 3].map(|number| format!("term {{number,{number}}}")));
        let told = format!("{} {}", if traps { "exit" } else { "ended" }, gateway.reason_of(&why));
        assert_eq!(puppet.hears(), told);
    }
    // exit signals
    let (puppet, pid) = Puppets::exposed(&run, &gateway);
    puppet.does(|cx| cx.trap_exits(true)).expect("a flag");
    node.run(&gateway, "exit_signal", [pid.clone(), Term::atom("shutdown")]);
    assert_eq!(puppet.hears(), "exit shutdown");
    node.run(&gateway, "exit_signal", [pid, Term::atom("kill")]);
    assert_eq!(puppet.hears(), "ended killed");
    ends(run);
}

#[test]
fn links_and_monitors_of_this_node() {
    let Some(cluster) = cluster() else { return };
    let (run, node) = (a_run(), cluster.node("proxies_a"));
    let gateway = Gateway::join(&run, "proxies@127.0.0.1", &cluster.cookie()).expect("a node");
    let exit = |reason: &Term| Term::tuple([Term::atom("exit"), reason.clone()]);
    let why = Term::tuple([Term::atom("shut"), Term::atom("down")]);
    let reason = gateway.reason_of(&why);
    assert_eq!(gateway.term_of(reason), why);
    for kind in ["link", "monitor"] {
        let (puppet, me) = Puppets::exposed(&run, &gateway);
        puppet.does(|cx| cx.trap_exits(true)).expect("a flag");
        let begin = |to: &pundewo_erlang::ErlangPid| {
            let (gateway, to) = (gateway.clone(), to.clone());
            puppet.does(move |cx| match kind {
                "link" => gateway.link(cx, &to).map(drop),
                _ => gateway.monitor(cx, &to).map(drop),
            })
        };
        // it exits, and has exited
        let (echo, tag) = (node.echo(&gateway, "none"), if kind == "link" { "exit" } else { "down" });
        begin(&echo).expect("a proxy");
        gateway.send(&echo, Term::tuple([Term::atom("send"), me.clone(), Term::from("last")])).expect("a connection");
        gateway.send(&echo, exit(&why)).expect("a connection");
        assert_eq!([puppet.hears(), puppet.hears()], ["term <<\"last\">>".to_owned(), format!("{tag} {reason}")]);
        begin(&echo).expect("a proxy");
        assert_eq!(puppet.hears(), format!("{tag} noproc"));
        // a node that is not there
        let nobody = Remote::from(("nobody", "nobody@127.0.0.1"));
        if kind == "monitor" {
            let gateway = gateway.clone();
            puppet.does(move |cx| gateway.monitor(cx, &nobody)).expect("a proxy");
            assert_eq!(puppet.hears(), format!("down {NOCONNECTION}"));
        }
        // taken away
        let echo = node.echo(&gateway, "none");
        let (taken, to) = (gateway.clone(), echo.clone());
        puppet
            .does(move |cx| match kind {
                "link" => taken.link(cx, &to).and_then(|_| taken.unlink(cx, &to)),
                _ => taken.monitor(cx, &to).map(|monitor| taken.demonitor(cx, &to, monitor)),
            })
            .expect("a proxy");
        until("end of the proxy", || is_at_rest(&node, &gateway, &echo));
        gateway.send(&echo, exit(&why)).expect("a connection");
        assert!(puppet.is_quiet());
    }
    // by a name
    node.echo(&gateway, "named");
    let (puppet, me) = Puppets::exposed(&run, &gateway);
    let (monitors, named) = (gateway.clone(), Remote::from(("named", node.name.as_str())));
    let of = named.clone();
    puppet.does(move |cx| monitors.monitor(cx, &of)).expect("a proxy");
    gateway.send(&named, exit(&why)).expect("a connection");
    assert_eq!(puppet.hears(), format!("down {reason}"));
    // this process exits: an Erlang process that traps exits hears of it, another exits
    let echo = node.echo(&gateway, "none");
    gateway.send(&echo, Term::tuple([Term::atom("trap"), me.clone()])).expect("a connection");
    assert_eq!(puppet.hears(), "term trapping");
    let (links, to) = (gateway.clone(), echo.clone());
    let own = gateway.pid(&puppet.address);
    let (listener, heard) = Puppets::exposed(&run, &gateway);
    puppet.does(move |cx| links.link(cx, &to)).expect("a proxy");
    gateway.send(&echo, Term::tuple([Term::atom("tell"), heard.clone()])).expect("a connection");
    until("link", || {
        !node
            .rpc(&gateway, "erlang", "process_info", [echo.clone().into(), Term::atom("links")])
            .to_string()
            .contains("[]")
    });
    puppet.stops(Reason::Other(9));
    assert_eq!(listener.hears(), format!("term {{got,{{'EXIT',{own},{{pundewo,9}}}}}}"));
    // exit signals
    let (signals, to) = (gateway.clone(), echo.clone());
    gateway.send(&echo, Term::tuple([Term::atom("tell"), heard])).expect("a connection");
    listener.does(move |cx| signals.exit(cx, &to, Reason::Shutdown)).expect("a connection");
    let own = gateway.pid(&listener.address);
    assert_eq!(listener.hears(), format!("term {{got,{{'EXIT',{own},shutdown}}}}"));
    let (monitors, of) = (gateway.clone(), echo.clone());
    listener.does(move |cx| monitors.monitor(cx, &of)).expect("a proxy");
    let signals = gateway.clone();
    listener.does(move |cx| signals.exit(cx, &echo, Reason::Kill)).expect("a connection");
    assert_eq!(listener.hears(), "down killed");
    ends(run);
}

#[test]
fn a_broken_connection_is_told_once() {
    let Some(cluster) = cluster() else { return };
    let run =
        Runtime::builder().desks(2).archive(HistoryFile::create(cluster.home.join("broken")).expect("a file")).start();
    let (run, node) = (run.expect("a run"), cluster.node("broken_a"));
    let gateway = Gateway::join(&run, "broken@127.0.0.1", &cluster.cookie()).expect("a node");
    for round in 0..3 {
        let holder = node.rpc(&gateway, "pundewo_peer", "holder", []);
        let holder = holder.as_pid().expect("a pid").clone();
        let mut puppets = Vec::new();
        for number in 0..4 {
            let (puppet, pid) = Puppets::exposed(&run, &gateway);
            puppet.does(|cx| cx.trap_exits(true)).expect("a flag");
            let (gateway, to) = (gateway.clone(), holder.clone());
            match number {
                0 => gateway.send(&to, Term::tuple([Term::atom("link"), pid])).expect("a connection"),
                1 => gateway.send(&to, Term::tuple([Term::atom("monitor"), pid])).expect("a connection"),
                2 => _ = puppet.does(move |cx| gateway.link(cx, &to)).expect("a proxy"),
                _ => _ = puppet.does(move |cx| gateway.monitor(cx, &to)).expect("a proxy"),
            }
            puppets.push(puppet);
        }
        // (an answer from there: all of that has come)
        let told = Term::tuple([
            Term::atom("told"),
            gateway
                .expose(&puppets[1].address, |incoming: &mut Incoming| {
                    Ok(Delivery::tell(support::ToPuppet::Term(incoming.term().clone())))
                })
                .into(),
            Term::from(round),
        ]);
        gateway.send(&holder, told.clone()).expect("a connection");
        assert_eq!(puppets[1].hears(), format!("term {{{round},[]}}"));
        std::thread::sleep(Duration::from_millis(50));
        if round == 1 {
            node.rpc(
                &gateway,
                "erlang",
                "spawn",
                [Term::atom("erlang"), Term::atom("disconnect_node"), Term::list([Term::atom(gateway.node())])],
            );
        } else {
            assert!(gateway.disconnect(&node.name));
        }
        for (number, told) in [(0, "exit"), (2, "exit"), (3, "down")] {
            assert_eq!(puppets[number].hears(), format!("{told} {NOCONNECTION}"), "{number}");
        }
        assert!(puppets.iter().all(Puppets::is_quiet));
        // and there: once each
        until("end of the connection", || gateway.connect(&node.name, LIMIT).is_ok());
        gateway.send(&holder, told).expect("a connection");
        let heard = puppets[1].hears();
        assert_eq!((heard.matches("{exit,").count(), heard.matches("{down,").count()), (2, 1), "{heard}");
        assert_eq!(heard.matches("noconnection").count(), 3, "{heard}");
    }
    ends(run);
}

#[test]
fn two_nodes_of_this_kind_see_each_other() {
    let Some(cluster) = cluster() else { return };
    let (here, there) = (a_run(), a_run());
    let gateway = Gateway::join(&here, "here@127.0.0.1", &cluster.cookie()).expect("a node");
    let other = Gateway::join(&there, "there@127.0.0.1", &cluster.cookie()).expect("a node");
    let counter = there.spawn(Counter(1)).expect("a process");
    other.serve("counter", &counter, convert);
    let to = ("counter", "there@127.0.0.1");
    assert_eq!(gateway.ask(to, LIMIT, Term::atom("read")), Ok(Term::from(1)));
    let puppet = Puppets::new(&here);
    let monitors = gateway.clone();
    puppet.does(move |cx| monitors.monitor(cx, to)).expect("a proxy");
    assert!(puppet.is_quiet());
    gateway.send(to, Term::atom("crash")).expect("a connection");
    let heard = puppet.hears();
    let term = Term::tuple([Term::atom("panic"), Term::from("it was told to crash")]);
    assert_eq!(heard, format!("down {}", gateway.reason_of(&term)));
    assert_ne!(gateway.reason_of(&term), PANIC);
    // it leaves, and the other one hears of it
    let monitors = gateway.clone();
    let (remote, of) = (Puppets::new(&there), gateway.clone());
    let pid = other.pid(&remote.address);
    puppet.does(move |cx| monitors.monitor(cx, &pid)).expect("a proxy");
    assert!(puppet.is_quiet());
    other.leave();
    assert_eq!(puppet.hears(), format!("down {NOCONNECTION}"));
    until("end of the other", || of.nodes().is_empty());
    assert_eq!(other.send(("a", "here@127.0.0.1"), 1), Err(Unsent::Broken));
    ends(there);
    ends(here);
}

#[test]
fn erlang_sees_the_node_come_and_go() {
    let Some(cluster) = cluster() else { return };
    let (run, other_run, node) = (a_run(), a_run(), cluster.node("seen_a"));
    let gateway = Gateway::join(&run, "seen@127.0.0.1", &cluster.cookie()).expect("a node");
    let asks = Gateway::join(&other_run, "asks@127.0.0.1", &cluster.cookie()).expect("a node");
    assert_eq!(node.text(&asks, "node_events", [Term::atom(gateway.node())]), "{nodeup,nodedown}");
    // the node leaves
    let (listener, told) = Puppets::exposed(&other_run, &asks);
    node.rpc(
        &asks,
        "erlang",
        "spawn",
        [Term::atom("pundewo_peer"), Term::atom("tell_nodedown"), Term::list([Term::atom(gateway.node()), told])],
    );
    assert_eq!(listener.hears(), "term watching");
    gateway.leave();
    assert_eq!(listener.hears(), "term nodedown");
    ends(run);
    ends(other_run);
}

#[test]
fn an_erlang_node_that_is_stopped_is_cut_off_and_comes_back() {
    let Some(cluster) = cluster() else { return };
    let (run, node) = (a_run(), cluster.node("stopped_a"));
    let builder = Gateway::builder(&run).unsent(1 << 20);
    let gateway = builder.join("stopped@127.0.0.1", &cluster.cookie()).expect("a node");
    let (puppet, me) = Puppets::exposed(&run, &gateway);
    let echo = node.echo(&gateway, "echo");
    let (monitors, of) = (gateway.clone(), echo.clone());
    puppet.does(move |cx| monitors.monitor(cx, &of)).expect("a proxy");
    node.signal("-STOP");
    let (sends, to) = (gateway.clone(), echo.clone());
    let (sent, took) = puppet.does(move |_| {
        let begun = Instant::now();
        let sent = (0..1_000).take_while(|_| sends.send(&to, vec![0; 100_000]).is_ok()).count();
        (sent, begun.elapsed())
    });
    println!("{sent} terms of 100 kB were sent to a stopped node in {took:?} before it was cut off");
    assert!((10..1_000).contains(&sent));
    assert_eq!(puppet.hears(), format!("down {NOCONNECTION}"));
    node.signal("-CONT");
    until("end of the stop", || gateway.connect(&node.name, LIMIT).is_ok());
    let send = Term::tuple([Term::atom("send"), me, Term::from("again")]);
    gateway.send(&echo, send).expect("a connection");
    assert_eq!(puppet.hears(), "term <<\"again\">>");
    assert!(puppet.is_quiet());
    ends(run);
}
