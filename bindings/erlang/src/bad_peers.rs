//! Nodes that know the cookie and send what no Erlang node does, and programs that do not even become a node.

#[path = "../tests/support/mod.rs"]
mod support;

use crate::connection::locked;
use crate::control::{Control, Whom};
use crate::ei;
use crate::format::write_term;
use crate::term::{ErlangPid, ErlangRef};
use crate::{Broken, Delivery, Gateway, Incoming, NOCONNECTION, Report, Term, Unsent};
use pundewo::runtime::{Behaviour, Bound, Context, Event, Next, Runtime};
use std::io::{Read, Write};
use std::net::{Ipv4Addr, TcpStream};
use std::sync::atomic::{AtomicU32, AtomicUsize, Ordering::SeqCst};
use std::sync::{Arc, Mutex};
use std::time::{Duration, Instant};
use support::{LIMIT, Puppets, cluster, ends, until};

/// A gateway, and what it has reported.
struct Tried {
    run: Runtime,
    gateway: Gateway,
    reports: Arc<Mutex<Vec<String>>>,
    broken: Arc<Mutex<Vec<Broken>>>,
}

impl Tried {
    fn new(name: &str, set: impl FnOnce(crate::Builder) -> crate::Builder) -> Option<Tried> {
        let cluster = cluster()?;
        let run = Runtime::builder().desks(2).start().expect("a run");
        let (reports, broken) = (Arc::<Mutex<Vec<String>>>::default(), Arc::<Mutex<Vec<Broken>>>::default());
        let (told, breaks) = (reports.clone(), broken.clone());
        let report = move |what: &Report<'_>| {
            locked(&told).push(what.to_string());
            if let Report::Broken { why, .. } = what {
                locked(&breaks).push(*why);
            }
        };
        let builder = set(Gateway::builder(&run)).report(report);
        let gateway = builder.join(&format!("{name}@127.0.0.1"), &cluster.cookie()).expect("a node");
        Some(Tried { run, gateway, reports, broken })
    }

    fn has_reported(&self, text: &str) -> bool {
        locked(&self.reports).iter().any(|told| told.contains(text))
    }

    fn last_broken(&self) -> Option<Broken> {
        locked(&self.broken).last().copied()
    }
}

/// A node that writes and reads bytes.
struct Raw {
    name: Arc<str>,
    stream: TcpStream,
    read: Vec<u8>,
}

impl Raw {
    fn connect(to: &Gateway) -> Raw {
        static NUMBER: AtomicU32 = AtomicU32::new(0);
        Raw::named(&format!("raw{}", NUMBER.fetch_add(1, SeqCst)), to)
    }

    fn named(alive: &str, to: &Gateway) -> Raw {
        let place = ei::Place { alive, host: "127.0.0.1", address: Ipv4Addr::LOCALHOST, port: 1, creation: 777 };
        let cookie = cluster().expect("a cluster").cookie();
        let node = ei::Node::new(&place, cookie.text()).expect("a node");
        let mut made = None;
        until("room for a node", || {
            made = node.connect(to.node(), LIMIT).ok();
            made.is_some()
        });
        let stream = made.expect("a connection");
        stream.set_read_timeout(Some(LIMIT)).expect("a time");
        let name: Arc<str> = format!("{alive}@127.0.0.1").into();
        until("connection", || to.nodes().iter().any(|node| **node == *name));
        Raw { name, stream, read: Vec::new() }
    }

    fn pid(&self, number: u32) -> ErlangPid {
        ErlangPid { node: self.name.clone(), number, serial: 0, creation: 777 }
    }

    fn reference(&self, number: u32) -> ErlangRef {
        ErlangRef { node: self.name.clone(), creation: 777, words: vec![number, 0, 0] }
    }

    fn say(&mut self, control: Control, message: Option<&Term>) {
        self.stream.write_all(&control.packet(message)).expect("a connection");
    }

    fn says_name(&mut self, name: &str, message: &Term) {
        let from = Some(self.pid(1));
        self.say(Control::Send { from, to: Whom::Name(name.into()) }, Some(message));
    }

    /// The next packet that is no tick.
    fn hears(&mut self) -> (Control, Option<Term>) {
        loop {
            if let Some((length, rest)) = self.read.split_first_chunk::<4>() {
                let length = u32::from_be_bytes(*length) as usize;
                if rest.len() >= length {
                    let packet = rest[..length].to_vec();
                    self.read.drain(..length + 4);
                    if length > 0 {
                        return Control::read(&packet).expect("a packet");
                    }
                    continue;
                }
            }
            let mut bytes = [0; 65_536];
            let count = self.stream.read(&mut bytes).expect("bytes");
            assert!(count > 0, "the connection is closed");
            self.read.extend_from_slice(&bytes[..count]);
        }
    }

    /// Whether the other node closes the connection.
    fn is_cut(&mut self) -> bool {
        let mut bytes = [0; 65_536];
        loop {
            match self.stream.read(&mut bytes) {
                Ok(0) => return true,
                Ok(_) => {}
                Err(fault) => return fault.kind() == std::io::ErrorKind::ConnectionReset,
            }
        }
    }
}

fn framed(bytes: &[u8]) -> Vec<u8> {
    let length = u32::try_from(bytes.len()).expect("a length").to_be_bytes();
    length.into_iter().chain(bytes.iter().copied()).collect()
}

/// A packet of terms, whatever they are.
fn packet(terms: &[Term]) -> Vec<u8> {
    let mut bytes = vec![b'p'];
    terms.iter().for_each(|term| write_term(&mut bytes, term));
    framed(&bytes)
}

#[test]
fn what_is_malformed_breaks_the_connection_and_nothing_else() {
    let Some(tried) = Tried::new("malformed", |builder| builder.largest(1 << 20)) else { return };
    let (puppet, _) = Puppets::exposed(&tried.run, &tried.gateway);
    puppet.does(|cx| cx.trap_exits(true)).expect("a flag");
    let tuple = |parts: &[i64]| Term::Tuple(parts.iter().map(|part| Term::from(*part)).collect());
    let atom = Term::atom("x");
    let mut short = packet(&[Term::tuple([Term::from(6), atom.clone(), atom.clone(), atom.clone()])]);
    let shorter = short.len() - 3;
    short.truncate(shorter);
    short[..4].copy_from_slice(&(shorter as u32 - 4).to_be_bytes());
    let deep: Vec<u8> = [b'p', 131].into_iter().chain([b'h', 1].repeat(5_000)).chain([b'j']).collect();
    let bad: Vec<(Vec<u8>, Broken)> = vec![
        (framed(b"x"), Broken::Malformed),
        (framed(b"p"), Broken::Malformed),
        (framed(&[b'p', 131]), Broken::Malformed),
        (framed(&[b'p', 130, 106]), Broken::Malformed),
        (framed(&[b'p', 131, 0xee]), Broken::Malformed),
        (packet(&[tuple(&[])]), Broken::Malformed),
        (packet(&[tuple(&[1, 2, 3])]), Broken::Malformed),
        (packet(&[tuple(&[19])]), Broken::Malformed),
        (packet(std::slice::from_ref(&atom)), Broken::Malformed),
        (short, Broken::Malformed),
        (packet(&[tuple(&[5]), atom.clone(), atom.clone()]), Broken::Malformed),
        (framed(&deep), Broken::Malformed),
        (vec![0xff; 8], Broken::TooLarge),
        ((2_u32 << 20).to_be_bytes().to_vec(), Broken::TooLarge),
    ];
    for (bytes, why) in bad {
        let mut raw = Raw::connect(&tried.gateway);
        let (gateway, to) = (tried.gateway.clone(), raw.pid(9));
        puppet.does(move |cx| gateway.monitor(cx, &to)).expect("a proxy");
        assert!(matches!(raw.hears(), (Control::Monitor { .. }, None)));
        raw.stream.write_all(&bytes).expect("a connection");
        assert!(raw.is_cut());
        assert_eq!(puppet.hears(), format!("down {NOCONNECTION}"));
        assert_eq!(tried.last_broken(), Some(why), "{bytes:?}");
    }
    ends(tried.run);
}

#[test]
fn no_packet_that_is_changed_makes_the_reader_panic() {
    let pid = || ErlangPid { node: "a@b".into(), number: 1, serial: 2, creation: 3 };
    let reference = ErlangRef { node: "a@b".into(), creation: 3, words: vec![1, 2, 3] };
    let controls = [
        Control::Link { from: pid(), to: pid() },
        Control::Monitor { from: pid(), to: Whom::Name("x".into()), reference: reference.clone() },
        Control::Exit { from: pid(), to: pid(), reason: Term::tuple([Term::from(1), Term::from(2.5)]) },
        Control::Send { from: Some(pid()), to: Whom::Name("x".into()) },
    ];
    let mut random = 7_u64;
    for control in controls {
        let whole = control.clone().packet(Some(&Term::list([Term::from("text"), Term::from(pid())])));
        assert_eq!(Control::read(&whole[4..]).map(|read| read.0), Ok(control));
        for _ in 0..5_000 {
            random = random.wrapping_mul(6_364_136_223_846_793_005).wrapping_add(1_442_695_040_888_963_407);
            let mut changed = whole[4..].to_vec();
            let place = (random >> 33) as usize % changed.len();
            changed[place] = (random >> 20) as u8;
            if random & 3 == 0 {
                changed.truncate(place);
            }
            let _ = Control::read(&changed);
        }
    }
}

#[test]
fn what_is_unknown_is_answered_and_breaks_nothing() {
    let Some(tried) = Tried::new("unknown", |builder| builder) else { return };
    let mut raw = Raw::connect(&tried.gateway);
    let (puppet, _) = Puppets::exposed(&tried.run, &tried.gateway);
    let live = tried.gateway.pid(&puppet.address);
    let stale = ErlangPid { creation: live.creation ^ 1, ..live.clone() };
    let (far, never) = (ErlangPid { number: u32::MAX, ..live.clone() }, ErlangPid { serial: 9, ..live.clone() });
    // (the first process of a desk sends what comes from outside, and the second one is the usher)
    let (porter, usher) = (ErlangPid { number: 0, serial: 1, ..live.clone() }, tried.gateway.usher_pid());
    for nobody in [&stale, &far, &never, &porter, &usher] {
        raw.say(Control::Link { from: raw.pid(1), to: nobody.clone() }, None);
        let exit = Control::Exit { from: nobody.clone(), to: raw.pid(1), reason: Term::atom("noproc") };
        assert_eq!(raw.hears(), (exit, None));
        raw.say(Control::Unlink { id: Some(Term::from(5)), from: raw.pid(1), to: nobody.clone() }, None);
        let ack = Control::UnlinkAck { id: Term::from(5), from: nobody.clone(), to: raw.pid(1) };
        assert_eq!(raw.hears(), (ack, None));
        raw.say(Control::ExitSignal { from: raw.pid(1), to: nobody.clone(), reason: Term::atom("kill") }, None);
        raw.say(Control::Exit { from: raw.pid(1), to: nobody.clone(), reason: Term::atom("kill") }, None);
        raw.say(Control::Send { from: None, to: Whom::Pid(nobody.clone()) }, Some(&Term::atom("x")));
    }
    for (number, nobody) in [Whom::Pid(stale), Whom::Pid(never), Whom::Name("nobody".into())].into_iter().enumerate() {
        let reference = raw.reference(number as u32);
        raw.say(Control::Monitor { from: raw.pid(1), to: nobody.clone(), reference: reference.clone() }, None);
        let reason = Term::atom("noproc");
        let down = Control::Down { from: nobody.clone(), to: raw.pid(1), reference: reference.clone(), reason };
        assert_eq!(raw.hears(), (down, None));
        raw.say(Control::Demonitor { from: raw.pid(1), to: nobody, reference }, None);
    }
    let down = Control::Down {
        from: Whom::Name("y".into()),
        to: live.clone(),
        reference: raw.reference(5),
        reason: Term::from(1),
    };
    raw.say(down, None);
    raw.say(Control::Other, None);
    raw.says_name("nobody", &Term::from(1));
    raw.say(Control::Send { from: None, to: Whom::Pid(live) }, Some(&Term::from("still here")));
    assert_eq!(puppet.hears(), "term <<\"still here\">>");
    assert!(tried.has_reported("sends to nobody, and nobody is there"));
    assert!(locked(&tried.broken).is_empty());
    ends(tried.run);
}

#[test]
fn programs_that_are_no_nodes_are_turned_away() {
    let Some(tried) = Tried::new("strangers", |builder| builder) else { return };
    let port = tried.gateway.port();
    let connect = || TcpStream::connect(("127.0.0.1", port)).expect("a connection");
    for bytes in
        [&b"GET / HTTP/1.0\r\n\r\n"[..], &[0xff; 1_000], &[0, 0], &[0, 5, b'N', 1, 2, 3, 4], &[0, 3, b's', b'o', b'k']]
    {
        let mut stream = connect();
        let _ = stream.write_all(bytes);
        let _ = stream.shutdown(std::net::Shutdown::Write);
        let _ = stream.read(&mut [0; 100]);
    }
    until("report", || tried.has_reported("a program connected that did not become a node"));
    // more that say nothing than handshakes are made
    let silent: Vec<TcpStream> = (0..40).map(|_| connect()).collect();
    drop(silent);
    let mut raw = Raw::connect(&tried.gateway);
    let (puppet, _) = Puppets::exposed(&tried.run, &tried.gateway);
    let to = Whom::Pid(tried.gateway.pid(&puppet.address));
    raw.say(Control::Send { from: None, to }, Some(&Term::from(1)));
    assert_eq!(puppet.hears(), "term 1");
    ends(tried.run);
}

#[test]
fn a_flood_of_links_and_monitors_is_bounded() {
    let Some(tried) = Tried::new("flood", |builder| builder.proxies(100)) else { return };
    let mut raw = Raw::connect(&tried.gateway);
    let (puppet, _) = Puppets::exposed(&tried.run, &tried.gateway);
    puppet.does(|cx| cx.trap_exits(true)).expect("a flag");
    let (to, live) = (tried.gateway.pid(&puppet.address), tried.run.summary().spawned);
    for number in 0..2_000 {
        let (from, reference) = (raw.pid(number), raw.reference(number));
        raw.say(Control::Link { from: from.clone(), to: to.clone() }, None);
        raw.say(Control::Monitor { from, to: Whom::Pid(to.clone()), reference }, None);
    }
    for number in 100..2_000 {
        let limit = Term::atom("system_limit");
        assert_eq!(raw.hears().0, Control::Exit { from: to.clone(), to: raw.pid(number), reason: limit.clone() });
        let down = Control::Down {
            from: Whom::Pid(to.clone()),
            to: raw.pid(number),
            reference: raw.reference(number),
            reason: limit,
        };
        assert_eq!(raw.hears().0, down);
    }
    assert_eq!(tried.run.summary().spawned - live, 100);
    drop(raw);
    (0..100).for_each(|_| assert_eq!(puppet.hears(), format!("exit {NOCONNECTION}")));
    assert!(puppet.is_quiet());
    ends(tried.run);
}

#[test]
fn a_node_that_does_not_read_is_cut_off_and_no_desk_waits() {
    let Some(tried) = Tried::new("unread", |builder| builder.unsent(1 << 20)) else { return };
    let raw = Raw::connect(&tried.gateway);
    let (puppet, _) = Puppets::exposed(&tried.run, &tried.gateway);
    let (gateway, to) = (tried.gateway.clone(), raw.pid(1));
    puppet.does(move |cx| gateway.monitor(cx, &to)).expect("a proxy");
    let (gateway, to) = (tried.gateway.clone(), raw.pid(1));
    let (sent, took) = puppet.does(move |_| {
        let begun = Instant::now();
        let sent = (0..1_000).take_while(|_| gateway.send(&to, vec![0; 100_000]).is_ok()).count();
        (sent, begun.elapsed())
    });
    println!("{sent} terms of 100 kB were sent in {took:?} before the node was cut off");
    assert!((10..1_000).contains(&sent));
    assert_eq!(puppet.hears(), format!("down {NOCONNECTION}"));
    assert_eq!(tried.last_broken(), Some(Broken::NotReading));
    ends(tried.run);
}

#[test]
fn a_node_that_says_nothing_is_cut_off() {
    let Some(tried) = Tried::new("silent", |builder| builder.tick(Duration::from_millis(400))) else { return };
    let mut raw = Raw::connect(&tried.gateway);
    // ticks keep it
    for _ in 0..10 {
        raw.stream.write_all(&[0; 4]).expect("a connection");
        std::thread::sleep(Duration::from_millis(100));
    }
    assert_eq!(tried.last_broken(), None);
    assert!(raw.is_cut());
    until("report", || tried.last_broken() == Some(Broken::Silent));
    ends(tried.run);
}

/// Takes its time for each message.
struct Slow {
    heard: Arc<AtomicUsize>,
    bound: Bound,
}

impl Behaviour for Slow {
    type Message = i64;

    fn handle(&mut self, _: &mut Context<'_, i64>, event: Event<i64>) -> Next {
        if let Event::Message(number) = event {
            assert_eq!(number as usize, self.heard.fetch_add(1, SeqCst), "in order");
            std::thread::sleep(Duration::from_micros(50));
        }
        Next::Wait
    }

    fn most_waiting(&self) -> Bound {
        self.bound
    }
}

fn number(incoming: &mut Incoming) -> Result<Delivery<i64>, crate::Refusal> {
    incoming.term().as_integer().map(Delivery::tell).ok_or(crate::Refusal::new("not_a_number"))
}

#[test]
fn a_flood_of_messages_waits_with_its_sender() {
    let Some(tried) = Tried::new("messages", |builder| builder.waiting(50)) else { return };
    let mut raw = Raw::connect(&tried.gateway);
    let heard = Arc::<AtomicUsize>::default();
    let slow = tried.run.spawn(Slow { heard: heard.clone(), bound: Bound::None }).expect("a process");
    tried.gateway.serve("slow", &slow, number);
    let watched = slow.clone();
    let watches = heard.clone();
    let watch = std::thread::spawn(move || {
        let mut most = 0;
        while watches.load(SeqCst) < 5_000 {
            most = most.max(watched.waiting());
        }
        most
    });
    (0..5_000).for_each(|number| raw.says_name("slow", &Term::from(number)));
    let most = watch.join().expect("a count");
    println!("5,000 messages for a slow process: {most} waited at most");
    assert!(most <= 51, "{most}");
    // a process that takes no more refuses a call, and lives
    let bounded = tried.run.spawn(Slow { heard: Arc::default(), bound: Bound::Refuse(0) }).expect("a process");
    tried.gateway.serve("bounded", &bounded, number);
    let caller = Term::tuple([Term::Pid(raw.pid(3)), raw.reference(1).into()]);
    raw.says_name("bounded", &Term::tuple([Term::atom("$gen_call"), caller, Term::from(0)]));
    let refused = Term::tuple([Term::atom("error"), Term::tuple([Term::atom("refused"), Term::atom("full")])]);
    assert_eq!(raw.hears().1, Some(Term::tuple([raw.reference(1).into(), refused])));
    ends(tried.run);
}

#[test]
fn another_node_of_the_same_name_takes_the_place_of_the_first() {
    let Some(tried) = Tried::new("named", |builder| builder) else { return };
    let (puppet, _) = Puppets::exposed(&tried.run, &tried.gateway);
    let mut first = Raw::named("twin", &tried.gateway);
    let (gateway, of) = (tried.gateway.clone(), first.pid(1));
    puppet.does(move |cx| gateway.monitor(cx, &of)).expect("a proxy");
    assert!(matches!(first.hears(), (Control::Monitor { .. }, None)));
    let mut second = Raw::named("twin", &tried.gateway);
    assert_eq!(puppet.hears(), format!("down {NOCONNECTION}"));
    assert!(first.is_cut());
    assert_eq!(tried.last_broken(), Some(Broken::Replaced));
    let to = second.pid(1);
    until("end of the first", || tried.gateway.send(&to, 7).is_ok());
    assert_eq!(second.hears().1, Some(Term::from(7)));
    assert!(puppet.is_quiet());
    ends(tried.run);
}

#[test]
fn large_terms_pass_and_too_large_ones_are_refused() {
    let Some(tried) = Tried::new("large", |builder| builder.largest(12 << 20)) else { return };
    let mut raw = Raw::connect(&tried.gateway);
    let (puppet, _) = Puppets::exposed(&tried.run, &tried.gateway);
    let large = Term::from(vec![b'x'; 10 << 20]);
    let to = Whom::Pid(tried.gateway.pid(&puppet.address));
    raw.say(Control::Send { from: None, to: to.clone() }, Some(&large));
    assert!(puppet.hears().len() > 10 << 20);
    tried.gateway.send(&raw.pid(1), large.clone()).expect("a connection");
    assert_eq!(raw.hears().1, Some(large));
    let larger = Term::from(vec![0; 12 << 20]);
    assert_eq!(tried.gateway.send(&raw.pid(1), larger.clone()), Err(Unsent::TooLarge));
    tried.gateway.send(&raw.pid(1), 7).expect("a connection");
    assert_eq!(raw.hears().1, Some(Term::from(7)));
    let _ = raw.stream.write_all(&Control::Send { from: None, to }.packet(Some(&larger)));
    assert!(raw.is_cut());
    until("report", || tried.last_broken() == Some(Broken::TooLarge));
    ends(tried.run);
}
