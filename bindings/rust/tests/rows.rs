//! Plays the table of worked rows (`bindings/rows.py`), which `PUNDEWO_ROWS` names, and compares each answer.

#[path = "rows/crews.rs"]
mod crews;

use pundewo::{
    Account, Body, Config, Crew, Desk, Event, Fault, Gathered, History, Pick, Pid, Quiet, Reason, Ref, Turned, gather,
    go_on, open,
};
use std::fmt::Display;

fn numbers(word: &str) -> Vec<u64> {
    word.trim_matches(['<', '>', '#']).split('.').map(|part| part.parse().unwrap()).collect()
}

fn pid(word: &str) -> Pid {
    let n = numbers(word);
    Pid { shard: n[0] as u8, slot: n[1] as u32, version: n[2] as u32 }
}

fn reference(word: &str) -> Ref {
    let n = numbers(word);
    Ref { desk: n[0] as u8, number: n[1] }
}

fn reason(word: &str) -> Reason {
    match word {
        "normal" => Reason::Normal,
        "kill" => Reason::Kill,
        "killed" => Reason::Killed,
        "noproc" => Reason::Noproc,
        "shutdown" => Reason::Shutdown,
        other => Reason::Other(other.strip_prefix("other:").unwrap().parse().unwrap()),
    }
}

fn pick(words: &[&str]) -> Pick {
    match words {
        ["kind", kind] => Pick::Kind(kind.parse().unwrap()),
        ["from", sender] => Pick::From(pid(sender)),
        ["exit-of", peer] => Pick::ExitOf(pid(peer)),
        ["down-of", monitor] => Pick::DownOf(reference(monitor)),
        ["alive-of", question] => Pick::AliveOf(reference(question)),
        _ => Pick::Any,
    }
}

fn body(words: &[&str]) -> Body {
    let who = words.get(3).map(|word| pid(word));
    Body { kind: words[0].parse().unwrap(), num: words[1].parse().unwrap(), who }
}

fn refused(fault: Fault) -> String {
    match fault {
        Fault::BadDesks => "bounds desks".to_string(),
        Fault::BadSlots => "bounds slots".to_string(),
        Fault::BadTopVersion => "bounds top_version".to_string(),
        Fault::BadLane => "bounds lane".to_string(),
        Fault::BadStart => "bounds start".to_string(),
        Fault::NotRunning => "not running".to_string(),
        fault => format!("{fault:?}").to_lowercase(),
    }
}

fn text<T: Display>(answer: Result<T, Fault>) -> String {
    answer.map_or_else(refused, |value| value.to_string())
}

fn done(answer: Result<(), Fault>) -> String {
    text(answer.map(|()| "ok"))
}

fn or_none<T: Display>(value: Option<T>) -> String {
    value.map_or("none".to_string(), |value| value.to_string())
}

/// The values, with a text between each two; `nothing` if there are none.
fn joined<T: Display>(values: impl Iterator<Item = T>, between: &str) -> String {
    let texts: Vec<String> = values.map(|value| value.to_string()).collect();
    if texts.is_empty() { "nothing".to_string() } else { texts.join(between) }
}

fn stop_text(stopped: Option<Fault>) -> String {
    stopped.map_or(String::new(), |fault| format!(", then {}", refused(fault)))
}

fn turned_text(turned: Turned) -> String {
    format!("posted {} handled {}{}", turned.posted, turned.handled, stop_text(turned.stopped))
}

fn account_text(account: Account) -> String {
    let Account { ended, arrived, taken, waiting } = account;
    let how = ended.map_or("alive".to_string(), |reason| format!("ended {reason}"));
    format!("{how} arrived {arrived} taken {taken} waiting {waiting}")
}

fn event_text(mut events: impl Iterator<Item = Event>, w: &[&str]) -> String {
    let (desk, stamp): (u8, u64) = (w[0].parse().unwrap(), w[1].parse().unwrap());
    or_none(events.find(|event| event.desk == desk && event.stamp == stamp))
}

/// Makes a call of one desk, or looks at it.
fn on_desk(desk: &mut Desk, name: &str, w: &[&str]) -> String {
    match name {
        "spawn" => text(desk.spawn()),
        "spawn_child" => text(desk.spawn_child(pid(w[0]), w[1] == "true")),
        "send" => done(desk.send(pid(w[0]), pid(w[1]), body(&w[2..]))),
        "exit_signal" => done(desk.exit_signal(pid(w[0]), pid(w[1]), reason(w[2]))),
        "link" => done(desk.link(pid(w[0]), pid(w[1]))),
        "unlink" => done(desk.unlink(pid(w[0]), pid(w[1]))),
        "trap" => text(desk.trap(pid(w[0]), w[1] == "true")),
        "exit" => done(desk.exit(pid(w[0]), reason(w[1]))),
        "monitor" => text(desk.monitor(pid(w[0]), pid(w[1]))),
        "demonitor" => text(desk.demonitor(pid(w[0]), reference(w[1]), w[2] == "true")),
        "ask_alive" => text(desk.ask_alive(pid(w[0]), pid(w[1]))),
        "receive" => desk.receive(pid(w[0]), pick(&w[1..])).map_or_else(refused, or_none),
        "turn" => turned_text(desk.turn(w[1].parse().unwrap())),
        "clock" => desk.clock().to_string(),
        "pending" => desk.pending().to_string(),
        "journal" => joined(desk.events(0), "; "),
        "event" => event_text(desk.events(0), w),
        "alive" => desk.alive(pid(w[0])).to_string(),
        "knows" => desk.knows(pid(w[1])).to_string(),
        "vacant" => or_none(desk.vacant()),
        "linked" => or_none(desk.linked(pid(w[0]), pid(w[1]))),
        "waiting" => or_none(desk.waiting(pid(w[0])).map(|items| joined(items, "; "))),
        "keep_losses" => {
            desk.keep_losses(w[1] == "true");
            "ok".to_string()
        }
        name => panic!("no call {name}"),
    }
}

/// One turn of each desk: what they did together, and the first that was stopped.
fn turn_each(desks: &mut [Desk], budget: u32) -> (Turned, usize) {
    let mut sum = Turned { posted: 0, handled: 0, stopped: None };
    let mut place = 0;
    for (number, desk) in desks.iter_mut().enumerate() {
        let turned = desk.turn(budget);
        if sum.stopped.is_none() && turned.stopped.is_some() {
            (sum.stopped, place) = (turned.stopped, number);
        }
        sum.posted += turned.posted;
        sum.handled += turned.handled;
    }
    (sum, place)
}

/// Turns of all desks, until two rounds have handled nothing: what one desk posts may be for one before it.
fn turn_until_still(desks: &mut [Desk], budget: u32) -> String {
    let (mut handled, mut still) = (0, 0);
    while still < 2 {
        let (round, place) = turn_each(desks, budget);
        handled += round.handled;
        if let Some(fault) = round.stopped {
            return format!("handled {handled}, then desk {place} {}", refused(fault));
        }
        still = if round.handled > 0 { 0 } else { still + 1 };
    }
    format!("handled {handled}")
}

/// The number of the desk that a word names, by itself or by a pid.
fn number_of(word: &str) -> usize {
    if word.starts_with('<') { pid(word).shard.into() } else { word.parse().unwrap() }
}

/// Makes a call of a node that runs: of all its desks, or of the one that the first word names, or of its crew.
fn on_desks(desks: &mut [Desk], crews: &mut Vec<Crew>, name: &str, w: &[&str]) -> String {
    match name {
        "crews_open" => done(desks.iter().map(Crew::new).collect::<Result<_, _>>().map(|opened| *crews = opened)),
        _ if name.starts_with("crew_") => {
            let desk = number_of(w[0]);
            crews::on_crew(&mut crews[desk], &mut desks[desk], name, w)
        }
        "turn_all" => turned_text(turn_each(desks, w[0].parse().unwrap()).0),
        "turn_until_still" => turn_until_still(desks, w[0].parse::<u32>().unwrap().max(1)),
        "events" => desks.iter().map(Desk::event_count).sum::<usize>().to_string(),
        _ => on_desk(&mut desks[number_of(w[0])], name, w),
    }
}

/// Looks at a history.
fn on_history(history: History, name: &str, w: &[&str]) -> String {
    match name {
        "events" => history.count().to_string(),
        "event" => event_text(history.events(), w),
        "history" => joined(history.events(), "; "),
        "left_over" => joined(history.left_over(), "; "),
        name => panic!("no call {name}"),
    }
}

/// Looks at a settled node.
fn on_quiet(quiet: &Quiet, name: &str, w: &[&str]) -> String {
    match name {
        "pids" => joined(quiet.pids().unwrap(), " "),
        "account" => or_none(quiet.account(pid(w[0])).map(account_text)),
        "ended" => or_none(quiet.account(pid(w[0])).and_then(|account| account.ended)),
        "alive" => quiet.account(pid(w[0])).is_some_and(|account| account.ended.is_none()).to_string(),
        "linked" => or_none(quiet.linked(pid(w[0]), pid(w[1]))),
        "kept" => quiet.kept(pid(w[0]), reference(w[1])).to_string(),
        "watching" => quiet.watching(pid(w[0]), reference(w[1])).to_string(),
        name => on_history(quiet.history().unwrap(), name, w),
    }
}

/// A node, in one of its states.
enum Node {
    Closed,
    Running(Vec<Desk>),
    Gathered(Gathered),
    Settled(Quiet),
}

fn opened(node: &mut Node, w: &[&str]) -> String {
    let n: Vec<u64> = w.iter().map(|word| word.parse().unwrap()).collect();
    let config = Config { slots: n[1] as u32, top_version: n[2] as u32, lane: n[3] as u32, start: n[4] };
    done(open(n[0] as usize, config).map(|desks| *node = Node::Running(desks)))
}

fn gathered(desks: Vec<Desk>) -> (Node, String) {
    let gathered = gather(desks).unwrap();
    let left = gathered.history().unwrap().left_over().count();
    (Node::Gathered(gathered), format!("left-over {left}"))
}

fn settled(gathered: Gathered) -> (Node, String) {
    match gathered.settle() {
        Ok(quiet) => {
            let handled = quiet.handled();
            (Node::Settled(quiet), format!("handled {handled}"))
        }
        Err(back) => (Node::Gathered(back.gathered), refused(back.fault)),
    }
}

fn gone_on(node: Node, crews: &mut [Crew]) -> (Node, String) {
    let node = match node {
        Node::Running(desks) => pundewo::Node::Desks(desks),
        Node::Gathered(gathered) => pundewo::Node::Gathered(gathered),
        Node::Settled(_) | Node::Closed => panic!("the node does not go on"),
    };
    match go_on(node, crews) {
        Ok((desks, history)) => (Node::Running(desks), format!("events {}", history.count())),
        Err(back) => {
            let pundewo::Node::Gathered(gathered) = back.node else { panic!("the node is not gathered") };
            (Node::Gathered(gathered), refused(back.fault))
        }
    }
}

/// Makes the call that the words are, and answers its text.
fn make(node: &mut Node, crews: &mut Vec<Crew>, name: &str, w: &[&str]) -> String {
    if name == "open" {
        return opened(node, w);
    }
    let (next, answer) = match (name, std::mem::replace(node, Node::Closed)) {
        ("gather", Node::Running(desks)) => gathered(desks),
        ("settle", Node::Gathered(gathered)) => settled(gathered),
        ("resume", Node::Settled(quiet)) => (Node::Running(quiet.resume().unwrap()), "ok".to_string()),
        ("crews_go_on", node) => gone_on(node, crews),
        (name, Node::Running(mut desks)) => {
            let answer = on_desks(&mut desks, crews, name, w);
            (Node::Running(desks), answer)
        }
        ("crew_len" | "crew_next", Node::Gathered(gathered)) => {
            let crew = &crews[number_of(w[0])];
            let answer = if name == "crew_len" { crew.len().to_string() } else { crews::next_of(crew, w[1]) };
            (Node::Gathered(gathered), answer)
        }
        (name, Node::Gathered(gathered)) => {
            let answer = on_history(gathered.history().unwrap(), name, w);
            (Node::Gathered(gathered), answer)
        }
        (name, Node::Settled(quiet)) => {
            let answer = on_quiet(&quiet, name, w);
            (Node::Settled(quiet), answer)
        }
        (name, Node::Closed) => panic!("{name}: no node is open"),
    };
    *node = next;
    answer
}

/// Gathers and settles what is left of a node. A clock at its limit takes no more receipts.
fn close(node: Node) {
    let gathered = match node {
        Node::Running(desks) => gather(desks).unwrap(),
        Node::Gathered(gathered) => gathered,
        Node::Settled(_) | Node::Closed => return,
    };
    let events = gathered.history().unwrap().count();
    match gathered.settle() {
        Ok(quiet) => {
            let history = quiet.history().unwrap();
            assert!(history.left_over().next().is_none() && history.count() >= events);
        }
        Err(back) => assert_eq!(back.fault, Fault::Worn),
    }
}

#[test]
fn the_rows_answer_as_they_do_in_rattle() {
    let table = std::fs::read_to_string(std::env::var("PUNDEWO_ROWS").expect("PUNDEWO_ROWS names the table")).unwrap();
    let (mut node, mut crews) = (Node::Closed, Vec::new());
    let (mut row, mut rows, mut answers) = ("", 0, 0);
    for line in table.lines() {
        if let Some(name) = line.strip_prefix("row ") {
            close(std::mem::replace(&mut node, Node::Closed));
            crews.clear();
            row = name;
            rows += 1;
            continue;
        }
        let (call, wanted) = line.split_once(" = ").map_or((line, None), |(call, wanted)| (call, Some(wanted)));
        let words: Vec<&str> = call.split(' ').collect();
        // (no value has such a code)
        if words.iter().any(|word| word.starts_with("code:")) {
            continue;
        }
        let answer = make(&mut node, &mut crews, words[0], &words[1..]);
        if let Some(wanted) = wanted {
            assert_eq!(answer, wanted, "{row}: {call}");
            answers += 1;
        }
    }
    close(node);
    assert!(rows >= 125 && answers >= 2000);
}
