//! The calls of crews in the table of rows.

use super::{or_none, pick, pid, reason, refused, text, turned_text};
use pundewo::supervisors::{
    Child, ChildCounts, ChildFault, ChildSpec, GaveUp, Origin, Restart, Shutdown, Strategy, SupervisorSpec,
};
use pundewo::{Crew, Desk, Fault, Job, Loss, Next, Pid, What};

fn next(words: &[&str]) -> Next {
    match words {
        ["wait", rest @ ..] => Next::Wait(pick(rest)),
        ["wait-until", time, rest @ ..] => Next::WaitUntil(pick(rest), time.parse().unwrap()),
        ["proceed"] => Next::Proceed,
        ["stop", why] => Next::Stop(reason(why)),
        ["running"] => Next::Running,
        _ => panic!("nothing that a process does: {words:?}"),
    }
}

fn next_text(next: Next) -> String {
    match next {
        Next::Wait(pick) => format!("wait {pick}"),
        Next::WaitUntil(pick, time) => format!("wait-until {time} {pick}"),
        Next::Proceed => "proceed".to_string(),
        Next::Stop(why) => format!("stop {why}"),
        Next::Running => "running".to_string(),
    }
}

fn job_text(Job { pid, tag, what }: Job) -> String {
    match what {
        What::Start(None) => format!("start {pid} {tag}"),
        What::Start(Some(Origin { supervisor, again: false })) => format!("start {pid} {tag} under {supervisor}"),
        What::Start(Some(Origin { supervisor, again: true })) => format!("start {pid} {tag} under {supervisor} again"),
        What::Proceed => format!("proceed {pid} {tag}"),
        What::Item(item) => format!("item {pid} {tag} {item}"),
        What::Timeout => format!("timeout {pid} {tag}"),
        What::Exit(why, was) => format!("exit {pid} {tag} {why} {}", next_text(was)),
    }
}

fn loss_text(loss: &Loss) -> String {
    let why = loss.reason.map_or("stray".to_string(), |why| why.to_string());
    let items: Vec<String> = loss.items.iter().map(ToString::to_string).collect();
    let items = if items.is_empty() { items.concat() } else { format!(" {}", items.join(", ")) };
    format!("{} {why}{items}", loss.pid)
}

fn step(crew: &mut Crew, desk: &mut Desk, budget: u32, most: usize) -> Result<String, Fault> {
    let mut jobs = Vec::new();
    let turned = crew.step(desk, budget, most, &mut jobs)?;
    let texts: Vec<String> = jobs.into_iter().map(|job| format!("; {}", job_text(job))).collect();
    Ok(turned_text(turned) + &texts.concat())
}

fn answer(crew: &mut Crew, words: &[&str]) -> String {
    let given = words.split(|&word| word == ",").map(|words| (pid(words[0]), next(&words[1..])));
    let answers: Vec<(Pid, Next)> = given.collect();
    match crew.answer(&answers) {
        Ok(()) => format!("taken {}", answers.len()),
        Err(refusal) => format!("taken {}, then {}", refusal.taken, refused(refusal.fault)),
    }
}

fn losses(crew: &mut Crew, desk: &mut Desk) -> Result<String, Fault> {
    let mut texts = Vec::new();
    while let Some(loss) = crew.next_loss(desk)? {
        texts.push(loss_text(&loss));
    }
    Ok(if texts.is_empty() { "nothing".to_string() } else { texts.join("; ") })
}

const RESTARTS: [(&str, Restart); 3] =
    [("permanent", Restart::Permanent), ("transient", Restart::Transient), ("temporary", Restart::Temporary)];

/// A supervisor, of four words.
fn spec(w: &[&str]) -> SupervisorSpec {
    let strategy = match w[0] {
        "one_for_one" => Strategy::OneForOne,
        "one_for_all" => Strategy::OneForAll,
        "rest_for_one" => Strategy::RestForOne,
        word => panic!("no strategy: {word}"),
    };
    let parent = (w[3] != "-").then(|| pid(w[3]));
    SupervisorSpec { strategy, most: w[1].parse().unwrap(), span: w[2].parse().unwrap(), timed: false, parent }
}

/// Its children, of three words behind a comma each.
fn children(w: &[&str]) -> Vec<ChildSpec> {
    let child = |w: &[&str]| ChildSpec {
        tag: w[1].parse().unwrap(),
        restart: RESTARTS.iter().find(|(name, _)| *name == w[2]).expect("a restart").1,
        shutdown: match w[3] {
            "infinity" => Shutdown::Infinity,
            "brutal_kill" => Shutdown::BrutalKill,
            time => Shutdown::After(time.parse().unwrap()),
        },
        elsewhere: false,
    };
    w.chunks(4).map(child).collect()
}

fn child_text(child: &Child) -> String {
    let process = child.pid.map_or("-".to_string(), |pid| pid.to_string());
    let restart = RESTARTS.iter().find(|(_, restart)| *restart == child.restart).expect("a restart").0;
    let shutdown = match child.shutdown {
        Shutdown::Infinity => "infinity".to_string(),
        Shutdown::BrutalKill => "brutal_kill".to_string(),
        Shutdown::After(time) => time.to_string(),
    };
    format!("{process} {restart} {shutdown}{}", if child.wanted { "" } else { " unwanted" })
}

fn children_of(crew: &Crew, p: Pid) -> String {
    let Some(children) = crew.children(p) else { return "none".to_string() };
    let places = 0..children.len();
    assert!(places.clone().all(|place| crew.child(p, place) == Some(children[place])));
    assert_eq!(crew.child(p, places.end), None);
    children.iter().map(child_text).collect::<Vec<_>>().join("; ")
}

/// What came of a call about a child: a place, or nothing.
fn asked<T>(answer: Result<T, ChildFault>, done: impl Fn(T) -> String) -> String {
    match answer {
        Ok(value) => done(value),
        Err(ChildFault::NotFound) => "nothing".to_string(),
        Err(ChildFault::Running) => "child running".to_string(),
        Err(ChildFault::Restarting) => "child restarting".to_string(),
        Err(ChildFault::Present) => "child present".to_string(),
        Err(ChildFault::Memory) => "memory".to_string(),
    }
}

fn at(place: usize) -> String {
    format!("place {place}")
}

fn counts_of(crew: &Crew, p: Pid) -> Option<String> {
    let ChildCounts { specs, active, restarting } = crew.count_children(p)?;
    Some(format!("{specs} {active} {restarting}"))
}

fn cause_of(crew: &Crew, p: Pid) -> Option<String> {
    let GaveUp { tag, place, reason, restarts, span, timed } = crew.gave_up(p)?;
    Some(format!("{tag} {place} {reason} {restarts} {span}{}", if timed { " of time" } else { "" }))
}

/// What a process does next.
pub fn next_of(crew: &Crew, word: &str) -> String {
    crew.next(pid(word)).map_or("none".to_string(), next_text)
}

/// Makes a call of a crew, which the first word names by its number or by a pid of its desk.
pub fn on_crew(crew: &mut Crew, desk: &mut Desk, name: &str, w: &[&str]) -> String {
    match name {
        "crew_spawn" => text(crew.spawn(desk, w[1].parse().unwrap(), next(&w[2..]))),
        "crew_spawn_child" => {
            text(crew.spawn_child(desk, pid(w[0]), w[1] == "true", w[2].parse().unwrap(), next(&w[3..])))
        }
        "crew_supervisor" => {
            text(crew.spawn_supervisor(desk, w[1].parse().unwrap(), spec(&w[2..]), &children(&w[6..])))
        }
        "crew_supervise" => text(crew.supervise(pid(w[1]), spec(&w[2..]), &children(&w[6..])).map(|()| "ok")),
        "crew_children" => children_of(crew, pid(w[1])),
        "crew_start_child" => asked(crew.start_child(pid(w[1]), children(&w[2..])[0]), at),
        "crew_terminate_child" => asked(crew.terminate_child(pid(w[1]), w[2].parse().unwrap()), |()| "ok".to_string()),
        "crew_restart_child" => asked(crew.restart_child(pid(w[1]), w[2].parse().unwrap()), |()| "ok".to_string()),
        "crew_delete_child" => asked(crew.delete_child(pid(w[1]), w[2].parse().unwrap()), at),
        "crew_count_children" => or_none(counts_of(crew, pid(w[1]))),
        "crew_gave_up" => or_none(cause_of(crew, pid(w[1]))),
        "crew_step" => text(step(crew, desk, w[1].parse().unwrap(), w[2].parse().unwrap())),
        "crew_answer" => answer(crew, &w[1..]),
        "crew_losses" => text(losses(crew, desk)),
        "crew_next" => next_of(crew, w[1]),
        "crew_tag" => or_none(crew.tag(pid(w[1]))),
        "crew_next_time" => or_none(crew.next_time()),
        "crew_set_time" => {
            crew.set_time(w[1].parse().unwrap());
            "ok".to_string()
        }
        "crew_len" => crew.len().to_string(),
        "crew_queued" => crew.queued().to_string(),
        "crew_idle" => text(crew.is_idle(desk)),
        "crew_refused" => crew.refused().to_string(),
        "crew_begin_again" => text(crew.begin_again(desk).map(|()| "ok")),
        name => panic!("no call {name}"),
    }
}
