//! Selective receive: what a process takes now, what waits meanwhile, and what it postpones.

use pundewo::runtime::{
    Address, Behaviour, Bound, Call, CallFault, Context, Event, FIRST_KIND, MESSAGE, Next, PANIC, Refusal, Reply,
    Runtime, Selection,
};
use pundewo::{Happened, History, Item, Pick, Reason};
use std::collections::VecDeque;
use std::sync::mpsc::{Receiver, Sender, channel};
use std::sync::{Arc, Mutex};
use std::time::Duration;

const LONG: Duration = Duration::from_secs(120);
/// A time that is over soon, and within which a busy machine has handled what came before it.
const SHORT: Duration = Duration::from_millis(300);
/// A kind that no message has.
const NEVER: u32 = 50;

type Error = Box<dyn std::error::Error>;

/// A message of a kind.
#[derive(Debug, PartialEq, Eq)]
struct Note {
    kind: u32,
    number: u32,
}

fn note(kind: u32, number: u32) -> Note {
    Note { kind, number }
}

/// Does what the closure says. It begins with `None`.
struct Plays<F> {
    play: F,
    bound: Bound,
}

impl<F> Behaviour for Plays<F>
where
    F: FnMut(&mut Context<'_, Note>, Option<Event<Note>>) -> Next + Send + 'static,
{
    type Message = Note;

    fn started(&mut self, cx: &mut Context<'_, Note>) -> Next {
        (self.play)(cx, None)
    }

    fn handle(&mut self, cx: &mut Context<'_, Note>, event: Event<Note>) -> Next {
        (self.play)(cx, Some(event))
    }

    fn kind(message: &Note) -> u32 {
        message.kind
    }

    fn most_waiting(&self) -> Bound {
        self.bound
    }
}

fn plays<F>(play: F) -> Plays<F>
where
    F: FnMut(&mut Context<'_, Note>, Option<Event<Note>>) -> Next + Send + 'static,
{
    Plays { play, bound: Bound::None }
}

/// Tells the test what it is told, and waits for one thing after the other.
fn steps(
    mut nexts: VecDeque<Next>,
    told: Sender<Event<Note>>,
) -> impl FnMut(&mut Context<'_, Note>, Option<Event<Note>>) -> Next {
    move |_, event| {
        if let Some(event) = event {
            let _ = told.send(event);
        }
        nexts.pop_front().unwrap_or(Next::Wait)
    }
}

fn hears_number(from: &Receiver<Event<Note>>) -> Result<u32, Error> {
    match from.recv_timeout(LONG)? {
        Event::Message(note) => Ok(note.number),
        other => Err(format!("{other:?}").into()),
    }
}

/// Waits until so many messages wait for the process: what it takes may still be counted for a while.
fn waits_for(process: &Address<Note>, count: usize) {
    let begun = std::time::Instant::now();
    while process.waiting() != count {
        assert!(begun.elapsed() < LONG, "{} messages wait, and not {count}", process.waiting());
        std::thread::sleep(Duration::from_millis(1));
    }
}

#[test]
fn a_selection_takes_what_it_says() {
    let some = Selection::kinds(&[1, 4]);
    assert!(some.takes_kind(1) && some.takes_kind(4) && !some.takes_kind(0) && !some.takes_kind(70));
    let rest = Selection::all_but(&[1, 4]);
    assert!((0..200).all(|kind| rest.takes_kind(kind) != some.takes_kind(kind)));
    // the kinds from 63 on are as one
    assert!(some.with(&[63]).takes_kind(u32::MAX) && !rest.without(&[900]).takes_kind(63));
    assert!((0..63).all(|kind| rest.without(&[900]).takes_kind(kind) == rest.takes_kind(kind)));
    assert_eq!(Selection::NONE.with(&[2]).without(&[2]), Selection::NONE);
    assert_eq!(
        Selection::ALL.downs(false).exits(false).answers(false).without(&(0..64).collect::<Vec<_>>()),
        Selection::NONE
    );
    assert_ne!(Selection::NONE.downs(true), Selection::NONE.exits(true));
}

/// One kind alone is a pick of the library: all else stays in the table's mailbox.
#[test]
fn one_kind_is_chosen_by_the_library() -> Result<(), Error> {
    let taken = Arc::new(Mutex::new(Vec::new()));
    let all = taken.clone();
    let sink = move |history: &History| -> Result<(), Refusal> {
        let took = history.events().filter_map(|event| match event.happened {
            Happened::Took(_, pick, Item::User(_, body)) => Some((pick, body.kind)),
            _ => None,
        });
        all.lock().map_err(|_| "a lock")?.extend(took);
        Ok(())
    };
    let (runtime, (give, told)) = (Runtime::builder().desks(1).archive(sink).start()?, channel());
    let third = Next::Select(Selection::kinds(&[3]));
    let process = runtime.spawn(plays(steps([third, third].into(), give)))?;
    for (number, kind) in (0..).zip([1, 2, 3, 1, 0, 3]) {
        assert!(process.send(note(kind, number)));
    }
    for number in [2, 5, 0, 1, 3, 4] {
        assert_eq!(hears_number(&told)?, number);
    }
    runtime.stop()?;
    let (third, any) = (Pick::Kind(FIRST_KIND + 3), Pick::Any);
    let [one, two] = [1, 2].map(|kind| (any, FIRST_KIND + kind));
    let wanted = [(third, FIRST_KIND + 3), (third, FIRST_KIND + 3), one, two, one, (any, pundewo::runtime::MESSAGE)];
    assert_eq!(*taken.lock().map_err(|_| "a lock")?, wanted);
    Ok(())
}

/// A source of numbers that are as random as a test needs.
struct Draw(u64);

impl Draw {
    fn below(&mut self, most: u32) -> u32 {
        self.0 = self.0.wrapping_mul(6_364_136_223_846_793_005).wrapping_add(1_442_695_040_888_963_407);
        (self.0 >> 33) as u32 % most
    }

    /// What takes messages of some kinds, and which.
    fn next(&mut self) -> (Next, Box<dyn Fn(u32) -> bool>) {
        let (one, two) = (self.below(6), self.below(6));
        match self.below(6) {
            0 => (Next::Wait, Box::new(|_| true)),
            1 => (Next::Only(Pick::Kind(FIRST_KIND + 1 + one)), Box::new(move |kind| kind == 1 + one)),
            2 => (Next::Select(Selection::kinds(&[one])), Box::new(move |kind| kind == one)),
            3 => {
                (Next::SelectFor(Selection::kinds(&[one, two]), LONG), Box::new(move |kind| kind == one || kind == two))
            }
            4 => (Next::Select(Selection::all_but(&[one, two])), Box::new(move |kind| kind != one && kind != two)),
            _ => (Next::OnlyFor(Pick::Any, LONG), Box::new(|_| true)),
        }
    }
}

/// Any selections one after the other: each takes the oldest that it takes of what no earlier one took.
#[test]
fn selections_take_the_oldest_that_fits() -> Result<(), Error> {
    for seed in 0..60 {
        let mut draw = Draw(seed);
        let mut waiting: Vec<(u32, u32)> = (0..200).map(|number| (draw.below(7), number)).collect();
        let (mut nexts, mut wanted) = (VecDeque::new(), Vec::new());
        let (sent, every) = (waiting.clone(), 20 + 40 * draw.below(20) as usize);
        loop {
            let (next, takes) = draw.next();
            nexts.push_back(next);
            match waiting.iter().position(|&(kind, _)| takes(kind)) {
                Some(place) => wanted.push(waiting.remove(place).1),
                None => break,
            }
        }
        let (give, told) = channel();
        let runtime = Runtime::builder().desks(2).going_on_every(every).start()?;
        let process = runtime.spawn_on(1, plays(steps(nexts, give)))?;
        for (kind, number) in sent {
            assert!(process.send(note(kind, number)));
        }
        for number in wanted {
            assert_eq!(hears_number(&told)?, number, "seed {seed}");
        }
        // the rest waits
        assert!(told.recv_timeout(Duration::from_millis(2)).is_err());
        waits_for(&process, waiting.len());
        runtime.stop()?;
    }
    Ok(())
}

/// Any selections of one kind and of several, and picks, with what is postponed and retried in between: each takes the oldest that
/// it takes and that is not postponed.
#[test]
fn postponed_messages_keep_their_places() -> Result<(), Error> {
    for seed in 100..140 {
        let mut draw = Draw(seed);
        // (the kind, the number, and whether it is postponed)
        let mut waiting: Vec<(u32, u32, bool)> = (0..150).map(|number| (draw.below(4), number, false)).collect();
        let sent = waiting.clone();
        let (mut nexts, mut deeds, mut wanted) = (VecDeque::new(), VecDeque::new(), Vec::new());
        for _ in 0..400 {
            let one = draw.below(4);
            let letter = if one == 0 { MESSAGE } else { FIRST_KIND + one };
            let (next, takes): (Next, fn(u32, u32) -> bool) = match draw.below(5) {
                0 => (Next::Wait, |_, _| true),
                1 => (Next::Select(Selection::kinds(&[one])), |kind, one| kind == one),
                2 => (Next::Only(Pick::Kind(letter)), |kind, one| kind == one),
                _ => (Next::Select(Selection::all_but(&[one])), |kind, one| kind != one),
            };
            nexts.push_back(next);
            let fits = |it: &(u32, u32, bool)| !it.2 && takes(it.0, one);
            let Some(place) = waiting.iter().position(fits) else { break };
            wanted.push(waiting[place].1);
            let (postpones, retries) = (draw.below(3) == 0, draw.below(12) == 0);
            deeds.push_back((postpones, retries));
            if postpones {
                waiting[place].2 = true
            } else {
                _ = waiting.remove(place)
            }
            if retries {
                waiting.iter_mut().for_each(|it| it.2 = false);
            }
        }
        let (give, told) = channel();
        let runtime = Runtime::builder().desks(2).going_on_every(50).start()?;
        let process = runtime.spawn_on(
            1,
            plays(move |cx, event| {
                if let Some(Event::Message(it)) = event {
                    let Some((postpones, retries)) = deeds.pop_front() else { return Next::Select(Selection::NONE) };
                    let _ = give.send(it.number);
                    if postpones {
                        assert!(cx.postpone(Event::Message(it)));
                    }
                    if retries {
                        cx.retry();
                    }
                }
                nexts.pop_front().unwrap_or(Next::Select(Selection::NONE))
            }),
        )?;
        for (kind, number, _) in sent {
            assert!(process.send(note(kind, number)));
        }
        for number in wanted {
            assert_eq!(told.recv_timeout(LONG)?, number, "seed {seed}");
        }
        assert!(told.recv_timeout(Duration::from_millis(2)).is_err());
        waits_for(&process, waiting.len());
        assert_eq!(runtime.stop()?.panics, 0);
    }
    Ok(())
}

/// What ends a call and waits aside is nothing once the call has ended otherwise, also if the process takes the same as before.
#[test]
fn a_late_answer_that_waits_aside_is_dropped() -> Result<(), Error> {
    let (runtime, (give, told)) = (Runtime::builder().desks(1).start()?, channel());
    let value = Arc::new(());
    let held = value.clone();
    let server = runtime.spawn(Gives(held))?;
    let mut step = 0;
    let process = runtime.spawn(plays(move |cx, event| {
        if let Some(event) = event {
            give.send(format!("{event:?}")).expect("a test");
        }
        step += 1;
        match step {
            // its answer and the end of its time wait, whichever comes first
            1 => {
                cx.call(&server, Duration::ZERO, |reply| reply).expect("a call");
                Next::SelectFor(Selection::kinds(&[NEVER, NEVER + 1]), SHORT)
            }
            2 => Next::Select(Selection::NONE.answers(true).with(&[2, 3])),
            _ => Next::Select(Selection::kinds(&[2, 3])),
        }
    }))?;
    assert_eq!(told.recv_timeout(LONG)?, "Timeout");
    assert!(told.recv_timeout(LONG)?.starts_with("Answer("));
    for number in 0..3 {
        assert!(process.send(note(2, number)));
        assert!(told.recv_timeout(LONG)?.starts_with("Message("));
    }
    // (it is in the server alone)
    let begun = std::time::Instant::now();
    while Arc::strong_count(&value) > 2 && begun.elapsed() < LONG {
        std::thread::sleep(Duration::from_millis(1));
    }
    assert_eq!(Arc::strong_count(&value), 2);
    runtime.stop()?;
    Ok(())
}

/// Answers with its value.
struct Gives(Arc<()>);

impl Behaviour for Gives {
    type Message = Reply<Arc<()>>;

    fn handle(&mut self, cx: &mut Context<'_, Self::Message>, event: Event<Self::Message>) -> Next {
        if let Event::Message(reply) = event {
            cx.reply(reply, self.0.clone());
        }
        Next::Wait
    }
}

/// Crashes at the first message.
struct Frail;

impl Behaviour for Frail {
    type Message = &'static str;

    fn handle(&mut self, _: &mut Context<'_, &'static str>, event: Event<&'static str>) -> Next {
        match event {
            Event::Message(text) => panic!("{text}"),
            _ => Next::Wait,
        }
    }
}

/// Answers a request with the number in it.
struct Echo;

struct Ask(u32, Reply<u32>);

impl Behaviour for Echo {
    type Message = Ask;

    fn handle(&mut self, cx: &mut Context<'_, Ask>, event: Event<Ask>) -> Next {
        if let Event::Message(Ask(number, reply)) = event {
            cx.reply(reply, number);
        }
        Next::Wait
    }
}

/// Has one of each to come: the news of a monitor, an exit signal, an answer, and a message of the kind 1.
fn begins(cx: &mut Context<'_, Note>, echo: &Address<Ask>) -> Call<u32> {
    let (seen, linked) = (cx.spawn(Frail).expect("a process"), cx.spawn_linked(Frail).expect("a process"));
    cx.trap_exits(true).expect("a flag");
    cx.monitor(&seen).expect("a monitor");
    cx.send(&seen, "seen");
    cx.send(&linked, "linked");
    let me = cx.me().clone();
    cx.send(&me, note(1, 7));
    cx.call(echo, LONG, |reply| Ask(5, reply)).expect("a call")
}

/// The news of monitors, exit signals and answers are chosen apart from messages, in whatever order they have come.
#[test]
fn news_are_chosen_apart() -> Result<(), Error> {
    // (in the table's mailbox, or beside it)
    for before in [Selection::NONE, Selection::kinds(&[NEVER, NEVER + 1])] {
        let runtime = Runtime::builder().desks(2).going_on_every(10).start()?;
        let ((give, told), mut call) = (channel(), None);
        let echo = runtime.spawn_on(1, Echo)?;
        let none = Selection::NONE;
        let mut nexts = [none.answers(true), none.exits(true), Selection::kinds(&[1]), none.downs(true)].into_iter();
        let mut begun = false;
        runtime.spawn_on(
            0,
            plays(move |cx, event| {
                match event {
                    None => call = Some(begins(cx, &echo)),
                    Some(Event::Answer(answer)) => {
                        let value = answer.to(&call.expect("a call")).expect("its answer");
                        give.send(format!("answer {value:?}")).expect("a test");
                    }
                    Some(event) => give.send(format!("{event:?}")).expect("a test"),
                }
                if !std::mem::replace(&mut begun, true) {
                    return Next::SelectFor(before, SHORT);
                }
                nexts.next().map_or(Next::DONE, Next::Select)
            }),
        )?;
        (0..3).for_each(|_| runtime.go_on());
        let heard: Vec<String> = (0..5).map(|_| told.recv_timeout(LONG)).collect::<Result<_, _>>()?;
        assert_eq!(heard[..2], ["Timeout", "answer Ok(5)"]);
        assert!(heard[2].starts_with("Exit(Exit {") && heard[2].ends_with("panic: Some(\"linked\") })"), "{heard:?}");
        assert_eq!(heard[3], "Message(Note { kind: 1, number: 7 })");
        assert!(heard[4].starts_with("Down(Down {") && heard[4].ends_with("panic: Some(\"seen\") })"), "{heard:?}");
        assert_eq!(runtime.wait_or_stop()?, 2);
    }
    Ok(())
}

trait WaitOrStop {
    fn wait_or_stop(self) -> Result<u64, Error>;
}

impl WaitOrStop for Runtime {
    /// Ends the run, and returns how many handlers have panicked.
    fn wait_or_stop(self) -> Result<u64, Error> {
        Ok(self.drain(LONG)?.panics)
    }
}

/// A monitor that is taken back tells nothing, also if its news has come and waits. A call whose time is over tells that once.
#[test]
fn what_is_taken_back_does_not_come() -> Result<(), Error> {
    let (runtime, (give, told)) = (Runtime::builder().desks(1).start()?, channel());
    let never = Next::SelectFor(Selection::kinds(&[NEVER, NEVER + 1]), SHORT);
    let (mut monitor, mut step) = (None, 0);
    runtime.spawn(plays(move |cx, event| {
        if let Some(event) = event {
            give.send(format!("{event:?}")).expect("a test");
        }
        step += 1;
        match step {
            1 => {
                let frail = cx.spawn(Frail).expect("a process");
                monitor = Some(cx.monitor(&frail).expect("a monitor"));
                cx.send(&frail, "seen");
                // its answer, the news of its time and that of its exit wait
                let late = cx.spawn(Late(None)).expect("a process");
                cx.call(&late, SHORT / 4, |reply| reply).expect("a call");
                never
            }
            2 => {
                cx.demonitor(monitor.expect("a monitor"));
                Next::Select(Selection::NONE.answers(true))
            }
            3 => Next::WaitFor(SHORT),
            _ => Next::DONE,
        }
    }))?;
    assert_eq!(told.recv_timeout(LONG)?, "Timeout");
    let answer = told.recv_timeout(LONG)?;
    assert!(answer.contains("given: Err(Timeout("), "{answer}");
    assert_eq!(told.recv_timeout(LONG)?, "Timeout");
    assert_eq!(runtime.drain(LONG)?.panics, 1);
    Ok(())
}

/// Answers when the time of the call is over, and then exits.
struct Late(Option<Reply<u32>>);

impl Behaviour for Late {
    type Message = Reply<u32>;

    fn handle(&mut self, cx: &mut Context<'_, Reply<u32>>, event: Event<Reply<u32>>) -> Next {
        match event {
            Event::Message(reply) => self.0 = Some(reply),
            _ => {
                let reply = self.0.take().expect("a reply");
                cx.reply(reply, 9);
                return Next::DONE;
            }
        }
        Next::WaitFor(SHORT / 2)
    }
}

/// What nobody wants does not put the time off.
#[test]
fn a_time_is_kept_while_unwanted_messages_come() -> Result<(), Error> {
    let begun = std::time::Instant::now();
    let (runtime, (give, told)) = (Runtime::builder().desks(1).start()?, channel());
    let next = Next::SelectFor(Selection::kinds(&[NEVER, NEVER + 1]), SHORT);
    let process = runtime.spawn(plays(steps([next].into(), give)))?;
    let mut sent = 0;
    let first = loop {
        assert!(process.send(note(1, sent)));
        sent += 1;
        match told.recv_timeout(SHORT / 20) {
            Ok(first) => break first,
            Err(_) => assert!(begun.elapsed() < LONG),
        }
    };
    assert!(matches!(first, Event::Timeout) && begun.elapsed() >= SHORT);
    for number in 0..sent {
        assert_eq!(hears_number(&told)?, number);
    }
    runtime.stop()?;
    Ok(())
}

/// What waits aside counts as what waits, and its bound holds.
#[test]
fn bounds_hold_for_what_waits_aside() -> Result<(), Error> {
    let (runtime, (give, told)) = (Runtime::builder().desks(1).start()?, channel());
    let next = Next::Select(Selection::kinds(&[NEVER, NEVER + 1]));
    let bound = Bound::DropOldest(4);
    let process = runtime.spawn(Plays { play: steps([next].into(), give), bound })?;
    (0..10).for_each(|number| assert!(process.send(note(1, number))));
    waits_for(&process, 4);
    assert!(told.recv_timeout(SHORT).is_err());
    assert_eq!(process.waiting(), 4);
    assert!(process.send(note(NEVER, 99)));
    assert_eq!(hears_number(&told)?, 99);
    for _ in 0..7 {
        assert!(matches!(told.recv_timeout(LONG)?, Event::Lost));
    }
    for number in 7..10 {
        assert_eq!(hears_number(&told)?, number);
    }
    assert_eq!((process.waiting(), runtime.stop()?.panics), (0, 0));
    Ok(())
}

/// Sends a note, answers, sends another note, and exits.
struct Talks;

impl Behaviour for Talks {
    type Message = (Address<Note>, Reply<u32>);

    fn handle(&mut self, cx: &mut Context<'_, Self::Message>, event: Event<Self::Message>) -> Next {
        let Event::Message((to, reply)) = event else { return Next::Wait };
        cx.send(&to, note(1, 1));
        cx.reply(reply, 7);
        cx.send(&to, note(2, 2));
        Next::DONE
    }
}

/// What one process sends comes in order, also if the last was taken alone by its kind and postponed: the answer of a call and the
/// news of its exit are among that.
#[test]
fn what_was_picked_out_and_postponed_comes_after_what_is_older() -> Result<(), Error> {
    let (runtime, (give, told)) = (Runtime::builder().desks(2).going_on_every(40).start()?, channel());
    for (desk, _) in (0..40).map(|round| (round % 2, round)) {
        let (give, talks) = (give.clone(), runtime.spawn_on(0, Talks)?);
        let (mut call, mut count) = (None, 0);
        runtime.spawn_on(
            desk,
            plays(move |cx, event| {
                count += 1;
                match event {
                    None => {
                        cx.monitor(&talks).expect("a monitor");
                        let me = cx.me().clone();
                        call = Some(cx.call(&talks, LONG, |reply| (me, reply)).expect("a call"));
                        return Next::Select(Selection::kinds(&[2]));
                    }
                    Some(Event::Message(it)) if count == 2 => {
                        assert!(it.number == 2 && cx.postpone(Event::Message(it)));
                        cx.retry();
                        return Next::Wait;
                    }
                    Some(Event::Message(it)) => give.send(it.number).expect("a test"),
                    Some(Event::Answer(answer)) => {
                        let answer = answer.to(&call.expect("a call")).expect("its answer");
                        give.send(answer.expect("no fault")).expect("a test");
                    }
                    Some(Event::Down(_)) => give.send(0).expect("a test"),
                    other => panic!("{other:?}"),
                }
                if count == 6 { Next::DONE } else { Next::Wait }
            }),
        )?;
        let heard: Vec<u32> = (0..4).map(|_| told.recv_timeout(LONG)).collect::<Result<_, _>>()?;
        assert_eq!(heard, [1, 7, 2, 0], "desk {desk}");
    }
    assert_eq!(runtime.wait()?.panics, 0);
    Ok(())
}

/// Postpones odd numbers until it gets 100. What waits meanwhile comes after those.
#[test]
fn what_is_postponed_comes_again_in_order() -> Result<(), Error> {
    let (runtime, (give, told)) = (Runtime::builder().desks(1).going_on_every(30).start()?, channel());
    let mut is_open = false;
    let process = runtime.spawn(plays(move |cx, event| {
        match event {
            Some(Event::Message(it)) if !is_open && it.number % 2 == 1 => {
                assert!(cx.postpone(Event::Message(it)) && !cx.postpone(Event::Lost));
                give.send(-1).expect("a test");
            }
            Some(Event::Message(it)) => {
                if it.number == 100 {
                    is_open = true;
                    cx.retry();
                }
                give.send(i64::from(it.number)).expect("a test");
            }
            Some(event) => assert!(!cx.postpone(event)),
            None => assert!(!cx.postpone(Event::Message(note(0, 0)))),
        }
        if is_open { Next::Wait } else { Next::Select(Selection::all_but(&[2])) }
    }))?;
    for (kind, number) in [(1, 1), (2, 2), (1, 3), (1, 4), (2, 5), (1, 100), (1, 6), (2, 7)] {
        assert!(process.send(note(kind, number)));
    }
    let heard: Vec<i64> = (0..10).map(|_| told.recv_timeout(LONG)).collect::<Result<_, _>>()?;
    assert_eq!(heard, [-1, -1, 4, 100, 1, 2, 3, 5, 6, 7]);
    assert_eq!((process.waiting(), runtime.stop()?.panics), (0, 0));
    Ok(())
}

/// News that is postponed comes again as it was, and a message that is postponed may be the oldest, which is dropped.
#[test]
fn news_are_postponed_and_bounds_hold() -> Result<(), Error> {
    let (runtime, (give, told)) = (Runtime::builder().desks(1).start()?, channel());
    let echo = runtime.spawn(Echo)?;
    let mut events = 0;
    let play = move |cx: &mut Context<'_, Note>, event: Option<Event<Note>>| {
        match event {
            None => _ = begins(cx, &echo),
            Some(Event::Timeout) => cx.retry(),
            Some(Event::Exit(exit)) if exit.reason == Reason::Shutdown => return Next::DONE,
            Some(event) if events < 4 => {
                events += 1;
                assert!(cx.postpone(event));
                if events == 4 {
                    let me = cx.me().clone();
                    cx.send(&me, note(1, 8));
                }
            }
            Some(event) => give.send(format!("{event:?}")).expect("a test"),
        }
        Next::WaitFor(SHORT)
    };
    let process = runtime.spawn(Plays { play, bound: Bound::DropOldest(1) })?;
    let mut heard: Vec<String> = (0..5).map(|_| told.recv_timeout(LONG)).collect::<Result<_, _>>()?;
    heard.sort();
    assert!(heard[0].starts_with("Answer(") && heard[0].contains("given: Ok("), "{heard:?}");
    assert!(heard[1].starts_with("Down(") && heard[2].starts_with("Exit("), "{heard:?}");
    // the one with the number 7 was postponed and then dropped for the one with the number 8
    assert_eq!(heard[3..], ["Lost", "Message(Note { kind: 1, number: 8 })"]);
    assert_eq!((process.waiting(), runtime.stop()?.panics), (0, 2));
    Ok(())
}

/// A process that exits drops what waits aside, and a call in it ends.
#[test]
fn what_waits_aside_is_dropped_with_its_process() -> Result<(), Error> {
    struct Holds;
    impl Behaviour for Holds {
        type Message = (u32, Option<Reply<u32>>, Arc<()>);
        fn started(&mut self, _: &mut Context<'_, Self::Message>) -> Next {
            Next::Select(Selection::kinds(&[NEVER, NEVER + 1]))
        }
        fn handle(&mut self, _: &mut Context<'_, Self::Message>, _: Event<Self::Message>) -> Next {
            panic!("enough")
        }
        fn kind(message: &Self::Message) -> u32 {
            message.0
        }
    }
    let (runtime, value) = (Runtime::builder().desks(1).start()?, Arc::new(()));
    let holds = runtime.spawn(Holds)?;
    let asked = holds.ask(|reply| (1, Some(reply), value.clone()));
    (0..100).for_each(|_| assert!(holds.send((2, None, value.clone()))));
    assert!(holds.send((NEVER, None, value.clone())));
    assert_eq!(asked.wait(LONG), Err(CallFault::Down(PANIC, Some("enough".into()))));
    assert_eq!(runtime.drain(LONG)?.panics, 1);
    assert_eq!(Arc::strong_count(&value), 1);
    Ok(())
}

/// Picks of senders, exits and monitors take from what waits aside what they take from the table.
#[test]
fn picks_take_from_what_waits_aside() -> Result<(), Error> {
    for before in [Selection::NONE, Selection::kinds(&[NEVER, NEVER + 1])] {
        let (runtime, (give, told)) = (Runtime::builder().desks(1).start()?, channel());
        let (mut picks, mut step) = (Vec::new(), 0);
        runtime.spawn(plays(move |cx, event| {
            if let Some(event) = event {
                give.send(format!("{event:?}")).expect("a test");
            }
            step += 1;
            if step == 1 {
                let (seen, linked) = (cx.spawn(Frail).expect("a process"), cx.spawn_linked(Frail).expect("a process"));
                cx.trap_exits(true).expect("a flag");
                let monitor = cx.monitor(&seen).expect("a monitor");
                cx.send(&seen, "seen");
                cx.send(&linked, "linked");
                let me = cx.me().clone();
                cx.send(&me, note(1, 7));
                picks = vec![Pick::Any, Pick::From(cx.pid()), Pick::DownOf(monitor), Pick::ExitOf(linked.pid())];
                return Next::SelectFor(before, SHORT);
            }
            picks.pop().map_or(Next::Stop(Reason::Normal), |pick| Next::OnlyFor(pick, SHORT))
        }))?;
        let heard: Vec<String> = (0..5).map(|_| told.recv_timeout(LONG)).collect::<Result<_, _>>()?;
        let begins: Vec<&str> = heard.iter().map(|it| it.split('(').next().unwrap_or("")).collect();
        assert_eq!(begins, ["Timeout", "Exit", "Down", "Message", "Timeout"], "{heard:?}");
        assert_eq!(runtime.drain(LONG)?.panics, 2);
    }
    Ok(())
}

/// A hundred thousand messages may wait aside, and each step costs no walk over them.
#[test]
fn many_may_wait_aside() -> Result<(), Error> {
    const MANY: u32 = 100_000;
    let (runtime, (give, told)) = (Runtime::builder().desks(1).start()?, channel());
    let mut left = MANY;
    let process = runtime.spawn(plays(move |_, event| {
        match event {
            Some(Event::Message(it)) if it.kind == 1 => give.send(it.number).expect("a test"),
            Some(Event::Message(_)) => left -= 1,
            _ => {}
        }
        if left > 0 { Next::Select(Selection::kinds(&[2, 3])) } else { Next::Wait }
    }))?;
    for number in 0..MANY {
        assert!(process.send(note(1, number)) && process.send(note(2 + number % 2, 0)));
    }
    for number in 0..MANY {
        assert_eq!(told.recv_timeout(LONG)?, number);
    }
    runtime.stop()?;
    Ok(())
}
