//! A runtime with nothing to do takes no time of the processor. (one test, so that no other takes any)

use pundewo::runtime::{Behaviour, Context, Event, Next, Runtime};
use std::time::Duration;

/// For how long it is looked at, and how many hundredths of a second it may take then: 0.5 % of a core.
const WHILE: Duration = Duration::from_secs(4);
const MOST: u64 = 2;

struct Waits(Next);

impl Behaviour for Waits {
    type Message = ();

    fn started(&mut self, _: &mut Context<'_, ()>) -> Next {
        self.0
    }

    fn handle(&mut self, _: &mut Context<'_, ()>, _: Event<()>) -> Next {
        self.0
    }
}

/// The time that this process took, in hundredths of a second.
fn ticks() -> u64 {
    let stat = std::fs::read_to_string("/proc/self/stat").expect("a stat");
    let words = stat.rsplit(')').next().expect("words").split_whitespace();
    words.skip(11).take(2).map(|word| word.parse::<u64>().expect("a number")).sum()
}

/// The time that this process takes in a while, in hundredths of a second.
fn taken_in_a_while() -> u64 {
    let before = ticks();
    std::thread::sleep(WHILE);
    ticks() - before
}

#[test]
fn it_rests_while_nothing_is_to_be_done() {
    let runtime = Runtime::builder().desks(4).start().expect("a run");
    for _ in 0..200 {
        runtime.spawn(Waits(Next::Wait)).expect("a process");
        runtime.spawn(Waits(Next::WaitFor(Duration::from_secs(3_600)))).expect("a process");
    }
    std::thread::sleep(Duration::from_millis(300));
    // (a busy machine takes a while until all have begun; one that never rests takes more in every while)
    let mut taken = vec![taken_in_a_while()];
    while taken.last() > Some(&MOST) && taken.len() < 10 {
        taken.push(taken_in_a_while());
    }
    assert!(taken.last() <= Some(&MOST), "{taken:?} hundredths of a second");
    assert_eq!(runtime.stop().expect("a summary").spawned, 400);
}
