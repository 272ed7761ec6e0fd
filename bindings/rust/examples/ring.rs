//! A ring of processes over four desks, a thread each: a token goes round. Then the desks are gathered and settled, and
//! the first events of the history printed.

use pundewo::{Body, Config, Desk, Fault, Item, Pick, Pid, gather, open};
use std::sync::atomic::{AtomicBool, Ordering};
use std::thread;

const DESKS: usize = 4;
const TOKEN: u32 = 1;

/// Passes the tokens on until one is spent: by this desk, or by another one.
fn work(mut desk: Desk, me: Pid, next: Pid, done: &AtomicBool) -> Result<Desk, Fault> {
    let mut at = 0;
    while !done.load(Ordering::SeqCst) {
        desk.turn(64);
        // the journal names each process that got an item
        while let Some(woken) = desk.next_woken(&mut at) {
            if woken != me {
                continue;
            }
            while let Some(Item::User(_, Body { num, .. })) = desk.receive(me, Pick::Kind(TOKEN))? {
                match num {
                    0 => done.store(true, Ordering::SeqCst),
                    num => desk.send(me, next, Body { kind: TOKEN, num: num - 1, who: None })?,
                }
            }
        }
        thread::yield_now();
    }
    Ok(desk)
}

fn main() -> Result<(), Box<dyn std::error::Error + Send + Sync>> {
    let rounds: i64 = std::env::args().nth(1).map_or(Ok(100), |word| word.parse())?;
    let mut desks = open(DESKS, Config::default())?;
    let members = desks.iter_mut().map(Desk::spawn).collect::<Result<Vec<Pid>, Fault>>()?;
    desks[0].send(members[0], members[1], Body { kind: TOKEN, num: rounds * DESKS as i64, who: None })?;
    let done = AtomicBool::new(false);
    let desks = thread::scope(|scope| {
        let threads: Vec<_> = desks
            .into_iter()
            .zip(members.iter().zip(members.iter().cycle().skip(1)))
            .map(|(desk, (&me, &next))| {
                let done = &done;
                scope.spawn(move || work(desk, me, next, done))
            })
            .collect();
        threads.into_iter().map(|it| it.join().expect("no thread panics")).collect::<Result<Vec<Desk>, Fault>>()
    })?;
    let quiet = gather(desks)?.settle()?;
    let history = quiet.history()?;
    for event in history.events().take(8) {
        println!("{event}");
    }
    let came: u64 = members.iter().filter_map(|&pid| quiet.account(pid)).map(|account| account.arrived).sum();
    println!("{} events, {came} tokens came", history.count());
    Ok(())
}
