//! A supervisor on one desk: it traps exits, gets one for each worker that crashes, and starts the next.

use pundewo::{Config, Desk, Fault, Pick, Reason, open};

/// Turns the desk until nothing is handled.
fn run(desk: &mut Desk) {
    while desk.turn(64).handled > 0 {}
}

fn main() -> Result<(), Fault> {
    let mut desks = open(1, Config::default())?;
    let desk = &mut desks[0];
    let boss = desk.spawn()?;
    desk.trap(boss, true)?;
    let mut worker = desk.spawn_child(boss, true)?;
    for number in 1..=3 {
        desk.exit(worker, Reason::Other(number))?;
        run(desk);
        let Some(exited) = desk.receive(boss, Pick::ExitOf(worker))? else { panic!("the link carries an exit signal") };
        worker = desk.spawn_child(boss, true)?;
        println!("{exited}, restarted as {worker}");
    }
    Ok(())
}
