//! Two processes of one desk send each other messages; prints how many a second, the best of five.

use pundewo::{Body, Config, Item, Pick, open};
use std::time::Instant;

fn main() {
    let rounds: i64 = std::env::args().nth(1).map_or(200_000, |word| word.parse().expect("a number of rounds"));
    let mut best = 0.0_f64;
    for _ in 0..5 {
        let mut desks = open(1, Config { slots: 65_536, top_version: u32::MAX, lane: 8, start: 0 }).expect("a desk");
        let desk = &mut desks[0];
        let (a, b) = (desk.spawn().expect("a"), desk.spawn().expect("b"));
        let begin = Instant::now();
        for num in 0..rounds {
            for (from, to) in [(a, b), (b, a)] {
                desk.send(from, to, Body { kind: 1, num, who: None }).expect("sent");
                desk.turn(64);
                let Some(Item::User(_, body)) = desk.receive(to, Pick::Kind(1)).expect("received") else {
                    panic!("no message")
                };
                assert_eq!(body.num, num);
            }
        }
        best = best.max(2.0 * rounds as f64 / begin.elapsed().as_secs_f64() / 1e6);
    }
    println!("{best:.2} million messages a second");
}
