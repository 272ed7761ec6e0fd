//! Calls that are answered, where letters are, and the way in.

use pundewo::{
    AskFault, Body, Call, Config, Desk, Door, Fault, Heard, Item, Pick, Pid, Post, PostError, Reason, Request, WayIn,
    open, way_in,
};

fn receive(desk: &mut Desk, p: Pid) -> Result<Item, Fault> {
    desk.turn(64);
    Ok(desk.receive(p, Pick::Any)?.expect("an item"))
}

#[test]
fn a_call_ends_once() -> Result<(), Fault> {
    let mut desks = open(1, Config::default())?;
    let desk = &mut desks[0];
    let (client, server) = (desk.spawn()?, desk.spawn()?);
    let mut first = desk.ask(client, server, 21)?;
    let mut second = desk.ask_until(client, server, 1, 5)?;
    assert_eq!((first.client(), first.server(), first.deadline(), second.deadline()), (client, server, None, Some(5)));
    let request = Request::of(receive(desk, server)?).expect("a request");
    assert_eq!((request.from, request.asks, request.number), (client, 21, first.monitor().number as i64));
    desk.reply(server, request, 42)?;
    let answer = receive(desk, client)?;
    assert_eq!(Request::of(answer), None);
    assert_eq!((second.hear(desk, answer), first.hear(desk, answer)), (Heard::NotMine, Heard::Answer(42)));
    assert_eq!((first.hear(desk, answer), first.is_open(), first.expire(desk, u64::MAX)), (Heard::Late, false, false));
    assert_eq!((second.expire(desk, 4), second.expire(desk, 5), second.expire(desk, 5)), (false, true, false));
    assert_eq!((second.deadline(), second.is_open()), (None, false));
    let mut third = desk.ask(client, server, 1)?;
    desk.turn(64);
    desk.exit(server, Reason::Other(7))?;
    let down = receive(desk, client)?;
    assert_eq!(second.hear(desk, down), Heard::NotMine);
    assert_eq!((third.hear(desk, down), third.hear(desk, down)), (Heard::ServerDown(Reason::Other(7)), Heard::Late));
    let unasked = |fault| Some(AskFault { fault, left_open: None });
    assert_eq!(desk.ask(client, server, 1).err(), unasked(Fault::NoProc));
    assert_eq!(desk.ask(client, client, 1).err(), unasked(Fault::Myself));
    assert_eq!(desk.ask_until(server, client, 1, 2).err(), unasked(Fault::Gone));
    Ok(())
}

#[test]
fn letters_say_whom_to_wake() -> Result<(), Fault> {
    let mut desks = open(3, Config::default())?;
    let (here, there) = (desks[0].spawn()?, desks[2].spawn()?);
    assert_eq!((desks[0].letters_out(), desks[0].has_letters()), (0, false));
    for to in [here, there] {
        desks[0].send(here, to, Body { kind: 1, num: 2, who: None })?;
    }
    assert_eq!((desks[0].letters_out(), desks[2].has_letters()), (0b101, false));
    assert_eq!(desks[0].turn(64).posted, 2);
    assert_eq!((desks[0].letters_out(), desks[0].has_letters(), desks[2].has_letters()), (0, false, true));
    desks[2].turn(64);
    assert!(!desks[2].has_letters() && !desks[1].has_letters());
    Ok(())
}

#[test]
fn a_turn_takes_the_lane_that_it_is_told_to() -> Result<(), Fault> {
    let mut desks = open(3, Config::default())?;
    let from = [desks[0].spawn()?, desks[1].spawn()?];
    let to = desks[2].spawn()?;
    assert_eq!(desks[2].next_from(), None);
    for (desk, sender) in from.into_iter().enumerate() {
        for num in 0..2 {
            desks[desk].send(sender, to, Body { kind: 1, num: 10 * desk as i64 + num, who: None })?;
        }
        desks[desk].turn(64);
    }
    assert_eq!((desks[2].next_from(), desks[0].next_from()), (Some(0), None));
    for (looks, takes) in [(1, 1), (2, 0), (0, 0), (3, 1)] {
        desks[2].look_from(looks);
        assert_eq!((desks[2].next_from(), desks[2].turn(1).handled), (Some(takes), 1));
    }
    assert_eq!((desks[2].next_from(), desks[2].has_letters()), (None, false));
    let came: Vec<i64> = desks[2].waiting(to).into_iter().flatten().map(number_of).collect();
    assert_eq!(came, [10, 0, 1, 11]);
    Ok(())
}

fn number_of(item: Item) -> i64 {
    match item {
        Item::User(_, body) => body.num,
        other => panic!("{other}"),
    }
}

#[test]
fn what_is_handed_in_is_taken_out_in_order() -> Result<(), Fault> {
    let (mut door, mut way_in) = way_in(2)?;
    let post = |num| Post { to: Pid { shard: 0, slot: 1, version: 1 }, body: Body { kind: 3, num, who: None } };
    assert_eq!((way_in.take(), way_in.waiting()), (None, 0));
    let full = Err(PostError::Full(post(3)));
    assert_eq!((door.post(post(1)), door.post(post(2)), door.post(post(3))), (Ok(()), Ok(()), full));
    assert_eq!(
        (way_in.waiting(), way_in.take(), way_in.take(), way_in.take()),
        (2, Some(post(1)), Some(post(2)), None)
    );
    let outside = std::thread::spawn(move || {
        for num in 0..1000 {
            while door.post(post(num)).is_err() {
                std::thread::yield_now();
            }
        }
    });
    for num in 0..1000 {
        let taken = loop {
            if let Some(taken) = way_in.take() {
                break taken;
            }
            std::thread::yield_now();
        };
        assert_eq!(taken, post(num));
    }
    outside.join().expect("the thread");
    Ok(())
}

#[test]
fn a_door_whose_way_in_was_dropped_says_so() -> Result<(), Fault> {
    let post = Post { to: Pid { shard: 0, slot: 1, version: 1 }, body: Body { kind: 3, num: 7, who: None } };
    for handed_in in [0, 1, 2] {
        let (mut door, way_in) = way_in(2)?;
        for _ in 0..handed_in {
            assert_eq!(door.post(post), Ok(()));
        }
        drop(way_in);
        for _ in 0..3 {
            assert_eq!(door.post(post), Err(PostError::Gone(post)), "with {handed_in} messages in it");
        }
    }
    // it is seen from another thread: a loop that waits for a place ends
    let (mut door, way_in) = way_in(1)?;
    let outside = std::thread::spawn(move || {
        loop {
            match door.post(post) {
                Ok(()) | Err(PostError::Full(_)) => std::thread::yield_now(),
                Err(gone) => break gone,
            }
        }
    });
    std::thread::yield_now();
    drop(way_in);
    let gone = outside.join().expect("the thread");
    assert_eq!((gone.into_post(), gone.to_string()), (post, "the way in was given up".to_string()));
    assert_eq!(PostError::Full(post).to_string(), "the door knows of no free place");
    Ok(())
}

#[test]
fn a_way_in_has_a_place_at_least() {
    assert_eq!(way_in(0).err(), Some(Fault::BadPlaces));
    assert_eq!(Fault::BadPlaces.to_string(), "a way in has a place at least");
}

/// An answer is told from a message whose kind is the same number, also where its call was dropped.
#[test]
fn the_messages_of_calls_are_told() -> Result<(), Fault> {
    let mut desks = open(1, Config::default())?;
    let desk = &mut desks[0];
    let (client, server) = (desk.spawn()?, desk.spawn()?);
    let _ = desk.ask(client, server, 3)?;
    let request = receive(desk, server)?;
    assert!(request.is_call(server) && request.is_call(client));
    desk.reply(server, Request::of(request).expect("a request"), 3)?;
    desk.send(server, client, Body { kind: 3, num: 0, who: None })?;
    let (answer, message) = (receive(desk, client)?, receive(desk, client)?);
    assert!(matches!((answer, message), (Item::User(_, Body { kind: 3, .. }), Item::User(_, Body { kind: 3, .. }))));
    assert!(answer.is_call(client) && !message.is_call(client));
    assert!(!answer.is_call(server), "it names another process");
    desk.exit(server, Reason::Normal)?;
    assert!(!receive(desk, client)?.is_call(client), "a DOWN is no message");
    Ok(())
}

#[test]
fn all_may_go_to_another_thread() {
    fn is_send<T: Send + Sync>() {}
    is_send::<Call>();
    is_send::<Door>();
    is_send::<WayIn>();
    is_send::<PostError>();
}
