//! Processes that have exited and whose slot another one has already, before their exits are told.

use pundewo::runtime::{
    Address, Behaviour, Child, Context, Event, Name, Next, PANIC, Pid, Reason, Runtime, Supervisor, ToSupervisor,
};
use std::sync::mpsc::{Sender, channel};
use std::time::Duration;

const LONG: Duration = Duration::from_secs(120);

type Error = Box<dyn std::error::Error>;

/// What comes to pass, in order.
#[derive(Debug, PartialEq)]
enum Note {
    /// The slot of the one that has crashed is another one's.
    Taken,
    /// The one with this number has exited.
    Ended(u32, Reason),
    /// The one that watches is told of an exit.
    Down(Pid, Reason, Option<String>),
}

/// Crashes as it is told to, or exits with its number.
struct Ends(u32, Sender<Note>);

impl Behaviour for Ends {
    type Message = bool;

    fn handle(&mut self, _: &mut Context<'_, bool>, event: Event<bool>) -> Next {
        match event {
            Event::Message(true) => panic!("it is {}", self.0),
            _ => Next::Stop(Reason::Other(self.0)),
        }
    }

    fn ended(self, why: Reason) {
        self.1.send(Note::Ended(self.0, why)).expect("a test");
    }
}

/// Has one crash and spawns others in the same step, of which one gets its slot. It hands out the address of that one.
struct Takes {
    first: Address<bool>,
    notes: Sender<Note>,
    give: Sender<Address<bool>>,
}

impl Behaviour for Takes {
    type Message = ();

    fn started(&mut self, cx: &mut Context<'_, ()>) -> Next {
        cx.monitor(&self.first).expect("a monitor");
        // (its letter is before that to this one, and the desk handles both in one turn)
        let me = cx.me().clone();
        assert!(cx.send(&self.first, true) && cx.send(&me, ()));
        Next::Wait
    }

    fn handle(&mut self, cx: &mut Context<'_, ()>, event: Event<()>) -> Next {
        match event {
            Event::Message(()) => {
                let spawns = |number| cx.spawn(Ends(number, self.notes.clone())).expect("a slot");
                let mut others = (10..14).map(spawns);
                let other = others.find(|it| it.pid().slot == self.first.pid().slot).expect("its slot");
                self.notes.send(Note::Taken).expect("a test");
                self.give.send(other).expect("a test");
                Next::Wait
            }
            Event::Down(down) => {
                let text = down.panic.as_deref().map(str::to_string);
                self.notes.send(Note::Down(down.pid, down.reason, text)).expect("a test");
                Next::DONE
            }
            other => panic!("{other:?}"),
        }
    }
}

/// With a supervisor, which the exit is told as well, and without one.
#[test]
fn its_exit_is_its_own() -> Result<(), Error> {
    for supervised in [false, true] {
        let (runtime, (notes, noted), (give, given)) = (Runtime::builder().desks(1).start()?, channel(), channel());
        let (own, name) = (notes.clone(), Name::new("the first"));
        let child = Child::temporary(move || Ends(1, own.clone())).named(&name);
        let supervisor = runtime.spawn(Supervisor::one_for_one().child(child))?;
        let children = || runtime.call(&supervisor, LONG, ToSupervisor::which_children).map(|list| list.len());
        assert_eq!(children(), Ok(1));
        let first =
            if supervised { name.whereis().expect("a child") } else { runtime.spawn(Ends(1, notes.clone()))? };
        runtime.spawn(Takes { first: first.clone(), notes, give })?;
        let other = given.recv_timeout(LONG)?;
        let mut heard: Vec<Note> = (0..3).map(|_| noted.recv_timeout(LONG)).collect::<Result<_, _>>()?;
        let down = Note::Down(first.pid(), PANIC, Some("it is 1".to_string()));
        heard.sort_by_key(|note| *note == down);
        assert_eq!(heard, [Note::Taken, Note::Ended(1, PANIC), down]);
        assert_eq!(children(), Ok(usize::from(!supervised)));
        // the other one has its slot, takes what it is sent, and its exit is its own, too
        assert!(!first.send(false) && other.pid().version != first.pid().version);
        assert!(other.send(false));
        let Note::Ended(number, why) = noted.recv_timeout(LONG)? else { panic!("no exit") };
        assert!(number >= 10 && why == Reason::Other(number));
        assert_eq!(runtime.stop()?.panics, 1);
    }
    Ok(())
}
