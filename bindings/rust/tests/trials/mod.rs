//! Behaviours of the trials.

use pundewo::runtime::{Address, Behaviour, Call, Context, Event, Next, Reply};
use std::time::Duration;

pub enum ToCell {
    Get(Reply<u64>),
    Put(u64),
    Add(u64),
}

/// A number that is read and written.
#[derive(Default)]
pub struct Cell(pub u64);

impl Behaviour for Cell {
    type Message = ToCell;

    fn handle(&mut self, cx: &mut Context<'_, ToCell>, event: Event<ToCell>) -> Next {
        match event {
            Event::Message(ToCell::Get(reply)) => cx.reply(reply, self.0),
            Event::Message(ToCell::Put(value)) => self.0 = value,
            Event::Message(ToCell::Add(more)) => self.0 += more,
            _ => {}
        }
        Next::Wait
    }
}

/// Reads a cell, and writes it one higher, or adds one at once.
pub struct Adder {
    pub cell: Address<ToCell>,
    pub at_once: bool,
    call: Option<Call<u64>>,
}

impl Adder {
    pub fn new(cell: &Address<ToCell>, at_once: bool) -> Adder {
        Adder { cell: cell.clone(), at_once, call: None }
    }
}

impl Behaviour for Adder {
    type Message = ();

    fn started(&mut self, cx: &mut Context<'_, ()>) -> Next {
        if self.at_once {
            cx.send(&self.cell, ToCell::Add(1));
            return Next::DONE;
        }
        self.call = cx.call(&self.cell, Duration::from_secs(1), ToCell::Get).ok();
        Next::Wait
    }

    fn handle(&mut self, cx: &mut Context<'_, ()>, event: Event<()>) -> Next {
        if let (Event::Answer(answer), Some(call)) = (event, self.call) {
            if let Ok(Ok(value)) = answer.to(&call) {
                cx.send(&self.cell, ToCell::Put(value + 1));
            }
            return Next::DONE;
        }
        Next::Wait
    }
}
