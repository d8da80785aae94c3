//! The same small program of a station's maker in Rust, over the parcel's crate: it writes what shop.c writes.

use elvomike_monitor::calls::{SendAnswer, SendMessage, Start, WaitAnswer, WaitEvent};
use elvomike_monitor::log::Line;
use elvomike_monitor::{Call, EventWait, List, Message, Process, Refusal, State, Table};

const LIST: List = List::new().process("READ", 5, 1).process("SPELL", 3, 0);
const READ: Process = Process(1);
const SPELL: Process = Process(2);
type Shop = Table<[u16; LIST.table_words()]>;

/// Does a call and logs it.
fn call<C: Call + Copy>(shop: &mut Shop, call: C) -> Result<C::Gives, Refusal> {
    let answer = shop.call(call);
    println!("{}", Line::call(call));
    println!("{}", Line::answer(&answer, shop.current()));
    answer
}

fn main() -> Result<(), Refusal> {
    let mut shop: Shop = Table::lay_out_in([0; LIST.table_words()], &LIST)?;
    for line in Line::layout(&LIST) {
        println!("{line}");
    }
    call(&mut shop, Start(READ))?;
    call(&mut shop, Start(SPELL))?;
    let words = Message::text("page 7").unwrap_or_default();
    let buffer = call(&mut shop, SendMessage { to: SPELL, words })?.buffer;
    let _waits = call(&mut shop, WaitAnswer { buffer })?;
    if let EventWait::Message { buffer, words } = call(&mut shop, WaitEvent { delay: 0 })? {
        call(&mut shop, SendAnswer { buffer, words })?;
    }
    for one in shop.screen()?.summaries() {
        let state = match one.state() {
            State::Running => 1,
            _ => 0,
        };
        println!(
            "process {}: state {state}, {} in its queue",
            one.process(),
            one.queue
        );
    }
    Ok(())
}
