//! A board's program over the monitor, without standard library and heap. It passes one message there and back, asks for
//! everything else that the crate can be asked for, and prints what came of it by the C library's `putchar`, which stands in
//! for a board's own way out.
//!
//! Its panic handler names a function that is nowhere, so it links only if no path leads to a panic:
//!
//!     cargo run --release --manifest-path examples/board/Cargo.toml

#![no_std]
#![no_main]

mod asked;
mod told;

use core::fmt::{self, Write};
use core::hint::black_box;
use core::panic::PanicInfo;

use elvomike_monitor::calls::{SendAnswer, SendMessage, Start, WaitAnswer, WaitEvent};
use elvomike_monitor::{
    AnswerWait, Call, EventWait, List, Message, NotLaidOut, Process, Refusal, Table,
};

#[link(name = "c")]
extern "C" {
    fn putchar(character: i32) -> i32;
}

extern "C" {
    fn a_path_leads_to_a_panic() -> !;
}

#[panic_handler]
fn panic(_: &PanicInfo<'_>) -> ! {
    // SAFETY: it is nowhere, so a program that has this call isn't linked and never runs.
    unsafe { a_path_leads_to_a_panic() }
}

/// Where the board writes.
struct Out;

impl Write for Out {
    fn write_str(&mut self, text: &str) -> fmt::Result {
        for byte in text.bytes() {
            // SAFETY: any character may be written.
            unsafe { putchar(i32::from(byte)) };
        }
        Ok(())
    }
}

const LIST: List = List::new().process("READ", 4, 1).process("SPEL", 3, 0);
const _: () = assert!(LIST.fault().is_none());
const WORDS: usize = LIST.table_words();

/// One message from READ to SPEL and its answer back: the words of the answer.
fn conversation<W>(table: &mut Table<W>) -> Result<Message, Refusal>
where
    W: AsRef<[u16]> + AsMut<[u16]>,
{
    let (read, spel) = (Process(1), Process(2));
    table.call(Start(read))?;
    table.call(Start(spel))?;
    let words = Message(black_box([1, 2, 3, 4]));
    let buffer = table.call(SendMessage { to: spel, words })?.buffer;
    if let AnswerWait::Answer { words, .. } = table.call(WaitAnswer { buffer })? {
        return Ok(words); // which can't be yet
    }
    if let EventWait::Message { buffer, words } = table.call(WaitEvent { delay: 0 })? {
        let words = Message(words.map(|word| word.wrapping_mul(2)));
        table.call(SendAnswer { buffer, words })?;
    }
    match table.call(WaitAnswer { buffer })? {
        AnswerWait::Answer { words, .. } => Ok(words),
        AnswerWait::Waits => Ok(Message::EMPTY),
    }
}

/// The conversation on an owned table and on a lent one, and what is refused.
fn run(out: &mut Out) -> Result<(), NotLaidOut> {
    let mut owned = Table::lay_out_in([0; WORDS], &LIST)?;
    tell(out, "owned", conversation(&mut owned));
    let words = &mut black_box([9; WORDS + 5])[..];
    let mut lent = Table::lay_out_in(words, &LIST)?;
    tell(out, "lent", conversation(&mut lent));
    tell(out, "again", conversation(&mut lent));
    asked::everything(&mut lent, out);
    #[cfg(feature = "panics")]
    tell(
        out,
        "indexed",
        Ok(Message([lent.words()[black_box(2000)]; 4])),
    );
    Ok(())
}

fn tell(out: &mut Out, which: &str, gives: Result<Message, Refusal>) {
    let _ = match gives {
        Ok(Message([a, b, c, d])) => writeln!(out, "{which}: {a} {b} {c} {d}"),
        Err(refusal) => writeln!(out, "{which}: refused, {refusal}"),
    };
}

/// Refused calls count, so that none of them is dropped by the optimiser.
fn refused<C: Call>(table: &mut Table<&mut [u16]>, call: C) -> u16 {
    table.call(call).err().map_or(0, Refusal::number)
}

#[no_mangle]
extern "C" fn main(_: i32, _: *const *const u8) -> i32 {
    let out = &mut Out;
    match run(out) {
        Ok(()) => 0,
        Err(cause) => {
            let _ = writeln!(out, "nothing is laid out: {cause}");
            1
        }
    }
}
