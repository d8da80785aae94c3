//! Lines there and back, what is no line, and short arrays: the same cases as tests/headers/log.c has for C.

use super::*;
use crate::calls::{Interrupt, Lower, SendAnswer, SendMessage, Tick, WaitEvent, WaitInterrupt};
use crate::{
    AnswerWait, Cleaned, EventWait, InterruptWait, Interrupted, SemaphoreWait, Sent, Ticked,
};
use crate::{Buffer, Device, Message, Semaphore};
use std::string::ToString;

/// The line says this, and is read back from it, with its end and without.
fn says(line: Line, text: &str) {
    assert_eq!(line.to_string(), text);
    assert_eq!(Line::read(text.as_bytes()), Some(line));
    let mut room = [b'.'; BYTES_MOST];
    let length = line.write(&mut room).unwrap();
    assert_eq!(
        (&room[..length - 1], room[length - 1]),
        (text.as_bytes(), b'\n')
    );
    assert_eq!(Line::read(&room[..length]), Some(line));
    let mut short = [b'.'; BYTES_MOST];
    assert_eq!(line.write(&mut short[..length - 1]), None);
    assert_eq!(short, [b'.'; BYTES_MOST]);
}

#[test]
fn calls() {
    let words = Message([1, 2, 3, 0xFFFF]);
    let (device, delay) = (Device(63), 0xABCD);
    says(
        Line::call(SendMessage {
            to: Process(2),
            words,
        }),
        "0100020000000100020003FFFF",
    );
    says(
        Line::call(WaitEvent { delay }),
        "03ABCD00000000000000000000",
    );
    says(
        Line::call(SendAnswer {
            buffer: Buffer(128),
            words,
        }),
        "0400800000000100020003FFFF",
    );
    says(
        Line::call(WaitInterrupt { device, delay }),
        "05003FABCD0000000000000000",
    );
    says(Line::call(Tick), "09000000000000000000000000");
    says(
        Line::call(Interrupt { device }),
        "0A003F00000000000000000000",
    );
    says(Line::list(Process(3)), "0B000300000000000000000000");
    says(
        Line::call(Lower {
            semaphore: Semaphore(1),
        }),
        "0C000100000000000000000000",
    );
    let list = List::new().process("READ", 5, 2);
    says(
        Line::layout(&list).next().unwrap(),
        "00000500025245414400000000",
    );
}

/// The line of an accepted call that gave this.
fn given<T: Told>(gives: T) -> Line {
    Line::answer(&Ok(gives), Some(Process(1)))
}

#[test]
fn answers() {
    let (buffer, words) = (Buffer(128), Message([1, 2, 3, 0xFFFF]));
    says(given(()), "> 000000000000010000000000000000");
    says(given(Sent { buffer }), "> 000000008000010000000000000000");
    says(given(EventWait::Waits), "> 000000000000010000000000000000");
    says(
        given(EventWait::Message { buffer, words }),
        "> 00000100800001000100020003FFFF",
    );
    says(
        given(EventWait::Answer { buffer, words }),
        "> 00000200800001000100020003FFFF",
    );
    says(
        given(AnswerWait::Answer { buffer, words }),
        "> 00000200800001000100020003FFFF",
    );
    says(given(AnswerWait::Waits), "> 000000000000010000000000000000");
    says(
        given(InterruptWait::Kept),
        "> 000003000000010000000000000000",
    );
    says(
        given(InterruptWait::Waits),
        "> 000000000000010000000000000000",
    );
    says(
        given(SemaphoreWait::Taken),
        "> 000000000000010000000000000000",
    );
    says(
        given(Cleaned { changed: 5 }),
        "> 000005000000010000000000000000",
    );
    says(
        given(Ticked { woken: 32 }),
        "> 000020000000010000000000000000",
    );
    says(
        given(Interrupted {
            woken: Some(Process(2)),
        }),
        "> 000002000000010000000000000000",
    );
    says(
        given(crate::Rows::of(&[1, 2, 3, 4, 5], 1)),
        "> 000001000000010000000000000000",
    );
    let refused: Result<(), Refusal> = Err(Refusal::NoSuchSemaphore);
    says(
        Line::answer(&refused, Some(Process(1))),
        "> 130000000000000000000000000000",
    );
    says(Line::Row([1, 2, 3, 4, 0xFFFF]), "> 0001000200030004FFFF");
    says(Line::NoCall, "> FF");
}

#[test]
fn a_replays_lines_have_no_mark() {
    let answer = b"000001000000010000000000000000";
    assert_eq!(Line::read(answer), Some(given(Ticked { woken: 1 })));
    assert_eq!(
        Line::read(b"00010002000300040005\n"),
        Some(Line::Row([1, 2, 3, 4, 5]))
    );
    assert_eq!(Line::read(b"FF"), Some(Line::NoCall));
}

#[test]
fn what_is_no_line() {
    for line in [
        "00000500025245414400000001", // a layout line that doesn't end in 0000
        "06000100010000000000000000", // a part that the call doesn't use
        "09000100000000000000000000",
        "0B000100000000000000000001",
        "02000100000000000000010000",
        "0b000100000000000000000000", // lower case
        "0600010000000000000000000",
        "060001000000000000000000000",
        "06000100000000000000000000\r\n",
        "> 06000100000000000000000000",
        "> 0001000100020001000G",
        ">00010001000200010001",
        "",
        "\n",
        "> ",
        "0",
    ] {
        assert_eq!(Line::read(line.as_bytes()), None, "{line:?}");
    }
    assert!(Line::read(b"0D0001FFFF0001FFFF0001FFFF").is_some());
}
