//! The worked run (examples/worked.log), kinds of 1, and what is refused, through the archive.

use super::*;
use crate::calls::{self, Start, WaitAnswer, WaitEvent, WaitInterrupt};
use crate::{AnswerWait, Cleaned, EventWait, InterruptWait, Interrupted, Sent, Ticked};
use crate::{Buffer, Device, Message, Reason, Standing};

const LIST: List = List::new().process("A", 5, 1).process("B", 3, 0);
type Words = [u16; LIST.table_words()];

/// The worked run's station.
fn laid_out() -> Table<Words> {
    Table::lay_out_in([0; LIST.table_words()], &LIST).unwrap()
}

/// What an accepted call gives, with who is current after it.
fn done<C: Call>(table: &mut Table<Words>, call: C) -> (C::Gives, Option<u16>) {
    let gives = table.call(call).unwrap();
    (gives, table.current().map(Process::number))
}

#[test]
fn the_worked_run() {
    let table = &mut laid_out();
    assert_eq!(done(table, Start(Process(1))), ((), Some(1)));
    assert_eq!(done(table, Start(Process(2))), ((), Some(1)));
    let words = Message([0x1111, 0x2222, 0x3333, 0x4444]);
    let sent = done(
        table,
        calls::SendMessage {
            to: Process(2),
            words,
        },
    );
    assert_eq!(sent, (Sent { buffer: Buffer(1) }, Some(1)));
    let asked = done(table, WaitAnswer { buffer: Buffer(1) });
    assert_eq!(asked, (AnswerWait::Waits, Some(2)));
    let taken = done(table, WaitEvent { delay: 0 });
    assert_eq!(
        taken,
        (
            EventWait::Message {
                buffer: Buffer(1),
                words
            },
            Some(2)
        )
    );
    let words = Message([0, 10, 0, 0]);
    let answer = calls::SendAnswer {
        buffer: Buffer(1),
        words,
    };
    assert_eq!(done(table, answer), ((), Some(1)));
    let listed = table.list(Process(1)).unwrap();
    assert_eq!(listed.len(), 1);
    let row = listed.get(0).unwrap();
    assert_eq!((row.standing, row.age), (Standing::Answered, 0));
    assert_eq!(table.standing(Buffer(1)), Some(Standing::Answered));
    let collected = done(table, WaitAnswer { buffer: Buffer(1) });
    assert_eq!(
        collected,
        (
            AnswerWait::Answer {
                buffer: Buffer(1),
                words
            },
            Some(1)
        )
    );
    assert_eq!(table.call(answer), Err(Refusal::WrongBuffer));
}

#[test]
fn a_tick_that_woke_one_process_is_a_count() {
    let table = &mut laid_out();
    let _ = done(table, Start(Process(1)));
    let wait = WaitInterrupt {
        device: Device(5),
        delay: 1,
    };
    assert_eq!(done(table, wait), (InterruptWait::Waits, None));
    assert_eq!(done(table, calls::Tick), (Ticked { woken: 1 }, Some(1)));
    assert_eq!(table.reason(Process(1)), Reason::Delay);
    assert_eq!(done(table, calls::Tick), (Ticked { woken: 0 }, Some(1)));
}

#[test]
fn a_conversation_grows_older_until_it_ends() {
    let table = &mut laid_out();
    let _ = done(table, Start(Process(1)));
    let words = Message::EMPTY;
    let _ = done(
        table,
        calls::SendMessage {
            to: Process(2),
            words,
        },
    );
    for age in [0, 1, 2] {
        let listed = table.list(Process(2)).unwrap().get(0).unwrap();
        assert_eq!((listed.age, table.age(Buffer(1))), (age, age));
        let _ = done(table, calls::Tick);
    }
    let _ = done(table, calls::Clean(Process(1)));
    assert_eq!(table.age(Buffer(1)), 0);
}

#[test]
fn an_interrupt_names_whom_it_woke_and_a_clean_counts() {
    let table = &mut laid_out();
    let _ = done(table, Start(Process(1)));
    let wait = WaitInterrupt {
        device: Device(5),
        delay: 0,
    };
    assert_eq!(done(table, wait), (InterruptWait::Waits, None));
    let interrupt = calls::Interrupt { device: Device(5) };
    let woken = |woken| (Interrupted { woken }, Some(1));
    assert_eq!(done(table, interrupt), woken(Some(Process(1))));
    assert_eq!(done(table, interrupt), woken(None));
    let message = calls::SendMessage {
        to: Process(2),
        words: Message::EMPTY,
    };
    let _ = done(table, message);
    assert_eq!(
        done(table, calls::Clean(Process(2))),
        (Cleaned { changed: 1 }, Some(1))
    );
}

#[test]
fn a_listing_in_a_lent_room_needs_five_words_a_row() {
    let table = &mut laid_out();
    let _ = done(table, Start(Process(1)));
    let words = Message::EMPTY;
    let _ = done(
        table,
        calls::SendMessage {
            to: Process(2),
            words,
        },
    );
    let mut room = [7; Listed::WORDS + 1];
    let listed = table.list_in(Process(2), &mut room[..4]).map(|_| ());
    assert_eq!((listed, room), (Err(Refusal::RoomTooShort), [7; 6]));
    let row = table
        .list_in(Process(2), &mut room)
        .unwrap()
        .next()
        .unwrap();
    assert_eq!(
        (row.buffer, row.owner, row.receiver),
        (Buffer(1), Process(1), Process(2))
    );
    assert_eq!(room, [1, 1, 2, 1, 0, 7]);
}

#[test]
fn words_that_are_no_table_are_refused_and_kept() {
    let mut words = [7; 100];
    let mut table = Table::over(&mut words[..]);
    assert_eq!(table.call(calls::Tick), Err(Refusal::TableNotSound));
    assert_eq!(table.list(Process(1)), Err(Refusal::TableNotSound));
    assert_eq!(words, [7; 100]);
}
