//! Answers read from records.

use super::*;

const WORDS: [u16; 4] = [9, 8, 7, 6];

/// An accepted record of this kind.
fn record(kind: u16) -> Registers {
    Registers {
        kind,
        buffer: 3,
        r: WORDS,
        ..Registers::default()
    }
}

fn given<T: Given>(registers: &Registers) -> T {
    read(registers, |answer| T::of(answer, None)).unwrap()
}

#[test]
fn a_refused_record_is_a_refusal() {
    let refused = |number| {
        let registers = Registers {
            number,
            ..record(1)
        };
        read(&registers, |answer| Sent::of(answer, None))
    };
    assert_eq!(refused(6), Err(Refusal::WrongBuffer));
    assert_eq!(refused(21), Err(Refusal::Other(21)));
    assert_eq!(refused(0), Ok(Sent { buffer: Buffer(3) }));
}

#[test]
fn waits_tell_messages_from_answers() {
    let (buffer, words) = (Buffer(3), Message(WORDS));
    assert_eq!(given::<EventWait>(&record(0)), EventWait::Waits);
    assert_eq!(
        given::<EventWait>(&record(1)),
        EventWait::Message { buffer, words }
    );
    assert_eq!(
        given::<EventWait>(&record(2)),
        EventWait::Answer { buffer, words }
    );
    assert_eq!(given::<AnswerWait>(&record(0)), AnswerWait::Waits);
    assert_eq!(
        given::<AnswerWait>(&record(2)),
        AnswerWait::Answer { buffer, words }
    );
    assert_eq!(given::<InterruptWait>(&record(0)), InterruptWait::Waits);
    assert_eq!(given::<InterruptWait>(&record(3)), InterruptWait::Kept);
}

/// The record is the same but for who is current.
#[test]
fn a_lower_waits_where_its_caller_is_no_longer_current() {
    let lowered = |current, caller| {
        let registers = Registers {
            current,
            ..Registers::default()
        };
        SemaphoreWait::of(&registers, Some(Process(caller)))
    };
    assert_eq!(lowered(2, 2), SemaphoreWait::Taken);
    assert_eq!(lowered(1, 2), SemaphoreWait::Waits);
    assert_eq!(lowered(0, 2), SemaphoreWait::Waits);
}

#[test]
fn counts_and_processes_are_read_as_such() {
    assert_eq!(given::<Sent>(&record(0)), Sent { buffer: Buffer(3) });
    assert_eq!(given::<Ticked>(&record(1)), Ticked { woken: 1 });
    assert_eq!(given::<Cleaned>(&record(1)), Cleaned { changed: 1 });
    let woken = |woken| Interrupted { woken };
    assert_eq!(given::<Interrupted>(&record(1)), woken(Some(Process(1))));
    assert_eq!(given::<Interrupted>(&record(0)), woken(None));
}
