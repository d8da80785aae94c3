//! Where the parts of each call go, and that no two give the same type.

use super::*;
use std::any::TypeId;

#[test]
fn parts_go_where_the_document_puts_them() {
    let (none, four) = ([0; 4], [1, 2, 3, 4]);
    let words = Message(four);
    let send_answer = SendAnswer {
        buffer: Buffer(4),
        words,
    };
    let wait_interrupt = WaitInterrupt {
        device: Device(5),
        delay: 6,
    };
    for (registers, parts) in [
        (
            SendMessage {
                to: Process(2),
                words,
            }
            .registers(),
            (0x01, 2, 0, four),
        ),
        (
            WaitAnswer { buffer: Buffer(3) }.registers(),
            (0x02, 3, 0, none),
        ),
        (WaitEvent { delay: 7 }.registers(), (0x03, 7, 0, none)),
        (send_answer.registers(), (0x04, 4, 0, four)),
        (wait_interrupt.registers(), (0x05, 5, 6, none)),
        (Start(Process(8)).registers(), (0x06, 8, 0, none)),
        (Stop(Process(9)).registers(), (0x07, 9, 0, none)),
        (Clean(Process(10)).registers(), (0x08, 10, 0, none)),
        (Tick.registers(), (0x09, 0, 0, none)),
        (
            Interrupt { device: Device(11) }.registers(),
            (0x0A, 11, 0, none),
        ),
        (list(Process(12)), (0x0B, 12, 0, none)),
        (
            Lower {
                semaphore: Semaphore(13),
            }
            .registers(),
            (0x0C, 13, 0, none),
        ),
        (
            Raise {
                semaphore: Semaphore(14),
            }
            .registers(),
            (0x0D, 14, 0, none),
        ),
    ] {
        let Registers { call, a, b, w, .. } = registers;
        assert_eq!((call, a, b, w), parts);
        assert_eq!(registers, Registers::of(call, a, b, w));
    }
}

fn gives<C: Call>() -> TypeId
where
    C::Gives: 'static,
{
    TypeId::of::<C::Gives>()
}

/// A tick that woke one process and a wait that took a message both have kind 1: only the types keep them apart.
#[test]
fn no_two_calls_that_give_something_give_the_same_type() {
    let all = [
        gives::<SendMessage>(),
        gives::<WaitAnswer>(),
        gives::<WaitEvent>(),
        gives::<WaitInterrupt>(),
        gives::<Clean>(),
        gives::<Tick>(),
        gives::<Interrupt>(),
        gives::<Lower>(),
        gives::<Start>(),
    ];
    for (i, one) in all.iter().enumerate() {
        assert!(!all[..i].contains(one), "number {i} of the list");
    }
}
