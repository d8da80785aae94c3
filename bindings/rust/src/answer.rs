//! What an accepted call gives, in a type for each call. What a wait gives may not be dropped unseen; the rest may.

#[cfg(test)]
mod tests;

use crate::refusal::Refusal;
use crate::registers::Registers;
use crate::told::Told;
use crate::{Buffer, Message, Process};

/// What the record says after a call: a refusal, or what the call gives read from it.
pub(crate) fn read<T>(
    registers: &Registers,
    gives: impl FnOnce(&Registers) -> T,
) -> Result<T, Refusal> {
    Refusal::judge(registers.number)?;
    Ok(gives(registers))
}

/// What a call gives, read from the record of a call that was accepted.
pub trait Given: Told {
    /// The call's own reading of the record, and of who was current before the call.
    #[doc(hidden)]
    fn of(registers: &Registers, caller: Option<Process>) -> Self;
}

/// Starts, stops, answers and raises give nothing.
impl Given for () {
    fn of(_: &Registers, _: Option<Process>) {}
}

/// What a [`SendMessage`](crate::calls::SendMessage) gives.
#[derive(Clone, Copy, Debug, PartialEq, Eq)]
pub struct Sent {
    /// The buffer that the message went out in.
    pub buffer: Buffer,
}

impl Given for Sent {
    fn of(registers: &Registers, _: Option<Process>) -> Sent {
        Sent {
            buffer: Buffer(registers.buffer),
        }
    }
}

/// What a [`WaitAnswer`](crate::calls::WaitAnswer) gives.
#[must_use = "the answer, once collected, is nowhere else"]
#[derive(Clone, Copy, Debug, PartialEq, Eq)]
pub enum AnswerWait {
    /// There is no answer yet, and the caller waits.
    Waits,
    /// The answer: its buffer is free again.
    Answer {
        /// The buffer that was sent.
        buffer: Buffer,
        /// The answer.
        words: Message,
    },
}

impl Given for AnswerWait {
    fn of(registers: &Registers, _: Option<Process>) -> AnswerWait {
        let (buffer, words) = (Buffer(registers.buffer), Message(registers.r));
        match registers.kind {
            2 => AnswerWait::Answer { buffer, words },
            _ => AnswerWait::Waits,
        }
    }
}

/// What a [`WaitEvent`](crate::calls::WaitEvent) gives.
#[must_use = "a message taken is owed an answer, and an answer collected is nowhere else"]
#[derive(Clone, Copy, Debug, PartialEq, Eq)]
pub enum EventWait {
    /// There is no event yet, and the caller waits.
    Waits,
    /// A message: the caller holds its buffer and owes an answer.
    Message {
        /// The buffer held.
        buffer: Buffer,
        /// The message.
        words: Message,
    },
    /// An answer: its buffer is free again.
    Answer {
        /// The buffer that was sent.
        buffer: Buffer,
        /// The answer.
        words: Message,
    },
}

impl Given for EventWait {
    fn of(registers: &Registers, _: Option<Process>) -> EventWait {
        let (buffer, words) = (Buffer(registers.buffer), Message(registers.r));
        match registers.kind {
            1 => EventWait::Message { buffer, words },
            2 => EventWait::Answer { buffer, words },
            _ => EventWait::Waits,
        }
    }
}

/// What a [`WaitInterrupt`](crate::calls::WaitInterrupt) gives.
#[must_use = "it says whether the caller waits"]
#[derive(Clone, Copy, Debug, PartialEq, Eq)]
pub enum InterruptWait {
    /// The caller waits.
    Waits,
    /// An interrupt was kept for the device, and is no longer: the caller runs on. Second edition only.
    Kept,
}

impl Given for InterruptWait {
    fn of(registers: &Registers, _: Option<Process>) -> InterruptWait {
        match registers.kind {
            3 => InterruptWait::Kept,
            _ => InterruptWait::Waits,
        }
    }
}

/// What a [`Lower`](crate::calls::Lower) gives.
#[must_use = "it says whether the caller waits"]
#[derive(Clone, Copy, Debug, PartialEq, Eq)]
pub enum SemaphoreWait {
    /// The counter is below zero, and the caller waits. Once a raise wakes it its lower is done: it doesn't ask again.
    Waits,
    /// One was taken off the counter, and the caller runs on.
    Taken,
}

/// The record's kind is 0 for both, but a caller that waits isn't current after the call, and one that runs on is.
impl Given for SemaphoreWait {
    fn of(registers: &Registers, caller: Option<Process>) -> SemaphoreWait {
        if Process::of(registers.current) == caller {
            SemaphoreWait::Taken
        } else {
            SemaphoreWait::Waits
        }
    }
}

/// What a [`Clean`](crate::calls::Clean) gives.
#[derive(Clone, Copy, Debug, PartialEq, Eq)]
pub struct Cleaned {
    /// How many buffers changed their standing.
    pub changed: u16,
}

impl Given for Cleaned {
    fn of(registers: &Registers, _: Option<Process>) -> Cleaned {
        Cleaned {
            changed: registers.kind,
        }
    }
}

/// What a [`Tick`](crate::calls::Tick) gives.
///
/// One process woken is a count of one, and no message, though the archive's kind is 1 for both:
///
/// ```compile_fail
/// # use elvomike_monitor::{calls, Call, EventWait};
/// fn message(answer: <calls::Tick as Call>::Gives) -> EventWait {
///     answer
/// }
/// ```
///
/// ```
/// # use elvomike_monitor::{calls, Call, EventWait};
/// fn message(answer: <calls::WaitEvent as Call>::Gives) -> EventWait {
///     answer
/// }
/// ```
#[derive(Clone, Copy, Debug, PartialEq, Eq)]
pub struct Ticked {
    /// How many delays ended, each waking its process.
    pub woken: u16,
}

impl Given for Ticked {
    fn of(registers: &Registers, _: Option<Process>) -> Ticked {
        Ticked {
            woken: registers.kind,
        }
    }
}

/// What an [`Interrupt`](crate::calls::Interrupt) gives.
#[derive(Clone, Copy, Debug, PartialEq, Eq)]
pub struct Interrupted {
    /// The process that waited for the device and woke, none if none waited: in the second edition the interrupt is kept then.
    pub woken: Option<Process>,
}

impl Given for Interrupted {
    fn of(registers: &Registers, _: Option<Process>) -> Interrupted {
        Interrupted {
            woken: Process::of(registers.kind),
        }
    }
}
