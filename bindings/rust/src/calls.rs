//! The calls, a type each, and the registers they go in by.
//!
//! The current process, first of the running queue, makes the first five, [`Lower`] and [`Raise`]; a listing is
//! [`Table::list`](crate::Table::list). Processes, buffers and semaphores go by number from 1, devices from 0. Delay 0 is
//! no limit, delay 1 ends at the first tick. Each says what it is refused with, beside [`Refusal::TableNotSound`].

#[cfg(test)]
mod tests;

use crate::answer::{
    AnswerWait, Cleaned, EventWait, Given, InterruptWait, Interrupted, SemaphoreWait, Sent, Ticked,
};
use crate::registers::Registers;
#[cfg(doc)]
use crate::Refusal;
use crate::{Buffer, Device, Message, Process, Semaphore};

/// A call: its parts go in, and what it gives comes back in a type of its own. What an answer's kind means differs from
/// call to call, so it is read here, where the call is known, and nowhere else. Only the calls below are calls.
pub trait Call {
    /// What the call gives when it is accepted.
    type Gives: Given;

    /// The record with this call's parts, the others 0.
    #[doc(hidden)]
    fn registers(self) -> Registers;
}

/// Sends the words in the caller's lowest free buffer, which the answer names.
///
/// Refused with [`Refusal::NoCurrent`], [`Refusal::NoSuchProcess`], [`Refusal::SentToOneself`], and [`Refusal::NoFreeBuffer`] where
/// all the caller's own buffers are open.
#[derive(Clone, Copy, Debug, PartialEq, Eq)]
pub struct SendMessage {
    /// The receiver.
    pub to: Process,
    /// The message.
    pub words: Message,
}

impl Call for SendMessage {
    type Gives = Sent;

    fn registers(self) -> Registers {
        Registers::of(0x01, self.to.0, 0, self.words.0)
    }
}

/// Collects the answer in an own buffer, or waits for it.
///
/// Refused with [`Refusal::NoCurrent`], and [`Refusal::WrongBuffer`] where the buffer isn't there, isn't the caller's own, or is free
/// or orphaned, so that no answer can come.
#[derive(Clone, Copy, Debug, PartialEq, Eq)]
pub struct WaitAnswer {
    /// The buffer sent.
    pub buffer: Buffer,
}

impl Call for WaitAnswer {
    type Gives = AnswerWait;

    fn registers(self) -> Registers {
        Registers::of(0x02, self.buffer.0, 0, [0; 4])
    }
}

/// Takes the first event, a message or an answer, or waits for one.
///
/// Refused with [`Refusal::NoCurrent`].
#[derive(Clone, Copy, Debug, PartialEq, Eq)]
pub struct WaitEvent {
    /// Ticks to wait at most.
    pub delay: u16,
}

impl Call for WaitEvent {
    type Gives = EventWait;

    fn registers(self) -> Registers {
        Registers::of(0x03, self.delay, 0, [0; 4])
    }
}

/// Answers a held buffer.
///
/// Refused with [`Refusal::NoCurrent`], and [`Refusal::WrongBuffer`] where the buffer isn't there, or the caller doesn't hold it.
#[derive(Clone, Copy, Debug, PartialEq, Eq)]
pub struct SendAnswer {
    /// The buffer held.
    pub buffer: Buffer,
    /// The answer.
    pub words: Message,
}

impl Call for SendAnswer {
    type Gives = ();

    fn registers(self) -> Registers {
        Registers::of(0x04, self.buffer.0, 0, self.words.0)
    }
}

/// Waits for a device, or takes the interrupt kept for it.
///
/// Refused with [`Refusal::NoCurrent`], [`Refusal::NoSuchDevice`], and [`Refusal::DeviceTaken`] where another waits for it.
#[derive(Clone, Copy, Debug, PartialEq, Eq)]
pub struct WaitInterrupt {
    /// The device.
    pub device: Device,
    /// Ticks to wait at most; ignored where an interrupt is kept.
    pub delay: u16,
}

impl Call for WaitInterrupt {
    type Gives = InterruptWait;

    fn registers(self) -> Registers {
        Registers::of(0x05, self.device.0, self.delay, [0; 4])
    }
}

/// Starts a stopped process.
///
/// Refused with [`Refusal::NoSuchProcess`], and [`Refusal::WrongState`] where it isn't stopped.
#[derive(Clone, Copy, Debug, PartialEq, Eq)]
pub struct Start(pub Process);

impl Call for Start {
    type Gives = ();

    fn registers(self) -> Registers {
        Registers::of(0x06, self.0 .0, 0, [0; 4])
    }
}

/// Stops a process; its event queue is kept.
///
/// Refused with [`Refusal::NoSuchProcess`], and [`Refusal::WrongState`] where it is stopped already.
#[derive(Clone, Copy, Debug, PartialEq, Eq)]
pub struct Stop(pub Process);

impl Call for Stop {
    type Gives = ();

    fn registers(self) -> Registers {
        Registers::of(0x07, self.0 .0, 0, [0; 4])
    }
}

/// Stops a process if need be and ends all its conversations: its own buffers are freed, or orphaned where another holds
/// them, and messages that it has not answered are answered with [`Message::CLEANED`].
///
/// Refused with [`Refusal::NoSuchProcess`].
#[derive(Clone, Copy, Debug, PartialEq, Eq)]
pub struct Clean(pub Process);

impl Call for Clean {
    type Gives = Cleaned;

    fn registers(self) -> Registers {
        Registers::of(0x08, self.0 .0, 0, [0; 4])
    }
}

/// A tick of the clock: delays fall and those that end wake their process; then the process that was current goes behind the
/// others of its priority. Every buffer that isn't free is a tick older.
///
/// Refused with nothing but [`Refusal::TableNotSound`].
#[derive(Clone, Copy, Debug, PartialEq, Eq)]
pub struct Tick;

impl Call for Tick {
    type Gives = Ticked;

    fn registers(self) -> Registers {
        Registers::of(0x09, 0, 0, [0; 4])
    }
}

/// A device interrupts: its waiter wakes, in front of the running processes of its own priority. Without a waiter the
/// interrupt is lost in the first edition, and kept in the second.
///
/// Refused with [`Refusal::NoSuchDevice`].
#[derive(Clone, Copy, Debug, PartialEq, Eq)]
pub struct Interrupt {
    /// The device.
    pub device: Device,
}

impl Call for Interrupt {
    type Gives = Interrupted;

    fn registers(self) -> Registers {
        Registers::of(0x0A, self.device.0, 0, [0; 4])
    }
}

/// The record of the call that lists a process's buffers, which [`Table::list`](crate::Table::list) makes.
pub(crate) fn list(process: Process) -> Registers {
    Registers::of(0x0B, process.0, 0, [0; 4])
}

/// Takes one off a semaphore's counter. If that leaves it below zero the caller waits, last in the semaphore's queue: without
/// limit, and no message, tick or interrupt wakes it. Stopping or cleaning it takes it from the queue and adds one to the
/// counter; nobody is woken by that.
///
/// Refused with [`Refusal::NoCurrent`], and [`Refusal::NoSuchSemaphore`].
#[derive(Clone, Copy, Debug, PartialEq, Eq)]
pub struct Lower {
    /// The semaphore.
    pub semaphore: Semaphore,
}

impl Call for Lower {
    type Gives = SemaphoreWait;

    fn registers(self) -> Registers {
        Registers::of(0x0C, self.semaphore.0, 0, [0; 4])
    }
}

/// Adds one to a semaphore's counter. If somebody waits there the longest waiter wakes, behind the running processes of its
/// own priority.
///
/// Refused with [`Refusal::NoCurrent`], [`Refusal::NoSuchSemaphore`], and [`Refusal::CounterFull`] where the counter is 32,767.
#[derive(Clone, Copy, Debug, PartialEq, Eq)]
pub struct Raise {
    /// The semaphore.
    pub semaphore: Semaphore,
}

impl Call for Raise {
    type Gives = ();

    fn registers(self) -> Registers {
        Registers::of(0x0D, self.semaphore.0, 0, [0; 4])
    }
}
