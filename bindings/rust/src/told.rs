//! What an accepted call gave, put back into the record that an answer's line is written from: the inverse of
//! [`Given`](crate::answer::Given).

use crate::registers::Registers;
use crate::{
    AnswerWait, Cleaned, EventWait, InterruptWait, Interrupted, Listing, Process, Rows,
    SemaphoreWait, Sent, Ticked,
};

/// What an answer's line tells: everything that a call gives, and listings.
pub trait Told {
    /// Fills in the kind, the buffer and the words.
    #[doc(hidden)]
    fn tell(&self, answer: &mut Registers);
}

impl Told for () {
    fn tell(&self, _: &mut Registers) {}
}

impl Told for Sent {
    fn tell(&self, answer: &mut Registers) {
        answer.buffer = self.buffer.0;
    }
}

impl Told for AnswerWait {
    fn tell(&self, answer: &mut Registers) {
        if let AnswerWait::Answer { buffer, words } = *self {
            (answer.kind, answer.buffer, answer.r) = (2, buffer.0, words.0);
        }
    }
}

impl Told for EventWait {
    fn tell(&self, answer: &mut Registers) {
        match *self {
            EventWait::Waits => {}
            EventWait::Message { buffer, words } => {
                (answer.kind, answer.buffer, answer.r) = (1, buffer.0, words.0);
            }
            EventWait::Answer { buffer, words } => {
                (answer.kind, answer.buffer, answer.r) = (2, buffer.0, words.0);
            }
        }
    }
}

impl Told for InterruptWait {
    fn tell(&self, answer: &mut Registers) {
        answer.kind = match self {
            InterruptWait::Waits => 0,
            InterruptWait::Kept => 3,
        };
    }
}

/// Its answer's kind is 0 either way: who is current tells them apart.
impl Told for SemaphoreWait {
    fn tell(&self, _: &mut Registers) {}
}

impl Told for Cleaned {
    fn tell(&self, answer: &mut Registers) {
        answer.kind = self.changed;
    }
}

impl Told for Ticked {
    fn tell(&self, answer: &mut Registers) {
        answer.kind = self.woken;
    }
}

impl Told for Interrupted {
    fn tell(&self, answer: &mut Registers) {
        answer.kind = self.woken.map_or(0, Process::number);
    }
}

impl Told for Listing {
    fn tell(&self, answer: &mut Registers) {
        self.iter().tell(answer);
    }
}

impl Told for Rows<'_> {
    fn tell(&self, answer: &mut Registers) {
        answer.kind = u16::try_from(self.len()).unwrap_or(u16::MAX);
    }
}
