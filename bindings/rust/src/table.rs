//! The table, owned or lent, and what its words say.

use crate::places::{buffer_word, process_word};
use crate::{Buffer, Device, Edition, Process, Standing};

/// How many devices there are.
const DEVICES: u16 = 64;
/// A device's word while an interrupt is kept for it.
const KEPT: u16 = 0xFFFF;

/// What a process does.
#[derive(Clone, Copy, Debug, PartialEq, Eq, Hash)]
pub enum State {
    /// It was not started, or stopped since.
    Stopped,
    /// It is in the running queue.
    Running,
    /// It waits for a message or an answer.
    WaitsEvent,
    /// It waits for the answer in a buffer of its own.
    WaitsAnswer,
    /// It waits for a device.
    WaitsInterrupt,
    /// It waits at a semaphore, until a raise wakes it.
    WaitsSemaphore,
}

impl State {
    /// The state of a number; none above 5.
    #[must_use]
    pub const fn from_number(number: u16) -> Option<State> {
        match number {
            0 => Some(State::Stopped),
            1 => Some(State::Running),
            2 => Some(State::WaitsEvent),
            3 => Some(State::WaitsAnswer),
            4 => Some(State::WaitsInterrupt),
            5 => Some(State::WaitsSemaphore),
            _ => None,
        }
    }
}

/// Why a process last woke.
#[derive(Clone, Copy, Debug, PartialEq, Eq, Hash)]
pub enum Reason {
    /// It wasn't woken, or asked for a wait since.
    None,
    /// A message or an answer came.
    Event,
    /// Its delay ran out.
    Delay,
    /// Its device interrupted.
    Interrupt,
    /// Its semaphore was raised: its lower is done, and isn't asked for again.
    Raise,
}

/// A table: owned, as an array (`Table<[u16; N]>`, N by [`crate::table_words`] or [`crate::List::table_words`]) or on the heap
/// (`Table<Vec<u16>>`, feature `alloc`), or over words lent from elsewhere (`Table<&mut [u16]>`).
#[derive(Clone, PartialEq, Eq)]
pub struct Table<W> {
    words: W,
}

impl<W: AsRef<[u16]> + AsMut<[u16]>> Table<W> {
    /// The words as they stand, whatever they are: a call on words that are no sound table is refused.
    pub fn over(words: W) -> Table<W> {
        Table { words }
    }

    /// The words.
    pub fn words(&self) -> &[u16] {
        self.words.as_ref()
    }

    /// The words, for a call.
    #[cfg(archive)]
    pub(crate) fn words_mut(&mut self) -> &mut [u16] {
        self.words.as_mut()
    }

    /// Gives the words back.
    pub fn into_words(self) -> W {
        self.words
    }

    /// The current process, first of the running queue; none where none runs.
    pub fn current(&self) -> Option<Process> {
        self.words().get(2).copied().and_then(Process::of)
    }

    /// What the process does; none where the words have no such process.
    pub fn state(&self, process: Process) -> Option<State> {
        process_word(self.words(), process.0, 4).and_then(State::from_number)
    }

    /// Why the process last woke; none where the words have no such process.
    pub fn reason(&self, process: Process) -> Reason {
        match process_word(self.words(), process.0, 5) {
            Some(1) => Reason::Event,
            Some(2) => Reason::Delay,
            Some(3) => Reason::Interrupt,
            Some(5) => Reason::Raise,
            _ => Reason::None,
        }
    }

    /// The ticks until the process's wait ends; 0 where it has no limit, doesn't wait, or isn't there.
    pub fn delay(&self, process: Process) -> u16 {
        process_word(self.words(), process.0, 6).unwrap_or(0)
    }

    /// How the buffer stands; none where it is free or the words have no such buffer.
    pub fn standing(&self, buffer: Buffer) -> Option<Standing> {
        buffer_word(self.words(), buffer.0, 4).and_then(Standing::from_number)
    }

    /// The ticks since the buffer was sent, at most 65,535; 0 where it is free or the words have no such buffer.
    pub fn age(&self, buffer: Buffer) -> u16 {
        buffer_word(self.words(), buffer.0, 5).unwrap_or(0)
    }

    /// The table's edition; none where the words name no edition.
    pub fn edition(&self) -> Option<Edition> {
        self.words().get(4).copied().and_then(Edition::from_number)
    }

    /// The process that waits for the device, if any.
    pub fn waiter(&self, device: Device) -> Option<Process> {
        let word = self.device_word(device).filter(|&word| word != KEPT);
        word.and_then(Process::of)
    }

    /// The devices for which an interrupt is kept, by rising number.
    pub fn kept_interrupts(&self) -> impl Iterator<Item = Device> + '_ {
        (0..DEVICES).map(Device).filter(|&device| self.kept(device))
    }

    /// Whether an interrupt is kept for the device.
    pub fn kept(&self, device: Device) -> bool {
        self.device_word(device) == Some(KEPT)
    }

    fn device_word(&self, device: Device) -> Option<u16> {
        let devices = self.words().get(8..72)?;
        devices.get(usize::from(device.0)).copied()
    }
}

#[cfg(test)]
mod tests {
    use super::*;
    use crate::table_words;

    #[test]
    fn editions_and_kept_interrupts_are_read_from_their_places() {
        let mut words = [0; table_words(1, 0, 0)];
        (words[4], words[8], words[8 + 63], words[72]) = (1, KEPT, 1, KEPT);
        let table = Table::over(words);
        assert_eq!(table.edition(), Some(Edition::Second));
        assert_eq!(
            [0, 1, 63, 64].map(|d| table.kept(Device(d))),
            [true, false, false, false]
        );
        let waiters = [0, 63, 64].map(|d| table.waiter(Device(d)));
        assert_eq!(waiters, [None, Some(Process(1)), None]);
        assert!(table.kept_interrupts().eq([Device(0)]));
        let none = Table::over([2; 5]);
        assert_eq!((none.edition(), none.kept(Device(0))), (None, false));
    }

    /// Two processes and three buffers; the second process and the third buffer have something in their words.
    const WORDS: [u16; table_words(2, 3, 0)] = {
        let mut words = [0; table_words(2, 3, 0)];
        (words[0], words[1], words[8 + 63]) = (2, 3, 2);
        let (process, buffer) = (72 + 16, 72 + 2 * 16 + 2 * 10);
        (words[process + 4], words[process + 5], words[process + 6]) = (4, 3, 9);
        (words[buffer + 4], words[buffer + 5]) = (2, 65535);
        words
    };

    #[test]
    fn states_reasons_and_delays_are_read_from_their_places() {
        let mut words = WORDS;
        let table = Table::over(&mut words[..]);
        let states = [1, 2, 3].map(|process| table.state(Process(process)));
        assert_eq!(
            states,
            [Some(State::Stopped), Some(State::WaitsInterrupt), None]
        );
        let reasons = [0, 1, 2, 3].map(|process| table.reason(Process(process)));
        assert_eq!(reasons[2], Reason::Interrupt);
        assert_eq!([reasons[0], reasons[1], reasons[3]], [Reason::None; 3]);
        assert_eq!([0, 1, 2, 3].map(|p| table.delay(Process(p))), [0, 0, 9, 0]);
        assert_eq!(
            [63, 62, 64].map(|d| table.waiter(Device(d))),
            [Some(Process(2)), None, None]
        );
    }

    #[test]
    fn standings_and_ages_are_read_from_their_places() {
        let table = Table::over(WORDS);
        assert_eq!(
            [0, 1, 2, 3, 4].map(|b| table.age(Buffer(b))),
            [0, 0, 0, 65535, 0]
        );
        assert_eq!(
            [2, 3, 4].map(|b| table.standing(Buffer(b))),
            [None, Some(Standing::Held), None]
        );
        let none = Table::over([9; 2]);
        assert_eq!((none.age(Buffer(9)), none.state(Process(9))), (0, None));
    }
}
