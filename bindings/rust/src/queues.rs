//! Who and what a table has, and the queues that its words link: as iterators, of which none goes on for ever, whatever the
//! words are.

use crate::places::{buffer_word, process_word};
use crate::{Buffer, Device, Message, Process, Table, Text};

/// The most processes and buffers of a table.
const PROCESSES_MOST: u16 = 32;
const BUFFERS_MOST: u16 = 128;

impl<W: AsRef<[u16]> + AsMut<[u16]>> Table<W> {
    /// The table's processes, by rising number.
    pub fn processes(&self) -> impl Iterator<Item = Process> {
        let count = self.words().first().copied().unwrap_or(0);
        (1..=count.min(PROCESSES_MOST)).map(Process)
    }

    /// The table's buffers, by rising number.
    pub fn buffers(&self) -> impl Iterator<Item = Buffer> {
        let count = self.words().get(1).copied().unwrap_or(0);
        (1..=count.min(BUFFERS_MOST)).map(Buffer)
    }

    /// The process's name; none where the words have no such process, or its name is no text.
    ///
    /// ```
    /// # use elvomike_monitor::{List, Process, Refusal, Table};
    /// # fn main() -> Result<(), Refusal> {
    /// const LIST: List = List::new().process("READ", 4, 2).process("SPEL", 3, 1);
    /// let table = Table::lay_out_in([0; LIST.table_words()], &LIST)?;
    /// assert_eq!(table.name(Process(2)).as_deref(), Some("SPEL"));
    /// assert_eq!(table.priority(Process(2)), Some(3));
    /// # Ok(())
    /// # }
    /// ```
    pub fn name(&self, process: Process) -> Option<Text> {
        let word = |i: usize| process_word(self.words(), process.0, 12 + i);
        Text::of_name([word(0)?, word(1)?, word(2)?])
    }

    /// The process's priority, 1 to 255; none where the words have no such process.
    pub fn priority(&self, process: Process) -> Option<u16> {
        process_word(self.words(), process.0, 9)
    }

    /// The buffers that the process owns, by rising number.
    pub fn own_buffers(&self, process: Process) -> impl Iterator<Item = Buffer> {
        let word = |i| process_word(self.words(), process.0, i).unwrap_or(0);
        let (first, count) = (word(10), word(11).min(BUFFERS_MOST));
        (first..first.saturating_add(count)).map(Buffer)
    }

    /// The buffer in which the process waits for an answer; none if it waits for none.
    pub fn awaited_buffer(&self, process: Process) -> Option<Buffer> {
        process_word(self.words(), process.0, 7).and_then(Buffer::of)
    }

    /// The device that the process waits for; none if it waits for none.
    pub fn awaited_device(&self, process: Process) -> Option<Device> {
        let word = process_word(self.words(), process.0, 8)?;
        word.checked_sub(1).map(Device)
    }

    /// The process that owns the buffer; none where the words have no such buffer.
    pub fn owner(&self, buffer: Buffer) -> Option<Process> {
        buffer_word(self.words(), buffer.0, 2).and_then(Process::of)
    }

    /// The process that the buffer was sent to; none where it is free, or the words have no such buffer.
    pub fn receiver(&self, buffer: Buffer) -> Option<Process> {
        buffer_word(self.words(), buffer.0, 3).and_then(Process::of)
    }

    /// The message or the answer in the buffer, four zeros where it is free; none where the words have no such buffer.
    pub fn message(&self, buffer: Buffer) -> Option<Message> {
        let word = |i: usize| buffer_word(self.words(), buffer.0, 6 + i);
        Some(Message([word(0)?, word(1)?, word(2)?, word(3)?]))
    }

    /// The running queue: the current process first, then whoever runs behind it.
    pub fn running(&self) -> impl Iterator<Item = Process> + '_ {
        self.chain(self.words().get(2).copied(), 0)
    }

    /// The process's event queue: the buffers with messages to it and answers for it, in the order in which it takes them.
    pub fn events(&self, process: Process) -> impl Iterator<Item = Buffer> + '_ {
        let words = self.words();
        let first = process_word(words, process.0, 2).and_then(Buffer::of);
        let behind = move |&at: &Buffer| buffer_word(words, at.0, 0).and_then(Buffer::of);
        core::iter::successors(first, behind).take(usize::from(BUFFERS_MOST))
    }

    /// The processes from the first on, each linked to the next by that word of its record.
    pub(crate) fn chain(
        &self,
        first: Option<u16>,
        link: usize,
    ) -> impl Iterator<Item = Process> + '_ {
        let words = self.words();
        let behind = move |&at: &Process| process_word(words, at.0, link).and_then(Process::of);
        core::iter::successors(first.and_then(Process::of), behind)
            .take(usize::from(PROCESSES_MOST))
    }
}

#[cfg(test)]
mod tests {
    use super::*;
    use crate::table_words;

    /// Two processes, A and B, run; each owns a buffer. B's event queue has both: one that A sent, and its own answered.
    fn words() -> [u16; table_words(2, 2, 0)] {
        let mut words = [0; table_words(2, 2, 0)];
        words[..4].copy_from_slice(&[2, 2, 2, 1]);
        words[72..88].copy_from_slice(&[0, 2, 0, 0, 1, 0, 0, 0, 0, 3, 1, 1, 0x4100, 0, 0, 0]);
        words[88..104].copy_from_slice(&[
            1, 0, 1, 2, 1, 0, 0, 2, 64, 5, 2, 1, 0x4243, 0x4445, 0x4600, 0,
        ]);
        words[104..114].copy_from_slice(&[2, 0, 1, 2, 1, 7, 1, 2, 3, 4]);
        words[114..].copy_from_slice(&[0, 1, 2, 1, 3, 9, 5, 6, 7, 8]);
        words
    }

    #[test]
    fn processes_and_buffers_are_read_from_their_places() {
        let table = Table::over(words());
        let (a, b) = (Process(1), Process(2));
        assert!(table.processes().eq([a, b]) && table.buffers().eq([Buffer(1), Buffer(2)]));
        assert_eq!([a, b].map(|p| table.priority(p)), [Some(3), Some(5)]);
        assert_eq!(table.name(b).as_deref(), Some("BCDEF"));
        assert!(table.own_buffers(a).eq([Buffer(1)]) && table.own_buffers(b).eq([Buffer(2)]));
        assert_eq!(
            (table.awaited_buffer(a), table.awaited_buffer(b)),
            (None, Some(Buffer(2)))
        );
        assert_eq!(
            (table.awaited_device(a), table.awaited_device(b)),
            (None, Some(Device(63)))
        );
        assert_eq!(
            [1, 2, 3].map(|n| table.owner(Buffer(n))),
            [Some(a), Some(b), None]
        );
        assert_eq!(
            [1, 2, 3].map(|n| table.receiver(Buffer(n))),
            [Some(b), Some(a), None]
        );
        assert_eq!(table.message(Buffer(2)), Some(Message([5, 6, 7, 8])));
        assert_eq!(
            (table.name(Process(3)), table.message(Buffer(0))),
            (None, None)
        );
    }

    #[test]
    fn queues_are_followed_in_order() {
        let table = Table::over(words());
        assert!(table.running().eq([Process(2), Process(1)]));
        assert!(table.events(Process(2)).eq([Buffer(1), Buffer(2)]));
        assert_eq!(table.events(Process(1)).count(), 0);
    }

    #[test]
    fn words_that_run_in_a_circle_end_all_the_same() {
        let mut words = words();
        (words[72], words[114]) = (2, 1);
        let table = Table::over(words);
        assert_eq!(table.running().count(), 32);
        assert_eq!(table.events(Process(2)).count(), 128);
        let none = Table::over([0xFFFF; 3]);
        assert_eq!(
            (none.processes().count(), none.buffers().count()),
            (32, 128)
        );
        assert_eq!(none.own_buffers(Process(1)).count(), 0);
    }
}
