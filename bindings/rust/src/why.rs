//! Why a table isn't sound: the first clause that its words break, at which record, and the word that is named, over the
//! proved archive `libwhy.a` (`include/elvomike/why.h`): the feature `why`.

use core::fmt;

use crate::{Buffer, Device, Process, Semaphore};

/// What is told of words that are no sound table. Every clause before this one holds, and it holds of every record before.
#[derive(Clone, Copy, Debug, PartialEq, Eq, Hash)]
#[repr(C)]
pub struct Fault {
    /// The clause, from 1 to 48: docs/MONITOR.md, 17.6 has them in order.
    pub clause: u16,
    /// The number of the record that it fails of, from 1; [`Fault::of`] says of what.
    pub record: u16,
    /// The index of the word that is named; the number of words where there are too few.
    pub place: u16,
}

/// A record of the table.
#[derive(Clone, Copy, Debug, PartialEq, Eq, Hash)]
pub enum Record {
    /// The header, or the running queue as a whole.
    Table,
    /// A process, by its number.
    Process(Process),
    /// A buffer, by its number.
    Buffer(Buffer),
    /// A semaphore, by its number.
    Semaphore(Semaphore),
    /// A device, by its number, which counts from 0.
    Device(Device),
}

/// What is said where a clause fails, clause by clause.
const TEXTS: [&str; 48] = [
    "there are fewer words than the 72 of a header",
    "the number of processes isn't 1 to 32",
    "the number of buffers isn't 0 to 128",
    "the number of semaphores isn't 0 to 16",
    "there are fewer words than the header tells",
    "the edition isn't 0 or 1",
    "header word 6 or 7 isn't zero",
    "a semaphore's last word isn't zero",
    "a priority isn't 1 to 255",
    "a name isn't legal",
    "a name is that of a process before",
    "own buffers don't begin right behind those of the processes before",
    "the processes own more or fewer buffers than there are",
    "a buffer's owner isn't the process among whose own it stands",
    "the first of the running queue doesn't run",
    "the last of the running queue doesn't run",
    "the first of the running queue has one before it",
    "behind a process that runs stands one that doesn't",
    "what is behind a process that runs doesn't lead back to it",
    "a process runs and isn't in the running queue",
    "a priority rises along the running queue",
    "a process that is in no queue has a neighbour",
    "the first of an event queue doesn't belong there",
    "the last of an event queue doesn't belong there",
    "the first of an event queue has one before it",
    "behind a buffer of an event queue stands one that doesn't belong there",
    "what is behind a buffer of an event queue doesn't lead back to it",
    "a buffer belongs in an event queue and isn't there",
    "a buffer that is in no event queue has a neighbour",
    "a standing isn't 0 to 4",
    "a free buffer has a receiver, an age or a message",
    "a receiver is no process, or the owner",
    "the first in a semaphore's queue doesn't wait for it",
    "the last in a semaphore's queue doesn't wait for it",
    "the first in a semaphore's queue has one before it",
    "behind a process that waits for a semaphore stands one that doesn't",
    "what is behind a process that waits for a semaphore doesn't lead back to it",
    "a process waits for a semaphore and isn't in its queue",
    "a semaphore's counter doesn't say how many wait",
    "a state isn't 0 to 5",
    "a reason isn't 0 to 3 or 5",
    "a process that doesn't run has a reason",
    "the semaphore that a process names doesn't go with its state",
    "a process waits for an event and has one",
    "the buffer that a process names doesn't go with its state",
    "the device that a process names doesn't go with its state",
    "a process that waits for no event and no interrupt has a delay",
    "a device's word names none that waits for it, or keeps an interrupt in the first edition",
];

impl Fault {
    /// The record that the clause fails of.
    #[must_use]
    pub const fn of(&self) -> Record {
        match self.clause {
            9..=12 | 18..=25 | 36..=38 | 40..=47 => Record::Process(Process(self.record)),
            14 | 26..=32 => Record::Buffer(Buffer(self.record)),
            8 | 33..=35 | 39 => Record::Semaphore(Semaphore(self.record)),
            48 => Record::Device(Device(self.record.saturating_sub(1))),
            _ => Record::Table,
        }
    }

    /// What is wrong, in a person's words.
    #[must_use]
    pub fn text(&self) -> &'static str {
        let text = usize::from(self.clause)
            .checked_sub(1)
            .and_then(|before| TEXTS.get(before));
        text.copied().unwrap_or("a clause that has no name here")
    }
}

impl fmt::Display for Record {
    fn fmt(&self, to: &mut fmt::Formatter<'_>) -> fmt::Result {
        match self {
            Record::Table => to.write_str("the table"),
            Record::Process(number) => write!(to, "process {number}"),
            Record::Buffer(number) => write!(to, "buffer {number}"),
            Record::Semaphore(number) => write!(to, "semaphore {number}"),
            Record::Device(number) => write!(to, "device {number}"),
        }
    }
}

impl fmt::Display for Fault {
    fn fmt(&self, to: &mut fmt::Formatter<'_>) -> fmt::Result {
        write!(to, "{}: {}, word {}", self.text(), self.of(), self.place)
    }
}

#[cfg(feature = "std")]
impl std::error::Error for Fault {}

#[cfg(archive)]
mod with_archive {
    use super::Fault;
    use crate::Table;

    extern "C" {
        fn monitor_why(table: *const u16, table_words: usize) -> Fault;
    }

    /// Why the words are no sound table; none where they are one.
    #[must_use]
    pub fn why(words: &[u16]) -> Option<Fault> {
        // SAFETY: the pointer comes from a reference, with the count of the words behind it. The archive only reads them,
        // keeps no pointer and touches nothing outside.
        let fault = unsafe { monitor_why(words.as_ptr(), words.len()) };
        Some(fault).filter(|fault| fault.clause != 0)
    }

    impl<W: AsRef<[u16]> + AsMut<[u16]>> Table<W> {
        /// Why the table isn't sound; none where it is.
        ///
        /// ```
        /// # use elvomike_monitor::{List, Refusal, Table};
        /// # fn main() -> Result<(), Refusal> {
        /// # const LIST: List = List::new().process("A", 2, 1).process("B", 1, 1);
        /// let table = Table::lay_out_in([0; LIST.table_words()], &LIST)?;
        /// assert_eq!(table.why(), None);
        /// let mut words = table.into_words();
        /// words[72 + 16 + 9] = 0; // B's priority, written over
        /// let fault = Table::over(words).why().unwrap();
        /// assert_eq!(fault.to_string(), "a priority isn't 1 to 255: process 2, word 97");
        /// # Ok(())
        /// # }
        /// ```
        #[cfg_attr(docsrs, doc(cfg(feature = "why")))]
        pub fn why(&self) -> Option<Fault> {
            why(self.words())
        }
    }
}

#[cfg(archive)]
pub use with_archive::why;

#[cfg(test)]
mod tests {
    use super::*;
    use std::collections::BTreeSet;
    use std::string::ToString;

    fn fault(clause: u16) -> Fault {
        Fault {
            clause,
            record: 3,
            place: 4,
        }
    }

    #[test]
    fn a_fault_is_three_words_without_gaps() {
        assert_eq!(core::mem::size_of::<Fault>(), 6);
        assert_eq!(offset_of!(Fault, place), 4);
    }

    #[test]
    fn each_clause_says_something_of_its_own() {
        let said: BTreeSet<&str> = (1..=48).map(|clause| fault(clause).text()).collect();
        assert_eq!(said.len(), 48);
        assert!([0, 49, u16::MAX].map(|clause| fault(clause).text()) == [fault(0).text(); 3]);
        assert!(!said.contains(fault(0).text()));
    }

    #[test]
    fn a_sentence_has_the_record_and_the_word() {
        let told = [2, 9, 14, 8, 48].map(|clause| fault(clause).to_string());
        let ends = [
            "the table",
            "process 3",
            "buffer 3",
            "semaphore 3",
            "device 2",
        ];
        for (told, end) in told.iter().zip(ends) {
            let (_, behind) = told.split_once(": ").unwrap();
            assert_eq!(behind, std::format!("{end}, word 4"));
        }
    }
}

#[cfg(all(test, archive))]
mod archive_tests {
    use super::*;
    use crate::calls::Start;
    use crate::{table_words, List, Refusal, Table};

    /// What is told where one word of a table of two processes is another.
    fn over(place: usize, word: u16) -> Option<Fault> {
        let list = List::new().process("A", 5, 1).process("B", 3, 0);
        let mut table = Table::lay_out_in([0; table_words(2, 1, 0)], &list).unwrap();
        table.call(Start(Process(1))).unwrap();
        let mut words = table.into_words();
        words[place] = word;
        let mut table = Table::over(words);
        assert_eq!(table.call(Start(Process(2))).is_ok(), table.why().is_none());
        Table::over(words).why()
    }

    #[test]
    fn the_clause_the_record_and_the_word_are_told() {
        let told = |place, word| over(place, word).map(|f| (f.clause, f.of(), f.place));
        assert_eq!(told(0, 2), None);
        assert_eq!(told(0, 33), Some((2, Record::Table, 0)));
        assert_eq!(told(97, 0), Some((9, Record::Process(Process(2)), 97)));
        assert_eq!(told(108, 7), Some((30, Record::Buffer(Buffer(1)), 108)));
        assert_eq!(told(8 + 5, 1), Some((48, Record::Device(Device(5)), 13)));
        assert_eq!(why(&[]).map(|fault| fault.place), Some(0));
    }

    #[test]
    fn it_is_told_exactly_where_a_call_is_refused() {
        let mut table = Table::over([0; 80]);
        assert_eq!(table.call(Start(Process(1))), Err(Refusal::TableNotSound));
        assert_eq!(table.why().map(|fault| fault.clause), Some(2));
    }
}
