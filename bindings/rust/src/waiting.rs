//! Who is stuck behind whom: the chain of waits from a process, and the rings of a station.

use crate::Process;

/// Words that are always enough for a chain, and for all rings.
const STUCK_WORDS: usize = 32;
const RINGS_WORDS: usize = 48;

/// The processes stuck one behind the other, from one on.
#[derive(Clone, Debug, PartialEq, Eq)]
pub struct Stuck {
    room: [u16; STUCK_WORDS],
    report: Report,
}

impl Stuck {
    /// The one asked for, whom it waits for, and so on; each once.
    pub fn processes(&self) -> impl Iterator<Item = Process> + '_ {
        let count = usize::from(self.report.count);
        self.room.iter().take(count).copied().map(Process)
    }

    /// Whether the last waits for one that is listed already, so that the waiting goes round for ever. If not,
    /// the last doesn't wait for an answer.
    #[must_use]
    pub fn ring(&self) -> bool {
        self.report.last == 1
    }
}

/// The rings of a station: processes that wait, through others, for themselves.
#[derive(Clone, Debug, PartialEq, Eq)]
pub struct Rings {
    room: [u16; RINGS_WORDS],
    report: Report,
}

impl Rings {
    /// Each ring once, from its lowest process on in the order of waiting; rings by rising lowest process.
    pub fn iter(&self) -> impl Iterator<Item = impl Iterator<Item = Process> + '_> + '_ {
        let words = usize::from(self.report.last);
        let rings = rings_of(self.room.get(..words).unwrap_or(&[]));
        rings.map(|ring| ring.iter().copied().map(Process))
    }

    /// How many rings there are.
    #[must_use]
    pub fn len(&self) -> usize {
        usize::from(self.report.count)
    }

    /// Whether there is none.
    #[must_use]
    pub fn is_empty(&self) -> bool {
        self.report.count == 0
    }
}

/// What comes back beside the room: the number, how many processes or rings, and whether a ring or how many words.
#[repr(C)]
#[derive(Clone, Copy, Debug, Default, PartialEq, Eq)]
struct Report {
    number: u16,
    count: u16,
    last: u16,
}

/// The rings that words tell, a 0 behind each.
fn rings_of(words: &[u16]) -> impl Iterator<Item = &[u16]> {
    let ended = words.split_inclusive(|&word| word == 0);
    ended.map(|ring| ring.strip_suffix(&[0]).unwrap_or(ring))
}

#[cfg(archive)]
mod with_archive {
    use super::{Report, Rings, Stuck, RINGS_WORDS, STUCK_WORDS};
    use crate::{Process, Refusal, Table};

    extern "C" {
        fn monitor_stuck(
            table: *const u16,
            table_words: usize,
            room: *mut u16,
            room_words: usize,
            process: u16,
            report: *mut Report,
        );
        fn monitor_rings(
            table: *const u16,
            table_words: usize,
            room: *mut u16,
            room_words: usize,
            report: *mut Report,
        );
    }

    impl<W: AsRef<[u16]> + AsMut<[u16]>> Table<W> {
        /// Whom the process is stuck behind.
        ///
        /// ```
        /// # use elvomike_monitor::calls::{SendMessage, Start, WaitAnswer};
        /// # use elvomike_monitor::{AnswerWait, List, Message, Process, Refusal, Table};
        /// # fn main() -> Result<(), Refusal> {
        /// # const LIST: List = List::new().process("A", 2, 1).process("B", 1, 1);
        /// # let mut table = Table::lay_out_in([0; LIST.table_words()], &LIST)?;
        /// // A waits for B's answer, and B for A's
        /// let (a, b, words) = (Process(1), Process(2), Message::EMPTY);
        /// for (from, to) in [(a, b), (b, a)] {
        ///     table.call(Start(from))?;
        ///     let buffer = table.call(SendMessage { to, words })?.buffer;
        ///     assert_eq!(table.call(WaitAnswer { buffer })?, AnswerWait::Waits);
        /// }
        /// let stuck = table.stuck(b)?;
        /// assert!(stuck.ring() && stuck.processes().eq([b, a]));
        /// assert!(table.rings()?.iter().all(|ring| ring.eq([a, b])));
        /// # Ok(())
        /// # }
        /// ```
        ///
        /// # Errors
        ///
        /// [`Refusal::TableNotSound`], [`Refusal::NoSuchProcess`], and [`Refusal::WrongState`] if the process doesn't wait
        /// for an answer.
        pub fn stuck(&self, process: Process) -> Result<Stuck, Refusal> {
            let (words, mut room) = (self.words(), [0; STUCK_WORDS]);
            let mut report = Report::default();
            // SAFETY: each pointer comes from a reference that holds for the call, those written to from a unique
            // one, with the count of words behind it; the archive keeps none of them and touches no word outside.
            unsafe {
                monitor_stuck(
                    words.as_ptr(),
                    words.len(),
                    room.as_mut_ptr(),
                    room.len(),
                    process.0,
                    &mut report,
                );
            }
            Refusal::judge(report.number)?;
            Ok(Stuck { room, report })
        }

        /// The rings: processes that wait, through others, for themselves, until one of them is stopped or cleaned.
        ///
        /// # Errors
        ///
        /// [`Refusal::TableNotSound`].
        pub fn rings(&self) -> Result<Rings, Refusal> {
            let (words, mut room) = (self.words(), [0; RINGS_WORDS]);
            let mut report = Report::default();
            // SAFETY: as above.
            unsafe {
                monitor_rings(
                    words.as_ptr(),
                    words.len(),
                    room.as_mut_ptr(),
                    room.len(),
                    &mut report,
                );
            }
            Refusal::judge(report.number)?;
            Ok(Rings { room, report })
        }
    }
}

#[cfg(test)]
mod tests {
    use super::*;

    #[test]
    fn a_report_is_three_words_without_gaps() {
        assert_eq!(core::mem::size_of::<Report>(), 6);
        assert_eq!(offset_of!(Report, last), 4);
    }

    #[test]
    fn rings_end_in_0() {
        assert_eq!(rings_of(&[]).count(), 0);
        let rings = [&[1, 4, 3][..], &[2, 5]];
        assert!(rings_of(&[1, 4, 3, 0, 2, 5, 0]).eq(rings));
    }
}

/// Chains and rings through the archive.
#[cfg(all(test, archive))]
mod archive_tests {
    use crate::calls::{self, Start, WaitAnswer};
    use crate::{table_words, AnswerWait, Buffer, List, Message, Process, Refusal, Table};

    const WORDS: usize = table_words(5, 5, 0);

    /// Each process in turn is started, sends to the one named for it and waits for the answer.
    fn waiting(holders: &[u16]) -> Table<[u16; WORDS]> {
        let list = ["A", "B", "C", "D", "E"]
            .iter()
            .fold(List::new(), |list, name| list.process(name, 5, 1));
        let mut table = Table::lay_out_in([0; WORDS], &list).unwrap();
        for (before, &to) in holders.iter().enumerate() {
            let (to, words, number) = (Process(to), Message::EMPTY, before as u16 + 1);
            table.call(Start(Process(number))).unwrap();
            table.call(calls::SendMessage { to, words }).unwrap();
            let buffer = Buffer(number);
            assert_eq!(table.call(WaitAnswer { buffer }), Ok(AnswerWait::Waits));
        }
        table
    }

    #[test]
    fn a_ring_of_three_and_a_tail() {
        let table = waiting(&[4, 1, 1, 3]);
        for (process, chain) in [(2, &[2, 1, 4, 3][..]), (4, &[4, 3, 1])] {
            let stuck = table.stuck(Process(process)).unwrap();
            assert!(
                stuck.ring()
                    && stuck
                        .processes()
                        .map(Process::number)
                        .eq(chain.iter().copied())
            );
        }
        let rings = table.rings().unwrap();
        assert!(rings.iter().all(|ring| ring.eq([1, 4, 3].map(Process))));
        assert_eq!((rings.len(), rings.is_empty()), (1, false));
    }

    #[test]
    fn a_stop_of_any_member_ends_the_ring() {
        for member in [1, 3, 4] {
            let mut table = waiting(&[4, 1, 1, 3]);
            table.call(calls::Stop(Process(member))).unwrap();
            assert!(table.rings().unwrap().is_empty());
        }
    }

    #[test]
    fn a_chain_that_ends_is_no_ring() {
        let table = waiting(&[2, 3]);
        let stuck = table.stuck(Process(1)).unwrap();
        assert!(!stuck.ring() && stuck.processes().eq([1, 2, 3].map(Process)));
        assert_eq!(table.rings().unwrap().iter().count(), 0);
    }

    #[test]
    fn what_is_refused() {
        let table = waiting(&[2]);
        assert_eq!(table.stuck(Process(6)), Err(Refusal::NoSuchProcess));
        assert_eq!(table.stuck(Process(2)), Err(Refusal::WrongState));
        let none = Table::over([7; 100]);
        assert_eq!(none.stuck(Process(1)), Err(Refusal::TableNotSound));
        assert_eq!(none.rings(), Err(Refusal::TableNotSound));
    }
}
