//! The operator's screen: what each process of a table does, in one short record, over the proved archive `libscreen.a`
//! (`include/elvomike/screen.h`): the feature `screen`.

use crate::{Process, State};

/// The record of a process.
#[derive(Clone, Copy, Debug, Default, PartialEq, Eq)]
#[repr(C)]
pub struct Summary {
    number: u16,
    state: u16,
    /// Messages and answers in its event queue.
    pub queue: u16,
    /// Conversations it has open as sender, orphaned ones counted.
    pub sent: u16,
}

impl Summary {
    /// The process.
    #[must_use]
    pub const fn process(&self) -> Process {
        Process(self.number)
    }

    /// What it does. A filled record has no other numbers, so every other is the last.
    #[must_use]
    pub fn state(&self) -> State {
        State::from_number(self.state).unwrap_or(State::WaitsSemaphore)
    }
}

/// The records of a table's processes.
#[derive(Clone, Debug, PartialEq, Eq)]
pub struct Screen {
    list: [Summary; 32],
    processes: usize,
}

impl Screen {
    /// The record of each process, by rising number.
    #[must_use]
    pub fn summaries(&self) -> &[Summary] {
        self.list.get(..self.processes).unwrap_or(&[])
    }
}

#[cfg(archive)]
mod with_archive {
    use super::{Screen, Summary};
    use crate::{Refusal, Table};

    extern "C" {
        fn monitor_screen(
            table: *const u16,
            table_words: usize,
            list: *mut Summary,
            records: usize,
        ) -> u16;
    }

    /// Fills in the record of each process, that of process p at `list[p - 1]`; the records behind them stay as they are.
    ///
    /// # Errors
    ///
    /// [`Refusal::TableNotSound`], and [`Refusal::RoomTooShort`] where there are fewer records than processes; then nothing is
    /// filled in.
    pub fn fill(words: &[u16], list: &mut [Summary]) -> Result<(), Refusal> {
        // SAFETY: each pointer comes from a reference, with the count of what lies behind it; the list's is unique for the
        // call. The archive keeps none of them and touches nothing outside.
        let number =
            unsafe { monitor_screen(words.as_ptr(), words.len(), list.as_mut_ptr(), list.len()) };
        Refusal::judge(number)
    }

    impl<W: AsRef<[u16]> + AsMut<[u16]>> Table<W> {
        /// The record of each process.
        ///
        /// ```
        /// # use elvomike_monitor::{calls::Start, List, Process, Refusal, State, Table};
        /// # fn main() -> Result<(), Refusal> {
        /// # const LIST: List = List::new().process("A", 2, 1).process("B", 1, 1);
        /// # let mut table = Table::lay_out_in([0; LIST.table_words()], &LIST)?;
        /// # table.call(Start(Process(2)))?;
        /// let screen = table.screen()?;
        /// let states = screen.summaries().iter().map(|one| one.state());
        /// assert!(states.eq([State::Stopped, State::Running]));
        /// # Ok(())
        /// # }
        /// ```
        ///
        /// # Errors
        ///
        /// [`Refusal::TableNotSound`].
        #[cfg_attr(docsrs, doc(cfg(feature = "screen")))]
        pub fn screen(&self) -> Result<Screen, Refusal> {
            let mut list = [Summary::default(); 32];
            fill(self.words(), &mut list)?;
            let processes = self.words().first().copied().map_or(0, usize::from);
            Ok(Screen { list, processes })
        }
    }
}

#[cfg(archive)]
pub use with_archive::fill;

#[cfg(test)]
mod tests {
    use super::*;

    #[test]
    fn a_record_is_four_words_and_its_state_has_a_name() {
        assert_eq!(core::mem::size_of::<Summary>(), 8);
        let states = [0, 1, 2, 3, 4, 5].map(|state| {
            let summary = Summary {
                state,
                ..Summary::default()
            };
            summary.state()
        });
        let named = [
            State::Stopped,
            State::Running,
            State::WaitsEvent,
            State::WaitsAnswer,
            State::WaitsInterrupt,
            State::WaitsSemaphore,
        ];
        assert_eq!(states, named);
    }
}

#[cfg(all(test, archive))]
mod archive_tests {
    use super::*;
    use crate::{table_words, Refusal, Table};

    /// Two processes; the first owns a buffer that it has sent to the second, which is stopped.
    fn words() -> [u16; table_words(2, 1, 0)] {
        let mut words = [0; table_words(2, 1, 0)];
        words[..4].copy_from_slice(&[2, 1, 1, 1]);
        words[72..88].copy_from_slice(&[0, 0, 0, 0, 1, 0, 0, 0, 0, 5, 1, 1, 0x4100, 0, 0, 0]);
        words[88..104].copy_from_slice(&[0, 0, 1, 1, 0, 0, 0, 0, 0, 3, 0, 0, 0x4200, 0, 0, 0]);
        words[104..114].copy_from_slice(&[0, 0, 1, 2, 1, 0, 0, 0, 0, 0]);
        words
    }

    #[test]
    fn each_process_has_its_record() {
        let screen = Table::over(words()).screen().unwrap();
        let told = screen
            .summaries()
            .iter()
            .map(|one| (one.number, one.state(), one.queue, one.sent));
        assert!(told.eq([(1, State::Running, 0, 1), (2, State::Stopped, 1, 0)]));
    }

    #[test]
    fn records_behind_the_last_process_stay() {
        let before = Summary {
            number: 9,
            ..Summary::default()
        };
        let mut list = [before; 3];
        assert_eq!(fill(&words(), &mut list), Ok(()));
        assert_eq!((list[1].number, list[2]), (2, before));
    }

    #[test]
    fn refused_it_fills_in_nothing() {
        let mut list = [Summary::default(); 1];
        assert_eq!(fill(&words(), &mut list), Err(Refusal::RoomTooShort));
        assert_eq!(fill(&[], &mut list), Err(Refusal::TableNotSound));
        assert_eq!(list, [Summary::default()]);
        assert_eq!(Table::over([0; 10]).screen(), Err(Refusal::TableNotSound));
    }
}

#[cfg(all(test, archive))]
mod archives_tests {
    use super::*;
    use crate::calls::{Clean, SendMessage, Start, WaitEvent};
    use crate::{table_words, List, Message, Standing, Table};

    #[test]
    fn what_is_sent_agrees_with_the_listing_orphans_counted() {
        let list = List::new().process("A", 5, 2).process("B", 3, 0);
        let mut table = Table::lay_out_in([0; table_words(2, 2, 0)], &list).unwrap();
        let message = SendMessage {
            to: Process(2),
            words: Message([0; 4]),
        };
        let _ = (table.call(Start(Process(1))), table.call(Start(Process(2))));
        let _ = (table.call(message), table.call(message));
        // A waits, so that B takes the first message; then A is cleaned, and that one is orphaned
        for _ in 0..2 {
            let _ = table.call(WaitEvent { delay: 0 }).unwrap();
        }
        let screen = table.screen().unwrap();
        let (one, two) = (&screen.summaries()[0], &screen.summaries()[1]);
        assert_eq!((one.state(), one.sent), (State::WaitsEvent, 2));
        assert_eq!((two.state(), two.queue), (State::Running, 1));
        table.call(Clean(Process(1))).unwrap();
        let (screen, listed) = (table.screen().unwrap(), table.list(Process(1)).unwrap());
        let own = listed.iter().filter(|row| row.owner == Process(1)).count();
        assert_eq!((screen.summaries()[0].sent, own), (1, 1));
        assert_eq!(listed.get(0).unwrap().standing, Standing::Orphaned);
    }
}
