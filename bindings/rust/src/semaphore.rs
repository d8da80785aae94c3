//! What a table's words say of its semaphores: their counters, and who waits at which.

use crate::places::{process_word, semaphore_word, SEMAPHORES};
use crate::{Process, Semaphore, Table};

/// The most semaphores of a table.
const SEMAPHORES_MOST: u16 = 16;

impl<W: AsRef<[u16]> + AsMut<[u16]>> Table<W> {
    /// The table's semaphores.
    pub fn semaphores(&self) -> impl Iterator<Item = Semaphore> {
        let count = self.words().get(SEMAPHORES).copied().unwrap_or(0);
        (1..=count.min(SEMAPHORES_MOST)).map(Semaphore)
    }

    /// The semaphore's counter: how many may lower it before one waits, or below zero minus the number of those that wait;
    /// none where the words have no such semaphore.
    pub fn counter(&self, semaphore: Semaphore) -> Option<i16> {
        let word = semaphore_word(self.words(), semaphore.0, 0)?;
        Some(i16::from_ne_bytes(word.to_ne_bytes()))
    }

    /// The processes that wait at the semaphore, the longest waiter first: whom the next raises wake. None where the words
    /// have no such semaphore, and at most 32 whatever the words are.
    ///
    /// ```
    /// # use elvomike_monitor::calls::{Lower, Start};
    /// # use elvomike_monitor::{table_words, List, Process, Refusal, Semaphore, SemaphoreWait, Table};
    /// # fn main() -> Result<(), Refusal> {
    /// # const LIST: List = List::new().process("A", 2, 0).process("B", 1, 0);
    /// # let builder = Table::builder(&LIST).counters(&[0]);
    /// # let mut table = builder.lay_out_in([0; table_words(2, 0, 1)])?;
    /// // B and then A lower semaphore 1, whose counter is 0
    /// let (a, b, semaphore) = (Process(1), Process(2), Semaphore(1));
    /// for process in [b, a] {
    ///     table.call(Start(process))?;
    ///     assert_eq!(table.call(Lower { semaphore })?, SemaphoreWait::Waits);
    /// }
    /// assert_eq!(table.counter(semaphore), Some(-2));
    /// assert!(table.waiters(semaphore).eq([b, a]));
    /// assert_eq!(table.awaited_semaphore(b), Some(semaphore));
    /// # Ok(())
    /// # }
    /// ```
    pub fn waiters(&self, semaphore: Semaphore) -> impl Iterator<Item = Process> + '_ {
        let first = semaphore_word(self.words(), semaphore.0, 1);
        self.chain(first, 0)
    }

    /// The semaphore that the process waits for; none if it waits for none.
    pub fn awaited_semaphore(&self, process: Process) -> Option<Semaphore> {
        let word = process_word(self.words(), process.0, 15)?;
        Some(Semaphore(word)).filter(|_| word != 0)
    }
}

#[cfg(test)]
mod tests {
    use super::*;
    use crate::{table_words, State};

    /// A of priority 5 with a buffer, and B of priority 3, wait for the first of two semaphores, A longer.
    pub(super) fn waiting() -> [u16; table_words(2, 1, 2)] {
        let mut words = [0; table_words(2, 1, 2)];
        words[..6].copy_from_slice(&[2, 1, 0, 0, 0, 2]);
        words[72..88].copy_from_slice(&[2, 0, 0, 0, 5, 0, 0, 0, 0, 5, 1, 1, 0x4100, 0, 0, 1]);
        words[88..104].copy_from_slice(&[0, 1, 0, 0, 5, 0, 0, 0, 0, 3, 0, 0, 0x4200, 0, 0, 1]);
        words[104..107].copy_from_slice(&[0, 0, 1]);
        words[114..].copy_from_slice(&[0xFFFE, 1, 2, 0, 3, 0, 0, 0]);
        words
    }

    #[test]
    fn counters_and_waiters_are_read_from_their_places() {
        let table = Table::over(waiting());
        let counters = [0, 1, 2, 3].map(|semaphore| table.counter(Semaphore(semaphore)));
        assert_eq!(counters, [None, Some(-2), Some(3), None]);
        assert!(table.waiters(Semaphore(1)).eq([1, 2].map(Process)));
        assert_eq!(
            [0, 2, 3].map(|s| table.waiters(Semaphore(s)).count()),
            [0; 3]
        );
        let first = Some(Semaphore(1));
        let waited_for = [0, 1, 2, 3].map(|process| table.awaited_semaphore(Process(process)));
        assert_eq!(waited_for, [None, first, first, None]);
        assert_eq!(table.state(Process(2)), Some(State::WaitsSemaphore));
        assert_eq!((table.semaphores().count(), table.current()), (2, None));
    }

    #[test]
    fn a_counter_is_signed_and_exact_at_its_ends() {
        for (word, counter) in [(0, 0), (32767, 32767), (0xFFFF, -1), (0xFFE0, -32)] {
            let mut words = waiting();
            words[118] = word;
            assert_eq!(Table::over(words).counter(Semaphore(2)), Some(counter));
        }
    }

    #[test]
    fn words_that_run_in_a_circle_end_all_the_same() {
        let mut words = waiting();
        words[72] = 1;
        assert_eq!(Table::over(words).waiters(Semaphore(1)).count(), 32);
        let none = Table::over([1; 5]);
        assert_eq!(
            (none.semaphores().count(), none.counter(Semaphore(1))),
            (0, None)
        );
    }
}

/// The definitions' worked runs of LOWER and RAISE, through the archive.
#[cfg(all(test, archive))]
mod archive_tests {
    use super::tests::waiting;
    use crate::calls::{Clean, Lower, Raise, SendMessage, Start, Stop, Tick, WaitEvent};
    use crate::{table_words, Call, Cleaned, List, Reason, Refusal, State, Table, Ticked};
    use crate::{EventWait, Message, Process, Semaphore, SemaphoreWait};

    const TWO: List = List::new().process("A", 5, 1).process("B", 3, 0);
    /// H comes before two equals.
    const THREE: List = List::new()
        .process("H", 9, 0)
        .process("A", 5, 0)
        .process("B", 5, 0);
    const WORDS: usize = table_words(3, 0, 2);
    const LOWER: Lower = Lower {
        semaphore: Semaphore(1),
    };
    const RAISE: Raise = Raise {
        semaphore: Semaphore(1),
    };

    fn laid_out(list: &List, counters: &[u16]) -> Table<[u16; WORDS]> {
        let builder = Table::builder(list).counters(counters);
        builder.lay_out_in([7; WORDS]).unwrap()
    }

    /// What an accepted call gives, with who is current after it.
    fn done<C: Call>(table: &mut Table<[u16; WORDS]>, call: C) -> (C::Gives, Option<u16>) {
        let gives = table.call(call).unwrap();
        (gives, table.current().map(Process::number))
    }

    const fn taken(current: u16) -> (SemaphoreWait, Option<u16>) {
        (SemaphoreWait::Taken, Some(current))
    }

    const fn waits(current: Option<u16>) -> (SemaphoreWait, Option<u16>) {
        (SemaphoreWait::Waits, current)
    }

    #[test]
    fn one_is_let_in_and_the_other_waits_its_turn() {
        let table = &mut laid_out(&TWO, &[1]);
        assert_eq!(table.call(LOWER), Err(Refusal::NoCurrent));
        let _ = (
            done(table, Start(Process(1))),
            done(table, Start(Process(2))),
        );
        assert_eq!(done(table, LOWER), taken(1));
        let wait = WaitEvent { delay: 1 };
        assert_eq!(done(table, wait), (EventWait::Waits, Some(2)));
        assert_eq!(done(table, LOWER), waits(None));
        assert_eq!(
            (table.counter(Semaphore(1)), table.reason(Process(2))),
            (Some(-1), Reason::None)
        );
        assert_eq!(table.call(RAISE), Err(Refusal::NoCurrent));
        assert_eq!(done(table, Tick), (Ticked { woken: 1 }, Some(1)));
        for semaphore in [0, 2, 0xFFFF].map(Semaphore) {
            assert_eq!(
                table.call(Raise { semaphore }),
                Err(Refusal::NoSuchSemaphore)
            );
            assert_eq!(
                table.call(Lower { semaphore }),
                Err(Refusal::NoSuchSemaphore)
            );
        }
        assert_eq!(done(table, RAISE), ((), Some(1)));
        assert_eq!(
            (table.reason(Process(1)), table.reason(Process(2))),
            (Reason::Delay, Reason::Raise)
        );
        assert_eq!(
            (
                table.counter(Semaphore(1)),
                table.waiters(Semaphore(1)).count()
            ),
            (Some(0), 0)
        );
        assert_eq!(table.awaited_semaphore(Process(2)), None);
        assert_eq!(done(table, LOWER), waits(Some(2)));
        assert_eq!(table.reason(Process(1)), Reason::None);
        assert_eq!(done(table, Stop(Process(1))), ((), Some(2)));
        assert_eq!(table.counter(Semaphore(1)), Some(0));
        assert_eq!(done(table, RAISE), ((), Some(2)));
        assert_eq!(done(table, LOWER), taken(2));
        assert_eq!(done(table, LOWER), waits(None));
    }

    #[test]
    fn a_counter_goes_no_further_than_its_end() {
        let table = &mut laid_out(&TWO, &[32767]);
        let _ = done(table, Start(Process(1)));
        let before = table.clone();
        assert_eq!(table.call(RAISE), Err(Refusal::CounterFull));
        assert_eq!(*table, before);
        assert_eq!(done(table, LOWER), taken(1));
        assert_eq!(table.counter(Semaphore(1)), Some(32766));
        assert_eq!(done(table, RAISE), ((), Some(1)));
        assert_eq!(*table, before);
    }

    #[test]
    fn the_longest_waiter_wakes_first() {
        let table = &mut laid_out(&THREE, &[0]);
        for process in [2, 3] {
            let _ = done(table, Start(Process(process)));
            assert_eq!(done(table, LOWER), waits(None));
        }
        let _ = done(table, Start(Process(1)));
        assert!(table.waiters(Semaphore(1)).eq([2, 3].map(Process)));
        assert_eq!(done(table, RAISE), ((), Some(1)));
        assert_eq!(done(table, Stop(Process(1))), ((), Some(2)));
        assert_eq!(done(table, RAISE), ((), Some(2)));
        assert_eq!(done(table, Stop(Process(2))), ((), Some(3)));
    }

    #[test]
    fn who_is_cleaned_is_out_of_the_queue() {
        let table = &mut laid_out(&THREE, &[0]);
        let _ = (
            done(table, Start(Process(2))),
            done(table, LOWER),
            done(table, Start(Process(1))),
        );
        assert_eq!(
            done(table, Clean(Process(2))),
            (Cleaned { changed: 0 }, Some(1))
        );
        assert_eq!(
            (
                table.counter(Semaphore(1)),
                table.waiters(Semaphore(1)).count()
            ),
            (Some(0), 0)
        );
        assert_eq!(done(table, RAISE), ((), Some(1)));
        assert_eq!(done(table, LOWER), taken(1));
    }

    #[test]
    fn a_message_wakes_nobody_who_waits_at_a_semaphore() {
        let table = &mut laid_out(&TWO, &[0]);
        let _ = (
            done(table, Start(Process(2))),
            done(table, LOWER),
            done(table, Start(Process(1))),
        );
        let (to, words) = (Process(2), Message::EMPTY);
        let _ = done(table, SendMessage { to, words });
        assert_eq!(table.state(Process(2)), Some(State::WaitsSemaphore));
        assert_eq!(done(table, Stop(Process(1))), ((), None));
    }

    #[test]
    fn the_words_while_two_wait() {
        let table = &mut laid_out(&TWO, &[0, 3]);
        let _ = (
            done(table, Start(Process(1))),
            done(table, Start(Process(2))),
        );
        assert_eq!(done(table, LOWER), waits(Some(2)));
        assert_eq!(done(table, LOWER), waits(None));
        assert_eq!(table.words()[..waiting().len()], waiting());
    }
}
