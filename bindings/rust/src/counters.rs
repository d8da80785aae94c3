//! The counters that a table's semaphores begin with, the second list of a layout, and what is wrong with one.

use core::fmt;

use crate::Semaphore;

/// The most semaphores of a table, and the most that a counter can be.
const SEMAPHORES_MOST: usize = 16;
const COUNTER_MOST: u16 = 32767;

/// What is wrong with a list of counters.
#[derive(Clone, Copy, Debug, PartialEq, Eq, Hash)]
#[non_exhaustive]
pub enum CounterFault {
    /// There are more than 16: how many.
    TooMany(usize),
    /// A counter isn't 0 to 32,767.
    TooLarge {
        /// The semaphore.
        semaphore: Semaphore,
        /// Its counter.
        counter: u16,
    },
}

impl fmt::Display for CounterFault {
    fn fmt(&self, to: &mut fmt::Formatter<'_>) -> fmt::Result {
        match self {
            CounterFault::TooMany(counters) => {
                write!(
                    to,
                    "there may be 16 semaphores, and {counters} have a counter"
                )
            }
            CounterFault::TooLarge { semaphore, counter } => {
                write!(
                    to,
                    "semaphore {semaphore}: its counter {counter} isn't 0 to 32767"
                )
            }
        }
    }
}

#[cfg(feature = "std")]
impl std::error::Error for CounterFault {}

/// The first fault of a list of counters, if it has one.
///
/// ```
/// use elvomike_monitor::{counter_fault, CounterFault, Semaphore};
///
/// const COUNTERS: [u16; 2] = [1, 0];
/// const _: () = assert!(counter_fault(&COUNTERS).is_none()); // wrong ones would be an error of the compiler
///
/// let fault = counter_fault(&[1, 40000]).unwrap();
/// assert_eq!(fault, CounterFault::TooLarge { semaphore: Semaphore(2), counter: 40000 });
/// assert_eq!(fault.to_string(), "semaphore 2: its counter 40000 isn't 0 to 32767");
/// ```
#[must_use]
pub const fn counter_fault(counters: &[u16]) -> Option<CounterFault> {
    if counters.len() > SEMAPHORES_MOST {
        return Some(CounterFault::TooMany(counters.len()));
    }
    let mut i = 0;
    while i < counters.len() {
        let counter = counters[i];
        i += 1;
        if counter > COUNTER_MOST {
            let semaphore = Semaphore(i as u16);
            return Some(CounterFault::TooLarge { semaphore, counter });
        }
    }
    None
}

#[cfg(test)]
mod tests {
    use super::*;
    use std::string::ToString;

    #[test]
    fn there_are_16_semaphores_and_no_more() {
        assert_eq!(counter_fault(&[]), None);
        assert_eq!(counter_fault(&[32767; 16]), None);
        let fault = counter_fault(&[0; 17]).unwrap();
        assert_eq!(fault, CounterFault::TooMany(17));
        assert_eq!(
            fault.to_string(),
            "there may be 16 semaphores, and 17 have a counter"
        );
    }

    #[test]
    fn the_first_counter_outside_its_range_is_named() {
        for counter in [32768, 65535] {
            let semaphore = Semaphore(3);
            assert_eq!(
                counter_fault(&[0, 32767, counter, 65535]),
                Some(CounterFault::TooLarge { semaphore, counter })
            );
        }
    }
}

/// Counters through the archive.
#[cfg(all(test, archive))]
mod archive_tests {
    use super::*;
    use crate::registers::layout;
    use crate::{Builder, List, NotLaidOut, Refusal, Table};

    const LIST: List = List::new().process("A", 5, 1);
    const WORDS: usize = Table::builder(&LIST).counters(&[0; 16]).table_words();

    #[test]
    fn sixteen_semaphores_are_laid_out_with_four_words_each() {
        assert_eq!(WORDS, 162);
        let builder: Builder<'_> = Table::builder(&LIST).counters(&[32767; 16]);
        let table = builder.lay_out_in([7; WORDS]).unwrap();
        assert_eq!(table.semaphores().count(), 16);
        assert_eq!(table.counter(Semaphore(16)), Some(32767));
        assert_eq!(table.words()[WORDS - 4..], [32767, 0, 0, 0]);
        let (lent, needed) = (WORDS - 1, WORDS);
        assert_eq!(
            builder.lay_out_in([7; WORDS - 1]).map(|_| ()),
            Err(NotLaidOut::TooShort { lent, needed })
        );
    }

    /// What the crate judges before the layout, the archive judges alike.
    #[test]
    fn wrong_counters_are_refused_with_their_cause() {
        for counters in [&[0; 17][..], &[0, 32768], &[65535]] {
            let (builder, mut words) = (Table::builder(&LIST).counters(counters), [7; 200]);
            let cause = NotLaidOut::Counters(counter_fault(counters).unwrap());
            assert_eq!(builder.fault(), Some(cause));
            let refused = builder.lay_out_in(&mut words[..]).map(|_| ());
            assert_eq!((refused, words), (Err(cause), [7; 200]));
            assert_eq!(cause.refusal(), Refusal::WrongList);
            let number = layout(LIST.words(), 0, counters, &mut words);
            assert_eq!((number, words), (Refusal::WrongList.number(), [7; 200]));
        }
    }
}
