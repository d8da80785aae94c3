//! Laying out a table: its edition, the builder that names it and the semaphores, and why it can't be laid out.

#[cfg(all(test, archive))]
mod archive_tests;

use core::fmt;

use crate::{CounterFault, Fault, Refusal};

/// A table's edition, chosen when it is laid out.
#[derive(Clone, Copy, Debug, Default, PartialEq, Eq, Hash)]
#[repr(u16)]
pub enum Edition {
    /// An interrupt that comes while nobody waits for its device is lost.
    #[default]
    First = 0,
    /// It is kept, and the next to wait for the device is given it at once.
    Second = 1,
}

impl Edition {
    /// Its number, as the table has it.
    #[must_use]
    pub const fn number(self) -> u16 {
        self as u16
    }

    /// The edition of a number; none above 1.
    #[must_use]
    pub const fn from_number(number: u16) -> Option<Edition> {
        match number {
            0 => Some(Edition::First),
            1 => Some(Edition::Second),
            _ => None,
        }
    }
}

/// Why no table was laid out; the words lent are as they were.
#[derive(Clone, Copy, Debug, PartialEq, Eq, Hash)]
pub enum NotLaidOut {
    /// An entry of the list is wrong.
    List(Fault),
    /// The counters of the semaphores are wrong.
    Counters(CounterFault),
    /// The words lent are too few.
    TooShort {
        /// How many were lent.
        lent: usize,
        /// How many the list and the counters ask for.
        needed: usize,
    },
    /// The archive refused what the crate let pass.
    Refused(Refusal),
}

impl NotLaidOut {
    /// The refusal that the documents have for it: 11 or 12.
    #[must_use]
    pub const fn refusal(self) -> Refusal {
        match self {
            NotLaidOut::List(_) | NotLaidOut::Counters(_) => Refusal::WrongList,
            NotLaidOut::TooShort { .. } => Refusal::TableTooShort,
            NotLaidOut::Refused(refusal) => refusal,
        }
    }
}

impl fmt::Display for NotLaidOut {
    fn fmt(&self, to: &mut fmt::Formatter<'_>) -> fmt::Result {
        match self {
            NotLaidOut::List(fault) => fault.fmt(to),
            NotLaidOut::Counters(fault) => fault.fmt(to),
            NotLaidOut::TooShort { lent, needed } => {
                write!(
                    to,
                    "a table of {needed} words is asked for, and {lent} were lent"
                )
            }
            NotLaidOut::Refused(refusal) => refusal.fmt(to),
        }
    }
}

#[cfg(feature = "std")]
impl std::error::Error for NotLaidOut {}

impl From<Fault> for NotLaidOut {
    fn from(fault: Fault) -> NotLaidOut {
        NotLaidOut::List(fault)
    }
}

impl From<CounterFault> for NotLaidOut {
    fn from(fault: CounterFault) -> NotLaidOut {
        NotLaidOut::Counters(fault)
    }
}

impl From<NotLaidOut> for Refusal {
    fn from(cause: NotLaidOut) -> Refusal {
        cause.refusal()
    }
}

#[cfg(feature = "std")]
impl From<NotLaidOut> for std::io::Error {
    fn from(cause: NotLaidOut) -> std::io::Error {
        std::io::Error::new(std::io::ErrorKind::InvalidInput, cause)
    }
}

#[cfg(archive)]
mod with_archive {
    use super::{Edition, NotLaidOut};
    use crate::registers::layout;
    use crate::{counter_fault, table_words, List, Refusal, Table};

    /// What a table is laid out by: a list, the counters of its semaphores, of which it has none unless they are named, and
    /// the edition, which is the first unless another is named. It can be a constant.
    ///
    /// ```
    /// use elvomike_monitor::calls::{Lower, Raise, Start};
    /// use elvomike_monitor::{Builder, List, Process, Refusal, Semaphore, SemaphoreWait, Table};
    ///
    /// const LIST: List = List::new().process("READ", 4, 1).process("SPEL", 3, 0);
    /// const STATION: Builder<'_> = Table::builder(&LIST).counters(&[1, 32767]);
    /// const _: () = assert!(STATION.fault().is_none());
    ///
    /// # fn main() -> Result<(), Refusal> {
    /// let mut table = STATION.lay_out_in([0; STATION.table_words()])?;
    /// let (read, spel, semaphore) = (Process(1), Process(2), Semaphore(1));
    /// table.call(Start(spel))?;
    /// assert_eq!(table.call(Lower { semaphore })?, SemaphoreWait::Taken);
    /// table.call(Start(read))?;
    /// assert_eq!(table.call(Lower { semaphore })?, SemaphoreWait::Waits);
    /// table.call(Raise { semaphore })?; // SPEL raises, and READ runs
    /// assert_eq!(table.current(), Some(read));
    /// assert_eq!(table.call(Raise { semaphore: Semaphore(2) }), Err(Refusal::CounterFull));
    /// assert_eq!(table.call(Raise { semaphore: Semaphore(3) }), Err(Refusal::NoSuchSemaphore));
    /// # Ok(())
    /// # }
    /// ```
    #[must_use = "it lays out nothing before 'lay_out_in' or 'lay_out'"]
    #[derive(Clone, Copy, Debug)]
    pub struct Builder<'a> {
        list: &'a List,
        counters: &'a [u16],
        edition: Edition,
    }

    impl<'a> Builder<'a> {
        pub(crate) const fn new(list: &'a List) -> Builder<'a> {
            Builder {
                list,
                counters: &[],
                edition: Edition::First,
            }
        }

        /// Names the edition.
        pub const fn edition(self, edition: Edition) -> Builder<'a> {
            Builder { edition, ..self }
        }

        /// Names the semaphores' counters, in the order of their numbers: how many may lower it before one waits, 0 to
        /// 32,767. There may be 16.
        pub const fn counters(self, counters: &'a [u16]) -> Builder<'a> {
            Builder { counters, ..self }
        }

        /// What is wrong with the list, or else with the counters.
        #[must_use]
        pub const fn fault(&self) -> Option<NotLaidOut> {
            match (self.list.fault(), counter_fault(self.counters)) {
                (Some(fault), _) => Some(NotLaidOut::List(fault)),
                (None, Some(fault)) => Some(NotLaidOut::Counters(fault)),
                (None, None) => None,
            }
        }

        /// Words that the table uses.
        #[must_use]
        pub const fn table_words(&self) -> usize {
            let list = self.list;
            table_words(list.processes(), list.buffers(), self.counters.len())
        }

        /// A table on the heap, of just the words that are asked for: all processes stopped, all buffers free, no interrupt
        /// kept.
        ///
        /// # Errors
        ///
        /// What is wrong with the list or the counters.
        #[cfg(feature = "alloc")]
        #[cfg_attr(docsrs, doc(cfg(feature = "alloc")))]
        pub fn lay_out(self) -> Result<Table<alloc::vec::Vec<u16>>, NotLaidOut> {
            self.lay_out_in(alloc::vec![0; self.table_words()])
        }

        /// Lays out the words given, whatever they held: an array, or words lent. All processes are stopped then, all
        /// buffers free, and no interrupt is kept.
        ///
        /// # Errors
        ///
        /// What is wrong with the list or the counters, or that the words lent are too few; they stay as they were.
        pub fn lay_out_in<W>(self, mut words: W) -> Result<Table<W>, NotLaidOut>
        where
            W: AsRef<[u16]> + AsMut<[u16]>,
        {
            self.fault().map_or(Ok(()), Err)?;
            let (table, needed) = (words.as_mut(), self.table_words());
            if table.len() < needed {
                let lent = table.len();
                return Err(NotLaidOut::TooShort { lent, needed });
            }
            let (list, edition) = (self.list.words(), self.edition.number());
            match Refusal::judge(layout(list, edition, self.counters, table)) {
                Err(refusal) => Err(NotLaidOut::Refused(refusal)),
                Ok(()) => Ok(Table::over(words)),
            }
        }
    }
}

#[cfg(archive)]
pub use with_archive::Builder;

#[cfg(test)]
mod tests {
    use super::*;

    #[test]
    fn editions_have_the_documents_numbers() {
        let editions = [0, 1, 2, 0xFFFF].map(Edition::from_number);
        let two = (Some(Edition::First), Some(Edition::Second));
        assert_eq!(editions, [two.0, two.1, None, None]);
        assert_eq!(Edition::Second.number(), 1);
    }
}
