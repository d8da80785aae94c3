//! The list that a table is laid out from, judged entry by entry as it is made.

#[cfg(test)]
mod tests;

use core::fmt;

use crate::name::{name_words, words_cause};
use crate::places::table_words;

/// The most processes and buffers of a table, and words of an entry of the list.
const PROCESSES_MOST: usize = 32;
const BUFFERS_MOST: usize = 128;
const ENTRY: usize = 5;

/// What is wrong with an entry of a list.
#[derive(Clone, Copy, Debug, PartialEq, Eq, Hash)]
#[non_exhaustive]
pub enum Cause {
    /// There is no entry at all.
    Empty,
    /// The list's words are no fives: the last entry lacks some.
    CutOff,
    /// It is the 33rd process.
    TooManyProcesses,
    /// With its buffers there are more than 128.
    TooManyBuffers,
    /// The priority isn't 1 to 255.
    Priority(u16),
    /// The name has no bytes.
    NameEmpty,
    /// The name has more than 5 bytes.
    NameTooLong,
    /// The name has a zero byte.
    NameHasZero,
    /// An earlier entry has the same name: its number, from 1.
    NameRepeated(u16),
}

/// Which entry of a list is wrong, and what is wrong with it.
#[derive(Clone, Copy, Debug, PartialEq, Eq, Hash)]
pub struct Fault {
    /// The entry, counted from 1, as its process would be. Of an empty list it is 1, which isn't there.
    pub entry: u16,
    /// What is wrong.
    pub cause: Cause,
}

impl fmt::Display for Fault {
    fn fmt(&self, to: &mut fmt::Formatter<'_>) -> fmt::Result {
        write!(to, "entry {} of the list: ", self.entry)?;
        match self.cause {
            Cause::Empty => to.write_str("there is none"),
            Cause::CutOff => to.write_str("it has fewer than five words"),
            Cause::TooManyProcesses => to.write_str("there may be 32 processes, and no more"),
            Cause::TooManyBuffers => to.write_str("with its buffers there are more than 128"),
            Cause::Priority(priority) => write!(to, "its priority {priority} isn't 1 to 255"),
            Cause::NameEmpty => to.write_str("its name has no bytes"),
            Cause::NameTooLong => to.write_str("its name has more than 5 bytes"),
            Cause::NameHasZero => to.write_str("its name has a zero byte"),
            Cause::NameRepeated(earlier) => write!(to, "entry {earlier} has its name already"),
        }
    }
}

#[cfg(feature = "std")]
impl std::error::Error for Fault {}

/// A layout list: processes numbered from 1 in the order they are added. It needs no heap, and can be a constant.
///
/// The first fault is kept, and what is added behind it isn't looked at: nothing is laid out by such a list.
///
/// ```
/// use elvomike_monitor::{Cause, List};
///
/// const LIST: List = List::new().process("READ", 4, 1).process("SPEL", 3, 2);
/// const _: () = assert!(LIST.fault().is_none()); // a wrong list would be an error of the compiler
/// type Words = [u16; LIST.table_words()];
/// assert_eq!(std::mem::size_of::<Words>(), 2 * 134);
///
/// let fault = List::new().process("READ", 4, 1).process("SPELLER", 3, 2).fault().unwrap();
/// assert_eq!((fault.entry, fault.cause), (2, Cause::NameTooLong));
/// assert_eq!(fault.to_string(), "entry 2 of the list: its name has more than 5 bytes");
/// ```
#[must_use = "a list lays out nothing by itself"]
#[derive(Clone, Copy, Debug, PartialEq, Eq)]
pub struct List {
    words: [u16; ENTRY * PROCESSES_MOST],
    processes: usize,
    buffers: usize,
    fault: Option<Fault>,
}

impl Default for List {
    fn default() -> List {
        List::new()
    }
}

impl List {
    /// A list of no processes.
    pub const fn new() -> List {
        List {
            words: [0; ENTRY * PROCESSES_MOST],
            processes: 0,
            buffers: 0,
            fault: None,
        }
    }

    /// Adds a process: its name of 1 to 5 bytes, its priority from 1 to 255, and how many buffers it owns.
    pub const fn process(self, name: &str, priority: u16, buffers: u16) -> List {
        match name_words(name) {
            Ok([one, two, three]) => self.entry([priority, buffers, one, two, three]),
            Err(cause) => self.with_fault(cause),
        }
    }

    /// The list that words tell, five a process: priority, buffers, three words of name.
    ///
    /// # Errors
    ///
    /// The first entry that is wrong, and what is wrong with it.
    pub fn from_words(words: &[u16]) -> Result<List, Fault> {
        let mut list = List::new();
        let mut entries = words.chunks_exact(ENTRY);
        for entry in entries.by_ref() {
            if let &[priority, buffers, one, two, three] = entry {
                list = list.entry([priority, buffers, one, two, three]);
            }
        }
        if !entries.remainder().is_empty() {
            list = list.with_fault(Cause::CutOff);
        }
        list.checked()
    }

    /// Adds an entry, or keeps what is wrong with it.
    const fn entry(self, entry: [u16; ENTRY]) -> List {
        let [priority, buffers, one, two, three] = entry;
        if self.fault.is_some() {
            return self;
        }
        let place = match self.free_place() {
            Some(place) => place,
            None => return self.with_fault(Cause::TooManyProcesses),
        };
        let buffers = self.buffers + buffers as usize;
        if let Some(cause) = words_cause([one, two, three]) {
            return self.with_fault(cause);
        }
        if priority == 0 || priority > 255 {
            return self.with_fault(Cause::Priority(priority));
        }
        if buffers > BUFFERS_MOST {
            return self.with_fault(Cause::TooManyBuffers);
        }
        if let Some(earlier) = self.named([one, two, three]) {
            return self.with_fault(Cause::NameRepeated(earlier));
        }
        let mut list = self;
        let mut i = 0;
        while i < ENTRY && place + i < list.words.len() {
            list.words[place + i] = entry[i];
            i += 1;
        }
        list.processes += 1;
        list.buffers = buffers;
        list
    }

    /// Where the words of a further entry go, if there is room for one.
    const fn free_place(&self) -> Option<usize> {
        if self.processes < PROCESSES_MOST {
            Some(ENTRY * self.processes)
        } else {
            None
        }
    }

    /// The process that has this name, if any.
    const fn named(&self, name: [u16; 3]) -> Option<u16> {
        let [one, two, three] = name;
        let mut process = 0;
        while process < self.processes && process < PROCESSES_MOST {
            let place = ENTRY * process;
            if self.words[place + 2] == one
                && self.words[place + 3] == two
                && self.words[place + 4] == three
            {
                return Some(process as u16 + 1);
            }
            process += 1;
        }
        None
    }

    /// The list with a fault of the entry that would come next, unless it has one already.
    const fn with_fault(mut self, cause: Cause) -> List {
        if self.fault.is_none() {
            let entry = self.processes as u16 + 1;
            self.fault = Some(Fault { entry, cause });
        }
        self
    }

    /// The first fault, if the list has one; a list of no processes has.
    #[must_use]
    pub const fn fault(&self) -> Option<Fault> {
        match self.fault {
            None if self.processes == 0 => Some(Fault {
                entry: 1,
                cause: Cause::Empty,
            }),
            fault => fault,
        }
    }

    /// The list, if nothing is wrong with it.
    ///
    /// # Errors
    ///
    /// The first fault.
    pub fn checked(self) -> Result<List, Fault> {
        self.fault().map_or(Ok(self), Err)
    }

    /// The list's words, five a process.
    #[must_use]
    pub fn words(&self) -> &[u16] {
        self.words.get(..ENTRY * self.processes).unwrap_or(&[])
    }

    /// The words of each process: priority, how many buffers it owns, and its name.
    pub fn entries(&self) -> impl Iterator<Item = [u16; ENTRY]> + '_ {
        (0..self.processes).filter_map(move |process| {
            let entry = self.words.get(ENTRY * process..)?;
            <[u16; ENTRY]>::try_from(entry.get(..ENTRY)?).ok()
        })
    }

    /// How many processes it has.
    #[must_use]
    pub const fn processes(&self) -> usize {
        self.processes
    }

    /// How many buffers it gives out.
    #[must_use]
    pub const fn buffers(&self) -> usize {
        self.buffers
    }

    /// Words that its table uses, without semaphores: each is four more.
    #[must_use]
    pub const fn table_words(&self) -> usize {
        table_words(self.processes, self.buffers, 0)
    }
}
