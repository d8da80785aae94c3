//! The numbers of refusal, by name.

use core::fmt;

/// Why a call or a layout was refused. A refused one changes no word of the table or the room. Where several apply, the one is
/// given that stands first in docs/LOG.md, 4: no such call, the table not sound, nobody current, no such device, no such
/// process, sent to oneself, no free buffer, the wrong buffer, the wrong state, the device taken, the room too short.
#[derive(Clone, Copy, Debug, PartialEq, Eq, Hash)]
#[non_exhaustive]
pub enum Refusal {
    /// 1: the lent words are no sound table: something but a call has written them, or they were never laid out. `Table::why`
    /// (feature `why`) tells which word.
    TableNotSound,
    /// 2: the call is the current process's, and none runs: a start, a tick or an interrupt has to come first.
    NoCurrent,
    /// 3: the device's number is above 63.
    NoSuchDevice,
    /// 4: the process's number isn't one of the table's.
    NoSuchProcess,
    /// 5: no own buffer of the sender is free: an answer has to be collected first.
    NoFreeBuffer,
    /// 6: there is no such buffer, or the caller may not wait for it or answer it.
    WrongBuffer,
    /// 7: start of a process that isn't stopped, stop of one that is; [`crate::Table`]'s `stuck` of one that waits for no
    /// answer.
    WrongState,
    /// 8: the receiver is the sender.
    SentToOneself,
    /// 9: another process waits for the device.
    DeviceTaken,
    /// 10: the room is too short for what is listed.
    RoomTooShort,
    /// 11: the layout list is empty, too long, or has a bad priority or name; or there are too many counters, or one is too
    /// large.
    WrongList,
    /// 12: the table has too few words for what is laid out.
    TableTooShort,
    /// 13: there is no call of this number.
    NoSuchCall,
    /// 19: the semaphore's number isn't one of the table's.
    NoSuchSemaphore,
    /// 20: the counter that is raised is 32,767, its end.
    CounterFull,
    /// A number that this crate has no name for, from an archive that is newer than it: a refusal all the same.
    Other(u16),
}

impl Refusal {
    /// All that have a name, by rising number. Numbers 14 to 18 are those of comparing logs and reading a tape.
    pub const NAMED: [Refusal; 15] = [
        Refusal::TableNotSound,
        Refusal::NoCurrent,
        Refusal::NoSuchDevice,
        Refusal::NoSuchProcess,
        Refusal::NoFreeBuffer,
        Refusal::WrongBuffer,
        Refusal::WrongState,
        Refusal::SentToOneself,
        Refusal::DeviceTaken,
        Refusal::RoomTooShort,
        Refusal::WrongList,
        Refusal::TableTooShort,
        Refusal::NoSuchCall,
        Refusal::NoSuchSemaphore,
        Refusal::CounterFull,
    ];

    /// Its number.
    #[must_use]
    pub const fn number(self) -> u16 {
        match self {
            Refusal::TableNotSound => 1,
            Refusal::NoCurrent => 2,
            Refusal::NoSuchDevice => 3,
            Refusal::NoSuchProcess => 4,
            Refusal::NoFreeBuffer => 5,
            Refusal::WrongBuffer => 6,
            Refusal::WrongState => 7,
            Refusal::SentToOneself => 8,
            Refusal::DeviceTaken => 9,
            Refusal::RoomTooShort => 10,
            Refusal::WrongList => 11,
            Refusal::TableTooShort => 12,
            Refusal::NoSuchCall => 13,
            Refusal::NoSuchSemaphore => 19,
            Refusal::CounterFull => 20,
            Refusal::Other(number) => number,
        }
    }

    /// The refusal of a number: none for 0, which is no refusal, and for no other.
    #[must_use]
    pub fn from_number(number: u16) -> Option<Refusal> {
        let named = Refusal::NAMED.iter().find(|one| one.number() == number);
        match (number, named) {
            (0, _) => None,
            (_, Some(&named)) => Some(named),
            (_, None) => Some(Refusal::Other(number)),
        }
    }

    /// What an archive's number says of a call: done, or refused.
    pub(crate) fn judge(number: u16) -> Result<(), Refusal> {
        Refusal::from_number(number).map_or(Ok(()), Err)
    }

    /// What it says, in a person's words: those of `monitor_refusal_text` in `include/elvomike/monitor.h`.
    #[must_use]
    pub const fn text(self) -> &'static str {
        match self {
            Refusal::TableNotSound => "the table is not sound",
            Refusal::NoCurrent => "no process runs that could make the call",
            Refusal::NoSuchDevice => "there is no such device",
            Refusal::NoSuchProcess => "there is no such process",
            Refusal::NoFreeBuffer => "the sender has no free buffer",
            Refusal::WrongBuffer => "the caller may neither wait for that buffer nor answer it",
            Refusal::WrongState => "the process's state doesn't allow it",
            Refusal::SentToOneself => "a process can't send to itself",
            Refusal::DeviceTaken => "another process waits for the device",
            Refusal::RoomTooShort => "the room is too short for the listing",
            Refusal::WrongList => "the layout is not a legal one",
            Refusal::TableTooShort => "the table is too short for the layout",
            Refusal::NoSuchCall => "there is no such call",
            Refusal::NoSuchSemaphore => "there is no such semaphore",
            Refusal::CounterFull => "the semaphore's counter is at its end",
            Refusal::Other(_) => "a refusal that has no name here",
        }
    }
}

impl fmt::Display for Refusal {
    fn fmt(&self, to: &mut fmt::Formatter<'_>) -> fmt::Result {
        to.write_str(self.text())
    }
}

#[cfg(feature = "std")]
impl std::error::Error for Refusal {}

#[cfg(feature = "std")]
impl From<Refusal> for std::io::Error {
    fn from(refusal: Refusal) -> std::io::Error {
        std::io::Error::new(std::io::ErrorKind::Other, refusal)
    }
}

#[cfg(test)]
mod tests {
    use super::*;
    use std::collections::BTreeSet;

    #[test]
    fn numbers_and_refusals_are_one_to_one() {
        assert_eq!(Refusal::from_number(0), None);
        for number in 1..=u16::MAX {
            let refusal = Refusal::from_number(number).unwrap();
            assert_eq!(refusal.number(), number);
            let named = (1..=13).contains(&number) || [19, 20].contains(&number);
            assert_eq!(matches!(refusal, Refusal::Other(_)), !named);
        }
    }

    #[test]
    fn no_number_but_0_is_taken_as_done() {
        assert_eq!(Refusal::judge(0), Ok(()));
        assert!((1..=u16::MAX).all(|number| Refusal::judge(number).is_err()));
    }

    #[test]
    fn the_documents_numbers_have_their_meanings() {
        assert_eq!(Refusal::SentToOneself.number(), 8);
        assert_eq!(Refusal::NoSuchCall.number(), 13);
        assert_eq!(Refusal::WrongBuffer.number(), 6);
        assert_eq!(Refusal::NoSuchSemaphore.number(), 19);
        assert_eq!(Refusal::CounterFull.number(), 20);
    }

    #[test]
    fn each_says_something_of_its_own() {
        let said: BTreeSet<&str> = Refusal::NAMED.iter().map(|one| one.text()).collect();
        assert_eq!(said.len(), Refusal::NAMED.len());
        assert!(!said.contains(Refusal::Other(14).text()));
    }

    #[cfg(feature = "std")]
    #[test]
    fn a_refusal_is_an_error_of_input_and_output() {
        let error = std::io::Error::from(Refusal::NoCurrent);
        assert_eq!(
            std::string::ToString::to_string(&error),
            Refusal::NoCurrent.text()
        );
    }
}
