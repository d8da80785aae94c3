//! The paper tape reader's input operation: [`read`] takes bytes of a tape into an area, as they are or checked for
//! parity and converted by a table, over the proved archive `libtape.a` (`include/elvomike/tape.h`): the feature `tape`.

use core::fmt;

/// All eight bits of a byte are delivered, by no table.
pub const BINARY: u16 = 1;
/// A byte has an odd number of ones; another becomes character 26. The top bit is taken off.
pub const ODD: u16 = 5;
/// A byte has an even number of ones; another becomes character 26. The top bit is taken off.
pub const EVEN: u16 = 9;

/// The status of an operation in which a character of class 136 or above came up.
pub const STATUS_PARITY: u16 = 0x0020;

/// What an entry of a table does with its character.
#[derive(Clone, Copy, Debug, PartialEq, Eq)]
pub enum Entry {
    /// Delivers the byte.
    Normal(u8),
    /// Delivers nothing.
    Skip,
    /// Moves the base down by the value, or by 256 if it is 0, and looks the character up again.
    Down(u8),
    /// Moves the base up likewise.
    Up(u8),
    /// Ends the block; it isn't delivered.
    End,
    /// Delivers the byte, and the status says so.
    Parity(u8),
}

impl Entry {
    /// The entry as a table's word: class left, value right.
    #[must_use]
    pub fn word(self) -> u16 {
        let (class, value) = match self {
            Entry::Normal(value) => (0, value),
            Entry::Skip => (128, 0),
            Entry::Down(value) => (129, value),
            Entry::Up(value) => (130, value),
            Entry::End => (132, 0),
            Entry::Parity(value) => (136, value),
        };
        u16::from_be_bytes([class, value])
    }
}

/// What an operation that was done comes to.
#[derive(Clone, Copy, Debug, PartialEq, Eq)]
pub struct Taken {
    /// Bytes put into the area, from its start on; the others are as they were.
    pub stored: usize,
    /// Bytes taken from the tape, skipped ones and an end of block included.
    pub read: usize,
    /// The base afterwards, for the next operation.
    pub base: i32,
    /// 0 or [`STATUS_PARITY`].
    pub status: u16,
}

/// Why an operation was refused. A refused one changes no byte of the area.
#[derive(Clone, Copy, Debug, PartialEq, Eq, Hash)]
#[non_exhaustive]
pub enum Refusal {
    /// 15: the mode is none of the three.
    OtherMode,
    /// 16: a character would have to be looked up a ninth time.
    NinthLookup,
    /// 17: base plus character is below 0, or not below the words that count.
    OutsideTable,
    /// 18: an entry's class isn't listed.
    ClassNotListed,
    /// A number that has no name here, from an archive that is newer than this crate.
    Other(u16),
}

impl Refusal {
    /// Its number.
    #[must_use]
    pub const fn number(self) -> u16 {
        match self {
            Refusal::OtherMode => 15,
            Refusal::NinthLookup => 16,
            Refusal::OutsideTable => 17,
            Refusal::ClassNotListed => 18,
            Refusal::Other(number) => number,
        }
    }

    /// The refusal of a number: none for 0, which is no refusal, and for no other.
    #[must_use]
    pub const fn from_number(number: u16) -> Option<Refusal> {
        Some(match number {
            0 => return None,
            15 => Refusal::OtherMode,
            16 => Refusal::NinthLookup,
            17 => Refusal::OutsideTable,
            18 => Refusal::ClassNotListed,
            other => Refusal::Other(other),
        })
    }
}

impl fmt::Display for Refusal {
    fn fmt(&self, to: &mut fmt::Formatter<'_>) -> fmt::Result {
        to.write_str(match self {
            Refusal::OtherMode => "the mode is none of 1, 5 and 9",
            Refusal::NinthLookup => "a character would be looked up a ninth time",
            Refusal::OutsideTable => "base plus character is outside the table",
            Refusal::ClassNotListed => "an entry of the table has a class that isn't listed",
            Refusal::Other(_) => "a refusal that has no name here",
        })
    }
}

#[cfg(feature = "std")]
impl std::error::Error for Refusal {}

/// The answer as the archive has it.
#[repr(C)]
#[cfg_attr(not(archive), allow(dead_code))]
struct Answer {
    number: u16,
    stored: usize,
    read: usize,
    base: i32,
    status: u16,
}

#[cfg(archive)]
extern "C" {
    fn tape_read(
        mode: u16,
        tape: *const u8,
        tape_bytes: usize,
        table: *const u16,
        table_words: usize,
        base: i32,
        area: *mut u8,
        area_bytes: usize,
    ) -> Answer;
}

/// Reads from the tape until the area is full, the tape is used up, or a block ends. The mode is taken as the number it
/// is ([`BINARY`], [`ODD`] or [`EVEN`], or it is refused); of a table the first 65,536 words count, and one of no words
/// means no conversion.
///
/// ```
/// use elvomike_monitor::tape::{read, Entry, EVEN};
///
/// let table = [Entry::Normal(b'A'), Entry::Skip, Entry::End].map(Entry::word);
/// let mut area = [0; 80];
/// let taken = read(EVEN, &[0x00, 0x81, 0x00, 0x82, 0x00], &table, 0, &mut area).unwrap();
/// assert_eq!((&area[..taken.stored], taken.read), (&b"AA"[..], 4));
/// ```
///
/// # Errors
///
/// What the mode, the table or the tape is refused with; [`Refusal`] has them.
#[cfg(archive)]
pub fn read(
    mode: u16,
    tape: &[u8],
    table: &[u16],
    base: i32,
    area: &mut [u8],
) -> Result<Taken, Refusal> {
    // SAFETY: each pointer comes from a reference, with the count of what lies behind it; the area's is unique for the
    // call. The archive keeps none of them and touches nothing outside.
    let answer = unsafe {
        tape_read(
            mode,
            tape.as_ptr(),
            tape.len(),
            table.as_ptr(),
            table.len(),
            base,
            area.as_mut_ptr(),
            area.len(),
        )
    };
    match Refusal::from_number(answer.number) {
        Some(refusal) => Err(refusal),
        None => Ok(Taken {
            stored: answer.stored,
            read: answer.read,
            base: answer.base,
            status: answer.status,
        }),
    }
}

#[cfg(test)]
mod tests {
    use super::*;

    #[test]
    fn an_entry_has_its_class_left_and_its_value_right() {
        assert_eq!(Entry::Normal(0x41).word(), 0x0041);
        assert_eq!(Entry::Skip.word(), 0x8000);
        assert_eq!(Entry::Down(1).word(), 0x8101);
        assert_eq!(Entry::Up(0).word(), 0x8200);
        assert_eq!(Entry::End.word(), 0x8400);
        assert_eq!(Entry::Parity(0x42).word(), 0x8842);
    }

    #[test]
    fn numbers_and_refusals_are_one_to_one() {
        assert_eq!(Refusal::from_number(0), None);
        for number in 1..=u16::MAX {
            let refusal = Refusal::from_number(number).unwrap();
            assert_eq!(refusal.number(), number);
            let named = (15..=18).contains(&number);
            assert_eq!(matches!(refusal, Refusal::Other(_)), !named);
        }
    }

    #[test]
    fn the_answer_lies_as_in_c() {
        assert_eq!(core::mem::size_of::<Answer>(), 32);
        assert_eq!(offset_of!(Answer, stored), 8);
        assert_eq!(offset_of!(Answer, base), 24);
        assert_eq!(offset_of!(Answer, status), 28);
    }
}

/// Tapes through the archive.
#[cfg(all(test, archive))]
mod archive_tests {
    use super::*;

    /// Characters 0 to 5, as in the definitions' worked tapes.
    fn table() -> [u16; 6] {
        let entries = [
            Entry::Normal(0x41),
            Entry::Skip,
            Entry::Down(1),
            Entry::Up(0),
            Entry::End,
            Entry::Parity(0x42),
        ];
        entries.map(Entry::word)
    }

    #[test]
    fn a_base_that_moved_is_given_back_for_the_next_operation() {
        let mut area = [7; 3];
        let taken = read(EVEN, &[0x00, 0x82, 0x06], &table(), 0, &mut area).unwrap();
        assert_eq!(
            taken,
            Taken {
                stored: 2,
                read: 3,
                base: -1,
                status: STATUS_PARITY
            }
        );
        assert_eq!(area, [0x41, 0x42, 7]);
        let next = read(EVEN, &[0x81], &table(), taken.base, &mut area).unwrap();
        assert_eq!((next.stored, next.base, next.status), (1, -1, 0));
        assert_eq!(area, [0x41, 0x42, 7]);
    }

    #[test]
    fn each_refusal_keeps_the_area() {
        let mut area = [7; 2];
        let down = [Entry::Down(1).word(); 10];
        let unlisted = [0x8341];
        for (mode, tape, table, refusal) in [
            (4, 0x00, &table()[..], Refusal::OtherMode),
            (EVEN, 0x09, &down[..], Refusal::NinthLookup),
            (EVEN, 0x06, &table()[..], Refusal::OutsideTable),
            (EVEN, 0x00, &unlisted[..], Refusal::ClassNotListed),
        ] {
            assert_eq!(read(mode, &[tape], table, 0, &mut area), Err(refusal));
            assert_eq!(area, [7; 2]);
        }
    }

    #[test]
    fn nothing_lent_is_nothing_read() {
        let taken = read(ODD, &[], &[], 5, &mut []).unwrap();
        assert_eq!((taken.stored, taken.read, taken.base), (0, 0, 5));
    }
}
