//! A station's log, line by line, as `./replay`, `./explain` and `./compare` read it; docs/LOG.md says what each digit means. It
//! is what `include/elvomike/log.h` does in C, and needs no archive.
//!
//! A line is written by its `Display`, without its end, or into an array that is lent, with it; and read back:
//!
//! ```
//! use elvomike_monitor::calls::Start;
//! use elvomike_monitor::log::Line;
//! use elvomike_monitor::{List, Process};
//!
//! let list = List::new().process("READ", 5, 2).process("SPELL", 3, 1);
//! for line in Line::layout(&list) {
//!     println!("{line}"); // 00000500025245414400000000, then SPELL's
//! }
//! let call = Start(Process(1));
//! let (answer, current) = (Ok(()), Some(Process(1))); // table.call(call), table.current()
//! assert_eq!(Line::call(call).to_string(), "06000100000000000000000000");
//! assert_eq!(Line::answer(&answer, current).to_string(), "> 000000000000010000000000000000");
//! assert_eq!(Line::read(b"06000100000000000000000000"), Some(Line::call(call)));
//! ```
//!
//! The table's edition and the counters of its semaphores aren't in a log: whoever reads it is told them.

#[cfg(test)]
mod tests;

use core::fmt;

use crate::calls::{self, Call};
use crate::registers::Registers;
use crate::told::Told;
use crate::{List, Listed, Process, Refusal};

/// Bytes of the longest line with its end.
pub const BYTES_MOST: usize = 33;

/// What marks an answer and a row.
const MARK: &[u8] = b"> ";

/// A line of a log. Its parts are the digits' numbers, whatever they are: a log may be of another station.
#[derive(Clone, Copy, Debug, PartialEq, Eq, Hash)]
pub enum Line {
    /// A process of the layout: priority, how many buffers it owns, and its name in three words.
    Layout([u16; 5]),
    /// A call. Parts that one of calls 01 to 0B doesn't use are 0.
    Call {
        /// Which call; not 0.
        call: u8,
        /// Its first part.
        a: u16,
        /// Its second part.
        b: u16,
        /// The words of a message or an answer.
        words: [u16; 4],
    },
    /// What came of a call, or of a refused layout.
    Answer {
        /// 0, or the number of a refusal.
        number: u8,
        /// What the call says of itself.
        kind: u16,
        /// The buffer sent, taken or collected.
        buffer: u16,
        /// Who runs after the call, 0 for nobody.
        current: u16,
        /// The words that a wait has brought.
        words: [u16; 4],
    },
    /// A row of a listing: buffer, owner, receiver, standing and age.
    Row([u16; 5]),
    /// `FF`, which stands behind a line that is no call.
    NoCall,
}

impl Line {
    /// The lines of a layout, one a process.
    pub fn layout(list: &List) -> impl Iterator<Item = Line> + '_ {
        list.entries().map(Line::Layout)
    }

    /// The line of a call.
    pub fn call<C: Call>(call: C) -> Line {
        Line::of_call(&call.registers())
    }

    /// The line of the call that [`Table::list`](crate::Table) makes.
    #[must_use]
    pub fn list(process: Process) -> Line {
        Line::of_call(&calls::list(process))
    }

    /// The line of an answer, of a call, a listing, or a refused layout, and who is current after it
    /// ([`Table::current`](crate::Table::current)), which a refusal doesn't tell.
    pub fn answer<T: Told>(answer: &Result<T, Refusal>, current: Option<Process>) -> Line {
        let mut told = Registers::default();
        match answer {
            Ok(gives) => {
                told.current = current.map_or(0, Process::number);
                gives.tell(&mut told);
            }
            Err(refusal) => told.number = refusal.number(),
        }
        Line::Answer {
            number: told.number.to_be_bytes()[1],
            kind: told.kind,
            buffer: told.buffer,
            current: told.current,
            words: told.r,
        }
    }

    /// The line of a row.
    #[must_use]
    pub fn row(row: &Listed) -> Line {
        Line::Row(row.words())
    }

    /// The line that bytes are, with their end or without; none of bytes that are no line of a log. The mark of an answer or a
    /// row may be missing, as in what a replay writes.
    pub fn read(bytes: &[u8]) -> Option<Line> {
        let line = bytes.strip_suffix(b"\n").unwrap_or(bytes);
        let unmarked = line.strip_prefix(MARK);
        match (unmarked.unwrap_or(line), unmarked) {
            (b"FF", _) => Some(Line::NoCall),
            (row, _) if row.len() == 20 => words_of(row).map(Line::Row),
            ([one, two, words @ ..], None) if words.len() == 24 => {
                Line::asked(byte_of(*one, *two)?, words_of(words)?)
            }
            ([one, two, words @ ..], _) if words.len() == 28 => {
                Some(Line::answered(byte_of(*one, *two)?, words_of(words)?))
            }
            _ => None,
        }
    }

    /// Writes the line with its end; gives how many bytes that are, none where fewer are lent.
    pub fn write(&self, room: &mut [u8]) -> Option<usize> {
        let mut text = self.text();
        text.put(b"\n");
        let room = room.get_mut(..text.length)?;
        for (place, byte) in room.iter_mut().zip(text.bytes) {
            *place = byte;
        }
        Some(text.length)
    }

    fn of_call(registers: &Registers) -> Line {
        Line::Call {
            call: registers.call.to_be_bytes()[1],
            a: registers.a,
            b: registers.b,
            words: registers.w,
        }
    }

    /// The layout's line or the call that six words are behind a number, if no part stands where it has to be zero.
    fn asked(call: u8, parts: [u16; 6]) -> Option<Line> {
        let [a, b, words @ ..] = parts;
        let [one, two, three, four] = words;
        let unused = match call {
            0 => four != 0,
            1 | 4 => b != 0,
            5 => words != [0; 4],
            9 => parts != [0; 6],
            2..=11 => b != 0 || words != [0; 4],
            _ => false,
        };
        match (unused, call) {
            (true, _) => None,
            (false, 0) => Some(Line::Layout([a, b, one, two, three])),
            (false, _) => Some(Line::Call { call, a, b, words }),
        }
    }

    fn answered(number: u8, parts: [u16; 7]) -> Line {
        let [kind, buffer, current, words @ ..] = parts;
        Line::Answer {
            number,
            kind,
            buffer,
            current,
            words,
        }
    }

    /// The line without its end.
    fn text(&self) -> Text {
        let mut text = Text {
            bytes: [0; BYTES_MOST],
            length: 0,
        };
        match *self {
            Line::Layout(entry) => text.put_byte(0).put_words(&entry).put_words(&[0]),
            Line::Call { call, a, b, words } => {
                text.put_byte(call).put_words(&[a, b]).put_words(&words)
            }
            Line::Answer {
                number,
                kind,
                buffer,
                current,
                words,
            } => text
                .put(MARK)
                .put_byte(number)
                .put_words(&[kind, buffer, current])
                .put_words(&words),
            Line::Row(row) => text.put(MARK).put_words(&row),
            Line::NoCall => text.put(MARK).put_byte(0xFF),
        };
        text
    }
}

/// The line without its end.
impl fmt::Display for Line {
    fn fmt(&self, to: &mut fmt::Formatter<'_>) -> fmt::Result {
        let text = self.text();
        let bytes = text.bytes.get(..text.length).unwrap_or(&[]);
        to.write_str(core::str::from_utf8(bytes).unwrap_or(""))
    }
}

/// A line as it grows; what goes past its end is left out, and no line does.
struct Text {
    bytes: [u8; BYTES_MOST],
    length: usize,
}

impl Text {
    fn put(&mut self, bytes: &[u8]) -> &mut Text {
        for &byte in bytes {
            if let Some(place) = self.bytes.get_mut(self.length) {
                *place = byte;
                self.length += 1;
            }
        }
        self
    }

    fn put_byte(&mut self, byte: u8) -> &mut Text {
        self.put(&[digit(byte >> 4), digit(byte & 15)])
    }

    fn put_words(&mut self, words: &[u16]) -> &mut Text {
        for byte in words.iter().flat_map(|word| word.to_be_bytes()) {
            self.put_byte(byte);
        }
        self
    }
}

fn digit(value: u8) -> u8 {
    match value {
        0..=9 => b'0' + value,
        _ => b'A' + (value - 10),
    }
}

/// What an upper-case digit is worth.
fn value(digit: u8) -> Option<u8> {
    match digit {
        b'0'..=b'9' => Some(digit - b'0'),
        b'A'..=b'F' => Some(digit - b'A' + 10),
        _ => None,
    }
}

/// The byte that two digits write.
fn byte_of(one: u8, two: u8) -> Option<u8> {
    Some(value(one)? << 4 | value(two)?)
}

/// The words that digits write, four each; none where one is no digit or they are of another number.
fn words_of<const N: usize>(digits: &[u8]) -> Option<[u16; N]> {
    let mut words = [0; N];
    for (i, &digit) in digits.iter().enumerate() {
        let word: &mut u16 = words.get_mut(i / 4)?;
        *word = *word << 4 | u16::from(value(digit)?);
    }
    (digits.len() == 4 * N).then_some(words)
}
