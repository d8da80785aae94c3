//! What a listing shows: a row for each buffer that isn't free.

use core::slice::ChunksExact;

use crate::{Buffer, Process};

/// How a buffer stands.
#[derive(Clone, Copy, Debug, PartialEq, Eq)]
pub enum Standing {
    /// In the receiver's event queue.
    Queued,
    /// Held by the receiver, who owes an answer.
    Held,
    /// In the owner's event queue.
    Answered,
    /// Held, and its owner was cleaned since.
    Orphaned,
}

impl Standing {
    /// Its number, as the table has it.
    #[must_use]
    pub const fn number(self) -> u16 {
        match self {
            Standing::Queued => 1,
            Standing::Held => 2,
            Standing::Answered => 3,
            Standing::Orphaned => 4,
        }
    }

    /// The standing of a number; none for 0, which is free, and above 4.
    #[must_use]
    pub const fn from_number(number: u16) -> Option<Standing> {
        match number {
            1 => Some(Standing::Queued),
            2 => Some(Standing::Held),
            3 => Some(Standing::Answered),
            4 => Some(Standing::Orphaned),
            _ => None,
        }
    }
}

/// A buffer in a listing.
#[derive(Clone, Copy, Debug, PartialEq, Eq)]
pub struct Listed {
    /// Its number.
    pub buffer: Buffer,
    /// The process that owns and sent it.
    pub owner: Process,
    /// The process it was sent to.
    pub receiver: Process,
    /// How it stands.
    pub standing: Standing,
    /// How many ticks it has been open, since it was sent; 65,535 if more.
    pub age: u16,
}

impl Listed {
    /// Words of a row, and of a room that is enough for any listing.
    pub const WORDS: usize = 5;
    /// Words of room that are always enough.
    pub const WORDS_MOST: usize = Listed::WORDS * 128;

    /// The row's words, as a listing has them.
    #[must_use]
    pub const fn words(&self) -> [u16; Listed::WORDS] {
        let standing = self.standing.number();
        [
            self.buffer.0,
            self.owner.0,
            self.receiver.0,
            standing,
            self.age,
        ]
    }

    /// One row of a listing; none of words that are no row.
    fn of(row: &[u16]) -> Option<Listed> {
        match *row {
            [buffer, owner, receiver, standing, age] => Some(Listed {
                buffer: Buffer(buffer),
                owner: Process(owner),
                receiver: Process(receiver),
                standing: Standing::from_number(standing)?,
                age,
            }),
            _ => None,
        }
    }
}

/// The rows of a listing, by rising number of the buffer.
#[derive(Clone, Debug)]
pub struct Rows<'a> {
    rows: ChunksExact<'a, u16>,
}

impl<'a> Rows<'a> {
    /// So many rows from the start of a room.
    pub(crate) fn of(room: &'a [u16], count: u16) -> Rows<'a> {
        let words = Listed::WORDS.saturating_mul(usize::from(count));
        let rows = room.get(..words).unwrap_or(&[]);
        Rows {
            rows: rows.chunks_exact(Listed::WORDS),
        }
    }
}

impl Iterator for Rows<'_> {
    type Item = Listed;

    fn next(&mut self) -> Option<Listed> {
        self.rows.next().and_then(Listed::of)
    }

    fn size_hint(&self) -> (usize, Option<usize>) {
        self.rows.size_hint()
    }
}

impl ExactSizeIterator for Rows<'_> {}

/// A listing in room of its own, 1,280 bytes.
#[derive(Clone, Debug, PartialEq, Eq)]
pub struct Listing {
    room: [u16; Listed::WORDS_MOST],
    count: u16,
}

impl Listing {
    pub(crate) fn of(room: [u16; Listed::WORDS_MOST], count: u16) -> Listing {
        Listing { room, count }
    }

    /// Its rows.
    #[must_use]
    pub fn iter(&self) -> Rows<'_> {
        Rows::of(&self.room, self.count)
    }

    /// How many rows it has.
    #[must_use]
    pub fn len(&self) -> usize {
        usize::from(self.count)
    }

    /// Whether it has none.
    #[must_use]
    pub fn is_empty(&self) -> bool {
        self.count == 0
    }

    /// A row, counted from 0.
    #[must_use]
    pub fn get(&self, row: usize) -> Option<Listed> {
        self.iter().nth(row)
    }
}

impl<'a> IntoIterator for &'a Listing {
    type Item = Listed;
    type IntoIter = Rows<'a>;

    fn into_iter(self) -> Rows<'a> {
        self.iter()
    }
}

#[cfg(test)]
mod tests {
    use super::*;

    #[test]
    fn a_row_is_read_in_order() {
        let mut room = [0; Listed::WORDS_MOST];
        room[..10].copy_from_slice(&[1, 2, 3, 4, 5, 6, 7, 8, 1, 65535]);
        let listing = Listing::of(room, 2);
        let read = |row: Listed| {
            let (buffer, owner, receiver) = (row.buffer.0, row.owner.0, row.receiver.0);
            (buffer, owner, receiver, row.standing, row.age)
        };
        let [one, two] = [0, 1].map(|row| listing.get(row).map(read));
        assert_eq!(one, Some((1, 2, 3, Standing::Orphaned, 5)));
        assert_eq!(two, Some((6, 7, 8, Standing::Queued, 65535)));
        assert_eq!((listing.len(), listing.get(2)), (2, None));
        assert_eq!(listing.into_iter().len(), 2);
    }

    #[test]
    fn rows_past_the_room_are_not_read() {
        assert_eq!(Rows::of(&[1; 9], 2).count(), 0);
    }
}
