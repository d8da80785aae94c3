//! Two logs compared line by line, over the proved archive `libcompare.a` (`include/elvomike/compare.h`), which needs nothing of
//! the monitor's: the feature `compare`.
//!
//! A log is any bytes at all, cut into lines at the byte 0A hex; the last line may lack it. Lines count from 1 and are
//! compared without their ends. Nothing is copied: what is handed back is a part of the bytes that were lent.

/// Refusal 14: the room has fewer words than there are lines that differ. It is as it was.
#[derive(Clone, Copy, Debug, PartialEq, Eq)]
pub struct RoomTooShort;

impl core::fmt::Display for RoomTooShort {
    fn fmt(&self, f: &mut core::fmt::Formatter<'_>) -> core::fmt::Result {
        f.write_str("the room has fewer words than there are lines that differ")
    }
}

#[cfg(feature = "std")]
impl std::error::Error for RoomTooShort {}

/// One of the two logs.
#[derive(Clone, Copy, Debug, PartialEq, Eq)]
pub enum Log {
    /// The first one named.
    First,
    /// The second.
    Second,
}

#[cfg(archive)]
mod with_archive {
    use super::{Log, RoomTooShort};

    extern "C" {
        fn compare_differences(
            one: *const u8,
            one_size: usize,
            two: *const u8,
            two_size: usize,
            room: *mut u64,
            room_words: usize,
            count: *mut usize,
        ) -> u16;
        fn compare_rest(
            one: *const u8,
            one_size: usize,
            two: *const u8,
            two_size: usize,
            start: *mut usize,
        ) -> u16;
        fn compare_front(one: *const u8, one_size: usize, two: *const u8, two_size: usize)
            -> usize;
        fn compare_lines(log: *const u8, size: usize) -> usize;
        fn compare_after(log: *const u8, size: usize, lines: usize) -> usize;
    }

    /// A log from a place in it on.
    fn behind(log: &[u8], start: usize) -> &[u8] {
        log.get(start..).unwrap_or(&[])
    }

    /// Puts the numbers of the lines at which the logs differ into the room, each once, rising, and gives how many they
    /// are. A line that only one log has differs. The room's words behind them stay.
    ///
    /// ```
    /// use elvomike_monitor::compare::{differences, rest, Log};
    ///
    /// let mut room = [0; 3];
    /// let count = differences(b"A\nB\n", b"A\nC\nD\n", &mut room).unwrap();
    /// assert_eq!(room[..count], [2, 3]);
    /// assert_eq!(rest(b"A\nB\n", b"A\nC\nD\n"), (Log::Second, &b"D\n"[..]));
    /// ```
    ///
    /// # Errors
    ///
    /// [`RoomTooShort`] where more lines differ than the room has words; then nothing is written.
    pub fn differences(one: &[u8], two: &[u8], room: &mut [u64]) -> Result<usize, RoomTooShort> {
        let mut count = 0;
        // Sound: the pointers and sizes are those of slices that live through the call, and only room and count are written.
        let number = unsafe {
            compare_differences(
                one.as_ptr(),
                one.len(),
                two.as_ptr(),
                two.len(),
                room.as_mut_ptr(),
                room.len(),
                &mut count,
            )
        };
        match number {
            0 => Ok(count),
            _ => Err(RoomTooShort),
        }
    }

    /// The rest of whichever log runs on, behind as many lines as the other has; where neither does, the empty end of the
    /// first.
    #[must_use]
    pub fn rest<'a>(one: &'a [u8], two: &'a [u8]) -> (Log, &'a [u8]) {
        let mut start = 0;
        // Sound: as in `differences`; the start is a place in the log that the number names.
        let number =
            unsafe { compare_rest(one.as_ptr(), one.len(), two.as_ptr(), two.len(), &mut start) };
        match number {
            2 => (Log::Second, behind(two, start)),
            _ => (Log::First, behind(one, start)),
        }
    }

    /// The whole lines that both logs begin with: the most bytes that are the same and end a line.
    #[must_use]
    pub fn front<'a>(one: &'a [u8], two: &[u8]) -> &'a [u8] {
        // Sound: as in `differences`; nothing is written.
        let size = unsafe { compare_front(one.as_ptr(), one.len(), two.as_ptr(), two.len()) };
        one.get(..size).unwrap_or(&[])
    }

    /// How many lines a log has.
    #[must_use]
    pub fn lines(log: &[u8]) -> usize {
        // Sound: as in `front`.
        unsafe { compare_lines(log.as_ptr(), log.len()) }
    }

    /// The bytes after so many lines: the empty end of a log that has no more.
    #[must_use]
    pub fn after(log: &[u8], lines: usize) -> &[u8] {
        // Sound: as in `front`.
        let start = unsafe { compare_after(log.as_ptr(), log.len(), lines) };
        behind(log, start)
    }
}

#[cfg(archive)]
pub use with_archive::{after, differences, front, lines, rest};

#[cfg(all(test, archive))]
mod archive_tests {
    use super::*;

    #[test]
    fn numbers_go_into_the_room_and_its_end_stays() {
        let mut room = [7, 8, 9];
        assert_eq!(differences(b"A\nA\nA\n", b"A\nB\nA\nB", &mut room), Ok(2));
        assert_eq!(room, [2, 4, 9]);
        assert_eq!(differences(b"A\nB\n", b"A\nB", &mut []), Ok(0));
    }

    #[test]
    fn a_room_too_short_stays_as_it_was() {
        let mut room = [7];
        assert_eq!(differences(b"", b"\nB", &mut room), Err(RoomTooShort));
        assert_eq!(room, [7]);
    }

    #[test]
    fn the_rest_is_a_part_of_the_callers_own_bytes() {
        let (one, two) = (b"A\n", b"B\nC\n\nD");
        let (log, part) = rest(one, two);
        assert_eq!((log, part), (Log::Second, &b"C\n\nD"[..]));
        assert_eq!(part.as_ptr(), two[2..].as_ptr());
        assert_eq!(rest(two, one).0, Log::First);
        let (log, part) = rest(one, b"B");
        assert_eq!(
            (log, part.len(), part.as_ptr()),
            (Log::First, 0, one[2..].as_ptr())
        );
    }

    #[test]
    fn pieces() {
        assert_eq!(front(b"A\nB\nC", b"A\nB\nCC"), b"A\nB\n");
        assert_eq!((lines(b""), lines(b"\n"), lines(b"A\nB")), (0, 1, 2));
        assert_eq!(
            (after(b"A\nB\nC", 2), after(b"A", 3)),
            (&b"C"[..], &b""[..])
        );
    }
}
