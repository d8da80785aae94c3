//! A second clock, over the proved archive `libdelays.a` (`include/elvomike/delays.h`), which needs nothing of the monitor's: the
//! delays of waiting processes in a list by time left, in lent words of its own. It is the feature `delays`.
//!
//! Any words at all may be lent.

use core::fmt;

/// The most processes; they are numbered from 1.
pub const PROCESSES_MOST: usize = 32;

/// Words of a queue for so many processes. Words beyond are neither read nor changed.
#[must_use]
pub const fn queue_words(processes: usize) -> usize {
    2 + 2 * processes
}

/// Why a call was refused. A refused one changes no word.
#[derive(Clone, Copy, Debug, PartialEq, Eq, Hash)]
#[non_exhaustive]
pub enum Refusal {
    /// 1: the words name no good number of processes, or are too few for it.
    NoQueue,
    /// 4: the process's number isn't 1 to the number of processes.
    NoSuchProcess,
    /// 10: the room has fewer words than there are processes.
    RoomTooShort,
    /// 11: the number of processes isn't 1 to 32.
    WrongNumber,
    /// 12: there are too few words for so many processes.
    WordsTooFew,
    /// A number that has no name here, from an archive that is newer than this crate.
    Other(u16),
}

impl Refusal {
    /// Its number.
    #[must_use]
    pub const fn number(self) -> u16 {
        match self {
            Refusal::NoQueue => 1,
            Refusal::NoSuchProcess => 4,
            Refusal::RoomTooShort => 10,
            Refusal::WrongNumber => 11,
            Refusal::WordsTooFew => 12,
            Refusal::Other(number) => number,
        }
    }

    /// The refusal of a number: none for 0, which is no refusal, and for no other.
    #[must_use]
    pub const fn from_number(number: u16) -> Option<Refusal> {
        Some(match number {
            0 => return None,
            1 => Refusal::NoQueue,
            4 => Refusal::NoSuchProcess,
            10 => Refusal::RoomTooShort,
            11 => Refusal::WrongNumber,
            12 => Refusal::WordsTooFew,
            other => Refusal::Other(other),
        })
    }
}

impl fmt::Display for Refusal {
    fn fmt(&self, to: &mut fmt::Formatter<'_>) -> fmt::Result {
        to.write_str(match self {
            Refusal::NoQueue => "the words are no delay queue",
            Refusal::NoSuchProcess => "there is no process of that number",
            Refusal::RoomTooShort => "the room has fewer words than there are processes",
            Refusal::WrongNumber => "the number of processes isn't 1 to 32",
            Refusal::WordsTooFew => "there are too few words for so many processes",
            Refusal::Other(_) => "a refusal that has no name here",
        })
    }
}

#[cfg(feature = "std")]
impl std::error::Error for Refusal {}

/// A tick's answer as the archive has it.
#[repr(C)]
#[cfg_attr(not(archive), allow(dead_code))]
struct Ticked {
    number: u16,
    count: usize,
}

/// A delay as the archive has it.
#[repr(C)]
#[cfg_attr(not(archive), allow(dead_code))]
struct Delay {
    number: u16,
    time: u16,
}

#[cfg(archive)]
mod with_archive {
    use super::{Delay, Refusal, Ticked};

    extern "C" {
        fn delays_make(queue: *mut u16, words: usize, processes: u16) -> u16;
        fn delays_wait(queue: *mut u16, words: usize, process: u16, delay: u16) -> u16;
        fn delays_leave(queue: *mut u16, words: usize, process: u16) -> u16;
        fn delays_tick(queue: *mut u16, words: usize, room: *mut u16, room_words: usize) -> Ticked;
        fn delays_left(queue: *const u16, words: usize, process: u16) -> Delay;
        fn delays_shown(queue: *const u16, words: usize) -> bool;
    }

    fn done<T>(number: u16, with: T) -> Result<T, Refusal> {
        match Refusal::from_number(number) {
            Some(refusal) => Err(refusal),
            None => Ok(with),
        }
    }

    /// Makes an empty queue for so many processes.
    ///
    /// # Errors
    ///
    /// What is wrong with the number of processes or the length of the queue; then nothing changes.
    pub fn make(queue: &mut [u16], processes: u16) -> Result<(), Refusal> {
        // SAFETY: the pointer comes from a reference that is unique for the call, with the count of what lies behind it; the
        // archive doesn't keep it and touches nothing outside.
        done(
            unsafe { delays_make(queue.as_mut_ptr(), queue.len(), processes) },
            (),
        )
    }

    /// The process waits, with that delay: 1 ends at the first tick, 0 is no limit. One that waits already waits anew.
    ///
    /// # Errors
    ///
    /// That the words show no queue, or have no such process; then nothing changes.
    pub fn wait(queue: &mut [u16], process: u16, delay: u16) -> Result<(), Refusal> {
        // SAFETY: as in `make`.
        done(
            unsafe { delays_wait(queue.as_mut_ptr(), queue.len(), process, delay) },
            (),
        )
    }

    /// The process waits no more: it was woken, stopped or cleaned. Nothing changes if it isn't in the list.
    ///
    /// # Errors
    ///
    /// Those of [`wait`].
    pub fn leave(queue: &mut [u16], process: u16) -> Result<(), Refusal> {
        // SAFETY: as in `make`.
        done(
            unsafe { delays_leave(queue.as_mut_ptr(), queue.len(), process) },
            (),
        )
    }

    /// The clock ticks: gives the processes whose delay ends, by rising number, as the room's beginning. The room's words
    /// behind them stay.
    ///
    /// ```
    /// use elvomike_monitor::delays::{left, make, queue_words, tick, wait};
    ///
    /// let (mut queue, mut room) = ([0; queue_words(3)], [0; 3]);
    /// make(&mut queue, 3).unwrap();
    /// wait(&mut queue, 2, 1).unwrap();
    /// wait(&mut queue, 1, 5).unwrap();
    /// assert_eq!(tick(&mut queue, &mut room), Ok(&[2][..]));
    /// assert_eq!(left(&queue, 1), Ok(4));
    /// ```
    ///
    /// # Errors
    ///
    /// That the words show no queue, or that the room is too short for those who wake; then nothing changes.
    pub fn tick<'a>(queue: &mut [u16], room: &'a mut [u16]) -> Result<&'a [u16], Refusal> {
        // SAFETY: as in `make`, of the queue and of the room.
        let ticked = unsafe {
            delays_tick(
                queue.as_mut_ptr(),
                queue.len(),
                room.as_mut_ptr(),
                room.len(),
            )
        };
        done(ticked.number, room.get(..ticked.count).unwrap_or(&[]))
    }

    /// The delay left of a process: 0 without limit, or if it isn't waiting.
    ///
    /// # Errors
    ///
    /// Those of [`wait`].
    pub fn left(queue: &[u16], process: u16) -> Result<u16, Refusal> {
        // SAFETY: as in `make`; nothing is written.
        let delay = unsafe { delays_left(queue.as_ptr(), queue.len(), process) };
        done(delay.number, delay.time)
    }

    /// Whether the words show a queue. The calls don't ask this.
    #[must_use]
    pub fn shown(queue: &[u16]) -> bool {
        // SAFETY: as in `left`.
        unsafe { delays_shown(queue.as_ptr(), queue.len()) }
    }
}

#[cfg(archive)]
pub use with_archive::{leave, left, make, shown, tick, wait};

#[cfg(test)]
mod tests {
    use super::*;

    #[test]
    fn numbers_and_refusals_are_one_to_one() {
        assert_eq!(Refusal::from_number(0), None);
        for number in 1..=u16::MAX {
            let refusal = Refusal::from_number(number).unwrap();
            assert_eq!(refusal.number(), number);
            let named = [1, 4, 10, 11, 12].contains(&number);
            assert_eq!(matches!(refusal, Refusal::Other(_)), !named);
        }
    }

    #[test]
    fn the_answers_lie_as_in_c() {
        assert_eq!(core::mem::size_of::<Ticked>(), 16);
        assert_eq!(offset_of!(Ticked, count), 8);
        assert_eq!(core::mem::size_of::<Delay>(), 4);
        assert_eq!(offset_of!(Delay, time), 2);
    }
}

/// Queues through the archive.
#[cfg(all(test, archive))]
mod archive_tests {
    use super::*;

    /// 2 and 1 end together, 3 before them, as in the definitions' worked rows.
    fn three() -> [u16; queue_words(3) + 1] {
        let mut queue = [9; queue_words(3) + 1];
        make(&mut queue, 3).unwrap();
        for (process, delay) in [(2, 3), (1, 3), (3, 1)] {
            wait(&mut queue, process, delay).unwrap();
        }
        queue
    }

    #[test]
    fn the_list_is_by_time_left() {
        assert_eq!(three(), [3, 3, 2, 2, 0, 0, 1, 1, 9]);
        assert!(shown(&three()));
        assert_eq!(left(&three(), 2), Ok(3));
    }

    #[test]
    fn equals_are_woken_by_rising_number_and_the_rooms_end_stays() {
        let mut queue = three();
        let mut room = [7; 4];
        assert_eq!(tick(&mut queue, &mut room), Ok(&[3][..]));
        assert_eq!(tick(&mut queue, &mut room), Ok(&[][..]));
        assert_eq!(tick(&mut queue, &mut room), Ok(&[1, 2][..]));
        assert_eq!(room, [1, 2, 7, 7]);
        assert_eq!(left(&queue, 2), Ok(0));
    }

    #[test]
    fn who_leaves_gives_its_difference_on() {
        let mut queue = three();
        leave(&mut queue, 3).unwrap();
        assert_eq!((left(&queue, 3), left(&queue, 1)), (Ok(0), Ok(3)));
        wait(&mut queue, 1, 65535).unwrap();
        wait(&mut queue, 2, 0).unwrap();
        assert_eq!((left(&queue, 1), left(&queue, 2)), (Ok(65535), Ok(0)));
    }

    #[test]
    fn each_refusal_changes_nothing() {
        let mut queue = three();
        assert_eq!(make(&mut queue, 33), Err(Refusal::WrongNumber));
        assert_eq!(make(&mut queue, 4), Err(Refusal::WordsTooFew));
        assert_eq!(wait(&mut queue, 4, 1), Err(Refusal::NoSuchProcess));
        assert_eq!(leave(&mut queue, 0), Err(Refusal::NoSuchProcess));
        assert_eq!(tick(&mut queue, &mut [0; 2]), Err(Refusal::RoomTooShort));
        assert_eq!(queue, three());
        assert_eq!(left(&queue[..3], 1), Err(Refusal::NoQueue));
        assert_eq!(tick(&mut [], &mut []), Err(Refusal::NoQueue));
    }

    #[test]
    fn words_that_run_in_a_circle_show_no_queue() {
        let mut queue = [1, 3, 2, 0, 1, 0, 77, 65535];
        assert!(!shown(&queue));
        let mut room = [0; 3];
        assert_eq!(tick(&mut queue, &mut room), Ok(&[1, 2, 1][..]));
    }
}
