//! How far those walked that a call put into the running queue.

/// Whoever woke or was started passes the running processes of its own priority or a higher one; of a higher one only, if
/// an interrupt woke it. All zero for a refused call, and for one that puts nobody there.
#[repr(C)]
#[derive(Clone, Copy, Debug, Default, PartialEq, Eq)]
pub struct Walk {
    /// How many entered by a wake or a start.
    pub entries: u16,
    /// The records they passed together: by one tick at most 496, by one clean 465.
    pub passed: u16,
    /// The most that one of them passed: at most 31.
    pub most: u16,
    /// The records passed by the process that a tick put behind its equals.
    pub moved: u16,
}

#[cfg(archive)]
mod with_archive {
    use super::Walk;
    use crate::answer::{read, Given};
    use crate::registers::Registers;
    use crate::{Call, Refusal, Table};

    extern "C" {
        fn monitor_trap_walked(
            table: *mut u16,
            table_words: usize,
            room: *mut u16,
            room_words: usize,
            registers: *mut Registers,
            walk: *mut Walk,
        );
    }

    impl<W: AsRef<[u16]> + AsMut<[u16]>> Table<W> {
        /// Does a call as [`Table::call`] does, and tells its walk.
        #[cfg_attr(docsrs, doc(cfg(feature = "walks")))]
        pub fn call_walked<C: Call>(&mut self, call: C) -> (Result<C::Gives, Refusal>, Walk) {
            let caller = self.current();
            let (table, room) = (self.words_mut(), &mut [0u16; 0]);
            let (mut registers, mut walk) = (call.registers(), Walk::default());
            // SAFETY: each pointer comes from a reference that is unique for the call, with the count of words behind
            // it; both records are laid out as the archive has them; it keeps none of them and touches no word outside.
            unsafe {
                monitor_trap_walked(
                    table.as_mut_ptr(),
                    table.len(),
                    room.as_mut_ptr(),
                    room.len(),
                    &mut registers,
                    &mut walk,
                );
            }
            let gives = |answer: &Registers| C::Gives::of(answer, caller);
            (read(&registers, gives), walk)
        }
    }
}

#[cfg(test)]
mod tests {
    use super::*;

    #[test]
    fn the_walk_is_four_words_without_gaps() {
        assert_eq!(core::mem::size_of::<Walk>(), 8);
        assert_eq!(offset_of!(Walk, moved), 6);
    }
}

/// Walks through the archive.
#[cfg(all(test, archive))]
mod archive_tests {
    use super::*;
    use crate::calls::{Start, Tick, WaitEvent};
    use crate::{table_words, List, Process, Refusal, Table};

    #[test]
    fn who_is_started_passes_its_equals_and_who_is_moved_too() {
        let list = List::new()
            .process("A", 4, 0)
            .process("B", 4, 0)
            .process("C", 9, 0);
        let words = &mut [0; table_words(3, 0, 0)][..];
        let table = &mut Table::lay_out_in(words, &list).unwrap();
        let entered = |passed| Walk {
            entries: 1,
            passed,
            most: passed,
            moved: 0,
        };
        assert_eq!(table.call_walked(Start(Process(1))).1, entered(0));
        assert_eq!(table.call_walked(Start(Process(2))).1, entered(1));
        let moved = table.call_walked(Tick).1;
        assert_eq!(
            moved,
            Walk {
                moved: 1,
                ..Walk::default()
            }
        );
        assert_eq!(table.call_walked(Start(Process(3))).1, entered(0));
        let (refused, nowhere) = table.call_walked(Start(Process(3)));
        assert_eq!(refused, Err(Refusal::WrongState));
        assert_eq!(nowhere, Walk::default());
        assert_eq!(table.call_walked(WaitEvent { delay: 1 }).1, Walk::default());
        let (ticked, walk) = table.call_walked(Tick);
        assert_eq!(ticked.unwrap().woken, 1);
        assert_eq!((walk.entries, walk.passed, walk.moved), (1, 0, 2));
    }
}
