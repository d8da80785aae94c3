//! The register record as the archive has it, and the functions of the archives that take a table to be changed or checked.

/// Seven words that go in and stay, eight that come out. The order is the archive's.
#[repr(C)]
#[derive(Clone, Copy, Debug, Default, PartialEq, Eq)]
pub struct Registers {
    pub call: u16,
    pub a: u16,
    pub b: u16,
    pub w: [u16; 4],
    pub number: u16,
    pub kind: u16,
    pub buffer: u16,
    pub current: u16,
    pub r: [u16; 4],
}

impl Registers {
    /// The record of a call with these parts, before it is done.
    pub(crate) fn of(call: u16, a: u16, b: u16, w: [u16; 4]) -> Registers {
        Registers {
            call,
            a,
            b,
            w,
            ..Registers::default()
        }
    }
}

#[cfg(archive)]
mod archive {
    use super::Registers;

    extern "C" {
        fn monitor_trap(
            table: *mut u16,
            table_words: usize,
            room: *mut u16,
            room_words: usize,
            registers: *mut Registers,
        );
        fn monitor_layout(
            list: *const u16,
            list_words: usize,
            edition: u16,
            counters: *const u16,
            counter_words: usize,
            table: *mut u16,
            table_words: usize,
        ) -> u16;
        fn monitor_sound(table: *const u16, table_words: usize) -> u16;
    }

    #[cfg(feature = "quick")]
    extern "C" {
        fn monitor_quick(
            table: *mut u16,
            table_words: usize,
            room: *mut u16,
            room_words: usize,
            registers: *mut Registers,
        );
    }

    /// Does the call in the record on the table; a listing goes to the room.
    pub(crate) fn trap(table: &mut [u16], room: &mut [u16], registers: &mut Registers) {
        // SAFETY: each pointer comes from a reference that is unique for the call, with the count of words behind
        // it; the archive keeps none of them and touches no word outside.
        unsafe {
            monitor_trap(
                table.as_mut_ptr(),
                table.len(),
                room.as_mut_ptr(),
                room.len(),
                registers,
            );
        }
    }

    /// The same without the check.
    ///
    /// # Safety
    ///
    /// The words are a sound table: a layout, a call on a sound one, or the check says so, and nobody has written them since.
    #[cfg(feature = "quick")]
    pub(crate) unsafe fn quick(table: &mut [u16], room: &mut [u16], registers: &mut Registers) {
        // SAFETY: as above, and that the table is sound is the caller's to see to.
        unsafe {
            monitor_quick(
                table.as_mut_ptr(),
                table.len(),
                room.as_mut_ptr(),
                room.len(),
                registers,
            );
        }
    }

    /// Whether the words are a sound table.
    pub(crate) fn sound(table: &[u16]) -> bool {
        // SAFETY: as above; the table is only read.
        unsafe { monitor_sound(table.as_ptr(), table.len()) == 1 }
    }

    /// Lays out the table in that edition, a semaphore for each counter; gives 0 or the number of a refusal.
    pub(crate) fn layout(list: &[u16], edition: u16, counters: &[u16], table: &mut [u16]) -> u16 {
        // SAFETY: as above; the lists are only read.
        unsafe {
            monitor_layout(
                list.as_ptr(),
                list.len(),
                edition,
                counters.as_ptr(),
                counters.len(),
                table.as_mut_ptr(),
                table.len(),
            )
        }
    }
}

#[cfg(all(archive, feature = "quick"))]
pub(crate) use archive::quick;
#[cfg(archive)]
pub(crate) use archive::{layout, sound, trap};

#[cfg(test)]
mod tests {
    use super::*;

    #[test]
    fn the_record_is_fifteen_words_without_gaps() {
        assert_eq!(core::mem::size_of::<Registers>(), 30);
        assert_eq!(offset_of!(Registers, number), 14);
        assert_eq!(offset_of!(Registers, r), 22);
    }
}
