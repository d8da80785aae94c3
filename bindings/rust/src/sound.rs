//! A table that is known to be sound, and whose words nobody else can change: its calls don't look it over again.

#[cfg(test)]
mod tests;

use core::ops::Deref;

use crate::registers::{quick, Registers};
use crate::{Builder, Call, Listing, NotLaidOut, Process, Refusal, Rows, Table};

mod sealed {
    pub trait Sealed {}
    impl<const N: usize> Sealed for [u16; N] {}
    impl Sealed for &mut [u16] {}
    #[cfg(feature = "alloc")]
    impl Sealed for alloc::vec::Vec<u16> {}
    #[cfg(feature = "alloc")]
    impl Sealed for alloc::boxed::Box<[u16]> {}
}

/// Words that only their holder can change, and that are the same ones at every look: arrays, exclusive borrows of a slice
/// and, with the feature `alloc`, vectors and boxed slices. No other type can be such words:
///
/// ```compile_fail,E0277
/// # struct Mine([u16; 200]);
/// # impl AsRef<[u16]> for Mine { fn as_ref(&self) -> &[u16] { &self.0 } }
/// # impl AsMut<[u16]> for Mine { fn as_mut(&mut self) -> &mut [u16] { &mut self.0 } }
/// impl elvomike_monitor::KeptWords for Mine {}
/// ```
pub trait KeptWords: sealed::Sealed + AsRef<[u16]> + AsMut<[u16]> {}

impl<W: sealed::Sealed + AsRef<[u16]> + AsMut<[u16]>> KeptWords for W {}

/// A table that was laid out or found sound, and whose words nobody but its own calls can change: so they stay sound, by the
/// proof, and each call does what [`Table::call`] does without looking the table over, in a small part of its instructions.
/// It reads as the [`Table`] that it holds, which [`SoundTable::into_table`] gives back.
///
/// ```
/// use elvomike_monitor::calls::{SendMessage, Start, Tick};
/// use elvomike_monitor::{Buffer, List, Message, Process, Refusal, SoundTable, Table};
///
/// const LIST: List = List::new().process("READ", 4, 1).process("SPEL", 3, 0);
///
/// # fn main() -> Result<(), Refusal> {
/// let mut table = SoundTable::lay_out_in([0; LIST.table_words()], Table::builder(&LIST))?;
/// table.call(Start(Process(1)))?;
/// let send = SendMessage { to: Process(2), words: Message([7; 4]) };
/// assert_eq!(table.call(send)?.buffer, Buffer(1));
/// assert_eq!(table.call(send), Err(Refusal::NoFreeBuffer));
/// assert_eq!((table.current(), table.age(Buffer(1))), (Some(Process(1)), 0));
///
/// // any words may turn out to be sound; those that don't are given back
/// let mut words = table.into_table().into_words();
/// assert!(Table::over(&mut words[..]).check().is_ok());
/// words[2] = 9;
/// let spoiled = Table::over(words).check();
/// assert_eq!(spoiled.map_err(|mut table| table.call(Tick)), Err(Err(Refusal::TableNotSound)));
/// # Ok(())
/// # }
/// ```
///
/// A type whose `as_mut` gives other words each time can be a `Table`, which looks at what it is given, and no `SoundTable`:
///
/// ```compile_fail,E0599
/// # use elvomike_monitor::{calls::Tick, Table};
/// struct Two([u16; 200], [u16; 200]);
/// impl AsRef<[u16]> for Two {
///     fn as_ref(&self) -> &[u16] {
///         &self.0
///     }
/// }
/// impl AsMut<[u16]> for Two {
///     fn as_mut(&mut self) -> &mut [u16] {
///         core::mem::swap(&mut self.0, &mut self.1);
///         &mut self.0
///     }
/// }
/// let two = Table::over(Two([0; 200], [9; 200]));
/// let sound = two.check();
/// ```
///
/// Nor can its words be written:
///
/// ```compile_fail,E0594
/// # use elvomike_monitor::{List, SoundTable, Table};
/// # const LIST: List = List::new().process("READ", 4, 1);
/// # let mut table = SoundTable::lay_out_in([0; LIST.table_words()], Table::builder(&LIST)).unwrap();
/// table.words()[2] = 9;
/// ```
#[derive(Clone, Debug, PartialEq, Eq)]
pub struct SoundTable<W: KeptWords> {
    table: Table<W>, // whose words are sound: laid out, or found so, and then changed by calls alone
}

/// The entry that doesn't look, as one that may be called.
macro_rules! unchecked {
    () => {
        // SAFETY: the words are those of a `SoundTable`, which are sound at every moment: they were laid out or checked,
        // `KeptWords` are the same ones at every look and reached by nobody else, and a call leaves a sound table sound.
        |table: &mut [u16], room: &mut [u16], registers: &mut Registers| unsafe {
            quick(table, room, registers)
        }
    };
}

impl<W: KeptWords> SoundTable<W> {
    /// Lays out the words given, whatever they held.
    ///
    /// # Errors
    ///
    /// What is wrong with the list or the counters, or that the words lent are too few.
    pub fn lay_out_in(words: W, builder: Builder<'_>) -> Result<SoundTable<W>, NotLaidOut> {
        builder.lay_out_in(words).map(|table| SoundTable { table })
    }

    /// The plain table again.
    pub fn into_table(self) -> Table<W> {
        self.table
    }

    /// Does a call.
    ///
    /// # Errors
    ///
    /// What the call is refused with, as it says itself; never [`Refusal::TableNotSound`].
    pub fn call<C: Call>(&mut self, call: C) -> Result<C::Gives, Refusal> {
        self.table.call_by(unchecked!(), call)
    }

    /// What [`Table::list`] gives.
    ///
    /// # Errors
    ///
    /// [`Refusal::NoSuchProcess`].
    pub fn list(&mut self, process: Process) -> Result<Listing, Refusal> {
        self.table.list_by(unchecked!(), process)
    }

    /// What [`Table::list_in`] gives.
    ///
    /// # Errors
    ///
    /// [`Refusal::NoSuchProcess`], and [`Refusal::RoomTooShort`].
    pub fn list_in<'r>(
        &mut self,
        process: Process,
        room: &'r mut [u16],
    ) -> Result<Rows<'r>, Refusal> {
        self.table.list_in_by(unchecked!(), process, room)
    }
}

impl<W: KeptWords> Deref for SoundTable<W> {
    type Target = Table<W>;

    fn deref(&self) -> &Table<W> {
        &self.table
    }
}

impl<W: KeptWords> Table<W> {
    /// The table as one that is known to be sound, if it is; otherwise as it was.
    ///
    /// # Errors
    ///
    /// The table itself, where its words aren't sound.
    #[cfg_attr(docsrs, doc(cfg(feature = "quick")))]
    pub fn check(self) -> Result<SoundTable<W>, Table<W>> {
        if self.is_sound() {
            Ok(SoundTable { table: self })
        } else {
            Err(self)
        }
    }
}
