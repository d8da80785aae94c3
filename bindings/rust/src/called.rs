//! The calls on a table, by the archive: laying out, doing a call, listing.

#[cfg(test)]
mod tests;

use crate::answer::{read, Given};
use crate::registers::{sound, trap, Registers};
use crate::{
    calls, Builder, Call, List, Listed, Listing, NotLaidOut, Process, Refusal, Rows, Table,
};

impl Table<()> {
    /// A table by the list is to be laid out, with semaphores and in an edition that may be named.
    pub const fn builder(list: &List) -> Builder<'_> {
        Builder::new(list)
    }
}

#[cfg(feature = "alloc")]
impl Table<alloc::vec::Vec<u16>> {
    /// A table of the first edition on the heap, of just the words the list asks for: all processes stopped, all
    /// buffers free.
    ///
    /// # Errors
    ///
    /// What is wrong with the list, and its entry.
    #[cfg_attr(docsrs, doc(cfg(feature = "alloc")))]
    pub fn lay_out(list: &List) -> Result<Self, NotLaidOut> {
        Builder::new(list).lay_out()
    }
}

impl<W: AsRef<[u16]> + AsMut<[u16]>> Table<W> {
    /// Lays out the words given, whatever they held, in the first edition.
    ///
    /// # Errors
    ///
    /// What is wrong with the list, and its entry; or that the words lent are too few.
    pub fn lay_out_in(words: W, list: &List) -> Result<Table<W>, NotLaidOut> {
        Builder::new(list).lay_out_in(words)
    }

    /// Whether the words are a sound table: what every call asks first, and nothing else.
    pub fn is_sound(&self) -> bool {
        sound(self.words())
    }

    /// Does a call, and gives what that call gives; who runs after it, [`Table::current`] tells.
    ///
    /// What starts, stops and answers give may be dropped, and what a wait gives may not: it says whether the caller waits,
    /// and has the words that are nowhere else.
    ///
    /// ```
    /// #![deny(unused_must_use)]
    /// # use elvomike_monitor::{calls::Start, List, Process, Refusal, Table};
    /// # fn main() -> Result<(), Refusal> {
    /// # const LIST: List = List::new().process("A", 2, 1).process("B", 1, 1);
    /// # let mut table = Table::lay_out_in([0; LIST.table_words()], &LIST)?;
    /// table.call(Start(Process(2)))?;
    /// table.call(Start(Process(1)))?;
    /// assert_eq!(table.current(), Some(Process(1)));
    /// # Ok(())
    /// # }
    /// ```
    ///
    /// ```compile_fail
    /// #![deny(unused_must_use)]
    /// # use elvomike_monitor::{calls::WaitEvent, Refusal, Table};
    /// fn wait(table: &mut Table<&mut [u16]>) -> Result<(), Refusal> {
    ///     table.call(WaitEvent { delay: 0 })?;
    ///     Ok(())
    /// }
    /// ```
    ///
    /// # Errors
    ///
    /// What the call is refused with, as it says itself; and [`Refusal::TableNotSound`] where the words are no sound table.
    /// A refused call changes nothing.
    pub fn call<C: Call>(&mut self, call: C) -> Result<C::Gives, Refusal> {
        self.call_by(trap, call)
    }

    /// The buffers not free that the process owns or received, by rising number.
    ///
    /// ```
    /// # use elvomike_monitor::{calls::{SendMessage, Start}, Listed, List, Message, Process, Refusal, Standing, Table};
    /// # fn main() -> Result<(), Refusal> {
    /// # const LIST: List = List::new().process("A", 2, 1).process("B", 1, 1);
    /// # let mut table = Table::lay_out_in([0; LIST.table_words()], &LIST)?;
    /// # table.call(Start(Process(1)))?;
    /// # table.call(SendMessage { to: Process(2), words: Message::EMPTY })?;
    /// for row in &table.list(Process(2))? {
    ///     assert_eq!((row.owner, row.standing), (Process(1), Standing::Queued));
    /// }
    /// let mut room = [0; Listed::WORDS * 2]; // the same without 1,280 bytes of stack
    /// assert_eq!(table.list_in(Process(2), &mut room)?.len(), 1);
    /// # Ok(())
    /// # }
    /// ```
    ///
    /// # Errors
    ///
    /// [`Refusal::TableNotSound`], and [`Refusal::NoSuchProcess`].
    pub fn list(&mut self, process: Process) -> Result<Listing, Refusal> {
        self.list_by(trap, process)
    }

    /// The same in a room that is lent, of [`Listed::WORDS`] words for each row.
    ///
    /// # Errors
    ///
    /// Those of [`Table::list`], and [`Refusal::RoomTooShort`] where the rows are more than the room takes;
    /// then nothing is written.
    pub fn list_in<'r>(
        &mut self,
        process: Process,
        room: &'r mut [u16],
    ) -> Result<Rows<'r>, Refusal> {
        self.list_in_by(trap, process, room)
    }

    /// The call by that entry of the archives.
    pub(crate) fn call_by<C: Call>(
        &mut self,
        entry: impl FnOnce(&mut [u16], &mut [u16], &mut Registers),
        call: C,
    ) -> Result<C::Gives, Refusal> {
        let (caller, mut registers) = (self.current(), call.registers());
        entry(self.words_mut(), &mut [], &mut registers);
        read(&registers, |answer| C::Gives::of(answer, caller))
    }

    pub(crate) fn list_by(
        &mut self,
        entry: impl FnOnce(&mut [u16], &mut [u16], &mut Registers),
        process: Process,
    ) -> Result<Listing, Refusal> {
        let mut room = [0; Listed::WORDS_MOST];
        let mut registers = calls::list(process);
        entry(self.words_mut(), &mut room, &mut registers);
        read(&registers, |answer| Listing::of(room, answer.kind))
    }

    pub(crate) fn list_in_by<'r>(
        &mut self,
        entry: impl FnOnce(&mut [u16], &mut [u16], &mut Registers),
        process: Process,
        room: &'r mut [u16],
    ) -> Result<Rows<'r>, Refusal> {
        let mut registers = calls::list(process);
        entry(self.words_mut(), room, &mut registers);
        read(&registers, |answer| Rows::of(room, answer.kind))
    }
}
