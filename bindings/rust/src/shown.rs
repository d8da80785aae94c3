//! What `{:?}` of a table tells: the station, and not its words. Of words that are no sound table it tells what they say.

use core::fmt::{self, Debug};

use crate::{Buffer, Process, Semaphore, Table};

impl<W: AsRef<[u16]> + AsMut<[u16]>> Debug for Table<W> {
    fn fmt(&self, to: &mut fmt::Formatter<'_>) -> fmt::Result {
        to.debug_struct("Table")
            .field("edition", &self.edition())
            .field(
                "processes",
                &Listed(|| self.processes().map(|process| OfProcess(self, process))),
            )
            .field("running", &Listed(|| self.running()))
            .field(
                "open",
                &Listed(|| self.open().map(|buffer| OfBuffer(self, buffer))),
            )
            .field(
                "semaphores",
                &Listed(|| {
                    self.semaphores()
                        .map(|semaphore| OfSemaphore(self, semaphore))
                }),
            )
            .field("kept", &Listed(|| self.kept_interrupts()))
            .finish()
    }
}

impl<W: AsRef<[u16]> + AsMut<[u16]>> Table<W> {
    /// The buffers that aren't free, by rising number.
    pub fn open(&self) -> impl Iterator<Item = Buffer> + '_ {
        self.buffers()
            .filter(|&buffer| self.standing(buffer).is_some())
    }
}

/// What an iterator gives, as a list.
struct Listed<F>(F);

impl<I: Iterator, F: Fn() -> I> Debug for Listed<F>
where
    I::Item: Debug,
{
    fn fmt(&self, to: &mut fmt::Formatter<'_>) -> fmt::Result {
        to.debug_list().entries(self.0()).finish()
    }
}

/// A process of a table, a buffer and a semaphore.
struct OfProcess<'a, W>(&'a Table<W>, Process);
struct OfBuffer<'a, W>(&'a Table<W>, Buffer);
struct OfSemaphore<'a, W>(&'a Table<W>, Semaphore);

impl<W: AsRef<[u16]> + AsMut<[u16]>> Debug for OfProcess<'_, W> {
    fn fmt(&self, to: &mut fmt::Formatter<'_>) -> fmt::Result {
        let OfProcess(table, process) = *self;
        write!(to, "{process} ")?;
        match table.name(process) {
            Some(name) => write!(to, "{name}")?,
            None => to.write_str("without a name")?,
        }
        write!(to, " priority {}", table.priority(process).unwrap_or(0))?;
        match table.state(process) {
            Some(state) => write!(to, " {state:?}")?,
            None => to.write_str(" in no state")?,
        }
        if let Some(buffer) = table.awaited_buffer(process) {
            write!(to, " buffer {buffer}")?;
        }
        if let Some(device) = table.awaited_device(process) {
            write!(to, " device {device}")?;
        }
        if let Some(semaphore) = table.awaited_semaphore(process) {
            write!(to, " semaphore {semaphore}")?;
        }
        match table.delay(process) {
            0 => Ok(()),
            ticks => write!(to, " for {ticks} ticks"),
        }
    }
}

impl<W: AsRef<[u16]> + AsMut<[u16]>> Debug for OfBuffer<'_, W> {
    fn fmt(&self, to: &mut fmt::Formatter<'_>) -> fmt::Result {
        let OfBuffer(table, buffer) = *self;
        let number = |process: Option<Process>| process.map_or(0, Process::number);
        let (owner, receiver) = (number(table.owner(buffer)), number(table.receiver(buffer)));
        write!(to, "{buffer} of {owner} to {receiver}")?;
        if let Some(standing) = table.standing(buffer) {
            write!(to, " {standing:?}")?;
        }
        write!(to, " for {} ticks", table.age(buffer))
    }
}

impl<W: AsRef<[u16]> + AsMut<[u16]>> Debug for OfSemaphore<'_, W> {
    fn fmt(&self, to: &mut fmt::Formatter<'_>) -> fmt::Result {
        let OfSemaphore(table, semaphore) = *self;
        let counter = table.counter(semaphore).unwrap_or(0);
        write!(to, "{semaphore} at {counter}")
    }
}

#[cfg(test)]
mod tests {
    use super::*;
    use crate::table_words;

    #[test]
    fn a_table_tells_its_station() {
        let mut words = [0; table_words(2, 1, 1)];
        words[..6].copy_from_slice(&[2, 1, 1, 1, 1, 1]);
        words[8] = 0xFFFF;
        words[72..88].copy_from_slice(&[0, 0, 0, 0, 1, 0, 0, 0, 0, 5, 1, 1, 0x5245, 0x4144, 0, 0]);
        words[88..104].copy_from_slice(&[0, 0, 0, 0, 3, 0, 9, 1, 64, 3, 0, 0, 0x4200, 0, 0, 1]);
        words[104..114].copy_from_slice(&[0, 0, 1, 2, 2, 7, 0, 0, 0, 0]);
        words[114] = 0xFFFF;
        assert_eq!(
            std::format!("{:?}", Table::over(words)),
            "Table { edition: Some(Second), processes: [1 READ priority 5 Running, 2 B priority 3 WaitsAnswer buffer 1 \
             device 63 semaphore 1 for 9 ticks], running: [Process(1)], open: [1 of 1 to 2 Held for 7 ticks], \
             semaphores: [1 at -1], kept: [Device(0)] }"
        );
    }

    /// However they run, and however few they are.
    #[test]
    fn words_that_are_no_table_are_told_all_the_same() {
        for words in [&mut [0xFFFF; 200][..], &mut [1; 75], &mut []] {
            assert!(std::format!("{:?}", Table::over(words)).starts_with("Table {"));
        }
    }
}
