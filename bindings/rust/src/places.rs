//! Where a table's words are: the header, then the records of processes, buffers and semaphores. Assumes nothing of the words
//! that are read, which may be no table.

/// Words a table of so many processes, buffers and semaphores uses: at most 1,928.
#[must_use]
pub const fn table_words(processes: usize, buffers: usize, semaphores: usize) -> usize {
    72 + 16 * processes + 10 * buffers + 4 * semaphores
}

/// The header's words that say how many there are.
const PROCESSES: usize = 0;
const BUFFERS: usize = 1;
pub(crate) const SEMAPHORES: usize = 5;

/// How many the header's word says there are.
fn count(words: &[u16], of: usize) -> Option<usize> {
    words.get(of).copied().map(usize::from)
}

/// How many records come before that of a number; none where there is no such number.
fn before(words: &[u16], of: usize, number: u16) -> Option<usize> {
    let number = usize::from(number);
    number
        .checked_sub(1)
        .filter(|_| count(words, of) >= Some(number))
}

/// Word i of a process's record; none where the words have no such process.
pub(crate) fn process_word(words: &[u16], process: u16, i: usize) -> Option<u16> {
    let place = table_words(before(words, PROCESSES, process)?, 0, 0);
    words.get(place + i).copied()
}

/// Word i of a buffer's record; none where the words have no such buffer.
pub(crate) fn buffer_word(words: &[u16], buffer: u16, i: usize) -> Option<u16> {
    let processes = count(words, PROCESSES)?;
    let place = table_words(processes, before(words, BUFFERS, buffer)?, 0);
    words.get(place + i).copied()
}

/// Word i of a semaphore's record; none where the words have no such semaphore.
pub(crate) fn semaphore_word(words: &[u16], semaphore: u16, i: usize) -> Option<u16> {
    let (processes, buffers) = (count(words, PROCESSES)?, count(words, BUFFERS)?);
    let place = table_words(processes, buffers, before(words, SEMAPHORES, semaphore)?);
    words.get(place + i).copied()
}

#[cfg(test)]
mod tests {
    use super::*;

    #[test]
    fn the_largest_table_has_1928_words() {
        assert_eq!(table_words(32, 128, 16), 1928);
    }

    #[test]
    fn records_stand_one_behind_the_other_by_number() {
        let mut words = [0; table_words(2, 3, 1)];
        (words[0], words[1], words[5]) = (2, 3, 1);
        (words[72 + 16], words[72 + 31]) = (21, 22);
        (words[72 + 32 + 20], words[72 + 32 + 29]) = (31, 32);
        (words[72 + 32 + 30], words[72 + 32 + 33]) = (11, 12);
        let read = |word: fn(&[u16], u16, usize) -> Option<u16>, number, last| {
            (word(&words, number, 0), word(&words, number, last))
        };
        assert_eq!(read(process_word, 2, 15), (Some(21), Some(22)));
        assert_eq!(read(buffer_word, 3, 9), (Some(31), Some(32)));
        assert_eq!(read(semaphore_word, 1, 3), (Some(11), Some(12)));
        for (process, buffer, semaphore) in [(0, 0, 0), (3, 4, 2)] {
            assert_eq!(read(process_word, process, 0), (None, None));
            assert_eq!(read(buffer_word, buffer, 0), (None, None));
            assert_eq!(read(semaphore_word, semaphore, 0), (None, None));
        }
    }

    #[test]
    fn words_that_are_too_few_have_none() {
        let words = [9; 10];
        for few in [&words[..0], &words[..1], &words] {
            assert_eq!(process_word(few, 9, 0), None);
            assert_eq!(buffer_word(few, 9, 0), None);
            assert_eq!(semaphore_word(few, 9, 0), None);
        }
    }
}
