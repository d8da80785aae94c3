//! A process's name, 1 to 5 bytes in three words, and what is wrong with one.

use crate::Cause;

/// A name as three words: 1 to 5 bytes that aren't zero, left byte first.
///
/// # Errors
///
/// What is wrong with it.
pub const fn name_words(name: &str) -> Result<[u16; 3], Cause> {
    let bytes = name.as_bytes();
    match bytes.len() {
        0 => return Err(Cause::NameEmpty),
        1..=5 => {}
        _ => return Err(Cause::NameTooLong),
    }
    let mut words = [0; 3];
    let mut i = 0;
    while i < bytes.len() && i < 6 {
        if bytes[i] == 0 {
            return Err(Cause::NameHasZero);
        }
        words[i / 2] |= (bytes[i] as u16) << (if i % 2 == 0 { 8 } else { 0 });
        i += 1;
    }
    Ok(words)
}

/// What is wrong with three words as a name.
pub(crate) const fn words_cause(name: [u16; 3]) -> Option<Cause> {
    let [one, two, three] = name;
    let [a, b] = one.to_be_bytes();
    let [c, d] = two.to_be_bytes();
    let [e, f] = three.to_be_bytes();
    let bytes = [a, b, c, d, e];
    let mut length = 0;
    while length < 5 && bytes[length] != 0 {
        length += 1;
    }
    let mut i = length;
    let mut more = f != 0;
    while i < 5 {
        more |= bytes[i] != 0;
        i += 1;
    }
    match (length, more) {
        (5, true) => Some(Cause::NameTooLong),
        (_, true) => Some(Cause::NameHasZero),
        (0, false) => Some(Cause::NameEmpty),
        _ => None,
    }
}
