//! The four words of a message or an answer, and text in them; and a process's name.

use core::fmt;
use core::ops::Deref;

/// Bytes in four words.
const BYTES: usize = 8;

/// The four words of a message or an answer.
///
/// ```
/// use elvomike_monitor::Message;
///
/// let message = Message::text("page 7").unwrap();
/// assert_eq!(message, Message([0x7061, 0x6765, 0x2037, 0]));
/// assert_eq!(message.as_text().as_deref(), Some("page 7"));
/// assert_eq!(Message::text("a long word"), None); // more than eight bytes
/// ```
#[derive(Clone, Copy, Debug, Default, PartialEq, Eq, Hash)]
#[repr(transparent)]
pub struct Message(pub [u16; 4]);

impl Message {
    /// Four zeros.
    pub const EMPTY: Message = Message([0; 4]);
    /// What answers a message whose receiver was cleaned before it answered: 8000 hex and three zeros.
    pub const CLEANED: Message = Message([0x8000, 0, 0, 0]);

    /// A text of at most eight bytes, two to a word, the left one first, and zeros behind it; none of a longer text, nor of
    /// one that has a zero byte.
    #[must_use]
    pub const fn text(text: &str) -> Option<Message> {
        let (text, mut words) = (text.as_bytes(), [0; 4]);
        let mut i = 0;
        while i < text.len() {
            if i >= BYTES || text[i] == 0 {
                return None;
            }
            let byte = text[i] as u16;
            words[i / 2] |= if i % 2 == 0 { byte << 8 } else { byte };
            i += 1;
        }
        Some(Message(words))
    }

    /// The text in the words; none where a byte behind a zero isn't zero, or the bytes are no UTF-8.
    #[must_use]
    pub fn as_text(&self) -> Option<Text> {
        let [a, b, c, d] = self.0.map(u16::to_be_bytes);
        Text::of([a[0], a[1], b[0], b[1], c[0], c[1], d[0], d[1]])
    }
}

/// The words, so that `message[0]` is the first.
impl Deref for Message {
    type Target = [u16; 4];

    fn deref(&self) -> &[u16; 4] {
        &self.0
    }
}

impl From<[u16; 4]> for Message {
    fn from(words: [u16; 4]) -> Message {
        Message(words)
    }
}

/// A text of at most eight bytes, without a heap: of a message, or a process's name. It reads as a `str`.
#[derive(Clone, Copy, PartialEq, Eq, Hash)]
pub struct Text {
    bytes: [u8; BYTES],
    length: usize,
}

impl Text {
    fn of(bytes: [u8; BYTES]) -> Option<Text> {
        let length = bytes.iter().position(|&byte| byte == 0).unwrap_or(BYTES);
        let (text, behind) = bytes.split_at(length);
        (behind.iter().all(|&byte| byte == 0) && core::str::from_utf8(text).is_ok())
            .then_some(Text { bytes, length })
    }

    /// A name's three words.
    pub(crate) fn of_name(name: [u16; 3]) -> Option<Text> {
        let [a, b, c] = name.map(u16::to_be_bytes);
        Text::of([a[0], a[1], b[0], b[1], c[0], c[1], 0, 0])
    }
}

impl Deref for Text {
    type Target = str;

    fn deref(&self) -> &str {
        let text = self.bytes.get(..self.length).unwrap_or(&[]);
        core::str::from_utf8(text).unwrap_or("")
    }
}

impl fmt::Display for Text {
    fn fmt(&self, to: &mut fmt::Formatter<'_>) -> fmt::Result {
        to.pad(self)
    }
}

/// The text between quotes, as it is: a `str` shows itself by a path of the core library that leads to a panic.
impl fmt::Debug for Text {
    fn fmt(&self, to: &mut fmt::Formatter<'_>) -> fmt::Result {
        to.write_str("\"")?;
        to.write_str(self)?;
        to.write_str("\"")
    }
}

#[cfg(test)]
mod tests {
    use super::*;

    #[test]
    fn text_goes_into_four_words_and_back() {
        for text in ["", "a", "teh", "page 7", "receives", "größe"] {
            let message = Message::text(text).unwrap();
            assert_eq!(message.as_text().as_deref(), Some(text));
        }
        assert_eq!(Message::text("ab"), Some(Message([0x6162, 0, 0, 0])));
        assert_eq!(Message::text("receives!"), None);
        assert_eq!(Message::text("a\0b"), None);
    }

    #[test]
    fn words_that_are_no_text() {
        for words in [[0x0041, 0, 0, 0], [0x4100, 0, 0, 1], [0x8000, 0, 0, 0]] {
            assert_eq!(Message(words).as_text(), None);
        }
        assert_eq!(Message::CLEANED.as_text(), None);
    }
}
