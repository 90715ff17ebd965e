//! Where a result ends in the buffer that was lent for it. What follows it is zero, and a word of a result may be zero too (`s0.0`), so each
//! kind of result tells its own length.

/// The number of children of a word.
fn count(word: u32) -> usize {
    (word >> 16 & 0xff) as usize
}

/// A term ends by its counts: each word closes one place and opens one for each child.
pub fn of_term(words: &[u32]) -> usize {
    let mut open = 1;
    let mut length = 0;
    while open > 0 && length < words.len() {
        open = open - 1 + count(words[length]);
        length += 1;
    }
    length
}

/// A book ends by the lengths of its rules' sides.
pub fn of_book(words: &[u32]) -> usize {
    let word = |at: usize| words.get(at).map_or(0, |&word| word as usize);
    let mut length = 1;
    for _ in 0..word(0) {
        length += 3 + word(length + 1) + word(length + 2);
    }
    length.min(words.len())
}

/// A text ends before the first zero byte: no text has one.
pub fn of_text(bytes: &[u8]) -> usize {
    bytes.iter().position(|&byte| byte == 0).unwrap_or(bytes.len())
}
