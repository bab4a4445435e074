//! The rule of refusals, of document 01 and of document 02's requests 1, 2, 4 and 6: the first number that
//! applies.

use crate::folded::folded;
use fannavy::LIMIT;
use std::str::from_utf8;

/// The output that a call needs.
#[derive(Clone, Copy)]
pub enum Need {
    /// The call takes no output.
    Nothing,
    /// So many bytes more than the word has.
    MoreThanWord(usize),
    /// As many bytes as the word's folded text has.
    Folded,
    /// So many bytes, whatever the word: a buffer for pieces.
    Buffer(usize),
}

impl Need {
    /// The least output for a word; none where the call takes no output. What is no text has no folded
    /// text, and is refused before its output is looked at.
    pub fn least(self, word: &[u8]) -> Option<usize> {
        match self {
            Need::Nothing => None,
            Need::MoreThanWord(more) => Some(word.len() + more),
            Need::Folded => Some(from_utf8(word).map_or(0, |text| folded(text).len())),
            Need::Buffer(size) => Some(size),
        }
    }

    // The number that refuses a shorter output.
    fn number(self) -> u32 {
        match self {
            Need::Buffer(_) => 5,
            _ => 3,
        }
    }
}

/// The number for a word whose call has this need and is lent an output of `room` bytes; 0 where the
/// call is not refused.
pub fn number(word: &[u8], need: Need, room: usize) -> u32 {
    if word.len() > LIMIT {
        1
    } else if from_utf8(word).is_err() {
        2
    } else if need.least(word).is_some_and(|least| room < least) {
        need.number()
    } else {
        0
    }
}

#[cfg(test)]
mod tests {
    use super::{number, Need, LIMIT};

    #[test]
    fn the_first_number_that_applies_is_given() {
        let long = [b'a'; LIMIT + 1];
        let broken = [0xFF; LIMIT + 1];
        let two_more = Need::MoreThanWord(2);
        assert_eq!(number(&long, two_more, LIMIT + 3), 1);
        assert_eq!(number(&broken, two_more, 0), 1);
        assert_eq!(number(&broken[1..], two_more, 0), 2);
        assert_eq!(number(&long[1..], two_more, LIMIT + 1), 3);
        assert_eq!(number(&long[1..], two_more, LIMIT + 2), 0);
        assert_eq!(number(b"", two_more, 1), 3);
        assert_eq!(number(b"", Need::Nothing, 0), 0);
        let capitals = [b'I'; LIMIT];
        assert_eq!(number(&broken, Need::Folded, 0), 1);
        assert_eq!(number(&broken[1..], Need::Folded, 0), 2);
        assert_eq!(number(&capitals, Need::Folded, 2 * LIMIT - 1), 3);
        assert_eq!(number(&capitals, Need::Folded, 2 * LIMIT), 0);
        assert_eq!(number("İ".as_bytes(), Need::Folded, 0), 3);
        assert_eq!(number("İ".as_bytes(), Need::Folded, 1), 0);
        assert_eq!(number(b"", Need::Folded, 0), 0);
        let nine = Need::Buffer(9);
        assert_eq!(number(&broken, nine, 0), 1);
        assert_eq!(number(&broken[1..], nine, 0), 2);
        assert_eq!(number(&long[1..], nine, 8), 5);
        assert_eq!(number(b"", nine, 8), 5);
        assert_eq!(number(&long[1..], nine, 9), 0);
    }
}
