//! The tails of a slice, and the rule by which a batch of them is refused, of document 02's request 7.

use crate::rule::{self, Need};
use fannavy::{TAILS, TAIL_LEAST};
use std::iter::once;

const LF: u8 = b'\n';

/// The tails in a slice: a line feed closes each, and bytes past the last one are one more.
pub fn tails(slice: &[u8]) -> impl Iterator<Item = &[u8]> {
    let lines = slice.split_inclusive(|&byte| byte == LF);
    lines.map(|line| line.strip_suffix(&[LF]).unwrap_or(line))
}

/// The number for a front and a slice of tails with buffers of these sizes, the first that applies; 0
/// where the batch is not refused.
pub fn number(front: &[u8], slice: &[u8], rooms: [usize; 3]) -> u32 {
    let joined = tails(slice).map(|tail| [front, tail].concat());
    let alone = once(front).chain(tails(slice)).map(<[u8]>::to_vec);
    let numbers: Vec<u32> = alone.chain(joined).map(|word| by_word(&word)).collect();
    if numbers.contains(&1) {
        1
    } else if numbers.contains(&2) {
        2
    } else if tails(slice).count() > TAILS || tails(slice).any(is_short) {
        6
    } else if rooms.iter().any(|&room| room < TAILS) {
        3
    } else {
        0
    }
}

// The number of a word by itself.
fn by_word(word: &[u8]) -> u32 {
    rule::number(word, Need::Nothing, 0)
}

// A text of too few characters.
fn is_short(tail: &[u8]) -> bool {
    String::from_utf8_lossy(tail).chars().count() < TAIL_LEAST
}

#[cfg(test)]
mod tests {
    use super::*;
    use fannavy::LIMIT;

    const ENOUGH: [usize; 3] = [TAILS; 3];
    const TAIL: &[u8] = b"bbbbbbbbbbbbblar";

    fn split(slice: &str) -> Vec<&[u8]> {
        tails(slice.as_bytes()).collect()
    }

    #[test]
    fn a_line_feed_closes_a_tail() {
        assert!(split("").is_empty());
        assert_eq!(split("\n"), [b""]);
        assert_eq!(split("a"), [b"a"]);
        assert_eq!(split("a\n"), [b"a"]);
        assert_eq!(split("a\nb"), [b"a", b"b"]);
        assert_eq!(split("a\n\nb\n"), [&b"a"[..], b"", b"b"]);
        assert_eq!(split("\n\n"), [b"", b""]);
    }

    // The number of this front with these tails.
    fn of(front: &[u8], list: &[&[u8]]) -> u32 {
        number(front, &list.join(&LF), ENOUGH)
    }

    #[test]
    fn words_are_refused_alone_and_joined() {
        let long = [b'b'; LIMIT + 1];
        assert_eq!(of(&long, &[]), 1);
        assert_eq!(of(&long[1..], &[]), 0);
        assert_eq!(of(b"", &[&long]), 1);
        assert_eq!(of(b"", &[&long[1..]]), 0);
        assert_eq!(of(&long[..LIMIT - 16], &[TAIL]), 0);
        assert_eq!(of(&long[..LIMIT - 15], &[TAIL]), 1);
        assert_eq!(of(b"\xFF", &[]), 2);
        assert_eq!(of(b"", &[b"\xFF"]), 2);
        // The tail goes on with the character in which the front ends.
        assert_eq!(of(b"a\xC4", &[b"\xB1bbbbbbbbbbbbbbbb"]), 2);
    }

    #[test]
    fn tails_are_counted_and_so_are_their_characters() {
        assert_eq!(of(b"ev", &[TAIL; TAILS]), 0);
        assert_eq!(of(b"ev", &[TAIL; TAILS + 1]), 6);
        assert_eq!(of(b"ev", &[&TAIL[1..]]), 6);
        for letter in ["b", "ı", "乡", "\u{20061}"] {
            assert_eq!(of(b"", &[letter.repeat(16).as_bytes()]), 0);
            assert_eq!(of(b"", &[letter.repeat(15).as_bytes()]), 6);
        }
        assert_eq!(of(b"ev", &[TAIL, b"", TAIL]), 6);
    }

    #[test]
    fn every_buffer_has_as_many_entries_as_tails_may_be() {
        for rooms in [[63, 64, 64], [64, 63, 64], [64, 64, 63], [0, 0, 0]] {
            assert_eq!(number(b"ev", TAIL, rooms), 3);
            assert_eq!(number(b"ev", b"", rooms), 3);
            assert_eq!(number(b"ev", b"\n", rooms), 6);
            assert_eq!(number(b"ev", b"\xFF", rooms), 2);
            assert_eq!(number(&[0xFF; LIMIT + 1], b"", rooms), 1);
        }
        assert_eq!(number(b"ev", TAIL, [64, 65, 200]), 0);
    }

    #[test]
    fn the_first_number_that_applies_is_given() {
        let long = &[b'b'; LIMIT + 1];
        let many = [TAIL; TAILS];
        for (last, expected) in [(&long[..], 1), (b"\xFF", 2), (TAIL, 6)] {
            assert_eq!(of(b"ev", &[&many[..], &[last]].concat()), expected);
        }
        assert_eq!(of(b"ev", &[b"\xFF", long]), 1);
        assert_eq!(of(b"ev", &[b"", b"\xFF"]), 2);
        assert_eq!(of(b"\xFF", &[long]), 1);
        assert_eq!(of(b"\xFF", &[b""]), 2);
    }
}
