#![doc = include_str!("../README.md")]
#![no_std]
#![deny(unsafe_code)]
#![warn(missing_docs)]

#[cfg(test)]
extern crate std;

mod batch;
mod calls;
mod exports;
#[allow(unsafe_code)]
mod ffi;
mod header;
mod pieces;
mod refusal;
mod stems;
#[allow(unsafe_code)]
mod text;

pub use batch::{batch, Answer, Batch};
pub use calls::{fold, is_utf8, noun, pass, pieces, pieces_text, postlude, stage, syllable, whole};
pub use calls::{Noun, Pass, Postlude, Stage};
pub use pieces::{Joining, Kind, Piece, Pieces};
pub use refusal::Refusal;
pub use stems::{folded, pass_stem, stem, Folded, Stem};
pub use text::Text;

/// This crate's edition, which is the header's `FANNAVY_VERSION`.
pub const VERSION: &str = env!("CARGO_PKG_VERSION");

/// The longest word, in bytes: one byte more is refused.
pub const LIMIT: usize = header::size("FANNAVY_LIMIT");

/// The least output of [`postlude`], [`pass`] and [`whole`] for a word of `n` bytes.
#[must_use]
pub const fn pass_room(n: usize) -> usize {
    n + 2
}

/// The least output of [`noun`] for a word of `n` bytes.
#[must_use]
pub const fn noun_room(n: usize) -> usize {
    n
}

/// An output that always suffices for the [`fold`] of a word of `n` bytes.
#[must_use]
pub const fn fold_room(n: usize) -> usize {
    2 * n
}

/// The least buffer for a word's pieces in the archive's own form; [`pieces`](pieces()) brings it along.
pub const PIECES_ROOM: usize = header::size("FANNAVY_PIECES_ROOM");

/// The least output of [`pieces_text`], whatever the word.
pub const PIECES_TEXT_ROOM: usize = header::size("FANNAVY_PIECES_TEXT_ROOM");

/// The most tails of a [`batch()`], and the least size of each buffer in the archive's own form;
/// [`batch()`] brings these along.
pub const TAILS: usize = header::size("FANNAVY_TAILS");

/// The fewest characters of a tail.
pub const TAIL_LEAST: usize = header::size("FANNAVY_TAIL_LEAST");

#[cfg(test)]
mod tests {
    use super::*;
    use std::format;
    use std::prelude::rust_2021::*;
    use std::vec;

    #[test]
    fn the_header_has_the_same_version() {
        let line = format!("#define FANNAVY_VERSION \"{VERSION}\"");
        assert!(header::TEXT.lines().any(|other| other == line), "no {line}");
    }

    #[test]
    fn the_header_s_sizes_are_the_archive_s() {
        let long = [b'a'; LIMIT + 1];
        assert_eq!(syllable(&long), Err(Refusal::OverLimit));
        assert_eq!(syllable(&long[1..]), Ok(true));
        let refusal = |room: usize| ffi::pieces(b"evler", &mut vec![0; room]).err();
        let short = Some(Refusal::BufferTooShort);
        assert_eq!(refusal(PIECES_ROOM - 1), short);
        assert_eq!(refusal(PIECES_ROOM), None);
        let refusal = |room: usize| ffi::pieces_text(b"evler", &mut vec![0; room]).err();
        assert_eq!(refusal(PIECES_TEXT_ROOM - 1), short);
        assert_eq!(refusal(PIECES_TEXT_ROOM), None);
        let tail = |length: usize| "b".repeat(length) + "\n";
        let refusal = |tails: &str| batch(b"ev", tails.as_bytes()).err();
        let [most, over] = [TAILS, TAILS + 1].map(|count| tail(TAIL_LEAST).repeat(count));
        for refused in [over, tail(TAIL_LEAST - 1)] {
            assert_eq!(refusal(&refused), Some(Refusal::TailsRefused));
        }
        assert_eq!(refusal(&most), None);
    }

    #[test]
    fn the_header_has_the_same_rooms() {
        let rooms = (pass_room(5), noun_room(5), fold_room(5));
        assert_eq!(rooms, (5 + 2, 5, 2 * 5));
        for line in [
            "#define FANNAVY_PASS_ROOM(n) (FANNAVY_SIZE_(n) + 2)",
            "#define FANNAVY_NOUN_ROOM(n) FANNAVY_SIZE_(n)",
            "#define FANNAVY_FOLD_ROOM(n) (2 * FANNAVY_SIZE_(n))",
        ] {
            assert!(header::TEXT.lines().any(|other| other == line), "no {line}");
        }
    }

    #[test]
    fn the_header_has_the_same_kinds() {
        for kind in pieces::all(Joining::WithY) {
            let name = kind.name().trim_end_matches('_').to_uppercase();
            let entry = format!(" FANNAVY_{name} = {},", kind.number());
            assert!(header::TEXT.contains(&entry), "no{entry}");
        }
    }
}
