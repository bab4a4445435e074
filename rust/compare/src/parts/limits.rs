//! `eq_s` and `eq_s_b` with the limits inside the word: what stands past a limit must not count.

use crate::cursor::Cursor;
use crate::lent::Lent;
use crate::report::{Difference, Report};
use crate::steps::{self, on_texts, Way};
use crate::words::Words;

pub fn run(words: &Words, report: &mut Report) -> Result<(), Difference> {
    let mut literal = Lent::new(b"");
    on_texts(words, report, |word, lent, places, report| {
        for &(from, to) in &places.ranges {
            let inside = &word[places.places[from]..places.places[to]];
            for piece in pieces(word, &places.places, from, to) {
                literal.set(piece.as_bytes());
                let at = places.places[from];
                compare(lent, &mut literal, at, inside, piece, report)?;
            }
        }
        Ok(())
    })
}

// The text between the limits, its first and its last character, and texts that reach one
// character past a limit where there is one.
fn pieces<'a>(word: &'a str, places: &[usize], from: usize, to: usize) -> [&'a str; 6] {
    let piece = |a: usize, b: usize| &word[places[a]..places[b]];
    let last = places.len() - 1;
    [
        "",
        piece(from, to),
        piece(from, to.min(from + 1)),
        piece(from.max(to.saturating_sub(1)), to),
        piece(from.saturating_sub(1), to),
        piece(from, last.min(to + 1)),
    ]
}

// Both steps, each from the limit that it leads away from.
fn compare(
    lent: &mut Lent,
    literal: &mut Lent,
    from: usize,
    inside: &str,
    piece: &str,
    report: &mut Report,
) -> Result<(), Difference> {
    let to = from + inside.len();
    let mut at = Cursor {
        cursor: to,
        limit: to,
        limit_backward: from,
    };
    let stands = inside.ends_with(piece);
    let expected = at.passes(stands, to.wrapping_sub(piece.len()));
    steps::literal(Way::Back, lent, literal, at, expected, report)?;

    at.cursor = from;
    // At the limit `eq_s` says no to any literal, the empty one too.
    let stands = !inside.is_empty() && inside.starts_with(piece);
    let expected = at.passes(stands, from + piece.len());
    steps::literal(Way::On, lent, literal, at, expected, report)
}
