//! `eq_s` and `eq_s_b` at every character of a word, held to the crate's own methods. `eq_s` there
//! does not look at a limit inside the text, so the limits are the word's ends.

use crate::cursor::Cursor;
use crate::lent::Lent;
use crate::report::{Difference, Report};
use crate::steps::{self, on_texts, Way};
use crate::words::Words;
use oracle::SnowballEnv;

// Literals of the stages, letters of two bytes, and the empty literal.
const LITERALS: [&str; 6] = ["", "ken", "ad", "soyad", "ğ", "ç"];

pub fn run(words: &Words, report: &mut Report) -> Result<(), Difference> {
    let mut literal = Lent::new(b"");
    on_texts(words, report, |word, lent, places, report| {
        let mut env = SnowballEnv::create(word);
        for number in 0..places.places.len() {
            env.cursor = places.places[number];
            for piece in LITERALS
                .into_iter()
                .chain(pieces(word, &places.places, number))
            {
                literal.set(piece.as_bytes());
                compare(&mut env, lent, piece, &mut literal, report)?;
            }
        }
        Ok(())
    })
}

// Pieces of the word that end at this character, begin there or stand across, and both halves.
fn pieces<'a>(word: &'a str, places: &[usize], number: usize) -> [&'a str; 5] {
    let at = places[number];
    let before = places[number.saturating_sub(1)];
    let after = places[(number + 1).min(places.len() - 1)];
    [
        &word[before..at],
        &word[..at],
        &word[at..after],
        &word[at..],
        &word[before..after],
    ]
}

// Both steps of both sides from the crate's cursor, which is put back.
fn compare(
    env: &mut SnowballEnv,
    lent: &mut Lent,
    piece: &str,
    literal: &mut Lent,
    report: &mut Report,
) -> Result<(), Difference> {
    let at = Cursor {
        cursor: env.cursor,
        limit: env.limit,
        limit_backward: env.limit_backward,
    };
    let stands = env.eq_s_b(piece);
    let expected = at.passes(stands, env.cursor);
    steps::literal(Way::Back, lent, literal, at, expected, report)?;
    env.cursor = at.cursor;

    let stands = env.eq_s(piece);
    let expected = at.passes(stands, env.cursor);
    steps::literal(Way::On, lent, literal, at, expected, report)?;
    env.cursor = at.cursor;
    Ok(())
}
