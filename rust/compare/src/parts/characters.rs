//! `previous_char` and `next_char` walked over words from limit to limit, every step's record held to
//! the characters that the standard library finds.

use crate::cursor::Cursor;
use crate::lent::Lent;
use crate::places::Places;
use crate::report::{Difference, Report};
use crate::steps::{self, on_texts, Way};
use crate::words::Words;

type Outcome = Result<(), Difference>;

pub fn run(words: &Words, report: &mut Report) -> Outcome {
    on_texts(words, report, |_, lent, places, report| {
        for &(from, to) in &places.ranges {
            both_ways(lent, places, from, to, report)?;
        }
        Ok(())
    })
}

// From the range's end to its start, and from its start to its end.
fn both_ways(
    lent: &mut Lent,
    places: &Places,
    from: usize,
    to: usize,
    report: &mut Report,
) -> Outcome {
    let Places { places, points, .. } = places;
    let (start, end) = (places[from], places[to]);
    let mut at = Cursor {
        cursor: end,
        limit: end,
        limit_backward: start,
    };
    let back = (from..to).rev().map(|i| (points[i], places[i]));
    walk(Way::Back, lent, at, back, report)?;
    at.cursor = start;
    let on = (from..to).map(|i| (points[i], places[i + 1]));
    walk(Way::On, lent, at, on, report)
}

// Steps over these code points, each to the place beside it, and one more step, which must stay.
fn walk(
    way: Way,
    lent: &mut Lent,
    mut at: Cursor,
    characters: impl Iterator<Item = (u32, usize)>,
    report: &mut Report,
) -> Outcome {
    for (point, place) in characters {
        steps::character(way, lent, at, at.moves(point, place), report)?;
        at.cursor = place;
    }
    steps::character(way, lent, at, at.stays(), report)
}
