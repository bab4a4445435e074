//! The fold on every character by itself, on headings, and on every word as it is and in capitals, held
//! to its rule character by character: the text, and by which outputs it is refused.

use crate::desk::Desk;
use crate::ffi::FannavyFold;
use crate::folded::folded;
use crate::lent::Lent;
use crate::report::{Difference, Report};
use crate::share::share_out;
use crate::words::headings::{self, capitals};
use crate::words::Words;
use std::iter::once;

type Outcome = Result<(), Difference>;

pub fn run(words: &Words, report: &mut Report) -> Outcome {
    share_out(characters, report, || visitor(each_room))?;
    share_out(headings::each, report, || visitor(each_room))?;
    let texts = |visit: &mut dyn FnMut(&str) -> _| words.for_fold(visit);
    share_out(texts, report, || {
        let mut visit = visitor(edges);
        move |word: &str, report: &mut Report| {
            visit(word, report)?;
            visit(&word.to_uppercase(), report)?;
            visit(&capitals(word), report)
        }
    })
}

// Every character there is.
fn characters<E>(visit: &mut dyn FnMut(&str) -> Result<(), E>) -> Result<(), E> {
    let mut bytes = [0; 4];
    ('\0'..=char::MAX).try_for_each(|ch| visit(ch.encode_utf8(&mut bytes)))
}

// Sizes of the output, for a word of `n` bytes whose folded text has `least`: every one up to more
// than enough.
fn each_room(n: usize, least: usize) -> Vec<usize> {
    (0..=(2 * n).max(least) + 1).collect()
}

// None, the word's own length, what always suffices, one short of the text, and just enough.
fn edges(n: usize, least: usize) -> Vec<usize> {
    [0, n, 2 * n]
        .into_iter()
        .chain(least.checked_sub(1))
        .chain(once(least))
        .collect()
}

// A word is folded, or refused by the rule, with each of these outputs and with one that is longer
// than the text by some bytes.
fn visitor(rooms: fn(usize, usize) -> Vec<usize>) -> impl FnMut(&str, &mut Report) -> Outcome {
    let mut desk = Desk::new(Lent::new(b""));
    move |word, report| {
        let text = folded(word);
        let answer = FannavyFold {
            refusal: 0,
            length: text.len(),
        };
        desk.set(word.as_bytes());
        let mut rooms = rooms(word.len(), text.len());
        rooms.push(text.len() + 1 + text.len() % 61);
        for room in rooms {
            desk.gives_into(room, answer, text.as_bytes(), report)?;
        }
        desk.done(report)
    }
}
