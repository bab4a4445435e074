//! Refused calls, held to the rule: outputs of every size up to n + 2 (of the noun stage and the whole
//! run, of the sizes that tell), words that are no text, words over the limit, and several causes at once.

use crate::desk::Desk;
use crate::ffi::{
    FannavyFold, FannavyNoun, FannavyPass, FannavyPieces, FannavyPiecesText, FannavyPostlude,
    FannavyStage, FannavySyllable, FannavyWhole, StagePart,
};
use crate::lent::Lent;
use crate::list::List;
use crate::report::{Difference, Report};
use crate::share::share_out;
use crate::words::damaged::EDGE_BYTES;
use crate::words::Words;
use fannavy::{LIMIT, PIECES_ROOM, PIECES_TEXT_ROOM};

type Outcome = Result<(), Difference>;

// Lengths of words over the limit, and the longest that is not.
const LENGTHS: [usize; 7] = [
    LIMIT,
    LIMIT + 1,
    LIMIT + 2,
    LIMIT + 3,
    LIMIT + 256,
    LIMIT * 2,
    65_536,
];

pub fn run(words: &Words, report: &mut Report) -> Outcome {
    let texts = |visit: &mut dyn FnMut(&str) -> _| words.for_stages(visit);
    share_out(texts, report, || {
        let mut desk = Desk::new(Lent::new(b""));
        move |word: &str, report: &mut Report| every_room(&mut desk, word.as_bytes(), report)
    })?;
    let byte_strings = |visit: &mut dyn FnMut(&[u8]) -> _| words.byte_strings(visit);
    share_out(byte_strings, report, || {
        let mut desk = Desk::new(Lent::new(b""));
        move |word: &[u8], report: &mut Report| some_rooms(&mut desk, word, report)
    })?;
    share_out(around_the_limit, report, || {
        let mut desk = Desk::new(Lent::new(b""));
        move |word: &[u8], report: &mut Report| some_rooms(&mut desk, word, report)
    })
}

// Every size of the output up to n + 2 bytes, the first that is enough for postlude and pass; the
// fold's own sizes are in its part.
fn every_room(desk: &mut Desk, word: &[u8], report: &mut Report) -> Outcome {
    desk.set(word);
    let n = word.len();
    for room in 0..=n + 2 {
        with_output(desk, room, report)?;
    }
    for room in edges(n) {
        with_noun_output(desk, room, report)?;
    }
    with_buffers(desk, n, report)?;
    desk.done(report)
}

// Every call; the outputs empty, about as long as the word, and much longer.
fn some_rooms(desk: &mut Desk, word: &[u8], report: &mut Report) -> Outcome {
    desk.set(word);
    desk.refuses::<FannavySyllable>(0, report)?;
    desk.refuses::<FannavyStage>(0, report)?;
    desk.refuses::<List>(0, report)?;
    let n = word.len();
    desk.refuses::<StagePart>(n, report)?;
    for room in edges(n).into_iter().chain([n + 200]) {
        with_output(desk, room, report)?;
        with_noun_output(desk, room, report)?;
    }
    with_buffers(desk, n, report)?;
    desk.done(report)
}

fn with_output(desk: &mut Desk, room: usize, report: &mut Report) -> Outcome {
    desk.refuses::<FannavyPostlude>(room, report)?;
    desk.refuses::<FannavyFold>(room, report)?;
    desk.refuses::<FannavyPass>(room, report)
}

// Noun stage and whole run, for which n and n + 2 bytes are just enough.
fn with_noun_output(desk: &mut Desk, room: usize, report: &mut Report) -> Outcome {
    desk.refuses::<FannavyNoun>(room, report)?;
    desk.refuses::<FannavyWhole>(room, report)
}

// No output, and about as long as the word.
fn edges(n: usize) -> [usize; 5] {
    [0, n.saturating_sub(1), n, n + 1, n + 2]
}

// The calls on pieces, whose buffers have a size of their own: the empty one, a shorter one that is
// another for words of other lengths, and about as long as is enough.
fn with_buffers(desk: &mut Desk, n: usize, report: &mut Report) -> Outcome {
    for room in sizes(PIECES_ROOM, n) {
        desk.refuses::<FannavyPieces>(room, report)?;
    }
    for room in sizes(PIECES_TEXT_ROOM, n) {
        desk.refuses::<FannavyPiecesText>(room, report)?;
    }
    Ok(())
}

fn sizes(least: usize, n: usize) -> [usize; 5] {
    [0, n % least, least - 1, least, least + 1]
}

// Words of each length, text and with one byte at some place that makes them no text.
fn around_the_limit<E>(visit: &mut dyn FnMut(&[u8]) -> Result<(), E>) -> Result<(), E> {
    for length in LENGTHS {
        for filler in [b'a', b'b', b'z'] {
            let mut word = vec![filler; length];
            visit(&word)?;
            for place in [0, 1, length / 2, LIMIT - 2, LIMIT - 1, length - 1] {
                for byte in EDGE_BYTES {
                    word[place] = byte;
                    visit(&word)?;
                }
                word[place] = filler;
            }
        }
    }
    Ok(())
}
