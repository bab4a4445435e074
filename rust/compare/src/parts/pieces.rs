//! The pieces that the suffix stage removes, in both forms and in any order, as Rattle callers get them
//! and as the binding tells them, held to those that the oracle finds by the crate's marks one by one;
//! and the oracle's held to the word and to the stage.

use super::stages::on_words;
use crate::ffi::{FannavyPieces, FannavyPiecesText};
use crate::lent::Lent;
use crate::list::{Entry, List};
use crate::report::{Difference, Report};
use crate::share::share_out;
use crate::words::Words;
use fannavy::{Joining, Refusal, LIMIT};
use oracle::{Joined, Piece, Pieces};
use std::borrow::Cow;

type Outcome = Result<(), Difference>;

/// The oracle by itself, its marks in Fannavy's place: they end as the crate's stage does, and the
/// kept text with the pieces' letters behind it is the word.
pub fn marks(words: &Words, report: &mut Report) -> Outcome {
    on_pieces(words, report, |word, rust, lent, report| {
        let letters = rust.list.iter().rev().map(|piece| letters(word, piece));
        let whole = letters.fold(rust.stage.text.to_string(), |text, more| text + &more);
        let call = "the oracle's marks, and the word";
        report.same(lent, call, whole.as_str(), word)?;
        let call = "the oracle's marks, and the crate's stage";
        let stage = oracle::stem_nominal_verb_suffixes(word);
        report.same(lent, call, rust.stage, stage)
    })
}

/// The binding's pieces, which are sorted as the oracle's are. How they joined is the binding's own
/// finding, by a piece's first letter: the archive's calls do not tell it.
pub fn binding(words: &Words, report: &mut Report) -> Outcome {
    on_pieces(words, report, |word, rust, lent, report| {
        let told = |p: fannavy::Piece| (usize::from(p.kind.number()), joined(p), p.first, p.last);
        let proved = fannavy::pieces(lent.word())
            .map(|pieces| (pieces.kept.len(), pieces.iter().map(told).collect()));
        let told = |p: &Piece| (p.kind, p.joined, p.first, p.last);
        let list: Vec<_> = rust.list.iter().map(told).collect();
        let rust = match word.len() {
            ..=LIMIT => Ok((rust.stage.text.len(), list)),
            _ => Err(Refusal::OverLimit),
        };
        report.same(lent, "the binding's pieces", proved, rust)
    })
}

fn joined(piece: fannavy::Piece) -> Joined {
    match piece.kind.joining() {
        None => Joined::Alone,
        Some(Joining::WithY) => Joined::WithY,
        Some(Joining::AfterVowel) => Joined::AfterVowel,
    }
}

/// The list for Rattle callers: kinds, joinings and offsets, and entries that are not used.
pub fn list(words: &Words, report: &mut Report) -> Outcome {
    on_words(words, report, |word| {
        let rust = oracle::pieces(word);
        let pieces: Vec<Entry> = rust.list.iter().map(entry).collect();
        let answer = List::new(0, rust.stage.text.len(), &pieces);
        (answer, Cow::from(&b""[..]))
    })
}

fn entry(piece: &Piece) -> Entry {
    let joining = match piece.joined {
        Joined::Alone => 0,
        Joined::WithY => 1,
        Joined::AfterVowel => 2,
    };
    Entry {
        kind: byte(piece.kind),
        joining,
        first: piece.first,
        last: piece.last,
    }
}

fn byte(number: usize) -> u8 {
    u8::try_from(number).expect("kinds and distances are small")
}

/// Kinds and offsets, by the places at which the marks begin and end.
pub fn buffer(words: &Words, report: &mut Report) -> Outcome {
    on_words(words, report, |word| {
        let rust = oracle::pieces(word);
        let length = rust.stage.text.len();
        let answer = FannavyPieces {
            refusal: 0,
            length,
            count: rust.list.len(),
        };
        let numbers = |piece: &Piece| [piece.kind, piece.first - length, piece.last - length];
        let bytes: Vec<u8> = rust.list.iter().flat_map(numbers).map(byte).collect();
        (answer, Cow::from(bytes))
    })
}

/// Names and letters, by the marks' keys and by how they joined.
pub fn text(words: &Words, report: &mut Report) -> Outcome {
    on_words(words, report, |word| {
        let line = |piece: &Piece| format!("{}\t{}\n", piece.name, letters(word, piece));
        let lines: String = oracle::pieces(word).list.iter().map(line).collect();
        let answer = FannavyPiecesText {
            refusal: 0,
            length: lines.len(),
        };
        (answer, Cow::from(lines.into_bytes()))
    })
}

// A y where the piece joined with one, and its key.
fn letters(word: &str, piece: &Piece) -> String {
    let y = match piece.joined {
        Joined::WithY => "y",
        Joined::Alone | Joined::AfterVowel => "",
    };
    format!("{y}{}", &word[piece.key..=piece.last])
}

// Visits every word, lent, with the oracle's pieces of it.
fn on_pieces(
    words: &Words,
    report: &mut Report,
    visit: impl Fn(&str, Pieces, &Lent, &mut Report) -> Outcome + Sync,
) -> Outcome {
    let visit = &visit;
    let source = |visit: &mut dyn FnMut(&str) -> _| words.for_stages(visit);
    share_out(source, report, || {
        let mut lent = Lent::new(b"");
        move |word: &str, report: &mut Report| {
            lent.set(word.as_bytes());
            visit(word, oracle::pieces(word), &lent, report)?;
            report.done(&lent)
        }
    })
}
