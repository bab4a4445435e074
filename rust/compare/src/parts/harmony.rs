//! The suffix stage's whole answer: the vowels in harmony and whether the word is a loan candidate, held to
//! what the oracle finds for its pieces by the crate's groupings.

use super::stages::{bytes, on_words};
use crate::ffi::FannavyStage;
use crate::report::{Difference, Report};
use crate::words::Words;
use oracle::{Harmony, Piece, Pieces};
use std::borrow::Cow;

pub fn run(words: &Words, report: &mut Report) -> Result<(), Difference> {
    on_words(words, report, |word| answer(word, oracle::harmony))
}

// The stage's answer, with what this rule finds for a word and its pieces.
fn answer(
    word: &str,
    rule: impl Fn(&str, &[Piece]) -> Option<Harmony>,
) -> (FannavyStage, Cow<'_, [u8]>) {
    let Pieces { stage, list } = oracle::pieces(word);
    let found = rule(word, &list);
    let answer = FannavyStage {
        refusal: 0,
        length: stage.text.len(),
        yes: stage.yes,
        flag: stage.flag,
        harmonic: found.is_some(),
        last: found.map_or(0, |found| found.last),
        partner: found.map_or(0, |found| found.partner),
        loan: found.is_some_and(|found| found.loan),
    };
    (answer, bytes(stage.text))
}

#[cfg(test)]
mod tests {
    use super::super::stages::on_source;
    use super::*;
    use crate::words::nouns::each_of;
    use crate::words::piles::FRONTS;
    use crate::words::{chains, Visit};

    // Kinds of which one tests harmony and the other does not.
    const LAR: usize = 5;
    const YKEN: usize = 12;

    // Every chain of endings on every front of piles.
    fn words<E>(visit: Visit<E>) -> Result<(), E> {
        let chains = chains::all();
        let mut fronts = FRONTS.iter();
        fronts.try_for_each(|front| each_of(front, &chains, 1, visit))
    }

    // What the part finds with this rule in the Rust's place.
    fn difference(rule: impl Fn(&str, &[Piece]) -> Option<Harmony> + Sync) -> Option<String> {
        let mut report = Report::new("test");
        let outcome = on_source(words, &mut report, |word| answer(word, &rule));
        outcome.err().map(|difference| difference.to_string())
    }

    #[test]
    fn the_rule_agrees() {
        assert_eq!(difference(oracle::harmony), None);
    }

    // Whether the rule on other pieces is noticed.
    fn differs_on(change: impl Fn(&str, &mut Vec<Piece>) + Sync) -> bool {
        let rule = |word: &str, list: &[Piece]| {
            let mut list = list.to_vec();
            change(word, &mut list);
            oracle::harmony(word, &list)
        };
        difference(rule).is_some()
    }

    #[test]
    fn another_mark_is_noticed() {
        assert!(differs_on(|_, list| list.reverse()), "the last mark");
        assert!(differs_on(|_, list| list.truncate(1)), "one mark alone");
        for kind in 1..=YKEN {
            let tests = ![4, 8, 10, YKEN].contains(&kind);
            let other = if tests { YKEN } else { LAR };
            let change = |_: &str, list: &mut Vec<Piece>| {
                let pieces = list.iter_mut().filter(|piece| piece.kind == kind);
                pieces.for_each(|piece| piece.kind = other);
            };
            assert!(differs_on(change), "kind {kind} as {other}");
        }
    }

    #[test]
    fn another_entry_is_noticed() {
        let enter = |last: fn(&str, &Piece) -> usize| {
            differs_on(move |word, list| {
                list.iter_mut()
                    .for_each(|piece| piece.last = last(word, piece));
            })
        };
        assert!(enter(|word, _| word.len() - 1), "at the word's end");
        assert!(
            enter(|_, piece| piece.first.saturating_sub(1)),
            "past the piece"
        );
    }

    // The partners of a key's vowel, as letters.
    fn partners(vowel: char) -> &'static str {
        match vowel {
            'a' => "aıou",
            'e' => "eiöü",
            'ı' => "aı",
            'i' => "ei",
            'u' => "ou",
            _ => "öü",
        }
    }

    fn is_vowel(ch: char) -> bool {
        "aeıioöuü".contains(ch)
    }

    fn letter(word: &str, place: usize) -> char {
        word[place..].chars().next().expect("a vowel")
    }

    type Change = fn(&str, &mut Harmony);

    #[test]
    fn other_vowels_are_noticed() {
        let changes: [(&str, Change); 9] = [
            ("the last vowel's end", |word, found| {
                found.last += letter(word, found.last).len_utf8();
            }),
            ("the partner's end", |word, found| {
                found.partner += letter(word, found.partner).len_utf8();
            }),
            ("characters before the last vowel", |word, found| {
                found.last = word[..found.last].chars().count();
            }),
            ("characters before the partner", |word, found| {
                found.partner = word[..found.partner].chars().count();
            }),
            ("the farthest partner", |word, found| {
                let partners = partners(letter(word, found.last));
                found.partner = word.find(|ch| partners.contains(ch)).expect("a partner");
            }),
            ("the nearest vowel", |word, found| {
                found.partner = word[..found.last].rfind(is_vowel).expect("a vowel");
            }),
            ("no candidate", |_, found| found.loan = false),
            ("a candidate by any character", |word, found| {
                found.loan = word[found.partner..found.last].chars().count() > 1;
            }),
            ("a candidate by an earlier vowel", |word, found| {
                found.loan |= word[..found.partner].contains(is_vowel);
            }),
        ];
        for (what, change) in changes {
            let rule = |word: &str, list: &[Piece]| {
                let mut found = oracle::harmony(word, list)?;
                change(word, &mut found);
                Some(found)
            };
            assert!(difference(rule).is_some(), "{what}");
        }
    }
}
