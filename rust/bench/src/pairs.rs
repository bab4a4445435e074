//! The calls that are timed, each with its Rust counterpart. A further pair is one more entry.

use compare::folded::folded;
use fannavy::{fold_room, LIMIT};
#[cfg(feature = "libstemmer")]
use libstemmer::Stemmer;
#[cfg(feature = "libstemmer")]
use std::cell::RefCell;

/// An output long enough for every call.
pub type Output = [u8; fold_room(LIMIT)];

/// The same work on both sides. An answer is a number, so that nothing can be left out as unused. The
/// output is lent to both; the Rust makes its own texts.
pub struct Pair {
    pub name: &'static str,
    /// Whether the Rust takes text, which a host that has bytes must check first.
    pub takes_text: bool,
    pub proved: fn(&str, &mut Output) -> usize,
    pub rust: fn(&str, &mut Output) -> usize,
}

/// The UTF-8 check, which takes words of any length.
pub const CHECK: Pair = Pair {
    name: "UTF-8 check",
    takes_text: false,
    proved: |word, _| usize::from(fannavy::is_utf8(word.as_bytes())),
    rust: |word, _| usize::from(std::str::from_utf8(word.as_bytes()).is_ok()),
};

pub const PAIRS: &[Pair] = &[
    #[cfg(feature = "oracle")]
    Pair {
        name: "syllable check",
        takes_text: true,
        proved: |word, _| match fannavy::syllable(word.as_bytes()) {
            Ok(yes) => sum(0, [yes]),
            Err(_) => REFUSED,
        },
        rust: |word, _| sum(0, [oracle::more_than_one_syllable_word(word)]),
    },
    #[cfg(feature = "oracle")]
    Pair {
        name: "suffix stage",
        takes_text: true,
        proved: |word, _| match fannavy::stage(word.as_bytes()) {
            Ok(stage) => sum(stage.kept.len(), [stage.yes, stage.flag]),
            Err(_) => REFUSED,
        },
        rust: |word, _| {
            let stage = oracle::stem_nominal_verb_suffixes(word);
            sum(stage.text.len(), [stage.yes, stage.flag])
        },
    },
    #[cfg(feature = "oracle")]
    Pair {
        name: "postlude",
        takes_text: true,
        proved: |word, output| match fannavy::postlude(word.as_bytes(), output) {
            Ok(postlude) => sum(postlude.text.len(), [postlude.yes]),
            Err(_) => REFUSED,
        },
        rust: |word, _| {
            let postlude = oracle::postlude(word);
            sum(postlude.text.len(), [postlude.yes])
        },
    },
    #[cfg(feature = "oracle")]
    Pair {
        name: "word pass",
        takes_text: true,
        proved: |word, output| match fannavy::pass(word.as_bytes(), output) {
            Ok(pass) => sum(pass.text.len(), [pass.syllable, pass.yes, pass.flag]),
            Err(_) => REFUSED,
        },
        rust: |word, _| {
            let pass = oracle::pass(word);
            sum(pass.text.len(), [pass.syllable, pass.yes, pass.flag])
        },
    },
];

/// The noun stage and the whole run, which chains before ki are timed for too.
pub const NOUNS: &[Pair] = &[
    #[cfg(feature = "oracle")]
    Pair {
        name: "noun stage",
        takes_text: true,
        proved: |word, output| match fannavy::noun(word.as_bytes(), output) {
            Ok(noun) => sum(noun.text.len(), [noun.yes]),
            Err(_) => REFUSED,
        },
        rust: |word, _| {
            let noun = oracle::stem_noun_suffixes(word);
            sum(noun.text.len(), [noun.yes])
        },
    },
    #[cfg(feature = "oracle")]
    Pair {
        name: "whole run",
        takes_text: true,
        proved: whole,
        rust: |word, _| oracle::stem(word).len(),
    },
];

/// The whole run beside Snowball's own C, which takes text too.
#[cfg(feature = "libstemmer")]
pub const SNOWBALL: Pair = Pair {
    name: "whole run",
    takes_text: true,
    proved: whole,
    rust: |word, _| STEMMER.with_borrow_mut(|stemmer| stemmer.stem(word).len()),
};

#[cfg(feature = "libstemmer")]
thread_local! {
    static STEMMER: RefCell<Stemmer> = RefCell::new(Stemmer::turkish());
}

#[cfg(any(feature = "oracle", feature = "libstemmer"))]
fn whole(word: &str, output: &mut Output) -> usize {
    fannavy::whole(word.as_bytes(), output).map_or(REFUSED, str::len)
}

/// The fold, of headings. The crate has none: its counterpart is the rule, character by character.
pub const FOLD: Pair = Pair {
    name: "fold",
    takes_text: true,
    proved: |word, output| fannavy::fold(word.as_bytes(), output).map_or(REFUSED, str::len),
    rust: |word, _| folded(word).len(),
};

// No word here is refused; if one is, the sums differ.
const REFUSED: usize = 1 << 32;

// A text's length and the answers beside it as one number.
#[cfg(feature = "oracle")]
fn sum<const N: usize>(length: usize, answers: [bool; N]) -> usize {
    answers
        .iter()
        .fold(length, |sum, &answer| sum * 2 + usize::from(answer))
}
