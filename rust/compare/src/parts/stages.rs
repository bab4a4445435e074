//! The crate's stages, each called by itself on every word, and the word pass.

use crate::calls::Call;
use crate::desk::Desk;
use crate::ffi::{FannavyPass, FannavyPostlude, FannavySyllable, StageKept, StagePart};
use crate::lent::Lent;
use crate::report::{Difference, Report};
use crate::share::{share_out, Stop};
use crate::words::Words;
use std::borrow::Cow;

pub fn syllable(words: &Words, report: &mut Report) -> Result<(), Difference> {
    on_words(words, report, |word| {
        let answer = FannavySyllable {
            refusal: 0,
            yes: oracle::more_than_one_syllable_word(word),
        };
        (answer, Cow::from(&b""[..]))
    })
}

pub fn stage(words: &Words, report: &mut Report) -> Result<(), Difference> {
    on_words(words, report, |word| {
        let rust = oracle::stem_nominal_verb_suffixes(word);
        let answer = StageKept {
            refusal: 0,
            length: rust.text.len(),
            yes: rust.yes,
            flag: rust.flag,
        };
        (answer, bytes(rust.text))
    })
}

pub fn part(words: &Words, report: &mut Report) -> Result<(), Difference> {
    on_words(words, report, |word| {
        let text = oracle::stem_nominal_verb_suffixes(word).text;
        let length = text.len();
        (StagePart { length }, bytes(text))
    })
}

pub fn postlude(words: &Words, report: &mut Report) -> Result<(), Difference> {
    on_words(words, report, |word| {
        let rust = oracle::postlude(word);
        let answer = FannavyPostlude {
            refusal: 0,
            length: rust.text.len(),
            yes: rust.yes,
        };
        (answer, bytes(rust.text))
    })
}

pub fn pass(words: &Words, report: &mut Report) -> Result<(), Difference> {
    on_words(words, report, |word| {
        let rust = oracle::pass(word);
        let answer = FannavyPass {
            refusal: 0,
            length: rust.text.len(),
            syllable: rust.syllable,
            yes: rust.yes,
            flag: rust.flag,
        };
        (answer, bytes(rust.text))
    })
}

/// A text's bytes.
pub fn bytes(text: Cow<str>) -> Cow<[u8]> {
    match text {
        Cow::Borrowed(text) => Cow::from(text.as_bytes()),
        Cow::Owned(text) => Cow::from(text.into_bytes()),
    }
}

/// The call gives what the Rust gives of each word for the stages.
pub fn on_words<C: Call>(
    words: &Words,
    report: &mut Report,
    rust: impl Fn(&str) -> (C, Cow<[u8]>) + Sync,
) -> Result<(), Difference> {
    on_source(|visit| words.for_stages(visit), report, rust)
}

/// The same of each word of another source.
pub fn on_source<C: Call>(
    source: impl Fn(&mut dyn FnMut(&str) -> Result<(), Stop>) -> Result<(), Stop> + Sync,
    report: &mut Report,
    rust: impl Fn(&str) -> (C, Cow<[u8]>) + Sync,
) -> Result<(), Difference> {
    let rust = &rust;
    share_out(source, report, || {
        let mut desk = Desk::new(Lent::among_vowels(b""));
        move |word: &str, report: &mut Report| {
            let (answer, text) = rust(word);
            desk.set(word.as_bytes());
            desk.gives(answer, &text, report)?;
            desk.done(report)
        }
    })
}
