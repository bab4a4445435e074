//! The noun stage and the whole run on every word.

use super::stages::{bytes, on_source};
use crate::ffi::{FannavyNoun, FannavyWhole};
use crate::report::{Difference, Report};
use crate::words::Words;

pub fn noun(words: &Words, report: &mut Report) -> Result<(), Difference> {
    let source = |visit: &mut dyn FnMut(&str) -> _| words.for_nouns(visit);
    on_source(source, report, |word| {
        let rust = oracle::stem_noun_suffixes(word);
        let answer = FannavyNoun {
            refusal: 0,
            length: rust.text.len(),
            yes: rust.yes,
        };
        (answer, bytes(rust.text))
    })
}

pub fn whole(words: &Words, report: &mut Report) -> Result<(), Difference> {
    let source = |visit: &mut dyn FnMut(&str) -> _| words.for_whole(visit);
    on_source(source, report, |word| {
        let text = oracle::stem(word);
        let answer = FannavyWhole {
            refusal: 0,
            length: text.len(),
        };
        (answer, bytes(text))
    })
}
