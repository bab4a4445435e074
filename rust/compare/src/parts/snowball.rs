//! The whole run, by the binding's `stem`, beside Snowball's own: the stems that it published with the
//! vocabulary, and its C on every word.

use crate::lent::Lent;
use crate::report::{Difference, Report};
use crate::share::share_out;
use crate::words::Words;
use fannavy::{Refusal, LIMIT};
use libstemmer::Stemmer;
use std::str::from_utf8;

type Outcome = Result<(), Difference>;

pub fn run(words: &Words, report: &mut Report) -> Outcome {
    let mut lent = Lent::new(b"");
    for (word, stem) in words.published() {
        compare("Snowball's published stem", word, stem, &mut lent, report)?;
    }
    let source = |visit: &mut dyn FnMut(&str) -> _| words.for_whole(visit);
    share_out(source, report, || {
        let mut lent = Lent::new(b"");
        let mut stemmer = Stemmer::turkish();
        move |word: &str, report: &mut Report| {
            let stem = from_utf8(stemmer.stem(word)).unwrap_or("(no text)");
            compare("libstemmer's stem", word, stem, &mut lent, report)
        }
    })
}

// The binding's stem is this one; a word over the limit is refused.
fn compare(by: &str, word: &str, stem: &str, lent: &mut Lent, report: &mut Report) -> Outcome {
    lent.set(word.as_bytes());
    let expected = match word.len() {
        ..=LIMIT => Ok(stem),
        _ => Err(&Refusal::OverLimit),
    };
    let call = format_args!("the binding's stem, and in Rust's place {by}");
    report.same(lent, call, fannavy::stem(word).as_deref(), expected)?;
    report.done(lent)
}
