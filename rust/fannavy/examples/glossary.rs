//! Tells of each term of a glossary whether it occurs in a text, whichever endings it wears there. The
//! status is 1 where one is missing, and 2 where a word is refused.
//!
//! cargo run --example glossary -- 'Elektrik motorunun kapağını açın.' 'elektrik motoru' kapak vida

use fannavy::{folded, stem, Refusal, Stem};
use std::env;
use std::process::ExitCode;

fn main() -> ExitCode {
    let mut arguments = env::args().skip(1);
    let Some(text) = arguments.next() else {
        eprintln!("usage: glossary TEXT TERM..");
        return ExitCode::from(2);
    };
    match missing(&text, arguments) {
        Ok(0) => ExitCode::SUCCESS,
        Ok(_) => ExitCode::FAILURE,
        Err(refusal) => {
            eprintln!("glossary: {refusal}");
            ExitCode::from(2)
        }
    }
}

// Prints a line for each term, and gives how many of them the text lacks.
fn missing(text: &str, terms: impl Iterator<Item = String>) -> Result<usize, Refusal> {
    let text = stems(text)?;
    let mut missing = 0;
    for term in terms {
        if occurs(&stems(&term)?, &text) {
            println!("found\t{term}");
        } else {
            println!("missing\t{term}");
            missing += 1;
        }
    }
    Ok(missing)
}

// The stems of a text's words. What is no letter parts words, so an apostrophe parts a name from its endings.
fn stems(text: &str) -> Result<Vec<Stem>, Refusal> {
    text.split(|ch: char| !ch.is_alphabetic())
        .filter(|word| !word.is_empty())
        .map(|word| stem(&folded(word)?))
        .collect()
}

// Whether a term's stems stand side by side in the text. An empty stem says nothing, so it occurs nowhere.
fn occurs(term: &[Stem], text: &[Stem]) -> bool {
    let told = !term.is_empty() && term.iter().all(|stem| !stem.is_empty());
    told && text.windows(term.len()).any(|words| words == term)
}
