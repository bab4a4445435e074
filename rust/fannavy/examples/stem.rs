//! Prints each word that it is given with its stem. A word that is refused is told on standard error, and
//! the status is then 1.
//!
//! cargo run --example stem -- kitabımızdan EVLERDİR

use fannavy::{folded, stem, Refusal, Stem};
use std::env;
use std::ffi::OsStr;
use std::process::ExitCode;

fn main() -> ExitCode {
    let mut status = ExitCode::SUCCESS;
    for word in env::args_os().skip(1) {
        match stem_of(&word) {
            Ok(stem) => println!("{}\t{stem}", word.display()),
            Err(refusal) => {
                eprintln!("{}: {refusal}", word.display());
                status = ExitCode::FAILURE;
            }
        }
    }
    status
}

// Capitals are folded first: to the stages they are no letters.
fn stem_of(word: &OsStr) -> Result<Stem, Refusal> {
    let word = word.to_str().ok_or(Refusal::NotUtf8)?;
    stem(&folded(word)?)
}
