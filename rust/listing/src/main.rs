//! `listing`: writes the repository's own list, which the gate replays with no Rust at hand: words,
//! one to a line, and the listing of them by the answers of the Rust.

use listing::{list, sample};
use shared::command::command;
use shared::places;
use std::fs;
use std::path::PathBuf;
use std::process::ExitCode;

const USAGE: &str = "\
usage: listing --words FILE --listing FILE [--vocabulary PATH]

Writes a sample of words, one to a line, and the lines that the program stemlist has to print for
them. The last word's line is not closed by LF.
  --vocabulary PATH  one word to a line (default: the variable FANNAVY_VOCABULARY, or
                     /usr/share/snowball/data/turkish/voc.txt of Debian's snowball-data)
";

struct Settings {
    words: PathBuf,
    listing: PathBuf,
    vocabulary: PathBuf,
}

fn main() -> ExitCode {
    command("listing", USAGE, parse, run)
}

// The settings, or nothing where help was asked for; the error is a message.
fn parse(arguments: &mut dyn Iterator<Item = String>) -> Result<Option<Settings>, String> {
    let mut words = None;
    let mut listing = None;
    let mut vocabulary = places::vocabulary();
    while let Some(argument) = arguments.next() {
        let mut value = || arguments.next().ok_or(format!("{argument} needs a value"));
        match argument.as_str() {
            "--help" => return Ok(None),
            "--words" => words = Some(value()?),
            "--listing" => listing = Some(value()?),
            "--vocabulary" => vocabulary = value()?.into(),
            other => return Err(format!("no option '{other}'; listing --help lists them")),
        }
    }
    Ok(Some(Settings {
        words: words.ok_or("--words is missing")?.into(),
        listing: listing.ok_or("--listing is missing")?.into(),
        vocabulary,
    }))
}

// Writes both files; the error is a message about one of them.
fn run(settings: &Settings) -> Result<(), String> {
    let said = |path: &PathBuf, error| format!("{}: {error}", path.display());
    let vocabulary = fs::read_to_string(&settings.vocabulary)
        .map_err(|error| said(&settings.vocabulary, error))?;
    let vocabulary: Vec<&str> = vocabulary.lines().collect();
    let words = sample::words(&vocabulary);
    let words = words.join(&b'\n');
    let mut listing = Vec::new();
    list(words.as_slice(), &mut listing).map_err(|error| said(&settings.listing, error))?;
    fs::write(&settings.words, words).map_err(|error| said(&settings.words, error))?;
    fs::write(&settings.listing, listing).map_err(|error| said(&settings.listing, error))
}
