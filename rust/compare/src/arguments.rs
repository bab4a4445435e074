//! The command line of `compare`.

use crate::parts::{Part, PARTS};
use crate::words::Sizes;
use shared::places;
use std::path::PathBuf;

pub const USAGE: &str = "\
usage: compare [OPTION...] [PART...]

Feeds the proved archives and the Rust the same words, and names the first word on which they
differ, with both answers.

  --seed N           where the random words start (default 1)
  --letters N        every word of up to N characters over the stages' letters (default 4)
  --piles N          N piles of three endings, besides every pile of one and of two; for the stages
                     also N piles of four, and N of 15 to 18 characters; of noun endings N piles of
                     three or four, N chains before ki, and N piles below the endings of a nominal
                     verb (default 300000)
  --random N         N random words of each kind: text, headings, bytes, damaged words; a sixth as
                     many of every length up to a byte past the limit in turn; and an eighth as many
                     batches of up to 64 words, and damaged ones (default 300000)
  --long             these sizes for a run of over 100 million words for each of the stages; name the
                     parts from syllable on, since the others take much longer
  --vocabulary PATH  one word to a line (default: the variable FANNAVY_VOCABULARY, or
                     /usr/share/snowball/data/turkish/voc.txt of Debian's snowball-data); output.txt
                     beside it, where it is there, has Snowball's stems of these words
  --no-vocabulary    leave the vocabulary out
  --program PATH     the program stemlist (default: the variable FANNAVY_STEMLIST, or
                     target/bin/stemlist of the repository)
  --help             this text
";

/// What was asked for.
pub enum Command {
    Help,
    Run(Settings),
}

/// A run of the comparison.
pub struct Settings {
    pub sizes: Sizes,
    pub vocabulary: Option<PathBuf>,
    pub program: PathBuf,
    pub parts: Vec<&'static Part>,
}

/// Reads the arguments; the error is a message for the caller.
pub fn parse(arguments: impl Iterator<Item = String>) -> Result<Command, String> {
    let mut arguments = arguments;
    let mut settings = Settings {
        sizes: Sizes::default(),
        vocabulary: Some(places::vocabulary()),
        program: places::stemlist(),
        parts: Vec::new(),
    };
    while let Some(argument) = arguments.next() {
        let mut value = || arguments.next().ok_or(format!("{argument} needs a value"));
        match argument.as_str() {
            "--help" => return Ok(Command::Help),
            "--seed" => settings.sizes.seed = number(&argument, &value()?)?,
            "--letters" => settings.sizes.letters = number(&argument, &value()?)?,
            "--piles" => settings.sizes.piles = number(&argument, &value()?)?,
            "--random" => settings.sizes.random = number(&argument, &value()?)?,
            "--long" => settings.sizes = Sizes::long(),
            "--vocabulary" => settings.vocabulary = Some(value()?.into()),
            "--no-vocabulary" => settings.vocabulary = None,
            "--program" => settings.program = value()?.into(),
            name => settings.parts.push(part(name)?),
        }
    }
    if settings.parts.is_empty() {
        settings.parts = PARTS.iter().collect();
    }
    Ok(Command::Run(settings))
}

fn number<N: std::str::FromStr>(option: &str, value: &str) -> Result<N, String> {
    value
        .parse()
        .map_err(|_| format!("{option} needs a number, not '{value}'"))
}

fn part(name: &str) -> Result<&'static Part, String> {
    PARTS
        .iter()
        .find(|part| part.name == name)
        .ok_or(format!("no option or part '{name}'"))
}
