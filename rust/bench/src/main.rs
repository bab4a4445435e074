//! `bench`: times the proved archives and the Rust on the same words and prints a table in Markdown.

mod batch;
mod inputs;
mod measure;
mod pairs;
#[cfg(feature = "oracle")]
mod program;

use inputs::{beyond, chains, headings, inputs, Input};
use measure::{measure, Times};
use pairs::{Pair, CHECK, FOLD, NOUNS, PAIRS};
use shared::command::command;
use shared::places;
use std::path::PathBuf;
use std::process::ExitCode;

const USAGE: &str = "\
usage: bench [--vocabulary PATH] [--rounds N] [--program PATH]
       bench --list

Times each call on both sides, in turn, and prints the median of N rounds (default 31); the whole run
beside Snowball's own C; a batch beside a call for each of its words; and the program stemlist, where it
is there, beside an equal one in Rust.
  --vocabulary PATH  one word to a line (default: the variable FANNAVY_VOCABULARY, or
                     /usr/share/snowball/data/turkish/voc.txt of Debian's snowball-data)
  --program PATH     the program stemlist (default: the variable FANNAVY_STEMLIST, or
                     target/bin/stemlist of the repository)
  --list             be the program in Rust: list the words of standard input on standard output
";

struct Settings {
    vocabulary: PathBuf,
    rounds: usize,
    program: PathBuf,
    list: bool,
}

fn main() -> ExitCode {
    command("bench", USAGE, parse, run)
}

// The settings, or nothing where help was asked for; the error is a message.
fn parse(arguments: &mut dyn Iterator<Item = String>) -> Result<Option<Settings>, String> {
    let mut settings = Settings {
        vocabulary: places::vocabulary(),
        rounds: 31,
        program: places::stemlist(),
        list: false,
    };
    while let Some(argument) = arguments.next() {
        let mut value = || arguments.next().ok_or(format!("{argument} needs a value"));
        match argument.as_str() {
            "--help" => return Ok(None),
            "--vocabulary" => settings.vocabulary = value()?.into(),
            "--program" => settings.program = value()?.into(),
            "--list" => settings.list = true,
            "--rounds" => {
                let rounds = value()?.parse().ok().filter(|&rounds| rounds > 0);
                settings.rounds = rounds.ok_or("--rounds needs a number above 0")?;
            }
            other => return Err(format!("no option '{other}'; bench --help lists them")),
        }
    }
    Ok(Some(settings))
}

fn run(settings: &Settings) -> Result<(), String> {
    if settings.list {
        return list();
    }
    calls(settings)?;
    snowball(settings)?;
    let batches = batch::table(&settings.vocabulary, settings.rounds)?;
    println!("\n{batches}");
    programs(settings)
}

#[cfg(feature = "oracle")]
fn list() -> Result<(), String> {
    program::list().map_err(|error| error.to_string())
}

#[cfg(feature = "oracle")]
fn programs(settings: &Settings) -> Result<(), String> {
    if settings.program.is_file() {
        let table = program::table(&settings.program, &settings.vocabulary)?;
        println!("\n{table}");
    }
    Ok(())
}

#[cfg(not(feature = "oracle"))]
fn list() -> Result<(), String> {
    Err("--list needs the crate's stages, which this build is without".to_string())
}

#[cfg(not(feature = "oracle"))]
fn programs(_: &Settings) -> Result<(), String> {
    Ok(())
}

fn calls(settings: &Settings) -> Result<(), String> {
    let inputs = inputs(&settings.vocabulary)?;
    let headings = headings(&settings.vocabulary)?;
    let chains = chains();
    let rounds = settings.rounds;
    println!("Nanoseconds a word, median of {rounds} rounds. Fannavy takes bytes and checks them; the Rust takes text, or, from bytes,");
    println!("after `str::from_utf8`. Ratio: Fannavy's time over the Rust's; below 1, Fannavy is faster.\n");
    println!("| call | words | bytes a word | Fannavy | Rust | ratio | Rust from bytes | ratio |");
    println!("|---|---|--:|--:|--:|--:|--:|--:|");
    rows(&CHECK, &inputs, rounds)?;
    rows(&CHECK, &beyond(), rounds)?;
    for pair in PAIRS {
        rows(pair, &inputs, rounds)?;
    }
    for pair in NOUNS {
        rows(pair, &inputs, rounds)?;
        rows(pair, &chains, rounds)?;
    }
    rows(&FOLD, &headings, rounds)
}

#[cfg(feature = "libstemmer")]
fn snowball(settings: &Settings) -> Result<(), String> {
    println!("\nThe same beside Snowball's own C, libstemmer.\n");
    println!("| call | words | bytes a word | Fannavy | C | ratio | C from bytes | ratio |");
    println!("|---|---|--:|--:|--:|--:|--:|--:|");
    let inputs = inputs(&settings.vocabulary)?;
    rows(&pairs::SNOWBALL, &inputs, settings.rounds)?;
    rows(&pairs::SNOWBALL, &chains(), settings.rounds)
}

#[cfg(not(feature = "libstemmer"))]
fn snowball(_: &Settings) -> Result<(), String> {
    Ok(())
}

// Times and prints a call on each of these.
fn rows(pair: &Pair, inputs: &[Input], rounds: usize) -> Result<(), String> {
    for input in inputs {
        let times = measure(pair, input, rounds)?;
        println!("{}", row(pair, input, &times));
    }
    Ok(())
}

fn row(pair: &Pair, input: &Input, times: &Times) -> String {
    let bytes = input.bytes() as f64 / input.words.len() as f64;
    let beside = |rust: f64| format!("{rust:.1} | {:.2}", times.proved / rust);
    format!(
        "| {} | {} | {bytes:.1} | {:.1} | {} | {} |",
        pair.name,
        input.name,
        times.proved,
        beside(times.rust),
        times.from_bytes.map_or(" | ".to_string(), beside)
    )
}
