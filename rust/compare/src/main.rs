//! `compare`: runs the parts of the comparison and prints a line for each. Exit status 0 where no
//! part found a difference, 1 where one did, 2 for arguments it cannot follow.

use compare::arguments::{self, Command, Settings, USAGE};
use compare::parts::{Part, Run, PARTS};
use compare::report::Report;
use compare::words::Words;
use shared::command;
use std::path::Path;
use std::process::ExitCode;

fn main() -> ExitCode {
    match arguments::parse(command::arguments()) {
        Ok(Command::Help) => {
            help();
            ExitCode::SUCCESS
        }
        Ok(Command::Run(settings)) => run(settings),
        Err(message) => refuse(&message),
    }
}

fn refuse(message: &str) -> ExitCode {
    eprintln!("compare: {message}");
    eprintln!("compare --help says what may be asked");
    ExitCode::from(2)
}

fn help() {
    print!("{USAGE}");
    println!("\nParts, all of them where none is named:");
    for part in PARTS {
        println!("  {:<12}{}", part.name, part.what);
    }
}

fn run(settings: Settings) -> ExitCode {
    let program = settings.program.as_path();
    let needed = |part: &&Part| matches!(part.run, Run::Program(_));
    if settings.parts.iter().any(needed) && !program.is_file() {
        let path = program.display();
        return refuse(&format!("no program {path}: `libexec/build stemlist` builds it"));
    }
    let words = match Words::new(settings.vocabulary.as_deref(), settings.sizes) {
        Ok(words) => words,
        Err(message) => return refuse(&message),
    };
    let mut comparisons = 0;
    let mut differing = 0;
    for part in &settings.parts {
        let (count, same) = run_part(part, &words, program);
        comparisons += count;
        differing += usize::from(!same);
    }
    let parts = settings.parts.len();
    if differing > 0 {
        println!(
            "compare: {parts} parts, {comparisons} comparisons, {differing} with a difference"
        );
        return ExitCode::FAILURE;
    }
    println!("compare: {parts} parts, {comparisons} comparisons, no difference");
    ExitCode::SUCCESS
}

// Runs and prints one part: its comparisons, and whether the sides agreed.
fn run_part(part: &Part, words: &Words, program: &Path) -> (u64, bool) {
    let mut report = Report::new(part.name);
    let outcome = match part.run {
        Run::Words(run) => run(words, &mut report),
        Run::Program(run) => run(words, program, &mut report),
    };
    let count = report.comparisons();
    drop(report);
    match outcome {
        Ok(()) => println!("{}: {count} comparisons, no difference", part.name),
        Err(ref difference) => {
            println!("{}: DIFFERENCE after {count} comparisons", part.name);
            println!("{difference}");
        }
    }
    (count, outcome.is_ok())
}
