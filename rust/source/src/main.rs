//! `source`: holds Source.antt to turkish.rs and prints a line for each kind of declaration. Exit
//! status 0 where there is no difference, 1 where there is one, 2 for arguments it cannot follow.

use shared::command::command;
use shared::places;
use source::held::paragraphs;
use source::kinds::kinds;
use source::precedence;
use std::fs;
use std::path::Path;
use std::process::ExitCode;

const USAGE: &str = "\
usage: source

Writes what Snowball's compiler makes of each grouping, table and routine of Source.antt, and names
the first line that turkish.rs has otherwise. The variable FANNAVY_ORACLE_SOURCE names the folder of
rust-stemmers 1.2.0 (default: ../shared/docs/src beside the repository's folder).
";

fn main() -> ExitCode {
    command("source", USAGE, parse, |_| run())
}

// Nothing is asked for but help; the error is a message.
fn parse(arguments: &mut dyn Iterator<Item = String>) -> Result<Option<()>, String> {
    match arguments.next().as_deref() {
        None => Ok(Some(())),
        Some("--help") => Ok(None),
        Some(other) => Err(format!("no argument '{other}'; source --help says more")),
    }
}

fn run() -> Result<(), String> {
    let source = read(&places::transcription())?;
    let rust = read(&places::oracle_source().join("src/snowball/algorithms/turkish.rs"))?;
    let rust = paragraphs(&rust);
    precedence::hold(&read(&places::commands())?)?;
    let kinds = kinds(&source)?;
    let mut differing = 0;
    for kind in &kinds {
        match kind.held(&rust) {
            Ok(counts) => println!("source: {counts}, no difference"),
            Err(difference) => {
                println!("source: DIFFERENCE in {}\n{difference}", kind.name());
                differing += 1;
            }
        }
    }
    match differing {
        0 => Ok(()),
        _ => Err(format!(
            "{differing} of {} kinds with a difference",
            kinds.len()
        )),
    }
}

fn read(path: &Path) -> Result<String, String> {
    fs::read_to_string(path).map_err(|error| format!("{}: {error}", path.display()))
}
