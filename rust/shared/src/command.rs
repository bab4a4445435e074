//! The frame of a command line: help and exit statuses.

use std::env;
use std::process::ExitCode;

/// Reads the arguments and runs: status 0 where it went well or help was asked for, 1 where the run
/// fails, 2 for arguments that it cannot follow. Both errors are messages.
pub fn command<S>(
    name: &str,
    usage: &str,
    parse: impl FnOnce(&mut dyn Iterator<Item = String>) -> Result<Option<S>, String>,
    run: impl FnOnce(&S) -> Result<(), String>,
) -> ExitCode {
    let refuse = |message: &str, status: u8| {
        eprintln!("{name}: {message}");
        ExitCode::from(status)
    };
    match parse(&mut arguments()) {
        Ok(Some(settings)) => match run(&settings) {
            Ok(()) => ExitCode::SUCCESS,
            Err(message) => refuse(&message, 1),
        },
        Ok(None) => {
            print!("{usage}");
            ExitCode::SUCCESS
        }
        Err(message) => refuse(&message, 2),
    }
}

/// The arguments after the program's name.
pub fn arguments() -> impl Iterator<Item = String> {
    let arguments = env::args_os().skip(1);
    arguments.map(|argument| argument.to_string_lossy().into_owned())
}
