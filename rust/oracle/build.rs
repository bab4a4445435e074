// Nests the crate's files, unchanged, into one generated file, with the shim after the last of them.
// FANNAVY_ORACLE_SOURCE names the crate's folder; a relative one is taken from this package's folder.

use std::env;
use std::fs;
use std::path::{Path, PathBuf};

const VARIABLE: &str = "FANNAVY_ORACLE_SOURCE";
const DEFAULT: &str = "../../../shared/docs/src";
const SHIM: &str = "shim.rs";

fn main() {
    println!("cargo::rerun-if-env-changed={}", VARIABLE);
    let source = PathBuf::from(env::var_os(VARIABLE).unwrap_or(DEFAULT.into()));
    let out = PathBuf::from(env::var_os("OUT_DIR").expect("cargo sets OUT_DIR"));
    match nest(&source.join("src/snowball")) {
        Ok(text) => fs::write(out.join("snowball.rs"), text).expect("OUT_DIR can be written"),
        Err(message) => println!(
            "cargo::error={}; set {} to the folder of rust-stemmers 1.2.0",
            message, VARIABLE
        ),
    }
}

// The modules under the names by which the files ask for each other. Warnings about the files'
// style, of this compiler or a later one, are silenced here, so that no file needs a change.
fn nest(snowball: &Path) -> Result<String, String> {
    Ok(format!(
        "#[allow(warnings, clippy::all)]
mod snowball {{
pub use self::among::Among;
pub use self::snowball_env::SnowballEnv;
pub mod among {{
{}
}}
pub mod snowball_env {{
{}
}}
pub mod algorithms {{
pub mod turkish {{
{}
{}
}}
}}
}}
",
        read(&snowball.join("among.rs"))?,
        read(&snowball.join("snowball_env.rs"))?,
        read(&snowball.join("algorithms/turkish.rs"))?,
        read(Path::new(SHIM))?
    ))
}

// A file's text; the build is run again when it changes.
fn read(path: &Path) -> Result<String, String> {
    println!("cargo::rerun-if-changed={}", path.display());
    fs::read_to_string(path).map_err(|error| format!("{}: {}", path.display(), error))
}
