//! Where files are looked for when no argument names them.

use std::env;
use std::path::PathBuf;

/// The vocabulary: the variable FANNAVY_VOCABULARY, or where Debian's package snowball-data puts it.
pub fn vocabulary() -> PathBuf {
    let debian = "/usr/share/snowball/data/turkish/voc.txt";
    named("FANNAVY_VOCABULARY", debian)
}

/// The program stemlist: the variable FANNAVY_STEMLIST, or where `libexec/build` puts it.
pub fn stemlist() -> PathBuf {
    let linked = concat!(env!("CARGO_MANIFEST_DIR"), "/../../target/bin/stemlist");
    named("FANNAVY_STEMLIST", linked)
}

/// The folder of rust-stemmers 1.2.0: the variable FANNAVY_ORACLE_SOURCE, or where .ci/run looks.
pub fn oracle_source() -> PathBuf {
    let beside = concat!(env!("CARGO_MANIFEST_DIR"), "/../../../shared/docs/src");
    named("FANNAVY_ORACLE_SOURCE", beside)
}

/// The definition's transcription of turkish.sbl.
pub fn transcription() -> PathBuf {
    definition("Source.antt")
}

/// The definition's meaning of Snowball's commands.
pub fn commands() -> PathBuf {
    definition("Snowball.antt")
}

fn definition(name: &str) -> PathBuf {
    let specs = concat!(env!("CARGO_MANIFEST_DIR"), "/../../crates/turkish/specs");
    PathBuf::from(specs).join(name)
}

fn named(variable: &str, otherwise: &str) -> PathBuf {
    env::var_os(variable).unwrap_or(otherwise.into()).into()
}
