// Links libstemmer.a. FANNAVY_LIBSTEMMER names its folder; without it, it is where Debian's package
// libstemmer-dev puts it on x86-64.

use std::env;
use std::path::PathBuf;

const VARIABLE: &str = "FANNAVY_LIBSTEMMER";
const DEBIAN: &str = "/usr/lib/x86_64-linux-gnu";

fn main() {
    println!("cargo::rerun-if-env-changed={VARIABLE}");
    let folder = PathBuf::from(env::var_os(VARIABLE).unwrap_or(DEBIAN.into()));
    let archive = folder.join("libstemmer.a");
    println!("cargo::rerun-if-changed={}", archive.display());
    println!("cargo::rustc-link-search=native={}", folder.display());
    println!("cargo::rustc-link-lib=static=stemmer");
    if !archive.is_file() {
        let path = archive.display();
        println!("cargo::error=no {path}: install libstemmer-dev, or build without its feature");
    }
}
