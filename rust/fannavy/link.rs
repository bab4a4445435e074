// Links an archive that `libexec/build` wrote, for the build scripts of this package and of compare.
// FANNAVY_STATICLIB names the archives' folder, a relative one from where cargo was called; without it,
// it is target/staticlib of the repository.

use std::os::unix::process::parent_id;
use std::path::{Path, PathBuf};
use std::{env, fs};

const VARIABLE: &str = "FANNAVY_STATICLIB";

/// Links one archive, and again whenever it is another.
pub fn archive(name: &str) {
    let file = format!("lib{name}.a");
    let folders = folders();
    match folders.iter().find(|folder| folder.join(&file).is_file()) {
        Some(folder) => link(name, folder, &file),
        None => println!("cargo::error={}", missing(name, &folders, &file)),
    }
}

fn link(name: &str, folder: &Path, file: &str) {
    println!("cargo::rerun-if-changed={}", folder.join(file).display());
    println!("cargo::rustc-link-search=native={}", folder.display());
    println!("cargo::rustc-link-lib=static={name}");
}

// Where the archive was looked for, and what to do.
fn missing(name: &str, folders: &[PathBuf], file: &str) -> String {
    let folders: Vec<_> = folders.iter().map(|f| f.display().to_string()).collect();
    let folders = folders.join(", nor in ");
    format!(
        "no {file} in {folders}: `libexec/build {name}` writes it to target/staticlib of Fannavy's \
         repository; set {VARIABLE} to the folder that has it"
    )
}

// Where the archives may be, first to last.
fn folders() -> Vec<PathBuf> {
    println!("cargo::rerun-if-env-changed={VARIABLE}");
    match env::var_os(VARIABLE).map(PathBuf::from) {
        Some(folder) if folder.is_absolute() => vec![folder],
        Some(folder) if folder != Path::new("") => {
            callers().map(|from| from.join(&folder)).collect()
        }
        _ => vec![package().join("../../target/staticlib")],
    }
}

// The package's folder as cargo tells it now: a copied folder is another one.
fn package() -> PathBuf {
    PathBuf::from(env::var_os("CARGO_MANIFEST_DIR").expect("cargo sets it"))
}

// Where cargo may have been called. It does not tell a build script, which runs in the package's folder; but
// cargo itself, this process's parent, stays where it was called. Where that cannot be seen, the package's
// folder is tried. PWD changes where the caller goes elsewhere, and then this is to be found anew.
fn callers() -> impl Iterator<Item = PathBuf> {
    println!("cargo::rerun-if-env-changed=PWD");
    let cargo = fs::read_link(format!("/proc/{}/cwd", parent_id()));
    cargo.into_iter().chain([package()])
}
