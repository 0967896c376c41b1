//! Links the static archive that JUGFJORD_ARCHIVE names.

use std::env;
use std::path::PathBuf;

const VARIABLE: &str = "JUGFJORD_ARCHIVE";

fn main() {
    println!("cargo:rerun-if-env-changed={VARIABLE}");
    if env::var_os("CARGO_FEATURE_LIBRARY").is_some() {
        match archive() {
            Ok(path) => link(path),
            Err(reason) => stop(&reason),
        }
    }
}

/// The archive's full path, or what is wrong with the variable.
fn archive() -> Result<PathBuf, String> {
    let value = env::var_os(VARIABLE).ok_or(format!("{VARIABLE} is not set"))?;
    let path = PathBuf::from(value);
    let full = path
        .canonicalize()
        .map_err(|error| format!("{VARIABLE} is {}: {error}", path.display()))?;
    if full.is_file() {
        Ok(full)
    } else {
        Err(format!("{VARIABLE} is {}: not a file", path.display()))
    }
}

fn link(path: PathBuf) {
    let directory = path.parent().expect("a file has a directory");
    let name = path.file_name().expect("a file has a name");
    println!("cargo:rerun-if-changed={}", path.display());
    println!("cargo:rustc-link-search=native={}", directory.display());
    println!(
        "cargo:rustc-link-lib=static:+verbatim={}",
        name.to_string_lossy()
    );
}

fn stop(reason: &str) {
    eprintln!("{reason}.");
    eprintln!("Set it to the path of target/staticlib/libjugfjord.a, which ./install and ./test build,");
    eprintln!("or leave the library out with --no-default-features.");
    std::process::exit(1);
}
