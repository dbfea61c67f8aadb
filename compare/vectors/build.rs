//! Finds the crate's own messages.rs and gives main.rs its place, so that it
//! is compiled unchanged and in its place: it is not ours to copy.

use std::env;
use std::path::PathBuf;

const VARIABLE: &str = "GGRS_SRC";
const DEFAULT_FOLDER: &str = "../../../shared/docs/src";
const FILE: &str = "src--src--network--messages.rs.txt";

fn folder() -> PathBuf {
    let project = PathBuf::from(env::var_os("CARGO_MANIFEST_DIR").expect("cargo sets it"));
    // `join` leaves an absolute path as it is.
    project.join(env::var_os(VARIABLE).unwrap_or_else(|| DEFAULT_FOLDER.into()))
}

fn main() {
    println!("cargo::rerun-if-env-changed={VARIABLE}");
    let file = folder().join(FILE);
    println!("cargo::rerun-if-changed={}", file.display());
    match file.canonicalize() {
        Ok(found) => println!("cargo::rustc-env=GGRS_MESSAGES_RS={}", found.display()),
        Err(error) => println!(
            "cargo::error=cannot read {}: {error}; set the environment variable {VARIABLE} \
             to the folder that holds {FILE} of ggrs 0.13.0",
            file.display()
        ),
    }
}
