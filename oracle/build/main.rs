//! Takes the published Rust from its folder, unchanged, and refuses a file whose sum is not the stored one.

mod sha256;

use std::path::{Path, PathBuf};
use std::{env, fs};

/// The folder that holds the published `src/`, named by its path or else beside this repository.
const SOURCE_VARIABLE: &str = "BQ40Z50_SRC";
const DEFAULT_SOURCE: &str = "../../shared/docs/src";

/// A `sha256sum` list of the files taken.
const SUMS: &str = "published.sha256";

fn main() {
    println!("cargo::rerun-if-env-changed={SOURCE_VARIABLE}");
    println!("cargo::rerun-if-changed={SUMS}");
    let root = PathBuf::from(variable("CARGO_MANIFEST_DIR"));
    let source = root.join(env::var(SOURCE_VARIABLE).unwrap_or_else(|_| DEFAULT_SOURCE.into()));
    let target = PathBuf::from(variable("OUT_DIR"));

    for line in read(&root.join(SUMS)).lines() {
        let (sum, name) = line.split_once("  ").expect("a line of the sums is a sum, two spaces and a name");
        take(&source.join(name), sum, &target.join(name));
    }
}

/// Copies `from` to `to` if its SHA-256 is `sum`, and ends the build if it is not.
fn take(from: &Path, sum: &str, to: &Path) {
    println!("cargo::rerun-if-changed={}", from.display());
    let text = read(from);
    let found = sha256::sha256_hex(text.as_bytes());
    assert_eq!(found, sum, "{} is not the published file", from.display());
    fs::create_dir_all(to.parent().expect("a file has a folder")).expect("the build's folder can be written");
    fs::write(to, text).expect("the build's folder can be written");
}

fn read(path: &Path) -> String {
    fs::read_to_string(path).unwrap_or_else(|error| {
        panic!(
            "{} can't be read ({error}); {SOURCE_VARIABLE} names the folder that holds src/",
            path.display()
        )
    })
}

fn variable(name: &str) -> String {
    env::var(name).expect("cargo sets its variables")
}
