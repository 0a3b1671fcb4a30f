//! Lays the Rust's sources, unchanged, and the stand-ins for modules that are not among them into one folder, from which lib.rs takes them.
//!
//! The sources' folder is FORMALITY_SOURCES, or docs/src in the folder `shared` beside the repository. Each is checked against SHA256SUMS, which is of
//! commit cd4bf84584.
use std::path::{Path, PathBuf};
use std::process::Command;
use std::{env, fs};

const WITHIN: &str = "crates/formality-core/src";

fn main() {
    let here = PathBuf::from(env::var("CARGO_MANIFEST_DIR").unwrap());
    let sums = here.join("../SHA256SUMS");
    let sources = env::var("FORMALITY_SOURCES").map(PathBuf::from).unwrap_or_else(|_| here.join("../../../shared/docs/src"));
    let laid = PathBuf::from(env::var("OUT_DIR").unwrap()).join("src");
    println!("cargo:rerun-if-env-changed=FORMALITY_SOURCES");
    println!("cargo:rerun-if-changed={}", sums.display());

    check(&sources, &sums);
    for name in listed(&sums) {
        copy(&sources.join(&name), &laid.join(Path::new(&name).strip_prefix(WITHIN).unwrap()));
    }
    for name in ["modules.rs", "fold.rs", "term.rs", "visit.rs", "variable/cast_impls.rs", "variable/debug_impls.rs"] {
        copy(&here.join("src").join(name), &laid.join(name));
    }
}

fn check(sources: &Path, sums: &Path) {
    assert!(sources.is_dir(), "no folder {}: FORMALITY_SOURCES names that of the Rust's sources", sources.display());
    let checked = Command::new("sha256sum").arg("--check").arg("--quiet").arg(fs::canonicalize(sums).unwrap()).current_dir(sources).status();
    assert!(checked.expect("sha256sum runs").success(), "{} are not the sources of cd4bf84584", sources.display());
}

/// The names in a list of checksums.
fn listed(sums: &Path) -> Vec<String> {
    fs::read_to_string(sums).unwrap().lines().map(|line| line.split_whitespace().nth(1).unwrap().to_string()).collect()
}

fn copy(from: &Path, to: &Path) {
    println!("cargo:rerun-if-changed={}", from.display());
    fs::create_dir_all(to.parent().unwrap()).unwrap();
    fs::copy(from, to).unwrap_or_else(|error| panic!("{}: {error}", from.display()));
}
