//! Compiles the reader into a static library, by tools/reader.py, and links it.
use std::process::Command;
use std::{env, fs};

fn main() {
    let root = fs::canonicalize("../..").unwrap();
    let out = env::var("OUT_DIR").unwrap();
    let done = Command::new("python3").arg(root.join("tools/reader.py")).arg("--library").arg(&out).status();
    assert!(done.expect("python3 runs").success(), "tools/reader.py compiles the reader");
    println!("cargo:rustc-link-search=native={out}");
    println!("cargo:rustc-link-lib=static=midgebillon");
    for part in ["crates", "crates.txt", "tools/reader.py"] {
        println!("cargo:rerun-if-changed={}", root.join(part).display());
    }
}
