//! Finds the static library and links it.

use std::path::{Path, PathBuf};
use std::{env, fs, process};

const VARIABLE: &str = "MIDGEBILLON_LIB_DIR";
const ARCHIVE: &str = "libmidgebillon.a";

// Where tools/library.py writes it, from this folder; the proved one first.
const WRITTEN: [&str; 2] = ["../target/proved/lib", "../target/quick/lib"];

// A library that was compiled without its proofs has this symbol; the code asks for it by a cfg of its name.
const NOT_PROVED: &str = "midgebillon_not_proved";

const NO_LIBRARY: &str = "In the repository's folder,
    python3 tools/library.py            # proves the library and writes it: minutes
    python3 tools/library.py --quick    # the same code, not proved: seconds
or name a folder that has libmidgebillon.a in MIDGEBILLON_LIB_DIR.";

fn main() {
    println!("cargo:rerun-if-env-changed={VARIABLE}");
    let candidates = candidates();
    let Some((folder, archive)) = candidates.iter().find_map(|folder| found(folder)) else {
        eprintln!("there is no {ARCHIVE} in {candidates:?}. {NO_LIBRARY}");
        process::exit(1);
    };
    println!("cargo:rustc-link-search=native={}", folder.display());
    println!("cargo:rustc-env=MIDGEBILLON_LINKED={}", folder.display());
    println!("cargo:rustc-link-lib=static=midgebillon");
    println!("cargo:rustc-check-cfg=cfg({NOT_PROVED})");
    if has(&archive, NOT_PROVED) {
        println!("cargo:rustc-cfg={NOT_PROVED}");
        println!("cargo:warning=the library in {} is not proved", folder.display());
    }
}

fn candidates() -> Vec<PathBuf> {
    match env::var_os(VARIABLE) {
        Some(folder) => vec![folder.into()],
        None => WRITTEN.map(PathBuf::from).into(),
    }
}

// The folder in full, and the library in it. A file that is missing is watched too, so that a proved library that is
// written later takes the place of a quick one.
fn found(folder: &Path) -> Option<(PathBuf, Vec<u8>)> {
    let archive = folder.join(ARCHIVE);
    println!("cargo:rerun-if-changed={}", archive.display());
    let content = fs::read(&archive).ok()?;
    Some((in_full(folder), content))
}

// Whether a library has a symbol. Its symbols' names stand in it, each with a zero byte behind.
fn has(archive: &[u8], symbol: &str) -> bool {
    let name = [symbol.as_bytes(), b"\0"].concat();
    archive.windows(name.len()).any(|part| part == name)
}

// For the linker, which runs in another folder.
fn in_full(folder: &Path) -> PathBuf {
    folder.canonicalize().unwrap_or_else(|_| folder.to_path_buf())
}
