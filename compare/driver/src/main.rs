//! Compares the reader with the Rust that it rewrites. See compare/README.md.
mod bench;
mod books;
mod case;
mod comparison;
mod fixed;
mod list;
mod random;
mod reader;
mod self_test;
mod shrink;
mod small;
mod texts;
mod vectors;
mod worker;

use case::{of_hexadecimal, Case, Sides};
use worker::Worker;

const USAGE: &str = "all SEED CASES        compares fixed cases and so many random ones, and as many of books with binders
binders SEED CASES     compares those of books with binders alone
case BOOK TEXT [START] compares one case; the book in hexadecimal
vectors FILE..         compares the books and texts of files of vectors
rust-vectors FILE..    compares the Rust alone with the answers of files of vectors
list SEED FILE         writes the fixed list with the Rust's answers
bench SEED             times both sides on rules of the example book";

fn main() {
    let words: Vec<String> = std::env::args().skip(1).collect();
    let words: Vec<&str> = words.iter().map(String::as_str).collect();
    match words[..] {
        ["worker"] => worker::work(),
        ["all", seed, cases] => all(seed.parse().expect("a number"), cases.parse().expect("a number")),
        ["binders", seed, cases] => binders(seed.parse().expect("a number"), cases.parse().expect("a number")),
        ["list", seed, path] => list::write(&mut Sides::new(), seed.parse().expect("a number"), path),
        ["vectors", ref files @ ..] => vectors(files),
        ["rust-vectors", ref files @ ..] => rust_vectors(files),
        ["bench", seed] => bench::run(seed.parse().expect("a number")),
        ["case", book, text] => one(book, text, 0),
        ["case", book, text, start] => one(book, text, start.parse().expect("a number")),
        _ => {
            eprintln!("{USAGE}");
            std::process::exit(2);
        }
    }
}

fn all(seed: u64, cases: u64) {
    let mut sides = Sides::new();
    self_test::run(&mut sides);
    finish(comparison::whole(&mut sides, seed, cases));
}

fn binders(seed: u64, cases: u64) {
    let mut counts = comparison::Counts::default();
    comparison::binders(&mut Sides::new(), seed, cases, &mut counts);
    finish(counts);
}

/// Of each vector its call alone.
fn vectors(files: &[&str]) {
    let mut counts = comparison::Counts::default();
    for file in files {
        let cases = vectors::of(file).into_iter().map(|vector| vector.case);
        comparison::compare(&mut Sides::new(), cases, &mut counts);
    }
    finish(counts);
}

fn rust_vectors(files: &[&str]) {
    let mut counts = comparison::Counts::default();
    for file in files {
        comparison::compare_with_vectors(&mut Worker::default(), &vectors::of(file), &mut counts);
    }
    finish(counts);
}

fn finish(counts: comparison::Counts) {
    counts.print();
    if counts.differ() {
        std::process::exit(1);
    }
}

fn one(book: &str, text: &str, start: u32) {
    let case = Case { book: of_hexadecimal(book), text: text.into(), start, allowance: reader::MOST_WORK };
    println!("{:#?}", Sides::new().judge(&case));
}
