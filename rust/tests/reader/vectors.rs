//! The repository's vectors: inputs with their answers and lines.

use crate::held::held;
use crate::inputs::bytes;
use std::fs;

// The rest of a line of vectors behind a field's name. A vector is one object, whose fields are read as they are
// written: strings without escapes, numbers, and lists of numbers.
fn field<'a>(vector: &'a str, name: &str) -> Option<&'a str> {
    let start = format!("\"{name}\": ");
    vector.find(&start).map(|at| &vector[at + start.len()..])
}

fn string<'a>(vector: &'a str, name: &str) -> &'a str {
    let from = field(vector, name).and_then(|rest| rest.strip_prefix('"')).unwrap();
    &from[..from.find('"').unwrap()]
}

fn number(vector: &str, name: &str) -> u32 {
    let from = field(vector, name).unwrap();
    from[..from.find([',', '}']).unwrap()].parse().unwrap()
}

fn list(vector: &str, name: &str) -> Vec<u32> {
    let from = field(vector, name).and_then(|rest| rest.strip_prefix('[')).unwrap();
    from[..from.find(']').unwrap()].split(", ").map(|number| number.parse().unwrap()).collect()
}

// Replays a vector; whether its line was short enough to be compared. Lists of other lengths are never lent here.
fn replay(vector: &str) -> bool {
    if field(vector, "cells_len").or(field(vector, "parses_len")).is_some() {
        return false;
    }
    let (book, text) = (bytes(string(vector, "book")), bytes(string(vector, "text")));
    let reading = held(&book, &text, number(vector, "start"), number(vector, "allowance"));
    assert_eq!(reading.answer().to_vec(), list(vector, "answer"), "{vector}");
    let line = reading.line(1 << 20).unwrap();
    let printed = format!("{}\n", string(vector, "printed"));
    assert_eq!(line, Some(printed.into_bytes()), "{vector}");
    true
}

#[test]
fn vectors() {
    let mut replayed = 0;
    for file in fs::read_dir("../vectors").unwrap() {
        let vectors = fs::read_to_string(file.unwrap().path()).unwrap();
        replayed += vectors.lines().filter(|vector| replay(vector)).count();
    }
    // so many that reading no file can't pass
    assert!(replayed > 800, "{replayed}");
}
