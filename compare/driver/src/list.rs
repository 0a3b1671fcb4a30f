//! The fixed list: cases with the Rust's answers, for a program that has no Rust. compare/README.md has the file's form.
use crate::case::{hexadecimal, Case, Sides, Verdict};
use crate::comparison::{binder_case, random_case};
use crate::fixed;
use oracle::answer::{put_numbers, Answer};
use std::collections::BTreeMap;

/// How many random cases of each refusal the list has; and how many more with a starting name in the text that is reserved.
const WANTED: [(u32, usize); 4] = [(0, 300), (30, 180), (31, 120), (32, 60)];
const WITH_RESERVED_NAMES: [(u32, usize); 4] = [(0, 60), (30, 40), (31, 40), (32, 20)];

/// How many of books with binders; and how many more with a declared variable in a parse.
const WITH_BINDERS: [(u32, usize); 4] = [(0, 60), (30, 100), (31, 40), (32, 20)];
const WITH_DECLARED: [(u32, usize); 4] = [(0, 120), (30, 0), (31, 40), (32, 30)];

/// Of the random cases, those with at most this many bytes of text and of value, so that the file stays small; "long" ones are few.
const SHORT: usize = 400;
const LONG: usize = 20;

pub fn write(sides: &mut Sides, seed: u64, path: &str) {
    let mut bytes = Vec::new();
    let mut written = 0;
    let rows = fixed::rows().into_iter().map(|row| row.case);
    let mut cases: Vec<Case> = rows.collect();
    add(&mut cases, sides, |number| random_case(seed, number), WANTED, |_, _| true);
    add(&mut cases, sides, |number| random_case(seed, number), WITH_RESERVED_NAMES, |case, _| case.has_reserved_name());
    add(&mut cases, sides, |number| binder_case(seed, number), WITH_BINDERS, |case, _| case.has_binder());
    add(&mut cases, sides, |number| binder_case(seed, number), WITH_DECLARED, |_, answer| answer.declared_depths().next().is_some());
    for case in cases {
        if let Some(answer) = equal(sides, &case) {
            put(&mut bytes, &case, &answer, &sides.reader.parses());
            written += 1;
        }
    }
    std::fs::write(path, &bytes).expect("the list is written");
    println!("{written} cases, {} bytes", bytes.len());
}

/// Adds the first random cases that fit and aren't there with each refusal, as many as are wanted.
fn add(
    cases: &mut Vec<Case>,
    sides: &mut Sides,
    random_case: impl Fn(u64) -> Case,
    wanted: [(u32, usize); 4],
    fits: impl Fn(&Case, &Answer) -> bool,
) {
    let mut wanted = BTreeMap::from(wanted);
    let mut long = LONG;
    for case in (0..).map(random_case) {
        if wanted.values().all(|left| *left == 0) {
            break;
        }
        let Some(answer) = equal(sides, &case) else { continue };
        let left = wanted.get_mut(&answer.refusal).expect("a refusal of the Rust");
        let is_long = case.text.len().max(answer.value.len()) > SHORT;
        if *left == 0 || is_dull(&answer) || (is_long && long == 0) || !fits(&case, &answer) || cases.contains(&case) {
            continue;
        }
        *left -= 1;
        long -= usize::from(is_long);
        cases.push(case);
    }
}

/// The Rust's answer, where it has one to compare.
fn equal(sides: &mut Sides, case: &Case) -> Option<Answer> {
    match sides.judge(case) {
        Verdict::Equal(answer) => Some(answer),
        Verdict::Different { .. } => panic!("no list while the sides differ: book {} text {:?}", hexadecimal(&case.book), case.text),
        _ => None,
    }
}

/// Most random texts fail where they begin; of those the list needs few.
fn is_dull(answer: &Answer) -> bool {
    answer.refusal == 30 && answer.place == 0
}

/// One record. The parses stand in the reader's order: the Rust's are a set, and equal to them.
fn put(bytes: &mut Vec<u8>, case: &Case, answer: &Answer, parses: &[[u32; 3]]) {
    let line = if answer.refusal == 0 { format!("value {}\n", answer.value) } else { String::new() };
    put_numbers(bytes, &[case.book.len(), case.text.len(), line.len()].map(|n| n as u32));
    put_numbers(bytes, &[case.start, answer.refusal, answer.place, parses.len() as u32]);
    bytes.extend(&case.book);
    bytes.extend(&case.text);
    bytes.extend(line.bytes());
    put_numbers(bytes, parses.as_flattened());
}
