//! Random books and texts: nothing panics, and what holds of every reading holds.

use crate::held::held;
use crate::inputs::{Random, EXAMPLE};
use midgebillon::MOST_WORK;
use std::collections::BTreeSet;

// The refusals that some inputs meet; 0 is a value.
type Met = BTreeSet<u32>;

// Some of them are read with all the work there is, and most with little, which is quick.
fn meet(random: &mut Random, met: &mut Met, book: &[u8], text: &[u8]) {
    let start = random.one_of(&[0, 0, 0, 0, 0, 0, 1, 32]);
    let allowance = random.one_of(&[20_000, 20_000, 20_000, 20_000, 300, 0, MOST_WORK]);
    met.insert(held(book, text, start, allowance).answer()[0]);
}

fn text(random: &mut Random) -> Vec<u8> {
    let tokens = ["1", "23", "-", "*", "(", ")", " ", "\n", "\t", "// -\n", "x", "if", "net", ",", ";", "/", "é"];
    let tokens = [&tokens[..], &["[", "]", "[net a]", "[if b, net x]", " a", " b"]].concat();
    let length = random.below(12);
    let parts: Vec<_> = (0..length).map(|_| random.one_of(&tokens)).collect();
    parts.concat().into_bytes()
}

fn damage(random: &mut Random, book: &mut Vec<u8>) {
    if book.is_empty() {
        return;
    }
    let place = random.below(book.len());
    match random.below(4) {
        0 => book[place] = random.byte(),
        1 => book[place] = random.below(15) as u8,
        2 => book.insert(place + random.below(2), random.byte()),
        _ => drop(book.remove(place)),
    }
}

#[test]
fn damaged_books() {
    let mut random = Random::new(1);
    let mut met = Met::new();
    for _ in 0..3000 {
        let mut book = EXAMPLE.to_vec();
        for _ in 0..random.below(4) {
            damage(&mut random, &mut book);
        }
        let text = text(&mut random);
        meet(&mut random, &mut met, &book, &text);
    }
    let wanted = Met::from([0, 2, 3, 4, 6, 7, 8, 9, 11, 30, 31]);
    assert!(met.is_superset(&wanted), "{met:?}");
}

#[test]
fn mere_bytes() {
    let mut random = Random::new(2);
    let mut met = Met::new();
    for _ in 0..1000 {
        let (of_book, of_text) = (random.below(40), random.below(20));
        let book: Vec<u8> = (0..of_book).map(|_| random.below(6) as u8).collect();
        let text: Vec<u8> = (0..of_text).map(|_| random.byte()).collect();
        meet(&mut random, &mut met, &book, &text);
    }
    assert!(met.is_superset(&Met::from([3, 4, 6])), "{met:?}");
}

// A book that is accepted, with two words, two names and four nonterminals, the first of mark 3 and the last of mark 2.
fn book(random: &mut Random) -> Vec<u8> {
    let mut book = b"\x02\x01\x02if\x00\x03net\x02\x05\x01x\x03\x03net\x04".to_vec();
    book.extend([3, 1]);
    let mut variants = vec![255, 3, 1, 1];
    let mut steps = vec![14, random.below(4) as u8, b'[', b']'];
    for _ in 0..2 {
        let count = 1 + random.below(3);
        book.extend([random.below(2) as u8, count as u8]);
        for _ in 0..count {
            push_variant(random, &mut variants, &mut steps);
        }
    }
    book.extend([2, 0, (variants.len() / 4) as u8]);
    book.extend(variants);
    book.push((steps.len() / 4) as u8);
    book.extend(steps);
    book
}

fn push_variant(random: &mut Random, variants: &mut Vec<u8>, steps: &mut Vec<u8>) {
    let count = random.below(4);
    let (level, associativity) = random.one_of(&[(255, 3), (255, 3), (1, 0), (1, 1), (2, 2), (2, 3)]);
    variants.extend([level, associativity, 1, count as u8]);
    for _ in 0..count {
        let nonterminal = random.below(4) as u8;
        steps.extend(match random.below(14) as u8 {
            0 => [0, random.one_of(b"-*;"), 0, 0],
            1 => [1, random.below(2) as u8, 0, 0],
            5 => [5, random.one_of(&[1, 3, 5]), 0, 0],
            kind @ (8..=11) => [kind, nonterminal, 0, 0],
            kind @ (12 | 13) => [kind, nonterminal, b'(', b')'],
            kind => [kind, 0, 0, 0],
        });
    }
}

#[test]
fn accepted_books() {
    let mut random = Random::new(3);
    let mut met = Met::new();
    let mut declared = 0;
    for _ in 0..3000 {
        let names = random.one_of(&["", "[net a] a", "[if b, net x,] x"]);
        let (book, text) = (book(&mut random), [names.as_bytes(), &text(&mut random)].concat());
        meet(&mut random, &mut met, &book, &text);
        let reading = held(&book, &text, 0, 1000);
        declared += reading.parses().filter(|parse| parse.value.to_string().contains("$0.")).count();
    }
    assert!(declared > 20, "{declared}");
    let wanted = Met::from([0, 2, 9, 11, 20, 21, 22, 30, 31, 32]);
    assert!(met.is_superset(&wanted) && met.is_disjoint(&Met::from([3, 4, 5, 6, 7, 8])), "{met:?}");
}
