//! All small books of one nonterminal: variant 0 is a number, variant 1 has up to three steps of the kinds 0, 3 and 8 to 13 over the nonterminal itself, at
//! level 1 with each associativity; and all short texts for each.
use crate::case::Case;
use oracle::book::{Book, Nonterminal, Step, Variant, BOTH, COMMITTED, DEFAULT_LEVEL, PLAIN};

const STEPS: [Step; 8] =
    [[0, b'-', 0, 0], [3, 0, 0, 0], [8, 0, 0, 0], [9, 0, 0, 0], [10, 0, 0, 0], [11, 0, 0, 0], [12, 0, b'-', b'-'], [13, 0, b'-', b',']];

const ALPHABET: &[u8] = b"1-,";
const LONGEST: usize = 4;

/// Enough for each of these that has an end.
const ALLOWANCE: u32 = 20_000;

pub fn cases() -> impl Iterator<Item = Case> {
    let texts = sequences(ALPHABET, LONGEST);
    books().flat_map(move |book| {
        let bytes = book.bytes();
        texts.clone().into_iter().map(move |text| Case { book: bytes.clone(), text, start: 0, allowance: ALLOWANCE })
    })
}

fn books() -> impl Iterator<Item = Book> {
    sequences(&STEPS, 3).into_iter().flat_map(|steps| {
        (0..4).map(move |associativity| {
            let number = Variant { level: DEFAULT_LEVEL, associativity: BOTH, flags: COMMITTED, steps: vec![[3, 0, 0, 0]] };
            let other = Variant { level: 1, associativity, flags: COMMITTED, steps: steps.clone() };
            Book { nonterminals: vec![Nonterminal { mark: PLAIN, variants: vec![number, other] }], ..Book::default() }
        })
    })
}

/// All sequences of up to so many of these, the short ones first.
pub fn sequences<T: Clone>(of: &[T], longest: usize) -> Vec<Vec<T>> {
    let mut all = vec![vec![]];
    let mut first = 0;
    for _ in 0..longest {
        let end = all.len();
        for shorter in first..end {
            for item in of {
                let mut longer = all[shorter].clone();
                longer.push(item.clone());
                all.push(longer);
            }
        }
        first = end;
    }
    all
}
