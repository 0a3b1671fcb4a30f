//! Makes a case that differs smaller, as long as it still differs.
use crate::case::{Case, Sides, Verdict};
use oracle::book::{Book, BOTH, COMMITTED, DEFAULT_LEVEL, PLAIN};

pub fn smallest(sides: &mut Sides, case: &Case) -> Case {
    let mut best = case.clone();
    while let Some(smaller) = candidates(&best).into_iter().find(|c| matches!(sides.judge(c), Verdict::Different { .. })) {
        best = smaller;
    }
    best
}

/// Cases that are a little smaller or simpler, the smallest first.
fn candidates(case: &Case) -> Vec<Case> {
    let texts = shorter(&case.text).into_iter().map(|text| Case { text, ..case.clone() });
    let books = simpler(&Book::of(&case.book)).into_iter().map(|book| Case { book: book.bytes(), ..case.clone() });
    texts.chain(books).filter(|c| c != case).collect()
}

/// The text without a part: halves, quarters, down to single bytes.
fn shorter(text: &[u8]) -> Vec<Vec<u8>> {
    let mut texts = Vec::new();
    let mut size = text.len();
    while size > 0 {
        for at in (0..text.len()).step_by(size) {
            texts.push([&text[..at], &text[(at + size).min(text.len())..]].concat());
        }
        size /= 2;
    }
    texts
}

/// The book with one thing less, or with one thing as it commonly is.
fn simpler(book: &Book) -> Vec<Book> {
    let mut books = Vec::new();
    let mut with = |change: &dyn Fn(&mut Book)| {
        let mut changed = book.clone();
        change(&mut changed);
        books.push(changed);
    };
    with(&|b| drop(b.words.pop()));
    with(&|b| drop(b.names.pop()));
    with(&|b| drop(b.nonterminals.pop()));
    for n in 0..book.nonterminals.len() {
        with(&|b| b.nonterminals[n].mark = PLAIN);
        with(&|b| b.nonterminals[n].variants.clear());
        for v in 0..book.nonterminals[n].variants.len() {
            with(&|b| drop(b.nonterminals[n].variants.remove(v)));
            with(&|b| (b.nonterminals[n].variants[v].level, b.nonterminals[n].variants[v].associativity) = (DEFAULT_LEVEL, BOTH));
            with(&|b| b.nonterminals[n].variants[v].flags = COMMITTED);
            for s in 0..book.nonterminals[n].variants[v].steps.len() {
                with(&|b| _ = b.nonterminals[n].variants[v].steps.remove(s));
            }
        }
    }
    books
}
