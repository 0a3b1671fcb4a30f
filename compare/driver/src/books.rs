//! Random books: every step kind, mark, level and associativity; direct, indirect and hidden left recursion; variants without steps.
use crate::random::Random;
use oracle::book::{Book, Entry, Nonterminal, Step, Variant, BINDER, BOTH, CLAIMS, COMMITTED, DEFAULT_LEVEL, IDENTIFIER, PASSING, PLAIN};

/// Characters of books: operators, brackets, and some that are also parts of tokens, of comments or of lists.
pub const CHARACTERS: &[u8] = b"-+*-+*()[],;=!/1a";

/// Spellings of words and names; some are both, and some are the beginning of another.
pub const SPELLINGS: &[&str] = &["a", "b", "ab", "x", "if", "in", "_", "a1", "a_long_spelling"];

/// Openings and closings of binders: the Rust's own, others, alike ones, and some that are also parts of tokens or of lists.
const BINDER_CHARACTERS: &[&[u8; 2]] = &[b"<>", b"<>", b"<>", b"[]", b"()", b"||", b"[,", b",]", b"<-", b"a)"];

/// The most words, and the most names, of a book; and the most nonterminals.
const MOST_ENTRIES: usize = 64;
const MOST_NONTERMINALS: usize = 32;

pub fn book(random: &mut Random) -> Book {
    let most = match random.below(16) {
        0 => MOST_NONTERMINALS,
        1..=4 => 5,
        _ => 3,
    };
    let nonterminals = random.between(1, most);
    let mut book = Book { words: entries(random, 2), names: entries(random, 3), nonterminals: vec![] };
    reserve_names(random, &mut book);
    for n in 0..nonterminals {
        let mut nonterminal = nonterminal(random, &book, n, nonterminals);
        if nonterminals > 5 {
            // a book has at most 128 variants and 255 steps
            nonterminal.variants.truncate(2);
        }
        book.nonterminals.push(nonterminal);
    }
    book
}

fn entries(random: &mut Random, labels: usize) -> Vec<Entry> {
    let count = match random.below(40) {
        0 => MOST_ENTRIES,
        1..=20 => 0,
        _ => random.between(1, 4),
    };
    (0..count).map(|_| Entry { label: random.below(labels) as u8, spelling: random.pick(SPELLINGS).into() }).collect()
}

/// In one book of four a name is reserved on purpose; in others by chance.
fn reserve_names(random: &mut Random, book: &mut Book) {
    if !random.one_in(4) {
        return;
    }
    let spelling: String = match book.names.get(random.below(book.names.len() + 1)) {
        Some(name) => name.spelling.clone(),
        None => random.pick(SPELLINGS).into(),
    };
    if book.words.len() < MOST_ENTRIES {
        book.words.push(Entry { label: 1, spelling: spelling.clone() });
    }
    if book.names.len() < MOST_ENTRIES {
        book.names.push(Entry { label: random.below(3) as u8, spelling });
    }
}

fn nonterminal(random: &mut Random, book: &Book, n: usize, of: usize) -> Nonterminal {
    let mark = match random.below(12) {
        0 | 1 => CLAIMS,
        2 if n > 0 || random.one_in(8) => IDENTIFIER,
        3 if n > 0 && !book.names.is_empty() => IDENTIFIER,
        _ => PLAIN,
    };
    if mark == IDENTIFIER || random.one_in(60) {
        return Nonterminal { mark, variants: vec![] };
    }
    let count = random.between(1, 4);
    let mut variants: Vec<Variant> = (0..count).map(|_| variant(random, book, n, of)).collect();
    if !random.one_in(6) {
        // something that ends, so that most nonterminals have a derivation
        let at = random.below(variants.len() + 1);
        let steps = vec![token(random, book)];
        variants.insert(at, with_precedence(random, steps));
    }
    Nonterminal { mark, variants }
}

fn variant(random: &mut Random, book: &Book, n: usize, of: usize) -> Variant {
    let this = n as u8;
    let any = random.below(of) as u8;
    let operator = [0, random.byte(CHARACTERS), 0, 0];
    let use_of = |a: u8| [8, a, 0, 0];
    let steps = match random.below(16) {
        0..=3 => vec![use_of(this), operator, use_of(this)],
        4 => vec![use_of(any), operator, use_of(this)],
        5 => vec![operator, use_of(any)],
        6 => vec![use_of(this), operator],
        7 => vec![[0, b'(', 0, 0], use_of(any), [0, b')', 0, 0]],
        8 | 9 => vec![use_of(any)],
        10 => vec![may_be_empty(random, of), use_of(this), operator, use_of(any)],
        11 => vec![may_be_empty(random, of), use_of(any)],
        12 if random.one_in(3) => vec![],
        13 if random.one_in(4) => (0..8).map(|_| step(random, book, of)).collect(),
        _ => (0..random.between(1, 4)).map(|_| step(random, book, of)).collect(),
    };
    let mut variant = with_precedence(random, steps);
    if matches!(variant.steps[..], [[8, ..]]) && random.one_in(2) {
        variant.flags |= PASSING;
    }
    variant
}

fn with_precedence(random: &mut Random, steps: Vec<Step>) -> Variant {
    let level = match random.below(8) {
        0..=2 => DEFAULT_LEVEL,
        3 => random.below(255) as u8,
        _ => random.below(4) as u8,
    };
    let associativity = if level == DEFAULT_LEVEL { BOTH } else { random.below(4) as u8 };
    let flags = if random.one_in(4) { 0 } else { COMMITTED };
    Variant { level, associativity, flags, steps }
}

/// A step that can take nothing: what follows it is hidden left recursion, if it is a use.
fn may_be_empty(random: &mut Random, of: usize) -> Step {
    let a = random.below(of) as u8;
    match random.below(7) {
        0 => [9, a, 0, 0],
        1 => [10, a, 0, 0],
        2 => [11, a, 0, 0],
        3 => [13, a, b'(', b')'],
        4 => [6, 0, 0, 0],
        5 => [7, 0, 0, 0],
        _ => [8, a, 0, 0],
    }
}

fn token(random: &mut Random, book: &Book) -> Step {
    match random.below(9) {
        0..=2 => [3, 0, 0, 0],
        3 | 4 => [2, 0, 0, 0],
        5 => [4, 0, 0, 0],
        6 => [5, random.below(3) as u8, 0, 0],
        7 if !book.words.is_empty() => [1, random.below(book.words.len()) as u8, 0, 0],
        _ => [0, random.byte(CHARACTERS), 0, 0],
    }
}

fn step(random: &mut Random, book: &Book, of: usize) -> Step {
    let a = random.below(of) as u8;
    match random.below(14) {
        kind @ 8..=11 => [kind as u8, a, 0, 0],
        kind @ 12..=13 => {
            let [open, close] = *random.pick(&[b"()", b"[]", b"--", b"<>"]);
            [kind as u8, a, open, close]
        }
        kind @ 6..=7 => [kind as u8, 0, 0, 0],
        _ => token(random, book),
    }
}

/// A random book with words for kinds before its own, and with binders.
pub fn with_binders(random: &mut Random) -> Book {
    let mut book = match random.below(4) {
        0 => book(random),
        1 => of_variables(random),
        _ => of_terms(random),
    };
    let words = kind_words(random);
    book.words.splice(0..0, words);
    book.words.truncate(MOST_ENTRIES);
    // a book of terms has one already
    let more = if book.nonterminals.iter().any(|n| n.mark == BINDER) { random.below(4) / 3 } else { random.between(1, 3) };
    for _ in 0..more {
        if book.nonterminals.len() < MOST_NONTERMINALS {
            add_binder(random, &mut book);
        }
    }
    book
}

/// Words for kinds. In one book of sixteen there are nine different ones, of which the last is no kind's.
fn kind_words(random: &mut Random) -> Vec<Entry> {
    let entry = |is_reserved: bool, spelling: &str| Entry { label: is_reserved as u8, spelling: spelling.into() };
    if random.one_in(16) {
        let (before, after) = SPELLINGS.split_at(random.below(SPELLINGS.len()));
        return after.iter().chain(before).map(|spelling| entry(random.one_in(16), spelling)).collect();
    }
    let count = if random.one_in(16) { random.below(10) } else { random.between(1, 3) };
    (0..count).map(|_| entry(random.one_in(3), random.pick(SPELLINGS))).collect()
}

/// Nonterminal 0 is a variable or something else; 1 an identifier nonterminal.
fn of_variables(random: &mut Random) -> Book {
    let mut book = Book { words: vec![], names: entries(random, 3), nonterminals: vec![] };
    let mark = if random.one_in(3) { CLAIMS } else { PLAIN };
    let variable = with_precedence(random, vec![[4, 0, 0, 0]]);
    let variants = vec![variable, variant(random, &book, 0, 2)];
    book.nonterminals = vec![Nonterminal { mark, variants }, Nonterminal { mark: IDENTIFIER, variants: vec![] }];
    book
}

/// Nonterminal 0 is a variable, perhaps a number, or made of terms with operators; 1 is an identifier nonterminal, 2 a binder of 0. Where a variant begins
/// with 2, that is left recursion through an absent opening.
fn of_terms(random: &mut Random) -> Book {
    const OPERATORS: &[u8] = b"-+*!";
    let mut variants = vec![with_precedence(random, vec![[4, 0, 0, 0]])];
    if random.one_in(2) {
        variants.push(with_precedence(random, vec![[3, 0, 0, 0]]));
    }
    for _ in 0..random.between(1, 3) {
        let operator = [0, random.byte(OPERATORS), 0, 0];
        let steps = match random.below(9) {
            0..=2 => vec![[8, 2, 0, 0], operator, [8, 2, 0, 0]],
            3 => vec![[8, 0, 0, 0], operator, [8, 2, 0, 0]],
            4 => vec![operator, [8, 2, 0, 0]],
            5 => vec![[12, 2, b'(', b')']],
            6 => vec![[9, 2, 0, 0], operator, [8, 0, 0, 0]],
            7 => vec![[8, 1, 0, 0]],
            _ => vec![[6, 0, 0, 0], [2, 0, 0, 0]],
        };
        variants.push(with_precedence(random, steps));
    }
    let mark = if random.one_in(3) { CLAIMS } else { PLAIN };
    let nonterminals = vec![Nonterminal { mark, variants }, Nonterminal { mark: IDENTIFIER, variants: vec![] }, binder(random, 0)];
    Book { words: vec![], names: entries(random, 3), nonterminals }
}

/// A binder of a nonterminal.
fn binder(random: &mut Random, body: u8) -> Nonterminal {
    let [open, close] = *random.pick(BINDER_CHARACTERS);
    let variant = Variant { level: DEFAULT_LEVEL, associativity: BOTH, flags: COMMITTED, steps: vec![[14, body, open, close]] };
    Nonterminal { mark: BINDER, variants: vec![variant] }
}

/// A further nonterminal, a binder of one of those before it, which mostly gets variants for what is declared. Some uses become uses of the binder.
fn add_binder(random: &mut Random, book: &mut Book) {
    let added = book.nonterminals.len() as u8;
    let mut body = random.below(book.nonterminals.len());
    if book.nonterminals[body].mark == IDENTIFIER {
        body = random.below(book.nonterminals.len());
    }
    for steps in [use_of_name(random), use_of_binder(random, added)] {
        if matches!(book.nonterminals[body].mark, PLAIN | CLAIMS) && !random.one_in(4) {
            let variant = with_precedence(random, steps);
            book.nonterminals[body].variants.push(variant);
        }
    }
    for step in book.nonterminals.iter_mut().flat_map(|n| &mut n.variants).flat_map(|v| &mut v.steps) {
        if step[0] >= 8 && random.one_in(4) {
            step[1] = added;
        }
    }
    let binder = binder(random, body as u8);
    book.nonterminals.push(binder);
}

/// Steps that read a declared name, or refuse one.
fn use_of_name(random: &mut Random) -> Vec<Step> {
    match random.below(6) {
        0 => vec![[5, random.below(3) as u8, 0, 0]],
        1 => vec![[6, 0, 0, 0], [2, 0, 0, 0]],
        _ => vec![[4, 0, 0, 0]],
    }
}

/// Steps that read a binder in a binder, or behind one what it declared.
fn use_of_binder(random: &mut Random, binder: u8) -> Vec<Step> {
    let operator = [0, random.byte(CHARACTERS), 0, 0];
    match random.below(4) {
        0 => vec![[8, binder, 0, 0], operator, [4, 0, 0, 0]],
        1 => vec![[12, binder, b'(', b')']],
        _ => vec![operator, [8, binder, 0, 0]],
    }
}

/// A copy with some bytes changed, taken out or put in.
pub fn damaged(random: &mut Random, book: &[u8]) -> Vec<u8> {
    let mut bytes = book.to_vec();
    for _ in 0..random.between(1, 2) {
        let at = random.below(bytes.len());
        match random.below(6) {
            0 => drop(bytes.remove(at)),
            1 => bytes.insert(at, random.below(256) as u8),
            2 => bytes[at] = random.below(256) as u8,
            _ => bytes[at] = random.below(16) as u8,
        }
        if bytes.is_empty() {
            bytes.push(0);
        }
    }
    bytes
}
