//! Books and texts, and a source of random ones.

/// Numbers, minus, times and parentheses.
pub const EXAMPLE: &[u8] = include_bytes!("../../../examples/rules.book");

/// Names that a text declares, as shares (kind 0) and prices (1), and the starting name `spot`, a price.
pub const BLEND: &[u8] = include_bytes!("../../../examples/blend.book");

/// Bytes that are written in hexadecimal, with spaces between any of them.
pub fn bytes(digits: &str) -> Vec<u8> {
    let digits: Vec<char> = digits.chars().filter(|c| !c.is_whitespace()).collect();
    let byte = |pair: &[char]| u8::from_str_radix(&String::from_iter(pair), 16).unwrap();
    digits.chunks(2).map(byte).collect()
}

/// The book of docs/READING.md's examples of errors: the reserved word `if`, the name `x` of kind 5, and one variant: a
/// number and then this step. A second nonterminal, of mark 2, reads identifiers.
pub fn number_and(step: [u8; 4]) -> Vec<u8> {
    let mut book = bytes("01 01 02 69 66 01 05 01 78 02 00 01 02 00 01 FF 03 01 02 02 03 00 00 00");
    book.extend(step);
    book
}

/// Each nonterminal is the next one twice, so often, and the last one is empty.
pub fn doubling(times: u8) -> Vec<u8> {
    let mut book = vec![0, 0, times + 1];
    book.extend([0, 1].repeat(usize::from(times) + 1));
    book.push(times + 1);
    book.extend([255, 3, 1, 2].repeat(times.into()));
    book.extend([255, 3, 1, 0, 2 * times]);
    for next in 1..=times {
        book.extend([8, next, 0, 0, 8, next, 0, 0]);
    }
    book
}

/// A book that makes calls need much stack: 29 nonterminals, each seven lists of an element that is never there and
/// then the next nonterminal, and one that takes `(` before six such lists and the first nonterminal again.
pub fn much_stack() -> Vec<u8> {
    let (last, element) = (29, 30);
    let mut book = vec![0, 0, 31];
    book.extend([0, 1].repeat(30));
    book.extend([0, 0, 30]);
    book.extend([255, 3, 1, 8].repeat(30));
    book.push(240);
    for next in 1..=last {
        book.extend([10, element, 0, 0].repeat(7));
        book.extend([8, next, 0, 0]);
    }
    book.extend([0, b'(', 0, 0]);
    book.extend([10, element, 0, 0].repeat(6));
    book.extend([8, 0, 0, 0]);
    book
}

/// Numbers that look random and are the same each time (xorshift).
pub struct Random(u64);

impl Random {
    pub fn new(seed: u64) -> Random {
        Random(seed)
    }

    /// A number below `limit`.
    pub fn below(&mut self, limit: usize) -> usize {
        self.0 ^= self.0 << 13;
        self.0 ^= self.0 >> 7;
        self.0 ^= self.0 << 17;
        (self.0 >> 16) as usize % limit
    }

    pub fn byte(&mut self) -> u8 {
        self.below(256) as u8
    }

    pub fn one_of<T: Copy>(&mut self, list: &[T]) -> T {
        list[self.below(list.len())]
    }
}
