//! The cells of a reading, by their numbers.
//!
//! The library's cells are well made, which is proved. Nothing here relies on it: as in the definitions, a number that
//! is no earlier cell of the right form counts as absent, or as no values. So every walk over cells ends.

/// The forms that a walk tells apart; docs/READING.md has them all.
pub const CHAIN: u32 = 2;
pub const VARIANT: u32 = 3;
pub const IDENTIFIER: u32 = 4;
pub const NUMBER: u32 = 5;
pub const VARIABLE: u32 = 6;
pub const LIST: u32 = 8;
pub const DECLARED: u32 = 9;

/// The cells of a reading, with the book and the text that have the spellings.
pub struct Cells<'a> {
    pub book: &'a [u8],
    pub text: &'a [u8],
    pub numbers: Vec<u32>,
}

impl<'a> Cells<'a> {
    /// The three numbers of cell n, n from 1; zeros, which are no cell, where there is none.
    pub fn cell(&self, n: u32) -> [u32; 3] {
        let before = (n as usize).checked_sub(1);
        match before.and_then(|before| self.numbers.chunks_exact(3).nth(before)) {
            Some(&[form, a, b]) => [form, a, b],
            _ => [0; 3],
        }
    }

    /// The chain before the last item of a chain, and that item; none of the empty chain.
    pub fn last(&self, chain: u32) -> Option<(u32, u32)> {
        let [form, before, item] = self.cell(chain);
        (form == CHAIN).then(|| (older(chain, before), older(chain, item)))
    }

    /// The part of the text from a place on, so many bytes long.
    pub fn identifier(&self, place: u32, length: u32) -> &'a str {
        let from = self.text.get(place as usize..).unwrap_or_default();
        characters(from.get(..length as usize).unwrap_or(from))
    }

    /// The spelling of the book's starting name of this number.
    pub fn name(&self, number: u32) -> &'a str {
        characters(name(self.book, number).unwrap_or_default())
    }
}

/// A cell leads to older ones; any other number is none.
pub fn older(n: u32, cell: u32) -> u32 {
    if cell < n {
        cell
    } else {
        0
    }
}

// Spellings have no byte above 127.
fn characters(spelling: &[u8]) -> &str {
    std::str::from_utf8(spelling).unwrap_or_default()
}

// A book begins with its words and then its starting names, each a count and so many records of the same form.
fn name(book: &[u8], number: u32) -> Option<&[u8]> {
    let (&words, mut rest) = book.split_first()?;
    for _ in 0..words {
        rest = spelling(rest)?.1;
    }
    let (&names, mut rest) = rest.split_first()?;
    if u32::from(names) <= number {
        return None;
    }
    for _ in 0..number {
        rest = spelling(rest)?.1;
    }
    Some(spelling(rest)?.0)
}

// The spelling of the record at the front, and what follows the record.
fn spelling(records: &[u8]) -> Option<(&[u8], &[u8])> {
    let [_, length, rest @ ..] = records else {
        return None;
    };
    let length = usize::from(*length);
    Some((rest.get(..length)?, rest.get(length..)?))
}

#[cfg(test)]
mod tests {
    use super::*;
    use crate::library::CELLS;

    #[test]
    fn names() {
        let book = b"\x01\x01\x02if\x02\x05\x01x\x03\x03net";
        assert_eq!(name(book, 0), Some(&b"x"[..]));
        assert_eq!(name(book, 1), Some(&b"net"[..]));
        assert_eq!(name(book, 2), None);
        for length in 0..book.len() {
            assert_eq!(name(&book[..length], 1), None);
        }
    }

    #[test]
    fn no_cell() {
        let cells = Cells { book: b"", text: b"net", numbers: vec![2; CELLS] };
        assert_eq!((cells.cell(0), cells.cell(4097), cells.cell(u32::MAX)), ([0; 3], [0; 3], [0; 3]));
        assert_eq!(cells.cell(4096), [2; 3]);
        // cell 2 leads to itself, which is no older one
        assert_eq!((cells.last(2), cells.last(3)), (Some((0, 0)), Some((2, 2))));
        assert_eq!((cells.identifier(1, 9), cells.identifier(4, 1)), ("et", ""));
    }
}
