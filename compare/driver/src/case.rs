//! One case: a call of the reader, and what the comparison with the Rust says.
use crate::reader::Reader;
use crate::worker::{Without, Worker};
use oracle::answer::Answer;
use oracle::book::{Book, BINDER};

#[derive(Clone, Debug, PartialEq)]
pub struct Case {
    pub book: Vec<u8>,
    pub text: Vec<u8>,
    pub start: u32,
    pub allowance: u32,
}

impl Case {
    /// Whether among the text's words, those of comments too, is a starting name that is reserved, by a book that the reader
    /// has accepted.
    pub fn has_reserved_name(&self) -> bool {
        let book = Book::of(&self.book);
        let is_name = |word: &str| book.names.iter().any(|n| n.spelling == word);
        let is_reserved = |word: &str| book.words.iter().any(|w| w.label == 1 && w.spelling == word);
        let text = String::from_utf8_lossy(&self.text);
        let mut words = text.split(|c: char| !c.is_ascii_alphanumeric() && c != '_');
        words.any(|word| is_name(word) && is_reserved(word))
    }

    /// Whether a book that the reader has accepted has a binder.
    pub fn has_binder(&self) -> bool {
        Book::of(&self.book).nonterminals.iter().any(|n| n.mark == BINDER)
    }
}

#[derive(Clone, Debug, PartialEq)]
pub enum Verdict {
    Equal(Answer),
    Different {
        reader: Answer,
        rust: Answer,
    },
    /// The reader met a limit, 20 to 23 or 41.
    Limit(u32),
    /// The reader refused the call, the book or the text, 1 to 11; the Rust has no such check.
    Refused(u32),
    WithoutAnswer(Without),
}

/// Both sides.
pub struct Sides {
    pub reader: Reader,
    pub worker: Worker,
}

impl Sides {
    pub fn new() -> Sides {
        Sides { reader: Reader::new(), worker: Worker::default() }
    }

    pub fn judge(&mut self, case: &Case) -> Verdict {
        match self.reader.call(&case.book, &case.text, case.start, case.allowance) {
            refusal @ 1..=11 => return Verdict::Refused(refusal),
            refusal @ (20..=23 | 41) => return Verdict::Limit(refusal),
            _ => (),
        }
        self.worker.judge(case, self.reader.answer(&case.book, &case.text))
    }
}

impl Worker {
    /// The reader's answer to a case against the Rust's.
    pub fn judge(&mut self, case: &Case, reader: Answer) -> Verdict {
        let reader = reader.sorted();
        match self.answer(&case.book, &case.text, case.start).map(Answer::sorted) {
            Err(why) => Verdict::WithoutAnswer(why),
            Ok(rust) if rust == reader => Verdict::Equal(rust),
            Ok(rust) => Verdict::Different { reader, rust },
        }
    }
}

pub fn hexadecimal(bytes: &[u8]) -> String {
    bytes.iter().map(|b| format!("{b:02X}")).collect()
}

/// The bytes of hexadecimal digits, with or without spaces between them.
pub fn of_hexadecimal(digits: &str) -> Vec<u8> {
    let digits: Vec<u8> = digits.bytes().filter(|b| !b.is_ascii_whitespace()).map(|b| (b as char).to_digit(16).expect("a digit") as u8).collect();
    digits.chunks(2).map(|pair| pair[0] << 4 | pair[1]).collect()
}
