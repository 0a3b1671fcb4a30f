//! Why a text has no value.

use crate::error::{Error, ErrorKind};
use crate::library::ANSWER;
use std::fmt;

/// Why a text has no value. docs/READING.md says of each whose matter it is and what to do.
///
/// A place is counted in bytes, from 0.
///
/// ```
/// use midgebillon::{read, ErrorKind, Refusal, MOST_WORK};
///
/// let book = std::fs::read("../examples/rules.book")?;
/// let reading = read(&book, b"(1", 0, MOST_WORK)?;
/// let refusal = reading.value().unwrap_err();
/// assert_eq!(refusal.number(), 30);
/// assert_eq!(refusal.to_string(), "at place 2 of the text: the character `)` was wanted");
/// let Refusal::NoParse(error) = refusal else { panic!("{refusal}") };
/// assert_eq!((error.place, error.kind), (2, ErrorKind::CharacterWanted(')')));
/// # Ok::<(), std::io::Error>(())
/// ```
#[derive(Clone, Copy, Debug, PartialEq, Eq, Hash)]
#[non_exhaustive]
pub enum Refusal {
    /// 1: a list is shorter than a call needs. [`read`](crate::read()) never meets it.
    ShortLists,
    /// 2: the allowance is 0 or above [`MOST_WORK`](crate::MOST_WORK).
    BadAllowance,
    /// 3: the book ends too early.
    BookEndsEarly {
        /// The book's length.
        place: u32,
    },
    /// 4: a section's count is outside its limits or unequal to its sum.
    BadCount {
        /// Of the count, in the book.
        place: u32,
    },
    /// 5: a spelling isn't of length 1 to 15, or isn't identifier-shaped.
    BadSpelling {
        /// Of its length, in the book.
        place: u32,
    },
    /// 6: another field of the book is out of range.
    BadField {
        /// Of the field, in the book.
        place: u32,
    },
    /// 7: a passing variant is other than one step of kind 8.
    BadPassing {
        /// Of the variant, in the book.
        place: u32,
    },
    /// 8: bytes are left over after the book.
    BytesLeftOver {
        /// Of the first of them.
        place: u32,
    },
    /// 9: the start isn't a nonterminal of the book.
    UnknownStart,
    /// 10: the text has more than 4,096 bytes.
    LongText,
    /// 11: a byte of the text is 128 or more.
    HighByte {
        /// Of the first such, in the text.
        place: u32,
    },
    /// 20: the run took a unit of work beyond the allowance.
    NoUnit,
    /// 21: the run nested beyond 200.
    TooDeep,
    /// 22: a set of parses got a 65th.
    TooManyParses,
    /// 23: a 4,097th cell was made.
    TooManyCells,
    /// 30: the text has no parse; the furthest error tells why.
    NoParse(Error),
    /// 31: there are parses, and none reaches the end of the text.
    NoneWhole,
    /// 32: parses that reach the end have different values.
    DifferentValues,
    /// 41: a part of the text would have a 65th declared name around it. As 20 to 23, a limit of the run.
    TooManyNames,
    /// What this version of the crate has no name for. The library of this version gives no such refusal.
    Unknown {
        /// The refusal's number.
        number: u32,
    },
}

impl Refusal {
    /// The refusal of an answer; none if it has a value.
    pub(crate) fn of(answer: &[u32; ANSWER]) -> Option<Refusal> {
        let &[number, place, kind, argument, ..] = answer;
        Some(match number {
            0 => return None,
            1 => Refusal::ShortLists,
            2 => Refusal::BadAllowance,
            3 => Refusal::BookEndsEarly { place },
            4 => Refusal::BadCount { place },
            5 => Refusal::BadSpelling { place },
            6 => Refusal::BadField { place },
            7 => Refusal::BadPassing { place },
            8 => Refusal::BytesLeftOver { place },
            9 => Refusal::UnknownStart,
            10 => Refusal::LongText,
            11 => Refusal::HighByte { place },
            20 => Refusal::NoUnit,
            21 => Refusal::TooDeep,
            22 => Refusal::TooManyParses,
            23 => Refusal::TooManyCells,
            30 => Refusal::NoParse(Error { place, kind: ErrorKind::of(kind, argument) }),
            31 => Refusal::NoneWhole,
            32 => Refusal::DifferentValues,
            41 => Refusal::TooManyNames,
            _ => Refusal::Unknown { number },
        })
    }

    /// The refusal's number in the table of docs/READING.md.
    pub fn number(&self) -> u32 {
        match *self {
            Refusal::ShortLists => 1,
            Refusal::BadAllowance => 2,
            Refusal::BookEndsEarly { .. } => 3,
            Refusal::BadCount { .. } => 4,
            Refusal::BadSpelling { .. } => 5,
            Refusal::BadField { .. } => 6,
            Refusal::BadPassing { .. } => 7,
            Refusal::BytesLeftOver { .. } => 8,
            Refusal::UnknownStart => 9,
            Refusal::LongText => 10,
            Refusal::HighByte { .. } => 11,
            Refusal::NoUnit => 20,
            Refusal::TooDeep => 21,
            Refusal::TooManyParses => 22,
            Refusal::TooManyCells => 23,
            Refusal::NoParse(_) => 30,
            Refusal::NoneWhole => 31,
            Refusal::DifferentValues => 32,
            Refusal::TooManyNames => 41,
            Refusal::Unknown { number } => number,
        }
    }
}

// At a limit nothing is known of the text, which may have a value or none.
const WRITE_OTHERWISE: &str = "write it with fewer brackets around brackets, or as shorter rows";

impl fmt::Display for Refusal {
    fn fmt(&self, f: &mut fmt::Formatter<'_>) -> fmt::Result {
        match self {
            Refusal::ShortLists => f.write_str("a lent list is too short: cells have 12,288 numbers and parses 256"),
            Refusal::BadAllowance => f.write_str("the allowance must be from 1 to 1,000,000"),
            Refusal::BookEndsEarly { place } => write!(f, "the book ends too early, at place {place}"),
            Refusal::BadCount { place } => {
                write!(
                    f,
                    "at place {place} of the book: a count is outside its limits, or isn't the sum that it must be"
                )
            }
            Refusal::BadSpelling { place } => {
                write!(f, "at place {place} of the book: a spelling must be an identifier of 1 to 15 bytes")
            }
            Refusal::BadField { place } => write!(f, "at place {place} of the book: this byte is out of range"),
            Refusal::BadPassing { place } => {
                write!(f, "at place {place} of the book: a passing variant must be one step of kind 8")
            }
            Refusal::BytesLeftOver { place } => write!(f, "from place {place} of the book on: bytes are left over"),
            Refusal::UnknownStart => f.write_str("the start isn't a nonterminal of the book"),
            Refusal::LongText => f.write_str("the text has more than 4,096 bytes"),
            Refusal::HighByte { place } => write!(f, "at place {place} of the text: this byte is 128 or more"),
            Refusal::NoUnit => write!(f, "the text takes more units of work than the allowance: {WRITE_OTHERWISE}"),
            Refusal::TooDeep => write!(f, "the text nests beyond 200 levels: {WRITE_OTHERWISE}"),
            Refusal::TooManyParses => {
                write!(f, "a nonterminal has more than 64 parses from one place of the text: {WRITE_OTHERWISE}")
            }
            Refusal::TooManyCells => write!(f, "the text takes more than 4,096 cells: {WRITE_OTHERWISE}"),
            Refusal::NoParse(error) => error.fmt(f),
            Refusal::NoneWhole => f.write_str("the text is read from its beginning, but not up to its end"),
            Refusal::DifferentValues => f.write_str("the book reads the text in several ways, with different values"),
            Refusal::TooManyNames => {
                f.write_str("a part of the text has more than 64 declared names around it: declare fewer names at once")
            }
            Refusal::Unknown { number } => write!(f, "refusal {number}"),
        }
    }
}

impl std::error::Error for Refusal {}

#[cfg(test)]
mod tests {
    use super::*;
    use crate::library::{self, Lists, CELLS, MOST_WORK, PARSES};

    // What the wrapper's own lists never meet.
    fn lent(cells: usize, parses: usize) -> Option<Refusal> {
        let mut lists = Lists { cells: vec![0; cells], parses: vec![0; parses], answer: [0; ANSWER] };
        let book = include_bytes!("../../examples/rules.book");
        library::read(book, b"1", 0, MOST_WORK, &mut lists).unwrap();
        Refusal::of(&lists.answer)
    }

    #[test]
    fn short_lists() {
        assert_eq!(lent(CELLS, PARSES), None);
        for (cells, parses) in [(CELLS - 1, PARSES), (CELLS, PARSES - 1), (0, 0)] {
            let refusal = lent(cells, parses).unwrap();
            assert_eq!((refusal, refusal.number()), (Refusal::ShortLists, 1));
            assert!(refusal.to_string().contains("12,288 numbers and parses 256"));
        }
    }

    #[test]
    fn numbers_come_back() {
        for number in 1..50 {
            assert_eq!(Refusal::of(&[number, 7, 3, 0, 0, 0, 0]).unwrap().number(), number);
        }
        for number in [24, 40, 42] {
            assert_eq!(Refusal::of(&[number, 0, 0, 0, 0, 0, 0]), Some(Refusal::Unknown { number }));
        }
    }
}
