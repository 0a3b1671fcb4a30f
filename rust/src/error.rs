//! Errors of a text.

use crate::library;
use std::fmt;

/// An error of a text: where, and what was wanted or found there. It tells why a text has no parse
/// ([`Refusal::NoParse`](crate::Refusal::NoParse)).
#[derive(Clone, Copy, Debug, PartialEq, Eq, Hash)]
pub struct Error {
    /// The place in the text, in bytes from 0.
    pub place: u32,
    /// What was wanted or found there.
    pub kind: ErrorKind,
}

/// What was wanted or found at the place of an [`Error`].
///
/// Words and nonterminals have the numbers that they have in the book, from 0.
#[derive(Clone, Copy, Debug, PartialEq, Eq, Hash)]
#[non_exhaustive]
pub enum ErrorKind {
    /// 1: this character was wanted.
    CharacterWanted(char),
    /// 2: the word of this number was wanted.
    WordWanted(u32),
    /// 3: an identifier was wanted.
    IdentifierWanted,
    /// 4: the text ended where an identifier, a number or a variable was wanted.
    TextEnded,
    /// 5: a variable was found where none may stand.
    VariableFound,
    /// 6: a reserved word was found.
    ReservedFound,
    /// 7: a name is unknown.
    UnknownName,
    /// 8: a variable of this kind was wanted, and one of another kind was found.
    WrongKind(u32),
    /// 9: digits were wanted.
    DigitsWanted,
    /// 10: a number is above 2^64 - 1.
    TooLarge,
    /// 11: the nonterminal of this number was wanted.
    NonterminalWanted(u32),
    /// 11 with argument 32, which is no nonterminal's number: a declared name was wanted. No answer tells it, since
    /// there is always something else that would do.
    DeclaredNameWanted,
    /// 12: a variant of the nonterminal of this number wanted more.
    MoreWanted(u32),
    /// What this version of the crate has no name for. The library of this version gives no such error.
    Unknown {
        /// The kind's number.
        kind: u32,
        /// What the error says besides.
        argument: u32,
    },
}

// The argument of error 11 where a declared name was wanted: a book has nonterminals 0 to 31.
const DECLARED_NAME: u32 = 32;

impl ErrorKind {
    /// The kind of these numbers. It loses nothing: `number` and `argument` give them back.
    pub(crate) fn of(kind: u32, argument: u32) -> ErrorKind {
        let unknown = ErrorKind::Unknown { kind, argument };
        match (kind, argument) {
            (1, code) => char::from_u32(code).map_or(unknown, ErrorKind::CharacterWanted),
            (2, word) => ErrorKind::WordWanted(word),
            (3, 0) => ErrorKind::IdentifierWanted,
            (4, 0) => ErrorKind::TextEnded,
            (5, 0) => ErrorKind::VariableFound,
            (6, 0) => ErrorKind::ReservedFound,
            (7, 0) => ErrorKind::UnknownName,
            (8, wanted) => ErrorKind::WrongKind(wanted),
            (9, 0) => ErrorKind::DigitsWanted,
            (10, 0) => ErrorKind::TooLarge,
            (11, DECLARED_NAME) => ErrorKind::DeclaredNameWanted,
            (11, nonterminal) => ErrorKind::NonterminalWanted(nonterminal),
            (12, nonterminal) => ErrorKind::MoreWanted(nonterminal),
            _ => unknown,
        }
    }

    /// The kind's number in the table of docs/READING.md, 1 to 12.
    pub fn number(&self) -> u32 {
        match *self {
            ErrorKind::CharacterWanted(_) => 1,
            ErrorKind::WordWanted(_) => 2,
            ErrorKind::IdentifierWanted => 3,
            ErrorKind::TextEnded => 4,
            ErrorKind::VariableFound => 5,
            ErrorKind::ReservedFound => 6,
            ErrorKind::UnknownName => 7,
            ErrorKind::WrongKind(_) => 8,
            ErrorKind::DigitsWanted => 9,
            ErrorKind::TooLarge => 10,
            ErrorKind::NonterminalWanted(_) | ErrorKind::DeclaredNameWanted => 11,
            ErrorKind::MoreWanted(_) => 12,
            ErrorKind::Unknown { kind, .. } => kind,
        }
    }

    /// What the error says besides, as a number: a character's code, the number in the variant, or 32 for a declared
    /// name; else 0.
    pub fn argument(&self) -> u32 {
        match *self {
            ErrorKind::CharacterWanted(character) => character.into(),
            ErrorKind::WordWanted(n) | ErrorKind::WrongKind(n) => n,
            ErrorKind::NonterminalWanted(n) | ErrorKind::MoreWanted(n) => n,
            ErrorKind::DeclaredNameWanted => DECLARED_NAME,
            ErrorKind::Unknown { argument, .. } => argument,
            _ => 0,
        }
    }
}

impl fmt::Display for ErrorKind {
    fn fmt(&self, f: &mut fmt::Formatter<'_>) -> fmt::Result {
        match self {
            ErrorKind::CharacterWanted(character) => write!(f, "the character `{character}` was wanted"),
            ErrorKind::WordWanted(word) => write!(f, "word {word} of the book was wanted"),
            ErrorKind::IdentifierWanted => f.write_str("an identifier was wanted"),
            ErrorKind::TextEnded => {
                f.write_str("the text ended where an identifier, a number or a variable was wanted")
            }
            ErrorKind::VariableFound => f.write_str("a variable was found where none may stand"),
            ErrorKind::ReservedFound => f.write_str("a reserved word was found"),
            ErrorKind::UnknownName => f.write_str("this name is neither one of the book's starting names nor declared"),
            ErrorKind::WrongKind(kind) => write!(f, "a variable of kind {kind} was wanted, and this is of another"),
            ErrorKind::DigitsWanted => f.write_str("digits were wanted"),
            ErrorKind::TooLarge => write!(f, "this number is above {}", u64::MAX),
            ErrorKind::NonterminalWanted(number) => write!(f, "nonterminal {number} of the book was wanted"),
            ErrorKind::DeclaredNameWanted => f.write_str("a declared name was wanted"),
            ErrorKind::MoreWanted(number) => write!(f, "nonterminal {number} of the book wanted more"),
            ErrorKind::Unknown { kind, argument } => write!(f, "an error of kind {kind}, argument {argument}"),
        }
    }
}

impl fmt::Display for Error {
    fn fmt(&self, f: &mut fmt::Formatter<'_>) -> fmt::Result {
        write!(f, "at place {} of the text: {}", self.place, self.kind)
    }
}

impl std::error::Error for Error {}

/// The furthest of some errors; of those at its place the one of the least kind, then of the least argument. None of
/// none.
///
/// In whatever order and grouping errors are joined, it is the same one.
///
/// ```
/// use midgebillon::{furthest, Error, ErrorKind};
///
/// let wanted = Error { place: 5, kind: ErrorKind::DigitsWanted };
/// let nearer = Error { place: 2, kind: ErrorKind::TextEnded };
/// assert_eq!(furthest(&[nearer, wanted]), Some(wanted));
/// assert_eq!(furthest(&[]), None);
/// ```
pub fn furthest(errors: &[Error]) -> Option<Error> {
    let numbers: Vec<_> = errors.iter().map(|e| [e.place, e.kind.number(), e.kind.argument()]).collect();
    let [place, kind, argument] = library::furthest(&numbers)?;
    Some(Error { place, kind: ErrorKind::of(kind, argument) })
}

#[cfg(test)]
mod tests {
    use super::*;

    #[test]
    fn numbers_come_back() {
        for kind in 0..15 {
            for argument in [0, 1, 31, 32, 33, 41, 0xD800, u32::MAX] {
                let made = ErrorKind::of(kind, argument);
                assert_eq!((made.number(), made.argument()), (kind, argument));
            }
        }
        // a code that is no character's
        assert_eq!(ErrorKind::of(1, 0xD800), ErrorKind::Unknown { kind: 1, argument: 0xD800 });
        assert_eq!(ErrorKind::of(13, 2).to_string(), "an error of kind 13, argument 2");
        assert_eq!(ErrorKind::of(11, 31), ErrorKind::NonterminalWanted(31));
        assert_eq!(ErrorKind::of(11, 32).to_string(), "a declared name was wanted");
    }
}
