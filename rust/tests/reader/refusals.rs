//! Each refusal and each kind of error, by an input that meets it.

use crate::held::held;
use crate::inputs::{bytes, much_stack, number_and, BLEND, EXAMPLE};
use midgebillon::{furthest, Error, ErrorKind, Refusal, MOST_WORK};

// The refusal of a text, which says this.
fn refused(book: &[u8], text: &[u8], says: &str) -> Refusal {
    let refusal = held(book, text, 0, MOST_WORK).value().unwrap_err();
    assert_eq!(refusal.to_string(), says);
    refusal
}

// The example book with another byte at a place.
fn with(place: usize, byte: u8) -> Vec<u8> {
    let mut book = EXAMPLE.to_vec();
    book[place] = byte;
    book
}

#[test]
fn of_the_call() {
    for allowance in [0, MOST_WORK + 1, u32::MAX] {
        let refusal = held(EXAMPLE, b"1", 0, allowance).value().unwrap_err();
        assert_eq!((refusal, refusal.number()), (Refusal::BadAllowance, 2));
        assert_eq!(refusal.to_string(), "the allowance must be from 1 to 1,000,000");
    }
    for start in [1, u32::MAX] {
        let refusal = held(EXAMPLE, b"1", start, MOST_WORK).value().unwrap_err();
        assert_eq!((refusal, refusal.number()), (Refusal::UnknownStart, 9));
        assert_eq!(refusal.to_string(), "the start isn't a nonterminal of the book");
    }
}

#[test]
fn of_the_book() {
    let early = refused(&EXAMPLE[..20], b"1", "the book ends too early, at place 20");
    assert_eq!((early, early.number()), (Refusal::BookEndsEarly { place: 20 }, 3));
    let says = "at place 5 of the book: a count is outside its limits, or isn't the sum that it must be";
    let count = refused(&with(5, 5), b"1", says);
    assert_eq!((count, count.number()), (Refusal::BadCount { place: 5 }, 4));
    let says = "at place 2 of the book: a spelling must be an identifier of 1 to 15 bytes";
    let spelling = refused(&bytes("01 00 01 39 00 01 00 00 00 00"), b"1", says);
    assert_eq!((spelling, spelling.number()), (Refusal::BadSpelling { place: 2 }, 5));
    let field = refused(&with(7, 4), b"1", "at place 7 of the book: this byte is out of range");
    assert_eq!((field, field.number()), (Refusal::BadField { place: 7 }, 6));
    let says = "at place 10 of the book: a passing variant must be one step of kind 8";
    let passing = refused(&with(12, 3), b"1", says);
    assert_eq!((passing, passing.number()), (Refusal::BadPassing { place: 10 }, 7));
    let left_over = [EXAMPLE, b"\0"].concat();
    let left_over = refused(&left_over, b"1", "from place 63 of the book on: bytes are left over");
    assert_eq!((left_over, left_over.number()), (Refusal::BytesLeftOver { place: 63 }, 8));
}

#[test]
fn of_the_text() {
    let long = refused(EXAMPLE, &[b' '; 4097], "the text has more than 4,096 bytes");
    assert_eq!((long, long.number()), (Refusal::LongText, 10));
    let high = refused(EXAMPLE, "1-é".as_bytes(), "at place 2 of the text: this byte is 128 or more");
    assert_eq!((high, high.number()), (Refusal::HighByte { place: 2 }, 11));
    let none_whole = refused(EXAMPLE, b"1-", "the text is read from its beginning, but not up to its end");
    assert_eq!((none_whole, none_whole.number()), (Refusal::NoneWhole, 31));
    // with minus Both, `1-2-3` is `(1-2)-3` and `1-(2-3)`
    let says = "the book reads the text in several ways, with different values";
    let different = refused(&with(11, 3), b"1-2-3", says);
    assert_eq!((different, different.number()), (Refusal::DifferentValues, 32));
}

#[test]
fn of_the_limits() {
    let otherwise = "write it with fewer brackets around brackets, or as shorter rows";
    let brackets = [b"(".repeat(15), b"1".to_vec(), b")".repeat(15)].concat();
    let says = format!("the text takes more units of work than the allowance: {otherwise}");
    let unit = refused(EXAMPLE, &brackets, &says);
    assert_eq!((unit, unit.number()), (Refusal::NoUnit, 20));
    let deep = refused(EXAMPLE, &[b'('; 200], &format!("the text nests beyond 200 levels: {otherwise}"));
    assert_eq!((deep, deep.number()), (Refusal::TooDeep, 21));
    let row = [b"1-".repeat(64), b"1".to_vec()].concat();
    let says = format!("a nonterminal has more than 64 parses from one place of the text: {otherwise}");
    let parses = refused(EXAMPLE, &row, &says);
    assert_eq!((parses, parses.number()), (Refusal::TooManyParses, 22));
    // docs/BOOK.md, "Limits of a rule", book 4
    let book = bytes(
        "00 00 02 00 01 00 02 03 FF 03 01 03 FF 03 01 03 FF 03 01 01 07 00 5B 00 00 08 01 00 00 00 5D 00 00 03 00 00 00
         00 2C 00 00 08 01 00 00 03 00 00 00",
    );
    let numbers: Vec<_> = (0..63).map(|n| n.to_string()).collect();
    let says = format!("the text takes more than 4,096 cells: {otherwise}");
    let cells = refused(&book, format!("[{}]", numbers.join(",")).as_bytes(), &says);
    assert_eq!((cells, cells.number()), (Refusal::TooManyCells, 23));
}

// A text whose names are declared so: an opening within another.
fn declaring(outer: usize, inner: usize) -> String {
    let names = |count| vec!["share s"; count].join(",");
    format!("[{}] ([{}] 1)", names(outer), names(inner))
}

#[test]
fn of_declared_names() {
    let says = "a part of the text has more than 64 declared names around it: declare fewer names at once";
    for (outer, inner) in [(65, 0), (0, 65), (40, 25), (64, 1)] {
        let names = refused(BLEND, declaring(outer, inner).as_bytes(), says);
        assert_eq!((names, names.number()), (Refusal::TooManyNames, 41));
    }
    for (outer, inner) in [(64, 0), (40, 24), (0, 64)] {
        assert!(held(BLEND, declaring(outer, inner).as_bytes(), 0, MOST_WORK).value().is_ok());
    }
}

// Each byte that a binder's book fixes.
#[test]
fn of_a_binder() {
    for (place, byte) in [(24, 0), (24, 2), (28, 1), (29, 0), (30, 3), (31, 2), (49, 8), (50, 2), (51, 32), (52, 127)] {
        let mut book = BLEND.to_vec();
        book[place] = byte;
        let field = refused(&book, b"1", &format!("at place {place} of the book: this byte is out of range"));
        assert_eq!(field, Refusal::BadField { place: place as u32 });
    }
    // kind 14 elsewhere, and a mark that there isn't
    assert!(matches!(refused(&with(23, 14), b"1", "at place 23 of the book: this byte is out of range").number(), 6));
    assert!(matches!(refused(&with(3, 4), b"1", "at place 3 of the book: this byte is out of range").number(), 6));
}

// More than 2,600 KiB, up to the deepest level that there is.
#[test]
fn of_much_stack() {
    let refusal = held(&much_stack(), b"((((((x", 0, MOST_WORK).value().unwrap_err();
    assert_eq!(refusal, Refusal::TooDeep);
}

// The error of a text by a book of a number and then this step.
fn error(step: [u8; 4], text: &str, place: u32, kind: ErrorKind, says: &str) -> u32 {
    let says = format!("at place {place} of the text: {says}");
    let refusal = refused(&number_and(step), text.as_bytes(), &says);
    assert_eq!((refusal, refusal.number()), (Refusal::NoParse(Error { place, kind }), 30));
    kind.number()
}

#[test]
fn errors() {
    use ErrorKind::*;
    let ended = "the text ended where an identifier, a number or a variable was wanted";
    let large = "this number is above 18446744073709551615";
    let unknown = "this name is neither one of the book's starting names nor declared";
    let numbers = [
        error([0, b';', 0, 0], "1 x", 2, CharacterWanted(';'), "the character `;` was wanted"),
        error([1, 0, 0, 0], "1 x", 2, WordWanted(0), "word 0 of the book was wanted"),
        error([2, 0, 0, 0], "1 +", 2, IdentifierWanted, "an identifier was wanted"),
        error([2, 0, 0, 0], "1", 1, TextEnded, ended),
        error([6, 0, 0, 0], "1 x", 2, VariableFound, "a variable was found where none may stand"),
        error([2, 0, 0, 0], "1 if", 2, ReservedFound, "a reserved word was found"),
        error([4, 0, 0, 0], "1 y", 2, UnknownName, unknown),
        error([5, 3, 0, 0], "1 x", 2, WrongKind(3), "a variable of kind 3 was wanted, and this is of another"),
        error([3, 0, 0, 0], "1 x", 2, DigitsWanted, "digits were wanted"),
        error([3, 0, 0, 0], "1 18446744073709551616", 2, TooLarge, large),
        error([3, 0, 0, 0], "", 0, NonterminalWanted(0), "nonterminal 0 of the book was wanted"),
        error([12, 0, b'(', b')'], "1 (", 3, MoreWanted(0), "nonterminal 0 of the book wanted more"),
    ];
    assert_eq!(numbers.to_vec(), (1..=12).collect::<Vec<_>>());
}

#[test]
fn errors_of_declared_names() {
    use ErrorKind::*;
    let cases = [
        ("[a] 1", 1, MoreWanted(0)),
        ("[,] 1", 1, MoreWanted(0)),
        ("[share", 6, TextEnded),
        ("[share 7] 1", 7, IdentifierWanted),
        ("[share a price b] 1", 9, CharacterWanted(']')),
        ("[share a]", 9, NonterminalWanted(1)),
    ];
    for (text, place, kind) in cases {
        let refusal = held(BLEND, text.as_bytes(), 0, MOST_WORK).value().unwrap_err();
        assert_eq!(refusal, Refusal::NoParse(Error { place, kind }), "{text}");
    }
}

#[test]
fn furthest_error() {
    let error = |place, kind| Error { place, kind };
    let errors = [
        error(2, ErrorKind::DigitsWanted),
        error(5, ErrorKind::WrongKind(1)),
        error(5, ErrorKind::WordWanted(7)),
        error(5, ErrorKind::WordWanted(6)),
        error(4, ErrorKind::CharacterWanted('é')),
        error(5, ErrorKind::DeclaredNameWanted),
    ];
    assert_eq!(furthest(&errors), Some(errors[3]));
    let (first, second) = errors.split_at(2);
    let halves = [furthest(second).unwrap(), furthest(first).unwrap()];
    assert_eq!(furthest(&halves), furthest(&errors));
    for error in errors {
        assert_eq!(furthest(&[error]), Some(error));
    }
    assert_eq!(furthest(&[]), None);
}
