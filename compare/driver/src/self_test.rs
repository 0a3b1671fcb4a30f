//! Whether the comparison itself works: that both sides give document 01's rows, that it finds a difference, that a case without an answer ends nothing, and that the known differences are as
//! docs/DIFFERENCES.md tells them. Each process for the Rust begins with tests of its own, `oracle::start_up`.
use crate::case::{of_hexadecimal, Case, Sides, Verdict};
use crate::fixed;
use crate::reader::MOST_WORK;
use crate::worker::Without;

pub fn run(sides: &mut Sides) {
    has_the_rows(sides);
    finds_a_difference(sides);
    outlives_an_endless_case(sides);
    reads_beyond_ascii(sides);
    reads_longer_texts(sides);
    declares_more_names(sides);
    counts_read_openings(sides);
    println!("self-test passed");
}

/// Document 01's rows and "More": both sides give what it says, or the reader its refusal.
fn has_the_rows(sides: &mut Sides) {
    for row in fixed::rows() {
        match sides.judge(&row.case) {
            Verdict::Equal(answer) => assert_eq!((answer.refusal, answer.place, answer.value.as_str()), (row.refusal, row.place, row.value)),
            Verdict::Limit(refusal) | Verdict::Refused(refusal) => assert_eq!(refusal, row.refusal),
            other => panic!("{:?}: {other:?}", row.case),
        }
    }
}

/// The reader's answer by the example book is not the Rust's by the same book with minus Right.
fn finds_a_difference(sides: &mut Sides) {
    let case = |minus| Case { book: fixed::example(minus), text: b"1-2-3".to_vec(), start: 0, allowance: MOST_WORK };
    let (Verdict::Equal(left), Verdict::Equal(right)) = (sides.judge(&case(0)), sides.judge(&case(1))) else {
        panic!("rows 1 and 9 are equal on both sides");
    };
    assert!(left != right && left.parses != right.parses && left.value != right.value);
}

/// Many of a variant without steps has no end in the Rust: its process runs out of memory, and the next case gets another.
fn outlives_an_endless_case(sides: &mut Sides) {
    let endless = of_hexadecimal("00 00 02 00 01 00 01 02 FF030101 FF030100 01 0A010000");
    assert_eq!(sides.reader.call(&endless, b"", 0, MOST_WORK), 22);
    println!("a case on which the Rust has no end, and says so:");
    assert_eq!(sides.worker.answer(&endless, b"", 0), Err(Without::ProcessEnded));
    assert_eq!(sides.worker.answer(&fixed::example(0), b"1", 0).expect("an answer").value, "(0 1)");
}

/// What docs/DIFFERENCES.md says of bytes from 128: the Rust skips a no-break space, and the reader refuses its first byte.
fn reads_beyond_ascii(sides: &mut Sides) {
    let text = "1\u{a0}".as_bytes();
    assert_eq!(sides.worker.answer(&fixed::example(0), text, 0).expect("an answer").value, "(0 1)");
    assert_eq!(sides.reader.call(&fixed::example(0), text, 0, MOST_WORK), 11);
}

/// And of texts above 4,096 bytes: the Rust has no such limit.
fn reads_longer_texts(sides: &mut Sides) {
    let text = format!("1{}", " ".repeat(4096));
    assert_eq!(sides.worker.answer(&fixed::example(0), text.as_bytes(), 0).expect("an answer").value, "(0 1)");
    assert_eq!(sides.reader.call(&fixed::example(0), text.as_bytes(), 0, MOST_WORK), 10);
}

/// And of declared names: the Rust has no limit of 64.
fn declares_more_names(sides: &mut Sides) {
    let book = of_hexadecimal("01 00 01 74 00 02 03 01 00 01 02 FF030101 FF030101 02 0E013C3E 04000000");
    let text = |names| format!("<{}>a", vec!["t a"; names].join(","));
    let value = |names| format!("(0 [{}] (1 $0.{}))", vec!["0"; names].join(" "), names - 1);
    let case = |names| Case { book: book.clone(), text: text(names).into_bytes(), start: 0, allowance: MOST_WORK };
    assert!(matches!(sides.judge(&case(64)), Verdict::Equal(answer) if answer.value == value(64)));
    assert_eq!(sides.judge(&case(65)), Verdict::Limit(41));
    assert_eq!(sides.worker.answer(&book, text(65).as_bytes(), 0).expect("an answer").value, value(65));
}

/// And of depths: a binder without its opening counts in the Rust, and is taken off its depth (`oracle::start_up` tests that), so both are equal.
fn counts_read_openings(sides: &mut Sides) {
    let book = of_hexadecimal("01 00 01 74 00 03 03 01 03 01 00 01 03 FF030101 FF030101 FF030101 03 0E013C3E 0E023C3E 04000000");
    let case = Case { book, text: b"<t a>a".to_vec(), start: 0, allowance: MOST_WORK };
    assert!(matches!(sides.judge(&case), Verdict::Equal(answer) if answer.value == "(0 [0] (1 - (2 $0.0)))"));
}
