//! Lines, and the room that they need.

use crate::held::held;
use crate::inputs::{doubling, EXAMPLE};
use midgebillon::{read, MOST_WORK};

fn line(text: &[u8], most: usize) -> Option<Vec<u8>> {
    held(EXAMPLE, text, 0, MOST_WORK).line(most).unwrap()
}

#[test]
fn of_refusals() {
    assert_eq!(line(b"(1", 128).unwrap(), b"refused 30 place 2 kind 1 argument 41 line 1 column 3\n");
    // a tab moves the column to the next of 9, 17, 25 and so on
    assert_eq!(line(b"\t(1", 128).unwrap(), b"refused 30 place 3 kind 1 argument 41 line 1 column 11\n");
    assert_eq!(line(b"(1\n\t(", 128).unwrap(), b"refused 30 place 4 kind 1 argument 41 line 2 column 9\n");
}

#[test]
fn room() {
    for operands in [1, 2, 40, 41, 64] {
        let text = [b"1-".repeat(operands - 1), b"1".to_vec()].concat();
        let whole = line(&text, 1 << 12).unwrap();
        let value = format!("value {}(0 1){}\n", "(1 ".repeat(operands - 1), " (0 1))".repeat(operands - 1));
        assert_eq!(whole, value.as_bytes());
        assert_eq!(line(&text, whole.len()).unwrap(), whole);
        assert_eq!(line(&text, whole.len() - 1), None);
        assert_eq!(line(&text, 0), None);
    }
}

#[test]
fn too_long() {
    let book = doubling(17);
    let reading = read(&book, b"", 0, MOST_WORK).unwrap();
    assert_eq!(reading.line(1 << 20).unwrap(), None);
    assert!(reading.line(usize::MAX).unwrap().is_some_and(|line| line.len() > 1 << 20));
}
