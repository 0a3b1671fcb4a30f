//! What holds of every reading, whatever its book and text.

use midgebillon::{read, Parse, Reading, Refusal, Tree};
use std::fmt::{self, Write};

// Lines up to this length are compared.
const MOST: usize = 1 << 16;

/// Reads, and holds the reading to what must be true of each.
pub fn held<'a>(book: &'a [u8], text: &'a [u8], start: u32, allowance: u32) -> Reading<'a> {
    let reading = read(book, text, start, allowance).unwrap();
    hold_in_memory(&reading, book, text, start, allowance);
    hold_line(&reading);
    hold_parses(&reading);
    for parse in reading.parses() {
        hold_tree(parse.value);
    }
    reading
}

// In memory that earlier calls have used, the reading is the same.
fn hold_in_memory(reading: &Reading<'_>, book: &[u8], text: &[u8], start: u32, allowance: u32) {
    thread_local! {
        static MEMORY: std::cell::RefCell<midgebillon::Memory> = Default::default();
    }
    let again = MEMORY.with_borrow_mut(|memory| memory.read(book, text, start, allowance)).unwrap();
    assert_eq!((again.answer(), again.cells()), (reading.answer(), reading.cells()));
    assert!(again.parses().eq(reading.parses()));
}

// A writer that has room for a line.
struct Room(String);

impl Write for Room {
    fn write_str(&mut self, part: &str) -> fmt::Result {
        self.0.push_str(part);
        if self.0.len() <= MOST {
            Ok(())
        } else {
            Err(fmt::Error)
        }
    }
}

fn written(tree: Tree<'_>) -> Option<String> {
    let mut room = Room(String::new());
    writeln!(room, "value {tree}").is_ok().then_some(room.0)
}

// The library's line has what the crate tells.
fn hold_line(reading: &Reading<'_>) {
    let line = reading.line(MOST).unwrap().map(|line| String::from_utf8(line).unwrap());
    match reading.value() {
        Ok(tree) => assert_eq!(line, written(tree)),
        Err(refusal) => hold_refusal(reading, refusal, &line.unwrap()),
    }
}

fn hold_refusal(reading: &Reading<'_>, refusal: Refusal, line: &str) {
    let [number, place, kind, argument, ..] = reading.answer();
    assert_eq!(refusal.number(), number);
    assert!(line.starts_with(&format!("refused {number} place {place} kind {kind} argument {argument} line ")));
    assert!(!matches!(refusal, Refusal::Unknown { .. }));
    if let Refusal::NoParse(error) = refusal {
        assert_eq!((error.place, error.kind.number(), error.kind.argument()), (place, kind, argument));
    }
    assert!(!refusal.to_string().is_empty());
}

// The parses that `is_whole` names make the answer.
fn hold_parses(reading: &Reading<'_>) {
    let parses: Vec<Parse<'_>> = reading.parses().collect();
    assert_eq!(parses.len(), reading.answer()[5] as usize);
    let mut values: Vec<Tree<'_>> = Vec::new();
    for parse in parses.iter().filter(|parse| reading.is_whole(parse)) {
        if !values.contains(&parse.value) {
            values.push(parse.value);
        }
    }
    match reading.value() {
        Ok(value) => assert_eq!(values, [value]),
        Err(Refusal::NoneWhole) => assert!(!parses.is_empty() && values.is_empty()),
        Err(Refusal::DifferentValues) => assert!(values.len() > 1),
        Err(_) => assert!(parses.is_empty()),
    }
}

// Items are the same in each way to get them. Goes along one path alone, since a tree can have too many nodes.
fn hold_tree(mut tree: Tree<'_>) {
    while let Tree::Variant { items, .. } | Tree::List(items) = tree {
        let all: Vec<Tree<'_>> = items.iter().collect();
        assert_eq!((all.len(), all.is_empty()), (items.len(), items.is_empty()));
        assert!((0..all.len()).all(|i| items.get(i) == Some(all[i])));
        assert_eq!(items.get(all.len()), None);
        assert!(items.into_iter().rev().eq(all.iter().rev().copied()));
        let Some(&last) = all.last() else { return };
        tree = last;
    }
}
