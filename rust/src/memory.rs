//! Working memory that is used again.

use crate::library::{self, Lists, Working};
use crate::reading::Reading;
use std::{fmt, io};

/// Working memory for calls one after the other: half a megabyte, which [`read`](crate::read()) takes anew each time.
/// Of a short rule's call that is most of the time.
///
/// What it held makes no difference: a reading is the same as that of `read`.
///
/// ```
/// use midgebillon::{Memory, MOST_WORK};
///
/// let book = std::fs::read("../examples/rules.book")?;
/// let mut memory = Memory::new();
/// for (text, value) in [("1", "(0 1)"), ("(2)", "(3 (0 2))")] {
///     let reading = memory.read(&book, text.as_bytes(), 0, MOST_WORK)?;
///     assert_eq!(reading.value()?.to_string(), value);
/// }
/// # Ok::<(), Box<dyn std::error::Error>>(())
/// ```
pub struct Memory(Working);

impl Memory {
    /// Memory of the size that a call needs.
    pub fn new() -> Memory {
        Memory(Working::new())
    }

    /// Does as [`read`](crate::read()) does, in this memory. The reading doesn't hold on to it.
    pub fn read<'a>(&mut self, book: &'a [u8], text: &'a [u8], start: u32, allowance: u32) -> io::Result<Reading<'a>> {
        let mut lists = Lists::new();
        library::read_in(&mut self.0, book, text, start, allowance, &mut lists)?;
        Ok(Reading::of(book, text, lists))
    }
}

impl Default for Memory {
    fn default() -> Memory {
        Memory::new()
    }
}

/// Shows nothing of what it holds.
impl fmt::Debug for Memory {
    fn fmt(&self, f: &mut fmt::Formatter<'_>) -> fmt::Result {
        f.debug_struct("Memory").finish_non_exhaustive()
    }
}

#[cfg(test)]
mod tests {
    use super::*;
    use crate::library::MOST_WORK;
    use crate::reading::read;

    const BOOK: &[u8] = include_bytes!("../../examples/rules.book");

    #[test]
    fn what_it_held_makes_no_difference() {
        let mut memory = Memory::new();
        memory.0.index.fill(usize::MAX);
        memory.0.store.fill(u32::MAX);
        memory.0.rows.fill(u32::MAX);
        for text in ["1-2*3", "(1", "1-", "", "((1))-2-3-4", "1-2*3"] {
            let again = memory.read(BOOK, text.as_bytes(), 0, MOST_WORK).unwrap();
            let once = read(BOOK, text.as_bytes(), 0, MOST_WORK).unwrap();
            assert_eq!((again.answer(), again.cells()), (once.answer(), once.cells()));
            assert!(again.parses().eq(once.parses()));
        }
    }

    #[test]
    fn too_little() {
        let mut memory = Memory::new();
        memory.0.store.pop();
        assert_eq!(memory.read(BOOK, b"1", 0, MOST_WORK).unwrap().answer(), [1, 0, 0, 0, 0, 0, 0]);
    }
}
