//! The library's functions, and all unsafe code of the crate.
//!
//! include/midgebillon.h tells what a caller owes. The types pay it: a slice's pointer is never null, and a `&mut`
//! overlaps nothing else. What types can't say is the stack that a call needs, more than a thread of Rust's has: so
//! each call but `furthest` is made in a thread of its own.

use std::panic::resume_unwind;
use std::{io, thread};

/// The numbers of 4,096 cells, three each.
pub const CELLS: usize = 12_288;
/// The numbers of 64 parses, four each.
pub const PARSES: usize = 256;
/// The numbers of an answer.
pub const ANSWER: usize = 7;
/// The numbers of an error.
pub const ERROR: usize = 3;

/// The numbers of the working memory that a call can be lent, list by list.
pub const INDEX: usize = 1_091;
pub const STORE: usize = 17_408;
pub const ROWS: usize = 105_525;

/// The greatest allowance: the units of work that a call may take.
pub const MOST_WORK: u32 = 1_000_000;

// Twice what a call can need. The system gives the memory only as it is used.
const STACK: usize = 8 << 20;

// The room that a line is first given. A refusal's line always fits in it.
const FIRST_ROOM: usize = 256;

// A slice is a pointer and a number of elements.
extern "C" {
    fn midgebillon_read(
        book: *const u8,
        book_length: usize,
        text: *const u8,
        text_length: usize,
        start: u32,
        allowance: u32,
        cells: *mut u32,
        cells_length: usize,
        parses: *mut u32,
        parses_length: usize,
        answer: *mut u32,
        answer_length: usize,
    );

    fn midgebillon_read_in(
        book: *const u8,
        book_length: usize,
        text: *const u8,
        text_length: usize,
        start: u32,
        allowance: u32,
        cells: *mut u32,
        cells_length: usize,
        parses: *mut u32,
        parses_length: usize,
        index: *mut usize,
        index_length: usize,
        store: *mut u32,
        store_length: usize,
        rows: *mut u32,
        rows_length: usize,
        answer: *mut u32,
        answer_length: usize,
    );

    fn midgebillon_print(
        book: *const u8,
        book_length: usize,
        text: *const u8,
        text_length: usize,
        cells: *const u32,
        cells_length: usize,
        answer: *const u32,
        answer_length: usize,
        out: *mut u8,
        out_length: usize,
    ) -> usize;

    fn midgebillon_furthest(errors: *const u32, errors_length: usize, out: *mut u32, out_length: usize) -> u32;
}

/// Makes a call where there is enough stack for it. The error is that of a thread that can't be had.
fn with_stack<T: Send>(call: impl FnOnce() -> T + Send) -> io::Result<T> {
    thread::scope(|scope| {
        let thread = thread::Builder::new().stack_size(STACK);
        let running = thread.spawn_scoped(scope, call)?;
        Ok(running.join().unwrap_or_else(|panic| resume_unwind(panic)))
    })
}

/// What a call fills.
pub struct Lists {
    pub cells: Vec<u32>,
    pub parses: Vec<u32>,
    pub answer: [u32; ANSWER],
}

impl Lists {
    /// Lists of the lengths that a call needs.
    pub fn new() -> Lists {
        Lists { cells: vec![0; CELLS], parses: vec![0; PARSES], answer: [0; ANSWER] }
    }
}

/// Fills the lists.
pub fn read(book: &[u8], text: &[u8], start: u32, allowance: u32, lists: &mut Lists) -> io::Result<()> {
    // SAFETY: each pointer and length are of one slice or list, those that are written are borrowed for it, and
    // `with_stack` gives the stack.
    with_stack(|| unsafe {
        midgebillon_read(
            book.as_ptr(),
            book.len(),
            text.as_ptr(),
            text.len(),
            start,
            allowance,
            lists.cells.as_mut_ptr(),
            lists.cells.len(),
            lists.parses.as_mut_ptr(),
            lists.parses.len(),
            lists.answer.as_mut_ptr(),
            lists.answer.len(),
        )
    })
}

/// Working memory that a call is lent.
pub struct Working {
    pub index: Vec<usize>,
    pub store: Vec<u32>,
    pub rows: Vec<u32>,
}

impl Working {
    /// Memory of the lengths that a call needs.
    pub fn new() -> Working {
        Working { index: vec![0; INDEX], store: vec![0; STORE], rows: vec![0; ROWS] }
    }
}

/// Fills the lists, in working memory that is lent, whatever it holds.
pub fn read_in(
    memory: &mut Working,
    book: &[u8],
    text: &[u8],
    start: u32,
    allowance: u32,
    lists: &mut Lists,
) -> io::Result<()> {
    // SAFETY: as in `read`; the working memory is borrowed for writing, too.
    with_stack(|| unsafe {
        midgebillon_read_in(
            book.as_ptr(),
            book.len(),
            text.as_ptr(),
            text.len(),
            start,
            allowance,
            lists.cells.as_mut_ptr(),
            lists.cells.len(),
            lists.parses.as_mut_ptr(),
            lists.parses.len(),
            memory.index.as_mut_ptr(),
            memory.index.len(),
            memory.store.as_mut_ptr(),
            memory.store.len(),
            memory.rows.as_mut_ptr(),
            memory.rows.len(),
            lists.answer.as_mut_ptr(),
            lists.answer.len(),
        )
    })
}

/// The line of an answer, with its line feed; none if it has more than `most` bytes, or the numbers are no answer.
pub fn line(
    book: &[u8],
    text: &[u8],
    cells: &[u32],
    answer: &[u32; ANSWER],
    most: usize,
) -> io::Result<Option<Vec<u8>>> {
    // SAFETY: `with_stack` gives the stack.
    with_stack(|| grown(most, |out| unsafe { print(book, text, cells, answer, out) }))?
}

// What `print` writes, where it gives 0 as long as the room is too small. The room grows from small on, since a value's
// line can be far longer than its text.
fn grown(most: usize, print: impl Fn(&mut [u8]) -> usize) -> io::Result<Option<Vec<u8>>> {
    let mut out = vec![0; most.min(FIRST_ROOM)];
    loop {
        let length = print(&mut out);
        if length > 0 {
            out.truncate(length);
            return Ok(Some(out));
        }
        if out.len() == most {
            return Ok(None);
        }
        let room = most.min(out.len().saturating_mul(2));
        out.try_reserve_exact(room - out.len())?;
        out.resize(room, 0);
    }
}

/// Writes the line to the front of `out` and gives its length; 0 if it doesn't fit.
///
/// # Safety
///
/// The thread has the stack that a call needs.
unsafe fn print(book: &[u8], text: &[u8], cells: &[u32], answer: &[u32; ANSWER], out: &mut [u8]) -> usize {
    // SAFETY: each pointer and length are of one slice, `out` is borrowed for writing, and the caller gives the stack.
    unsafe {
        midgebillon_print(
            book.as_ptr(),
            book.len(),
            text.as_ptr(),
            text.len(),
            cells.as_ptr(),
            cells.len(),
            answer.as_ptr(),
            answer.len(),
            out.as_mut_ptr(),
            out.len(),
        )
    }
}

/// The furthest of some errors, three numbers each; none of none.
pub fn furthest(errors: &[[u32; ERROR]]) -> Option<[u32; ERROR]> {
    let numbers = errors.concat();
    let mut out = [0; ERROR];
    // SAFETY: each pointer and length are of one list, and `out` is borrowed for writing. The function takes little
    // stack.
    let none = unsafe { midgebillon_furthest(numbers.as_ptr(), numbers.len(), out.as_mut_ptr(), out.len()) };
    (none == 0).then_some(out)
}

#[cfg(test)]
mod tests {
    use super::*;
    use std::fs;
    use std::path::Path;

    // A file of the folder that the library is linked from; tools/library.py writes it beside the library.
    fn beside(path: &str) -> String {
        fs::read_to_string(Path::new(env!("MIDGEBILLON_LINKED")).join(path)).unwrap()
    }

    #[test]
    fn numbers_are_the_headers() {
        let header = beside("../include/midgebillon.h");
        assert!(header.contains(concat!("MIDGEBILLON_VERSION \"", env!("CARGO_PKG_VERSION"), "\"")));
        let defined = |name, number| header.contains(&format!("MIDGEBILLON_{name} = {number}"));
        assert!(defined("CELLS", CELLS) && defined("PARSES", PARSES) && defined("ANSWER", ANSWER));
        assert!(defined("ERROR", ERROR) && defined("ALLOWANCE", MOST_WORK as usize));
        assert!(defined("INDEX", INDEX) && defined("STORE", STORE) && defined("ROWS", ROWS));
    }

    #[test]
    fn what_is_not_proved_says_so() {
        assert_eq!(crate::NOT_PROVED, beside("pkgconfig/midgebillon.pc").contains("not proved"));
    }

    #[test]
    fn no_answer_has_no_line() {
        assert_eq!(line(b"", b"", &[], &[99, 0, 0, 0, 0, 0, 0], 1 << 12).unwrap(), None);
    }
}
