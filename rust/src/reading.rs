//! A text read by a book.

use crate::cells::Cells;
use crate::library::{self, Lists, ANSWER};
use crate::refusal::Refusal;
use crate::tree::Tree;
use std::{fmt, io};

/// How an operator is read beside others of its own level.
#[derive(Clone, Copy, Debug, PartialEq, Eq, Hash)]
pub enum Associativity {
    /// `1-2-3` is `(1-2)-3`.
    Left,
    /// `1-2-3` is `1-(2-3)`.
    Right,
    /// `1-2-3` is neither.
    None,
    /// `1-2-3` is either. Variants that are no operators have it, too.
    Both,
}

impl Associativity {
    fn of(number: u32) -> Associativity {
        match number {
            0 => Associativity::Left,
            1 => Associativity::Right,
            2 => Associativity::None,
            // 3; the library gives no other
            _ => Associativity::Both,
        }
    }
}

/// One way to read the text from its beginning, up to its rest.
#[derive(Clone, Copy, Debug, PartialEq, Eq)]
pub struct Parse<'r> {
    /// Where it ends in the text, in bytes from 0.
    pub rest: u32,
    /// The level of its variant, 0 to 255.
    pub level: u32,
    /// The associativity of its variant.
    pub associativity: Associativity,
    /// Its value.
    pub value: Tree<'r>,
}

/// A text read by a book: the answer, the parses and the cells. Only a call makes one, so its numbers are an answer.
pub struct Reading<'a> {
    cells: Cells<'a>,
    parses: Vec<u32>,
    answer: [u32; ANSWER],
}

/// Reads `text` by `book` from the nonterminal number `start`, with at most `allowance` units of work, 1 to
/// [`MOST_WORK`](crate::MOST_WORK).
///
/// No book, text or number is wrong to pass: what can't be used is refused ([`Reading::value`]). The error is that of a
/// thread that can't be had. Each call has a thread of its own for its stack: it can need 4 MiB, which is more than a
/// thread of Rust's has, and must not depend on where it is called.
///
/// ```
/// use midgebillon::{read, Refusal, MOST_WORK};
///
/// let book = std::fs::read("../examples/rules.book")?;
/// let reading = read(&book, b"(1 - 2)*3", 0, MOST_WORK)?;
/// assert_eq!(reading.value()?.to_string(), "(2 (3 (1 (0 1) (0 2))) (0 3))");
///
/// // the work that a text takes is always the same
/// let again = read(&book, b"(1 - 2)*3", 0, reading.work() - 1)?;
/// assert_eq!(again.value(), Err(Refusal::NoUnit));
/// # Ok::<(), Box<dyn std::error::Error>>(())
/// ```
pub fn read<'a>(book: &'a [u8], text: &'a [u8], start: u32, allowance: u32) -> io::Result<Reading<'a>> {
    let mut lists = Lists::new();
    library::read(book, text, start, allowance, &mut lists)?;
    Ok(Reading::of(book, text, lists))
}

impl<'a> Reading<'a> {
    /// The reading that a call of this book and this text gave.
    pub(crate) fn of(book: &'a [u8], text: &'a [u8], lists: Lists) -> Reading<'a> {
        let Lists { cells, parses, answer } = lists;
        Reading { cells: Cells { book, text, numbers: cells }, parses, answer }
    }

    /// The text's value, or why it has none.
    ///
    /// It has one if some parse is whole and all whole parses have the same value.
    pub fn value(&self) -> Result<Tree<'_>, Refusal> {
        match Refusal::of(&self.answer) {
            None => Ok(Tree::at(&self.cells, self.answer[6])),
            Some(refusal) => Err(refusal),
        }
    }

    /// The parses, in the order in which they were found. There are some with a value, and where none is whole or whole
    /// ones have different values ([`Refusal::NoneWhole`], [`Refusal::DifferentValues`]); else none.
    ///
    /// ```
    /// use midgebillon::{read, Refusal, MOST_WORK};
    ///
    /// let book = std::fs::read("../examples/rules.book")?;
    /// let reading = read(&book, b"1 2", 0, MOST_WORK)?;
    /// assert_eq!(reading.value(), Err(Refusal::NoneWhole));
    /// // the greatest rest says how far the text is read
    /// assert_eq!(reading.parses().map(|parse| parse.rest).max(), Some(1));
    /// # Ok::<(), std::io::Error>(())
    /// ```
    pub fn parses(&self) -> impl ExactSizeIterator<Item = Parse<'_>> + '_ {
        let count = self.answer[5] as usize;
        self.parses.chunks_exact(4).take(count).map(|numbers| Parse {
            rest: numbers[0],
            level: numbers[1],
            associativity: Associativity::of(numbers[2]),
            value: Tree::at(&self.cells, numbers[3]),
        })
    }

    /// Whether a parse of this reading reaches the end of the text: nothing follows its rest but whitespace (bytes 9 to
    /// 13 and 32) and comments (`//` to the line feed or the end).
    pub fn is_whole(&self, parse: &Parse<'_>) -> bool {
        self.cells.text.get(parse.rest as usize..).is_some_and(is_skipped)
    }

    /// The units of work that the run took; the allowance where that was not enough ([`Refusal::NoUnit`]), and 0 where
    /// the book, the text or the call is refused before a run.
    pub fn work(&self) -> u32 {
        self.answer[4]
    }

    /// The library's line for the answer with its line feed, if it has at most `most` bytes: `value ` and the value, or
    /// `refused N place P kind K argument A line L column C`. A refusal's line has less than 128 bytes.
    ///
    /// The error is that of a thread, or of memory for the line, that can't be had.
    ///
    /// ```
    /// let book = std::fs::read("../examples/rules.book")?;
    /// let reading = midgebillon::read(&book, b"(1", 0, midgebillon::MOST_WORK)?;
    /// let line = reading.line(128)?.unwrap_or_default();
    /// assert_eq!(line, b"refused 30 place 2 kind 1 argument 41 line 1 column 3\n");
    /// # Ok::<(), std::io::Error>(())
    /// ```
    pub fn line(&self, most: usize) -> io::Result<Option<Vec<u8>>> {
        let Cells { book, text, numbers } = &self.cells;
        library::line(book, text, numbers, &self.answer, most)
    }

    /// The seven numbers of the answer, as the library gives them: refusal, place, kind, argument, work, how many
    /// parses, value cell.
    pub fn answer(&self) -> [u32; ANSWER] {
        self.answer
    }

    /// The 12,288 numbers of the cells, as the library gives them; docs/READING.md has what they say.
    pub fn cells(&self) -> &[u32] {
        &self.cells.numbers
    }
}

/// Shows the answer and not the lists.
impl fmt::Debug for Reading<'_> {
    fn fmt(&self, f: &mut fmt::Formatter<'_>) -> fmt::Result {
        f.debug_struct("Reading").field("answer", &self.answer).finish_non_exhaustive()
    }
}

// Whether bytes are whitespace and comments alone.
fn is_skipped(mut rest: &[u8]) -> bool {
    loop {
        rest = match rest {
            [] => return true,
            [9..=13 | 32, rest @ ..] => rest,
            [b'/', b'/', comment @ ..] => behind_line_feed(comment),
            _ => return false,
        }
    }
}

fn behind_line_feed(bytes: &[u8]) -> &[u8] {
    let end = bytes.iter().position(|&byte| byte == b'\n');
    end.map_or(&[], |end| &bytes[end + 1..])
}

#[cfg(test)]
mod tests {
    use super::is_skipped;

    #[test]
    fn skipped() {
        for rest in ["", " ", "\t\n\x0B\x0C\r ", "//", "// 1", "//\n", " // 1\n\t// 2", "///", "// é"] {
            assert!(is_skipped(rest.as_bytes()), "{rest:?}");
        }
        for rest in ["1", "/", "/ /", " /\n/", "// 1\n2", "//\n/", "\x08", "\x0E", "\0", "\u{A0}"] {
            assert!(!is_skipped(rest.as_bytes()), "{rest:?}");
        }
    }
}
