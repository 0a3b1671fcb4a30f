//! The margin rule reader, for Rust: reads a rule's text by a rule book, and gives its value as a tree.
//!
//! ```
//! // numbers, minus, times that binds tighter, and parentheses
//! let book = std::fs::read("../examples/rules.book")?;
//! let reading = midgebillon::read(&book, b"1 - 2*3 // a comment", 0, midgebillon::MOST_WORK)?;
//! // variant 1 (minus) of variant 0 (a number) and variant 2 (times)
//! assert_eq!(reading.value()?.to_string(), "(1 (0 1) (2 (0 2) (0 3)))");
//! # Ok::<(), Box<dyn std::error::Error>>(())
//! ```
//!
//! [`read`] makes a [`Reading`]. Its value is a [`Tree`], or a [`Refusal`] tells why there is none; its parses are all
//! ways to read the text from its beginning. docs/READING.md of the repository has what an answer means and what to do
//! about a refusal, docs/BOOK.md how a book is written.
//!
//! # What is proved
//!
//! The library is: the numbers of the answer, the lists and the line are those of the specification, for every book and
//! text. This crate is a thin layer over it that is tested and not proved. What it adds: names for the numbers, trees
//! over the cells with their `Display` and equality, and [`Reading::is_whole`]. [`Reading::answer`], [`Reading::cells`]
//! and [`Reading::line`] hand on what the library gives. All unsafe code is the calls of the library.
//!
//! # Stack
//!
//! A call of the library can need 4 MiB of stack. So [`read`] and [`Reading::line`] make it in a thread of their own,
//! of 8 MiB, whatever the thread that they are called in has.
#![deny(missing_docs, unsafe_code)]

mod cells;
mod error;
#[allow(unsafe_code)]
mod library;
mod memory;
mod reading;
mod refusal;
mod tree;

pub use error::{furthest, Error, ErrorKind};
pub use library::MOST_WORK;
pub use memory::Memory;
pub use reading::{read, Associativity, Parse, Reading};
pub use refusal::Refusal;
pub use tree::{Items, ItemsIter, Tree};

/// Whether the library that is linked says of itself that it was compiled without its proofs: such a one, which
/// `python3 tools/library.py --quick` writes, has the symbol `midgebillon_not_proved`.
///
/// That it is false says no more than that the symbol is missing: a library is proved by the command that proves it.
pub const NOT_PROVED: bool = cfg!(midgebillon_not_proved);
