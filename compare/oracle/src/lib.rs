//! The Rust as the oracle: a book as a grammar of the unchanged sources, and their answer to a text.
pub mod answer;
mod binder;
pub mod book;
mod grammar;
mod rust;
pub mod start_up;
mod term;
pub mod value;

pub use rust::{answer, Prepared};
