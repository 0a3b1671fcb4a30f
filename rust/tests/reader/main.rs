//! The crate from outside: each refusal and error, each form of a tree, lines, and what holds of every reading.

mod held;
mod inputs;
mod lines;
mod random;
mod refusals;
mod trees;
mod vectors;
