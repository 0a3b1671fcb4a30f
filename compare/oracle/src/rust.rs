//! The Rust's answer to a book and a text.
use crate::answer::{Answer, Parse};
use crate::binder;
use crate::book::Book;
use crate::grammar::{self, with_nonterminal, Books, Nonterminal};
use crate::value::Value;
use formality_core::parse::{core_term_with, CoreParse, Scope, SuccessfulParse};
use formality_core::variable::CoreVariable;
use std::panic::{catch_unwind, AssertUnwindSafe};
use std::rc::Rc;

/// The set of parses and the furthest place from the start's `parse`; the refusal and the value from `core_term_with`.
pub fn answer(book: &Rc<Book>, text: &str, start: u32) -> Answer {
    grammar::set_book(book);
    let (place, parses) = with_nonterminal!(start, N => parses::<N>(book, text));
    let (refusal, value) = with_nonterminal!(start, N => whole::<N>(book, text));
    assert_eq!(refusal == 30, parses.is_empty());
    match value {
        Whole::Value(value) => Answer { refusal, place, parses, value: value.printed(book) },
        Whole::Place(said) => {
            assert_eq!(place, said, "`core_term_with` tells the furthest error's place");
            Answer { refusal, place, parses, value: String::new() }
        }
        Whole::Nothing => Answer { refusal, place, parses, value: String::new() },
    }
}

fn parses<const N: usize>(book: &Book, text: &str) -> (u32, Vec<Parse>) {
    let scope = Scope::new(grammar::bindings(book));
    let place = |rest: &str| (text.len() - rest.len()) as u32;
    assert!(binder::agree::<N>(book, &scope, text), "the body of `CoreBinder::parse` does what that does");
    match Nonterminal::<N>::parse(&scope, text) {
        Ok(parses) => {
            let parse = |p: SuccessfulParse<'_, Nonterminal<N>>| {
                let precedence = p.precedence();
                let (tree, rest) = p.finish();
                Parse {
                    rest: place(rest),
                    level: grammar::level(precedence),
                    associativity: precedence.associativity(),
                    value: tree.0.value().exact(),
                }
            };
            (0, parses.into_iter().map(parse).collect())
        }
        Err(errors) => (errors.iter().map(|e| place(e.text)).max().expect("an error"), vec![]),
    }
}

enum Whole {
    Value(Value),
    Place(u32),
    Nothing,
}

/// The refusal of document 01 for what `core_term_with` does: it gives a value, fails with the furthest error, fails because no parse is whole,
/// or panics because the values differ.
fn whole<const N: usize>(book: &Book, text: &str) -> (u32, Whole) {
    let done = catch_unwind(AssertUnwindSafe(|| core_term_with::<Books, Nonterminal<N>, _>(grammar::bindings(book), text)));
    match done {
        Ok(Ok(tree)) => (0, Whole::Value(tree.0.value())),
        Ok(Err(error)) if error.0.starts_with("extra tokens after parsing") => (31, Whole::Nothing),
        Ok(Err(error)) => (30, Whole::Place(said_place(&error.0))),
        Err(panic) => {
            let message = panic.downcast_ref::<String>().map_or("", |m| m);
            if !message.starts_with("ambiguous parse of") {
                std::panic::resume_unwind(panic);
            }
            (32, Whole::Nothing)
        }
    }
}

/// The place in a report of the stand-in for miette, `place N: message`.
fn said_place(report: &str) -> u32 {
    let place = report.strip_prefix("place ").and_then(|rest| rest.split(':').next());
    place.and_then(|place| place.parse().ok()).expect("a report begins with its place")
}

/// A book made ready, so that a benchmark times the reading of texts alone.
pub struct Prepared {
    bindings: Vec<(String, CoreVariable<Books>)>,
}

impl Prepared {
    pub fn new(book: &Rc<Book>) -> Prepared {
        grammar::set_book(book);
        Prepared { bindings: grammar::bindings(book) }
    }

    /// Whether `core_term_with` gives a value for a text, from nonterminal 0.
    pub fn reads(&self, text: &str) -> bool {
        core_term_with::<Books, Nonterminal<0>, _>(self.bindings.clone(), text).is_ok()
    }
}
