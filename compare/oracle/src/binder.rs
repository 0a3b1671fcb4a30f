//! A nonterminal of mark 3 as a binder of the Rust. Document 02 d.
use crate::book::{Book, BINDER};
use crate::grammar::{self, mapped, Books, Nonterminal};
use crate::term::{Binder, Term};
use formality_core::binder::CoreBinder;
use formality_core::cast_impl;
use formality_core::fold::{CoreFold, SubstitutionFn};
use formality_core::language::Language;
use formality_core::parse::{skip_whitespace, Binding, CoreParse, ParseError, ParseResult, Parser, Scope};
use formality_core::term::CoreTerm;
use formality_core::Set;
use std::collections::BTreeSet;
use std::sync::Arc;

/// What the Rust reads for nonterminal N.
pub type Bound<const N: usize> = CoreBinder<Books, Body<N>>;

pub fn parse<'t, const N: usize>(book: &Book, scope: &Scope<Books>, text: &'t str) -> ParseResult<'t, Nonterminal<N>> {
    let [_, _, open, close] = book.nonterminals[N].variants[0].steps[0].map(char::from);
    let parses = if (open, close) == (Books::BINDING_OPEN, Books::BINDING_CLOSE) {
        Bound::<N>::parse(scope, text)
    } else {
        parse_between(open, close, scope, text)
    };
    let number = book.first_variant(N) as u32;
    // an opening that is there must be taken
    let is_opened = skip_whitespace(text).starts_with(open);
    mapped(parses, |bound: Bound<N>| Nonterminal(Term::Binder(Arc::new(Binder { number, is_opened, bound: bound.into() }))))
}

/// The body of the Rust's `CoreBinder::parse`, with a book's characters for the language's.
pub fn parse_between<'t, const N: usize>(open: char, close: char, scope: &Scope<Books>, text: &'t str) -> ParseResult<'t, Bound<N>> {
    Parser::single_variant(scope, text, "Binder", |p| {
        if p.expect_char(open).is_err() {
            return p.each_nonterminal(|body: Body<N>, p| p.ok(CoreBinder::dummy(body)));
        }
        p.each_comma_nonterminal(|bindings: Vec<Binding<Books>>, p| {
            p.expect_char(close)?;
            let inner = scope.with_bindings(bindings.iter().map(|b| (&b.name, b.bound_var)));
            p.with_scope(inner, |p| {
                p.each_nonterminal(|body: Body<N>, p| {
                    let variables: Vec<_> = bindings.iter().map(|b| b.bound_var).collect();
                    p.ok(CoreBinder::new(variables, body))
                })
            })
        })
    })
}

/// Whether the Rust's `CoreBinder::parse` and its body here give the same parses, or errors at the same places, if N is a binder with the language's
/// characters. An error's message may name a variable, which is another one in each parse.
pub fn agree<const N: usize>(book: &Book, scope: &Scope<Books>, text: &str) -> bool {
    let (open, close) = (Books::BINDING_OPEN, Books::BINDING_CLOSE);
    let nonterminal = &book.nonterminals[N];
    if nonterminal.mark != BINDER || nonterminal.variants[0].steps[0][2..] != [open as u8, close as u8] {
        return true;
    }
    let places = |errors: Set<ParseError<'_>>| errors.iter().map(|e| e.text.len()).collect::<BTreeSet<_>>();
    Bound::<N>::parse(scope, text).map_err(places) == parse_between(open, close, scope, text).map_err(places)
}

/// The body of nonterminal N. The number in the type makes the `TypeId` of each nonterminal's binder its own, whatever its body.
#[derive(Clone, Debug, PartialEq, Eq, PartialOrd, Ord, Hash)]
pub struct Body<const N: usize>(Term);

cast_impl!(impl(const N: usize) Body<N>);

impl<const N: usize> From<Body<N>> for Term {
    fn from(body: Body<N>) -> Term {
        body.0
    }
}

impl<const N: usize> CoreFold<Books> for Body<N> {
    type Output = Self;

    fn substitute(&self, substitution: SubstitutionFn<'_, Books>) -> Self {
        Body(self.0.substitute(substitution))
    }
}

/// By the body's nonterminal alone, as the Rust's `Arc<T>` is read by `T`.
impl<const N: usize> CoreParse<Books> for Body<N> {
    fn parse<'t>(scope: &Scope<Books>, text: &'t str) -> ParseResult<'t, Self> {
        let [_, body, ..] = grammar::book().nonterminals[N].variants[0].steps[0];
        mapped(grammar::parse(body, scope, text), Body)
    }
}

impl<const N: usize> CoreTerm<Books> for Body<N> {}
