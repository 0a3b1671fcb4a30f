//! A book as a grammar of the Rust: one type for each nonterminal number, and each step by the Rust's own method.
use crate::binder::{self, Body};
use crate::book::{self, Book, Step};
use crate::term::Term;
use formality_core::fold::{CoreFold, SubstitutionFn};
use formality_core::language::{HasKind, Language};
use formality_core::parse::{
    ActiveVariant, Binding, CoreParse, CoreParseBinding, ParseError, ParseResult, ParseSuccessType, Parser, Precedence, Scope,
};
use formality_core::term::CoreTerm;
use formality_core::variable::{CoreBoundVar, CoreExistentialVar, CoreUniversalVar, CoreVariable, VarIndex};
use formality_core::visit::CoreVisit;
use formality_core::{cast_impl, Set, UpcastFrom};
use std::cell::RefCell;
use std::rc::Rc;

pub type Variable = CoreVariable<Books>;

thread_local! {
    static BOOK: RefCell<Rc<Book>> = RefCell::default();
}

/// Makes a book the grammar of this thread, and its reserved words those of the language.
pub fn set_book(book: &Rc<Book>) {
    set_keywords(book);
    BOOK.set(book.clone());
}

/// The grammar of this thread.
pub fn book() -> Rc<Book> {
    BOOK.with_borrow(Rc::clone)
}

/// The book's starting names as the scope's bindings.
pub fn bindings(book: &Book) -> Vec<(String, Variable)> {
    let variable = |(index, name): (usize, &book::Entry)| {
        let variable = CoreUniversalVar { kind: Kind(name.label), var_index: VarIndex { index } };
        (name.spelling.clone(), CoreVariable::UniversalVar(variable))
    };
    book.names.iter().enumerate().map(variable).collect()
}

pub fn precedence(variant: &book::Variant) -> Precedence {
    let level = variant.level as usize;
    match variant.associativity {
        _ if variant.level == book::DEFAULT_LEVEL => Precedence::default(),
        book::LEFT => Precedence::left(level),
        book::RIGHT => Precedence::right(level),
        book::NONE => Precedence::none(level),
        _ => Precedence::both(level),
    }
}

/// The level's number in document 01.
pub fn level(precedence: Precedence) -> u32 {
    let default = Precedence::default().level();
    if precedence.level() == default {
        book::DEFAULT_LEVEL as u32
    } else {
        precedence.level() as u32
    }
}

// ---- The language
#[derive(Copy, Clone, PartialEq, Eq, PartialOrd, Ord, Hash, Debug, Default)]
pub struct Books;

/// A book has at most 64 words. An empty string is no identifier, so it reserves nothing.
static mut KEYWORDS: [&str; 64] = [""; 64];

impl Language for Books {
    const NAME: &'static str = "Books";
    type Kind = Kind;
    type Parameter = Parameter;
    const BINDING_OPEN: char = '<';
    const BINDING_CLOSE: char = '>';
    // A constant of the Rust, whose words come from a book: so it refers to a table that is written before a parse begins, and never during one.
    const KEYWORDS: &'static [&'static str] = unsafe { &*(&raw const KEYWORDS) };
}

fn set_keywords(book: &Book) {
    let reserved = book.words.iter().filter(|w| w.label == 1).map(|w| kept(&w.spelling));
    let mut table = [""; 64];
    table.iter_mut().zip(reserved).for_each(|(place, word)| *place = word);
    // Safety: one thread parses, and not now.
    unsafe { *(&raw mut KEYWORDS) = table };
}

/// The same spelling, kept for good, once.
fn kept(spelling: &str) -> &'static str {
    thread_local! {
        static KEPT: RefCell<std::collections::BTreeSet<&'static str>> = RefCell::default();
    }
    KEPT.with_borrow_mut(|kept| {
        if !kept.contains(spelling) {
            kept.insert(Box::leak(spelling.into()));
        }
        *kept.get(spelling).unwrap()
    })
}

/// A name's kind, 0 to 7.
#[derive(Copy, Clone, PartialEq, Eq, PartialOrd, Ord, Hash, Debug)]
pub struct Kind(pub u8);

cast_impl!(Kind);

/// What a variable may be replaced by: in a book, a variable.
#[derive(Clone, PartialEq, Eq, PartialOrd, Ord, Hash, Debug)]
pub struct Parameter(pub Variable);

cast_impl!(Parameter);

impl HasKind<Books> for Parameter {
    fn kind(&self) -> Kind {
        self.0.kind()
    }
}

impl CoreParseBinding<Books> for Parameter {
    /// A kind's word and an identifier (document 02 d).
    fn parse_binding<'t>(scope: &Scope<Books>, text: &'t str) -> ParseResult<'t, Binding<Books>> {
        let book = book();
        Parser::single_variant(scope, text, "Binding", |p| {
            let kind = kind(p, &book)?;
            let name = p.identifier()?;
            p.ok(Binding { name, bound_var: CoreBoundVar::fresh(kind) })
        })
    }

    /// A variable's name may be a reserved word (document 02 f); the trait's own body is `identifier`, which refuses them.
    fn parse_variable_name<'t>(p: &mut ActiveVariant<'_, 't, Books>) -> Result<String, Set<ParseError<'t>>> {
        p.identifier_like_string()
    }
}

/// The least of the kinds 0 to 7 whose word, that of the same number, stands here.
fn kind<'t>(p: &mut ActiveVariant<'_, 't, Books>, book: &Book) -> Result<Kind, Set<ParseError<'t>>> {
    let mut words = (0..8).zip(&book.words);
    let found = words.find(|(_, word)| p.expect_keyword(&word.spelling).is_ok());
    found.map(|(kind, _)| Kind(kind)).ok_or_else(|| ParseError::at(p.text(), "kind expected".into()))
}

macro_rules! parameter_from {
    ($($variable:ident),*) => {
        $(impl UpcastFrom<$variable<Books>> for Parameter {
            fn upcast_from(variable: $variable<Books>) -> Self {
                Parameter(formality_core::Upcast::upcast(variable))
            }
        })*
    };
}

parameter_from!(CoreVariable, CoreUniversalVar, CoreExistentialVar, CoreBoundVar);

/// What a term can do and no parse asks for.
macro_rules! unvisited {
    ($(($($parameters:tt)*) $term:ty),*) => {
        $(impl<$($parameters)*> CoreVisit<Books> for $term {
            fn free_variables(&self) -> Vec<Variable> {
                vec![]
            }

            fn size(&self) -> usize {
                1
            }

            fn assert_valid(&self) {}
        })*
    };
}

unvisited!(() Kind, () Parameter, () Term, (const N: usize) Body<N>);

impl CoreFold<Books> for Kind {
    type Output = Self;

    fn substitute(&self, _: SubstitutionFn<'_, Books>) -> Self {
        *self
    }
}

impl CoreFold<Books> for Parameter {
    type Output = Self;

    fn substitute(&self, substitution: SubstitutionFn<'_, Books>) -> Self {
        substitution(self.0).unwrap_or(self.clone())
    }
}

/// Kinds and parameters are terms, but no book has a step that reads one.
macro_rules! unread_term {
    ($($term:ident),*) => {
        $(impl CoreParse<Books> for $term {
            fn parse<'t>(scope: &Scope<Books>, text: &'t str) -> ParseResult<'t, Self> {
                Parser::multi_variant(scope, text, stringify!($term), |_| {})
            }
        }

        impl CoreTerm<Books> for $term {})*
    };
}

unread_term!(Kind, Parameter);

// ---- Nonterminals
/// A term of nonterminal N. The number in the type makes each nonterminal's `TypeId` its own.
#[derive(Clone, Debug, PartialEq, Eq, PartialOrd, Ord)]
pub struct Nonterminal<const N: usize>(pub Term);

impl<const N: usize> UpcastFrom<Nonterminal<N>> for Nonterminal<N> {
    fn upcast_from(term: Self) -> Self {
        term
    }
}

impl<const N: usize> UpcastFrom<Term> for Nonterminal<N> {
    fn upcast_from(term: Term) -> Self {
        Nonterminal(term)
    }
}

impl<const N: usize> From<String> for Nonterminal<N> {
    fn from(spelling: String) -> Self {
        Nonterminal(Term::Name(spelling.into()))
    }
}

impl<const N: usize> CoreParse<Books> for Nonterminal<N> {
    fn parse<'t>(scope: &Scope<Books>, text: &'t str) -> ParseResult<'t, Self> {
        let book = book();
        let nonterminal = &book.nonterminals[N];
        match nonterminal.mark {
            book::IDENTIFIER => return Parser::identifier_nonterminal(scope, text, "identifier"),
            book::BINDER => return binder::parse(&book, scope, text),
            _ => (),
        }
        Parser::multi_variant(scope, text, "nonterminal", |parser| {
            if nonterminal.mark == book::CLAIMS {
                parser.try_claim_as_var();
            }
            let first = book.first_variant(N);
            for (i, variant) in nonterminal.variants.iter().enumerate() {
                let path = Path { book: &book, number: first + i, variant };
                parser.parse_variant("variant", precedence(variant), |p| {
                    p.set_committed(variant.flags & book::COMMITTED != 0);
                    path.steps(p, &variant.steps, None)
                });
            }
        })
    }
}

/// A variant whose steps are taken, and its number.
struct Path<'a> {
    book: &'a Book,
    number: usize,
    variant: &'a book::Variant,
}

/// The items so far, last first.
struct Items<'a> {
    item: Term,
    before: Option<&'a Items<'a>>,
}

/// `$body` with the nonterminal's number `$n` as the constant `$N`.
macro_rules! with_nonterminal {
    ($n:expr, $N:ident => $body:expr) => {
        with_nonterminal!(@ $n, $N, $body, 0 1 2 3 4 5 6 7 8 9 10 11 12 13 14 15 16 17 18 19 20 21 22 23 24 25 26 27 28 29 30 31)
    };
    (@ $n:expr, $N:ident, $body:expr, $($number:literal)*) => {
        match $n {
            $($number => {
                const $N: usize = $number;
                $body
            })*
            n => unreachable!("nonterminal {n}"),
        }
    };
}

pub(crate) use with_nonterminal;

/// The parses of a nonterminal by its number.
pub fn parse<'t>(nonterminal: u8, scope: &Scope<Books>, text: &'t str) -> ParseResult<'t, Term> {
    with_nonterminal!(nonterminal, N => mapped(Nonterminal::<N>::parse(scope, text), |child| child.0))
}

/// The parses with other values.
pub fn mapped<'t, T, U: ParseSuccessType>(parses: ParseResult<'t, T>, op: impl Fn(T) -> U) -> ParseResult<'t, U> {
    Ok(parses?.into_iter().map(|parse| parse.map(&op)).collect())
}

impl Path<'_> {
    /// Takes the steps that are left, and ends the variant.
    fn steps<'t>(&self, p: &mut ActiveVariant<'_, 't, Books>, steps: &[Step], items: Option<&Items<'_>>) -> ParseResult<'t, Term> {
        let Some((&step, rest)) = steps.split_first() else {
            return p.ok(self.term(items));
        };
        let [kind, a, ..] = step;
        match kind {
            0 => p.expect_char(a as char)?,
            1 => p.expect_keyword(&self.book.words[a as usize].spelling)?,
            2..=5 => {
                let item = token(p, kind, a)?;
                return self.added(p, rest, items, item);
            }
            6 => p.reject_variable()?,
            7 => p.reject_custom_keywords(Books::KEYWORDS)?,
            _ => return with_nonterminal!(a, N => self.children::<N>(p, step, rest, items)),
        }
        self.steps(p, rest, items)
    }

    /// A step of kind 8 to 13, with children of nonterminal N, and the steps behind it.
    fn children<'t, const N: usize>(
        &self,
        p: &mut ActiveVariant<'_, 't, Books>,
        [kind, _, open, close]: Step,
        rest: &[Step],
        items: Option<&Items<'_>>,
    ) -> ParseResult<'t, Term> {
        match kind {
            8 => p.each_nonterminal(|child: Nonterminal<N>, p| self.added(p, rest, items, child.0)),
            9 => p.each_opt_nonterminal(|child: Option<Nonterminal<N>>, p| self.added(p, rest, items, child.map_or(Term::Absent, |c| c.0))),
            10 => p.each_many_nonterminal(|list: Vec<Nonterminal<N>>, p| self.added(p, rest, items, listed(list))),
            11 => p.each_comma_nonterminal(|list: Vec<Nonterminal<N>>, p| self.added(p, rest, items, listed(list))),
            _ => p.each_delimited_nonterminal(open as char, kind == 13, close as char, |list: Vec<Nonterminal<N>>, p| {
                self.added(p, rest, items, listed(list))
            }),
        }
    }

    /// The steps behind an item.
    fn added<'t>(&self, p: &mut ActiveVariant<'_, 't, Books>, rest: &[Step], items: Option<&Items<'_>>, item: Term) -> ParseResult<'t, Term> {
        self.steps(p, rest, Some(&Items { item, before: items }))
    }

    /// The variant's term: its number and items, or, passing, its child's.
    fn term(&self, items: Option<&Items<'_>>) -> Term {
        if self.variant.flags & book::PASSING != 0 {
            return items.expect("a passing variant has one child").item.clone();
        }
        let mut listed: Vec<Term> = std::iter::successors(items, |i| i.before).map(|i| i.item.clone()).collect();
        listed.reverse();
        Term::Variant(self.number as u32, listed.into())
    }
}

/// A token that is an item.
fn token<'t>(p: &mut ActiveVariant<'_, 't, Books>, kind: u8, a: u8) -> Result<Term, Set<ParseError<'t>>> {
    Ok(match kind {
        2 => Term::Name(p.identifier()?.into()),
        3 => Term::Number(p.number()?),
        4 => Term::Variable(p.variable()?),
        _ => Term::Variable(p.variable_of_kind(Kind(a))?),
    })
}

fn listed<const N: usize>(list: Vec<Nonterminal<N>>) -> Term {
    Term::List(list.into_iter().map(|t| t.0).collect())
}
