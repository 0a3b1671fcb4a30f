//! Terms: values as the Rust holds them, with its own variables and binders.
use crate::grammar::{Books, Variable};
use crate::value::Value;
use formality_core::binder::CoreBinder;
use formality_core::fold::{CoreFold, SubstitutionFn};
use formality_core::variable::CoreVariable;
use formality_core::UpcastFrom;
use std::fmt::{Debug, Formatter, Result};
use std::sync::Arc;

/// A term, or an item of one. Its parts are shared.
#[derive(Clone, PartialEq, Eq, PartialOrd, Ord, Hash)]
pub enum Term {
    Variant(u32, Arc<[Term]>),
    Name(Arc<str>),
    Number(u64),
    Variable(Variable),
    Absent,
    List(Arc<[Term]>),
    Binder(Arc<Binder>),
}

/// A binder's variant and the Rust's binder, which is the same for an empty opening, `<>`, and for none: so that is kept beside it.
#[derive(Clone, PartialEq, Eq, PartialOrd, Ord, Hash)]
pub struct Binder {
    pub number: u32,
    pub is_opened: bool,
    pub bound: CoreBinder<Books, Term>,
}

impl Term {
    /// The value, of a term whose declared variables are bound in it.
    pub fn value(&self) -> Value {
        self.value_within(&mut vec![])
    }

    /// The same within these binders, the outermost first, of which is said whether they are opened.
    fn value_within(&self, binders: &mut Vec<bool>) -> Value {
        let mut each = |terms: &[Term]| terms.iter().map(|t| t.value_within(binders)).collect();
        match self {
            Term::Variant(number, items) => Value::Variant(*number, each(items)),
            Term::Name(spelling) => Value::Name(spelling.clone()),
            Term::Number(n) => Value::Number(*n),
            Term::Variable(v) => variable(v, binders),
            Term::Absent => Value::Absent,
            Term::List(items) => Value::List(each(items)),
            Term::Binder(binder) => {
                binders.push(binder.is_opened);
                let body = binder.bound.peek().value_within(binders);
                binders.pop();
                Value::Variant(binder.number, [binder.kinds(), body].into())
            }
        }
    }
}

impl Binder {
    fn kinds(&self) -> Value {
        let kinds = self.bound.kinds().iter().map(|kind| Value::Number(kind.0 as u64));
        if self.is_opened {
            Value::List(kinds.collect())
        } else {
            Value::Absent
        }
    }
}

/// A variable within these binders. The Rust's depth counts all of them, document 02's the opened ones.
fn variable(variable: &Variable, binders: &[bool]) -> Value {
    match variable {
        CoreVariable::UniversalVar(v) => Value::Variable { name: v.var_index.index as u32, kind: v.kind.0 as u32 },
        CoreVariable::BoundVar(v) => {
            let counted = v.debruijn.expect("the variable is bound").index;
            let depth = binders.iter().rev().take(counted).filter(|is_opened| **is_opened).count();
            Value::Declared { depth: depth as u32, index: v.var_index.index as u32 }
        }
        CoreVariable::ExistentialVar(_) => unreachable!("no scope holds one"),
    }
}

impl CoreFold<Books> for Term {
    type Output = Term;

    fn substitute(&self, substitution: SubstitutionFn<'_, Books>) -> Term {
        let mut each = |terms: &[Term]| terms.iter().map(|t| t.substitute(substitution)).collect();
        match self {
            Term::Variant(number, items) => Term::Variant(*number, each(items)),
            Term::List(items) => Term::List(each(items)),
            Term::Variable(v) => substitution(*v).map_or(self.clone(), |parameter| Term::Variable(parameter.0)),
            Term::Binder(binder) => Term::Binder(Arc::new(Binder { bound: binder.bound.substitute(substitution), ..**binder })),
            Term::Name(_) | Term::Number(_) | Term::Absent => self.clone(),
        }
    }
}

impl UpcastFrom<Term> for Term {
    fn upcast_from(term: Term) -> Self {
        term
    }
}

impl Debug for Term {
    fn fmt(&self, f: &mut Formatter<'_>) -> Result {
        self.value().fmt(f)
    }
}
