//! Stands for the module term: what a term of a language can do.
use crate::cast::{DowncastTo, Upcast};
use crate::fold::CoreFold;
use crate::language::Language;
use crate::parse::CoreParse;
use std::fmt::Debug;
use std::hash::Hash;

pub trait CoreTerm<L: Language>:
    Clone + CoreFold<L, Output = Self> + CoreParse<L> + Ord + Eq + Hash + Debug + Upcast<Self> + DowncastTo<Self> + 'static + Sized
{
}
