//! Stands for the module variable::debug_impls: variables in messages, which are not compared.
use super::{CoreBoundVar, CoreExistentialVar, CoreUniversalVar, CoreVariable, DebruijnIndex, VarIndex};
use crate::language::Language;
use std::fmt;

impl<L: Language> fmt::Debug for CoreVariable<L> {
    fn fmt(&self, f: &mut fmt::Formatter<'_>) -> fmt::Result {
        match self {
            CoreVariable::UniversalVar(v) => v.fmt(f),
            CoreVariable::ExistentialVar(v) => v.fmt(f),
            CoreVariable::BoundVar(v) => v.fmt(f),
        }
    }
}

impl<L: Language> fmt::Debug for CoreUniversalVar<L> {
    fn fmt(&self, f: &mut fmt::Formatter<'_>) -> fmt::Result {
        write!(f, "!{:?}_{:?}", self.kind, self.var_index)
    }
}

impl<L: Language> fmt::Debug for CoreExistentialVar<L> {
    fn fmt(&self, f: &mut fmt::Formatter<'_>) -> fmt::Result {
        write!(f, "?{:?}_{:?}", self.kind, self.var_index)
    }
}

impl<L: Language> fmt::Debug for CoreBoundVar<L> {
    fn fmt(&self, f: &mut fmt::Formatter<'_>) -> fmt::Result {
        write!(f, "^{:?}_{:?}_{:?}", self.kind, self.debruijn, self.var_index)
    }
}

impl fmt::Debug for DebruijnIndex {
    fn fmt(&self, f: &mut fmt::Formatter<'_>) -> fmt::Result {
        self.index.fmt(f)
    }
}

impl fmt::Debug for VarIndex {
    fn fmt(&self, f: &mut fmt::Formatter<'_>) -> fmt::Result {
        self.index.fmt(f)
    }
}
