//! Stands for the module variable::cast_impls: each kind of variable is a variable.
use super::{CoreBoundVar, CoreExistentialVar, CoreUniversalVar, CoreVariable};
use crate::cast_impl;
use crate::language::Language;

cast_impl!(impl(L: Language) CoreVariable<L>);
cast_impl!(impl(L: Language) CoreUniversalVar<L>);
cast_impl!(impl(L: Language) CoreExistentialVar<L>);
cast_impl!(impl(L: Language) CoreBoundVar<L>);
cast_impl!(impl(L: Language) CoreVariable(L)::UniversalVar(CoreUniversalVar<L>));
cast_impl!(impl(L: Language) CoreVariable(L)::ExistentialVar(CoreExistentialVar<L>));
cast_impl!(impl(L: Language) CoreVariable(L)::BoundVar(CoreBoundVar<L>));
