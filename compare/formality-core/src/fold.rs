//! Stands for the module fold: substitution in terms, by which a binder binds its variables.
use crate::cast::Upcast;
use crate::language::{CoreParameter, Language};
use crate::variable::CoreVariable;
use crate::visit::CoreVisit;

pub type SubstitutionFn<'a, L> = &'a mut dyn FnMut(CoreVariable<L>) -> Option<CoreParameter<L>>;

pub trait CoreFold<L: Language>: Sized + CoreVisit<L> {
    type Output: CoreFold<L, Output = Self::Output>;

    fn substitute(&self, substitution_fn: SubstitutionFn<'_, L>) -> Self::Output;

    fn shift_in(&self) -> Self::Output {
        self.substitute(&mut |v| Some(v.shift_in().upcast()))
    }
}

impl<L: Language, T: CoreFold<L>> CoreFold<L> for &T {
    type Output = T::Output;

    fn substitute(&self, substitution_fn: SubstitutionFn<'_, L>) -> T::Output {
        T::substitute(self, substitution_fn)
    }
}
