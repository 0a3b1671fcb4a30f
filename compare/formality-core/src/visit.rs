//! Stands for the module visit: the free variables of a term.
use crate::language::Language;
use crate::variable::CoreVariable;
use crate::Set;

pub trait CoreVisit<L: Language> {
    fn free_variables(&self) -> Vec<CoreVariable<L>>;

    fn size(&self) -> usize;

    fn assert_valid(&self);
}

impl<L: Language, T: CoreVisit<L>> CoreVisit<L> for &T {
    fn free_variables(&self) -> Vec<CoreVariable<L>> {
        T::free_variables(self)
    }

    fn size(&self) -> usize {
        T::size(self)
    }

    fn assert_valid(&self) {
        T::assert_valid(self)
    }
}

impl<L: Language, T: CoreVisit<L>> CoreVisit<L> for Set<T> {
    fn free_variables(&self) -> Vec<CoreVariable<L>> {
        self.iter().flat_map(T::free_variables).collect()
    }

    fn size(&self) -> usize {
        self.iter().map(T::size).sum()
    }

    fn assert_valid(&self) {
        self.iter().for_each(T::assert_valid)
    }
}
