pub use anyhow::anyhow;
pub use anyhow::bail;

pub type Fallible<T> = anyhow::Result<T>;

pub mod binder;
mod cast;
mod collections;
pub mod fold;
pub mod language;
pub mod parse;
pub mod substitution;
pub mod term;
pub mod variable;
pub mod visit;

pub use cast::{Downcast, DowncastFrom, DowncastTo, Downcasted, To, Upcast, UpcastFrom, Upcasted};
pub use collections::{Map, Set};
