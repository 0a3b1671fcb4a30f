//! Stands for tracing: nothing is recorded, and no argument is looked at. The real one asks on each line whether anyone listens, so this one
//! favours the Rust's speed.
pub use tracing_attributes::instrument;

pub struct Level;

impl Level {
    pub const TRACE: Level = Level;
}

pub mod span {
    pub struct Span;

    pub struct Entered<'a>(std::marker::PhantomData<&'a Span>);

    impl Span {
        pub fn enter(&self) -> Entered<'_> {
            Entered(std::marker::PhantomData)
        }
    }
}

#[macro_export]
macro_rules! trace {
    ($($event:tt)*) => {
        ()
    };
}

#[macro_export]
macro_rules! span {
    ($($span:tt)*) => {
        $crate::span::Span
    };
}
