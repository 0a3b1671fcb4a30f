//! Stands for final_fn: runs an expression when the scope it stands in is left, by a return and by a panic too.
pub struct AtEnd<F: FnMut()>(pub F);

impl<F: FnMut()> Drop for AtEnd<F> {
    fn drop(&mut self) {
        (self.0)()
    }
}

#[macro_export]
macro_rules! final_fn {
    ($body:expr) => {
        let _at_end = $crate::AtEnd(|| $body);
    };
}
