//! Stands for lazy_static, by the standard library's own.
#[macro_export]
macro_rules! lazy_static {
    (static ref $name:ident : $type:ty = $value:expr;) => {
        static $name: std::sync::LazyLock<$type> = std::sync::LazyLock::new(|| $value);
    };
}
