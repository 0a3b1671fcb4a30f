//! Stands for the attribute `tracing::instrument`: the function as it stands.
//!
//! Beside one function of parser.rs, `skip_trailing_comma`, it puts what the comparison needs and the Rust keeps private: a precedence that is Both
//! at any level, and the numbers of a parse's precedence. An attribute's items stand in the module in which it is used, so they may use its private parts,
//! and the sources stay as they are. The items add to the module, and nothing there calls them.
use proc_macro::TokenStream;

const BESIDE: &str = "fn skip_trailing_comma";

const ADDED: &str = "
    impl Precedence {
        pub fn both(level: usize) -> Self {
            Self::new(level, Associativity::Both)
        }

        pub fn level(&self) -> usize {
            self.level
        }

        pub fn associativity(&self) -> u32 {
            self.associativity as u32
        }
    }

    impl<'t, T> SuccessfulParse<'t, T> {
        pub fn precedence(&self) -> Precedence {
            self.precedence
        }
    }
";

#[proc_macro_attribute]
pub fn instrument(_options: TokenStream, function: TokenStream) -> TokenStream {
    if !function.to_string().contains(BESIDE) {
        return function;
    }
    let added: TokenStream = ADDED.parse().expect("items");
    [function, added].into_iter().collect()
}
