//! Stands for regex. No step kind of a book asks for one, so none ever matches.
pub struct Regex;

pub struct Match<'t>(&'t str);

impl Regex {
    pub fn find<'t>(&self, _text: &'t str) -> Option<Match<'t>> {
        None
    }
}

impl<'t> Match<'t> {
    pub fn start(&self) -> usize {
        0
    }

    pub fn end(&self) -> usize {
        self.0.len()
    }

    pub fn is_empty(&self) -> bool {
        self.0.is_empty()
    }

    pub fn as_str(&self) -> &'t str {
        self.0
    }
}
