//! Stands for similar: a comparison without changes. It is asked for in the message of an ambiguous parse alone, and no message is compared.
use std::fmt;

#[derive(Clone, Copy)]
pub enum ChangeTag {
    Delete,
    Insert,
    Equal,
}

pub struct Change(ChangeTag);

impl Change {
    pub fn tag(&self) -> ChangeTag {
        self.0
    }
}

impl fmt::Display for Change {
    fn fmt(&self, _: &mut fmt::Formatter<'_>) -> fmt::Result {
        Ok(())
    }
}

pub struct TextDiff;

impl TextDiff {
    pub fn from_lines(_old: &str, _new: &str) -> Self {
        TextDiff
    }

    pub fn iter_all_changes(&self) -> std::iter::Empty<Change> {
        std::iter::empty()
    }
}
