//! Values: the trees that both sides read a text as.
use crate::book::Book;
use std::fmt::{Debug, Formatter, Result, Write};
use std::sync::Arc;

/// A value, or an item of one. Its parts are shared, as the Rust's terms share theirs.
#[derive(Clone, PartialEq, Eq, PartialOrd, Ord)]
pub enum Value {
    Variant(u32, Arc<[Value]>),
    Name(Arc<str>),
    Number(u64),
    Variable { name: u32, kind: u32 },
    Declared { depth: u32, index: u32 },
    Absent,
    List(Arc<[Value]>),
}

impl Value {
    /// The form of document 01, "Printing".
    pub fn printed(&self, book: &Book) -> String {
        let mut out = String::new();
        self.write(&mut out, &|name, _| book.names[name as usize].spelling.clone());
        out
    }

    /// The same with a variable's number and kind, so that equal texts are equal values.
    pub fn exact(&self) -> String {
        let mut out = String::new();
        self.write(&mut out, &|name, kind| format!("{name}:{kind}"));
        out
    }

    fn write(&self, out: &mut String, variable: &dyn Fn(u32, u32) -> String) {
        match self {
            Value::Variant(number, items) => {
                write!(out, "({number}").unwrap();
                for item in items.iter() {
                    out.push(' ');
                    item.write(out, variable);
                }
                out.push(')');
            }
            Value::Name(spelling) => out.push_str(spelling),
            Value::Number(n) => write!(out, "{n}").unwrap(),
            Value::Variable { name, kind } => write!(out, "${}", variable(*name, *kind)).unwrap(),
            Value::Declared { depth, index } => write!(out, "${depth}.{index}").unwrap(),
            Value::Absent => out.push('-'),
            Value::List(items) => {
                out.push('[');
                for (i, item) in items.iter().enumerate() {
                    if i > 0 {
                        out.push(' ');
                    }
                    item.write(out, variable);
                }
                out.push(']');
            }
        }
    }
}

impl Debug for Value {
    fn fmt(&self, f: &mut Formatter<'_>) -> Result {
        f.write_str(&self.exact())
    }
}
