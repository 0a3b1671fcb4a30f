//! A rule book, read from its bytes and written to them. Document 01, "The book", and document 02 d.

pub const PLAIN: u8 = 0;
pub const CLAIMS: u8 = 1;
pub const IDENTIFIER: u8 = 2;
pub const BINDER: u8 = 3;

/// The level that stands for the Rust's default precedence.
pub const DEFAULT_LEVEL: u8 = 255;

pub const LEFT: u8 = 0;
pub const RIGHT: u8 = 1;
pub const NONE: u8 = 2;
pub const BOTH: u8 = 3;

pub const COMMITTED: u8 = 1;
pub const PASSING: u8 = 2;

#[derive(Clone, Debug, Default, PartialEq)]
pub struct Book {
    pub words: Vec<Entry>,
    pub names: Vec<Entry>,
    pub nonterminals: Vec<Nonterminal>,
}

/// A word, whose label says whether it is reserved, or a starting name, whose label is its kind.
#[derive(Clone, Debug, PartialEq)]
pub struct Entry {
    pub label: u8,
    pub spelling: String,
}

#[derive(Clone, Debug, Default, PartialEq)]
pub struct Nonterminal {
    pub mark: u8,
    pub variants: Vec<Variant>,
}

#[derive(Clone, Debug, PartialEq)]
pub struct Variant {
    pub level: u8,
    pub associativity: u8,
    pub flags: u8,
    pub steps: Vec<Step>,
}

/// The step's kind, a, b and c.
pub type Step = [u8; 4];

impl Book {
    /// The number over the whole book of a nonterminal's first variant.
    pub fn first_variant(&self, nonterminal: usize) -> usize {
        self.nonterminals[..nonterminal].iter().map(|n| n.variants.len()).sum()
    }

    pub fn bytes(&self) -> Vec<u8> {
        let mut bytes = Vec::new();
        for entries in [&self.words, &self.names] {
            bytes.push(entries.len() as u8);
            for entry in entries {
                bytes.extend([entry.label, entry.spelling.len() as u8]);
                bytes.extend(entry.spelling.bytes());
            }
        }
        bytes.push(self.nonterminals.len() as u8);
        bytes.extend(self.nonterminals.iter().flat_map(|n| [n.mark, n.variants.len() as u8]));
        let variants: Vec<&Variant> = self.nonterminals.iter().flat_map(|n| &n.variants).collect();
        bytes.push(variants.len() as u8);
        bytes.extend(variants.iter().flat_map(|v| [v.level, v.associativity, v.flags, v.steps.len() as u8]));
        let steps: Vec<&Step> = variants.iter().flat_map(|v| &v.steps).collect();
        bytes.push(steps.len() as u8);
        bytes.extend(steps.into_iter().flatten());
        bytes
    }

    /// The book of these bytes, which the reader has accepted.
    pub fn of(bytes: &[u8]) -> Book {
        let mut rest = bytes.iter().copied();
        let mut next = || rest.next().expect("the book is whole");
        let mut entries = || {
            let count = next();
            (0..count)
                .map(|_| {
                    let (label, length) = (next(), next());
                    Entry { label, spelling: (0..length).map(|_| next() as char).collect() }
                })
                .collect()
        };
        let (words, names) = (entries(), entries());
        let count = next();
        let heads: Vec<(u8, u8)> = (0..count).map(|_| (next(), next())).collect();
        let count = next();
        let records: Vec<[u8; 4]> = (0..count).map(|_| [next(), next(), next(), next()]).collect();
        next();
        let mut variants = records.into_iter().map(|[level, associativity, flags, steps]| Variant {
            level,
            associativity,
            flags,
            steps: (0..steps).map(|_| [next(), next(), next(), next()]).collect(),
        });
        let nonterminals = heads.into_iter().map(|(mark, count)| Nonterminal { mark, variants: variants.by_ref().take(count as usize).collect() });
        let nonterminals = nonterminals.collect();
        Book { words, names, nonterminals }
    }
}
