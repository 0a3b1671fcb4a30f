//! A value as a tree, viewed through its cells.

use crate::cells::{older, Cells, DECLARED, IDENTIFIER, LIST, NUMBER, VARIABLE, VARIANT};
use std::collections::HashMap;
use std::iter::FusedIterator;
use std::{fmt, ptr, vec};

/// A value, or an item of one: a view of the cells of a [`Reading`](crate::Reading).
///
/// A value can have far more nodes than cells, since equal parts of it are one cell: by a book whose nonterminals
/// double, the empty text has a value of 53 cells and 262,143 nodes. So a tree is looked at one node at a time, and
/// nothing is expanded before it is asked for. 4,096 cells can make a tree 2,048 nodes deep; who goes down a tree by
/// calls within calls needs the stack for it.
///
/// Trees are equal by value: variants by number and items, identifiers by spelling, variables by number and kind of
/// their names, declared ones by depth and index. Within one reading that takes a moment, since equal values are one
/// cell; of two readings it takes time in proportion to their cells.
///
/// `Display` writes a tree as a line of the library does: `(1 (0 1) (0 2))`. It writes a part wherever it is used, so
/// it can be long; a writer may end it by an error, and [`Reading::line`](crate::Reading::line) has a limit.
///
/// ```
/// use midgebillon::{read, Tree, MOST_WORK};
///
/// let book = std::fs::read("../examples/rules.book")?;
/// let reading = read(&book, b"7 - 2", 0, MOST_WORK)?;
/// let Tree::Variant { number: 1, items } = reading.value()? else { panic!("no minus") };
/// assert_eq!(items.len(), 2);
/// for (item, wanted) in items.iter().zip([7, 2]) {
///     let Tree::Variant { number: 0, items } = item else { panic!("no number") };
///     assert_eq!(items.get(0), Some(Tree::Number(wanted)));
/// }
/// # Ok::<(), Box<dyn std::error::Error>>(())
/// ```
#[derive(Clone, Copy, Debug)]
pub enum Tree<'r> {
    /// A variant of the book.
    Variant {
        /// Its number in the book, from 0.
        number: u32,
        /// Its items, in the order of its steps.
        items: Items<'r>,
    },
    /// A list of values.
    List(Items<'r>),
    /// An identifier.
    Identifier {
        /// A place of the text where it stands. Equal identifiers are one cell, so of several places it is the one that
        /// the run met first.
        place: u32,
        /// Its spelling in the text.
        spelling: &'r str,
    },
    /// A number.
    Number(u64),
    /// A variable: a starting name of the book.
    Variable {
        /// The name's number in the book, from 0.
        name: u32,
        /// The name's kind.
        kind: u32,
        /// The name's spelling in the book.
        spelling: &'r str,
    },
    /// A declared variable: a name that the text itself declares. It has no number, no kind and no spelling; the kinds
    /// are in the list that is the first item of its binder's variant.
    Declared {
        /// How many openings that were read lie between it and its binder.
        depth: u32,
        /// Its index among its binder's names, from 0.
        index: u32,
    },
    /// An optional that is absent, or the names of a binder whose opening is.
    Absent,
}

/// The items of a variant or the values of a list, in order: a view, as [`Tree`] is.
#[derive(Clone, Copy)]
pub struct Items<'r> {
    cells: &'r Cells<'r>,
    chain: u32,
}

impl<'r> Tree<'r> {
    /// The tree that cell n stands for.
    pub(crate) fn at(cells: &'r Cells<'r>, n: u32) -> Tree<'r> {
        let [form, a, b] = cells.cell(n);
        let items = |chain| Items { cells, chain: older(n, chain) };
        match form {
            VARIANT => Tree::Variant { number: a, items: items(b) },
            LIST => Tree::List(items(a)),
            IDENTIFIER => Tree::Identifier { place: a, spelling: cells.identifier(a, b) },
            NUMBER => Tree::Number(u64::from(a) << 32 | u64::from(b)),
            VARIABLE => Tree::Variable { name: a, kind: b, spelling: cells.name(a) },
            DECLARED => Tree::Declared { depth: a, index: b },
            _ => Tree::Absent,
        }
    }

    fn items(self) -> Option<Items<'r>> {
        match self {
            Tree::Variant { items, .. } | Tree::List(items) => Some(items),
            _ => None,
        }
    }

    // Whether two trees are the same but for their items.
    fn same_node(self, other: Tree<'_>) -> bool {
        match (self, other) {
            (Tree::Variant { number: a, .. }, Tree::Variant { number: b, .. }) => a == b,
            (Tree::List(_), Tree::List(_)) | (Tree::Absent, Tree::Absent) => true,
            (Tree::Identifier { spelling: a, .. }, Tree::Identifier { spelling: b, .. }) => a == b,
            (Tree::Number(a), Tree::Number(b)) => a == b,
            (Tree::Variable { name: a, kind: j, .. }, Tree::Variable { name: b, kind: k, .. }) => (a, j) == (b, k),
            (Tree::Declared { depth: a, index: i }, Tree::Declared { depth: b, index: j }) => (a, i) == (b, j),
            _ => false,
        }
    }
}

impl<'r> Items<'r> {
    /// How many there are. It takes time in proportion to that.
    pub fn len(&self) -> usize {
        self.numbers_backwards().count()
    }

    /// Whether there are none.
    pub fn is_empty(&self) -> bool {
        self.cells.last(self.chain).is_none()
    }

    /// One of them, from 0. It takes time in proportion to how many there are; to visit them all, use
    /// [`iter`](Items::iter).
    pub fn get(&self, index: usize) -> Option<Tree<'r>> {
        let behind = self.len().checked_sub(index)?.checked_sub(1)?;
        self.numbers_backwards().nth(behind).map(|n| Tree::at(self.cells, n))
    }

    /// All of them, in order.
    pub fn iter(&self) -> ItemsIter<'r> {
        let mut numbers: Vec<u32> = self.numbers_backwards().collect();
        numbers.reverse();
        ItemsIter { cells: self.cells, numbers: numbers.into_iter() }
    }

    // A chain is followed from its last item to its first.
    fn numbers_backwards(self) -> impl Iterator<Item = u32> + 'r {
        let mut chain = self.chain;
        std::iter::from_fn(move || {
            let (before, item) = self.cells.last(chain)?;
            chain = before;
            Some(item)
        })
    }

    fn backwards(self) -> impl Iterator<Item = Tree<'r>> + 'r {
        self.numbers_backwards().map(move |n| Tree::at(self.cells, n))
    }
}

impl<'r> IntoIterator for Items<'r> {
    type Item = Tree<'r>;
    type IntoIter = ItemsIter<'r>;

    fn into_iter(self) -> ItemsIter<'r> {
        self.iter()
    }
}

/// An iterator over [`Items`].
#[derive(Clone)]
pub struct ItemsIter<'r> {
    cells: &'r Cells<'r>,
    numbers: vec::IntoIter<u32>,
}

impl<'r> Iterator for ItemsIter<'r> {
    type Item = Tree<'r>;

    fn next(&mut self) -> Option<Tree<'r>> {
        self.numbers.next().map(|n| Tree::at(self.cells, n))
    }

    fn size_hint(&self) -> (usize, Option<usize>) {
        self.numbers.size_hint()
    }
}

impl DoubleEndedIterator for ItemsIter<'_> {
    fn next_back(&mut self) -> Option<Self::Item> {
        self.numbers.next_back().map(|n| Tree::at(self.cells, n))
    }
}

impl ExactSizeIterator for ItemsIter<'_> {}
impl FusedIterator for ItemsIter<'_> {}

// ---- Equality

impl PartialEq for Tree<'_> {
    fn eq(&self, other: &Tree<'_>) -> bool {
        self.same_node(*other) && self.items() == other.items()
    }
}

impl Eq for Tree<'_> {}

impl PartialEq for Items<'_> {
    fn eq(&self, other: &Items<'_>) -> bool {
        if ptr::eq(self.cells, other.cells) {
            // equal cells are made once
            self.chain == other.chain
        } else {
            same_values(*self, *other)
        }
    }
}

impl Eq for Items<'_> {}

// Whether items of two readings are equal. A chain of one reading equals at most one of the other, since equal cells
// are made once; so each is looked at once, however often it is used.
fn same_values(left: Items<'_>, right: Items<'_>) -> bool {
    let mut met = HashMap::new();
    let mut wanted = vec![(left.chain, right.chain)];
    while let Some((x, y)) = wanted.pop() {
        match met.insert(x, y) {
            Some(before) if before == y => continue,
            Some(_) => return false,
            None => {}
        }
        let (x, y) = match (left.cells.last(x), right.cells.last(y)) {
            (Some(x), Some(y)) => (x, y),
            (None, None) => continue,
            _ => return false,
        };
        wanted.push((x.0, y.0));
        let (x, y) = (Tree::at(left.cells, x.1), Tree::at(right.cells, y.1));
        if !x.same_node(y) {
            return false;
        }
        wanted.extend(x.items().zip(y.items()).map(|(x, y)| (x.chain, y.chain)));
    }
    true
}

// ---- Writing

// What is still to be written.
enum Part<'r> {
    Tree(Tree<'r>),
    Mark(&'static str),
}

// Writes parts, the last one first. What they consist of is laid down in their place: a tree can be too deep for calls
// within calls.
fn write(f: &mut fmt::Formatter<'_>, mut parts: Vec<Part<'_>>) -> fmt::Result {
    while let Some(part) = parts.pop() {
        match part {
            Part::Mark(mark) => f.write_str(mark)?,
            Part::Tree(Tree::Variant { number, items }) => {
                write!(f, "({number}")?;
                parts.push(Part::Mark(")"));
                push_spaced(&mut parts, items);
            }
            Part::Tree(Tree::List(items)) => {
                f.write_str("[")?;
                push_list(&mut parts, items);
            }
            Part::Tree(Tree::Identifier { spelling, .. }) => f.write_str(spelling)?,
            Part::Tree(Tree::Number(number)) => write!(f, "{number}")?,
            Part::Tree(Tree::Variable { spelling, .. }) => write!(f, "${spelling}")?,
            Part::Tree(Tree::Declared { depth, index }) => write!(f, "${depth}.{index}")?,
            Part::Tree(Tree::Absent) => f.write_str("-")?,
        }
    }
    Ok(())
}

// A space before each item.
fn push_spaced<'r>(parts: &mut Vec<Part<'r>>, items: Items<'r>) {
    for item in items.backwards() {
        parts.extend([Part::Tree(item), Part::Mark(" ")]);
    }
}

// A space before each item but the first, and the bracket that closes the list.
fn push_list<'r>(parts: &mut Vec<Part<'r>>, items: Items<'r>) {
    parts.push(Part::Mark("]"));
    push_spaced(parts, items);
    if !items.is_empty() {
        parts.pop();
    }
}

impl fmt::Display for Tree<'_> {
    fn fmt(&self, f: &mut fmt::Formatter<'_>) -> fmt::Result {
        write(f, vec![Part::Tree(*self)])
    }
}

/// Writes the items as `Display` writes a list: `[(0 1) (0 2)]`.
impl fmt::Debug for Items<'_> {
    fn fmt(&self, f: &mut fmt::Formatter<'_>) -> fmt::Result {
        write(f, vec![Part::Tree(Tree::List(*self))])
    }
}

#[cfg(test)]
mod tests {
    use super::*;
    use crate::library::{self, ANSWER, CELLS};
    use std::thread;

    const BOOK: &[u8] = include_bytes!("../../examples/rules.book");

    // Cells that no run makes, or that none is known to make.
    fn made(numbers: &[u32]) -> Cells<'static> {
        let mut all = vec![0; CELLS];
        all[..numbers.len()].copy_from_slice(numbers);
        Cells { book: BOOK, text: b"", numbers: all }
    }

    // The tree of a cell, written by the library and by `Display`.
    fn written(cells: &Cells<'_>, n: u32) -> (String, String) {
        let answer: [u32; ANSWER] = [0, 0, 0, 0, 0, 0, n];
        let line = library::line(cells.book, cells.text, &cells.numbers, &answer, 1 << 20).unwrap().unwrap();
        (String::from_utf8(line).unwrap(), format!("value {}\n", Tree::at(cells, n)))
    }

    // A variant of a variant .., as deep as all cells go: 2,048.
    fn deepest() -> (Cells<'static>, u32) {
        let mut numbers = vec![1, 0, 0, 3, 0, 1];
        while numbers.len() + 6 <= CELLS {
            let n = numbers.len() as u32 / 3;
            numbers.extend([2, 1, n, 3, 1, n + 1]);
        }
        (made(&numbers), numbers.len() as u32 / 3)
    }

    #[test]
    fn deep() {
        // less stack than any thread has by itself
        let small = thread::Builder::new().stack_size(64 << 10);
        let running = small.spawn(|| {
            let ((cells, n), (others, m)) = (deepest(), deepest());
            let (line, tree) = written(&cells, n);
            assert_eq!(line, tree);
            assert!(tree.starts_with(&format!("value {}(0)))", "(1 ".repeat(2047))));
            assert_eq!(tree.matches('(').count(), 2048);
            assert_eq!(Tree::at(&cells, n), Tree::at(&others, m));
            assert_ne!(Tree::at(&cells, n), Tree::at(&others, m - 2));
            assert!(format!("{:?}", Tree::at(&cells, n)).contains("[(1 (1 (1"));
        });
        running.unwrap().join().unwrap();
    }

    // A variant of a variant twice .., so often: 2^(times + 1) - 1 nodes.
    fn doubled(times: u32) -> (Cells<'static>, u32) {
        let mut numbers = vec![1, 0, 0, 3, 0, 1];
        for _ in 0..times {
            let n = numbers.len() as u32 / 3;
            numbers.extend([2, 1, n, 2, n + 1, n, 3, 1, n + 2]);
        }
        (made(&numbers), numbers.len() as u32 / 3)
    }

    // A writer that has room for so many bytes.
    struct Room(usize);

    impl fmt::Write for Room {
        fn write_str(&mut self, part: &str) -> fmt::Result {
            self.0 = self.0.checked_sub(part.len()).ok_or(fmt::Error)?;
            Ok(())
        }
    }

    #[test]
    fn nothing_is_expanded() {
        let ((cells, n), (others, m)) = (doubled(1000), doubled(1000));
        let tree = Tree::at(&cells, n);
        let (mut inner, mut depth) = (tree, 0);
        while let Some(item) = inner.items().and_then(|items| items.get(1)) {
            (inner, depth) = (item, depth + 1);
        }
        assert_eq!((depth, inner.to_string().as_str()), (1000, "(0)"));
        assert_eq!(tree, Tree::at(&others, m));
        assert_ne!(tree, Tree::at(&others, m - 3));
        assert!(fmt::write(&mut Room(1 << 16), format_args!("{tree}")).is_err());
    }

    #[test]
    fn no_good_cells() {
        // chains that lead to themselves, to later cells and to what is no chain; forms that there aren't
        let numbers = [2, 1, 1, 2, 3, 4, 3, 9, 2, 3, 7, 3, 8, 99, 0, 9, 0, 0, u32::MAX, 1, 2, 4, 99, 99, 6, 99, 0];
        let cells = made(&numbers);
        for n in 0..12 {
            let (line, tree) = written(&cells, n.max(1));
            assert_eq!(line, tree, "cell {n}");
        }
        assert_eq!(Tree::at(&cells, 3).to_string(), "(9 -)");
        assert_eq!(Tree::at(&cells, 0), Tree::Absent);
        assert_eq!(Tree::at(&cells, u32::MAX), Tree::Absent);
    }
}
