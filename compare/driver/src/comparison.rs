//! The comparison: cases of every sort, both sides on each, and the counts.
use crate::case::{hexadecimal, Case, Sides, Verdict};
use crate::random::Random;
use crate::reader::MOST_WORK;
use crate::vectors::Vector;
use crate::worker::{Without, Worker};
use crate::{books, fixed, shrink, small, texts};
use oracle::answer::Answer;
use oracle::book::Book;
use std::collections::BTreeMap;

/// Random cases spend at most this: most that spend more are endless, and would only take time.
const SMALL_ALLOWANCE: u32 = 50_000;

/// How many cases that differ are shown.
const SHOWN: usize = 10;

/// A random case. Of sixteen: one is of a damaged book, one is long.
pub fn random_case(seed: u64, number: u64) -> Case {
    let mut random = Random::new(seed, number);
    match random.below(16) {
        0 => {
            let case = common(&mut random);
            Case { book: books::damaged(&mut random, &case.book), ..case }
        }
        1 => {
            let books = fixed::long();
            let long = &books[random.below(books.len())];
            Case { book: long.book.clone(), text: texts::long(&mut random, long), start: 0, allowance: MOST_WORK }
        }
        _ => common(&mut random),
    }
}

fn common(random: &mut Random) -> Case {
    let book = books::book(random);
    let start = if random.one_in(4) { random.below(book.nonterminals.len()) } else { 0 };
    with_text(random, &book, start)
}

/// A random case of a book with binders; of sixteen, one is of a damaged book.
pub fn binder_case(seed: u64, number: u64) -> Case {
    let mut random = Random::new(seed, number);
    let book = books::with_binders(&mut random);
    let last = book.nonterminals.len() - 1;
    let start = if random.one_in(2) { random.below(last + 1) } else { last };
    let case = with_text(&mut random, &book, start);
    if random.one_in(16) {
        return Case { book: books::damaged(&mut random, &case.book), ..case };
    }
    case
}

fn with_text(random: &mut Random, book: &Book, start: usize) -> Case {
    let text = texts::text(random, book, start);
    Case { book: book.bytes(), text, start: start as u32, allowance: SMALL_ALLOWANCE }
}

#[derive(Default)]
pub struct Counts {
    equal: BTreeMap<u32, usize>,
    different: usize,
    limit: BTreeMap<u32, usize>,
    refused: BTreeMap<u32, usize>,
    without: BTreeMap<Without, usize>,
    step_kinds: BTreeMap<u8, usize>,
    reserved_names: BTreeMap<u32, usize>,
    binders: BTreeMap<u32, usize>,
    several_with_binders: BTreeMap<u32, usize>,
    declared: BTreeMap<u32, usize>,
    declared_further_out: BTreeMap<u32, usize>,
    most_depth: u32,
    most_parses: usize,
}

impl Counts {
    fn count(&mut self, case: &Case, verdict: &Verdict) {
        match verdict {
            Verdict::Equal(answer) => {
                *self.equal.entry(answer.refusal).or_default() += 1;
                self.most_parses = self.most_parses.max(answer.parses.len());
                if case.has_reserved_name() {
                    *self.reserved_names.entry(answer.refusal).or_default() += 1;
                }
                for kind in kinds(&case.book) {
                    *self.step_kinds.entry(kind).or_default() += 1;
                }
                if case.has_binder() {
                    self.count_binders(answer);
                }
            }
            Verdict::Different { .. } => self.different += 1,
            Verdict::Limit(limit) => *self.limit.entry(*limit).or_default() += 1,
            Verdict::Refused(refusal) => *self.refused.entry(*refusal).or_default() += 1,
            Verdict::WithoutAnswer(why) => *self.without.entry(*why).or_default() += 1,
        }
    }

    /// An equal answer of a book with binders.
    fn count_binders(&mut self, answer: &Answer) {
        let count = |of: &mut BTreeMap<u32, usize>, fits: bool| *of.entry(answer.refusal).or_default() += usize::from(fits);
        let depth = answer.declared_depths().max();
        count(&mut self.binders, true);
        count(&mut self.several_with_binders, answer.parses.len() > 1);
        count(&mut self.declared, depth.is_some());
        count(&mut self.declared_further_out, depth > Some(0));
        self.most_depth = self.most_depth.max(depth.unwrap_or(0));
    }

    pub fn differ(&self) -> bool {
        self.different > 0
    }

    pub fn print(&self) {
        let sum = |counts: &BTreeMap<u32, usize>| counts.values().sum::<usize>();
        println!("equal                   {:>7}  by refusal {:?}", sum(&self.equal), self.equal);
        println!("different               {:>7}", self.different);
        println!("limit met               {:>7}  {:?}", sum(&self.limit), self.limit);
        println!("Rust without an answer  {:>7}  {:?}", self.without.values().sum::<usize>(), self.without);
        println!("book or text refused    {:>7}  {:?}", sum(&self.refused), self.refused);
        println!("of the equal ones, books with each step kind {:?}; at most {} parses", self.step_kinds, self.most_parses);
        println!("of the equal ones, a reserved name in the text {:>7}  by refusal {:?}", sum(&self.reserved_names), self.reserved_names);
        println!("of the equal ones, a book with binders         {:>7}  by refusal {:?}", sum(&self.binders), self.binders);
        println!("  several parses                               {:>7}  {:?}", sum(&self.several_with_binders), self.several_with_binders);
        println!("  a declared variable in a parse               {:>7}  {:?}", sum(&self.declared), self.declared);
        let outer = &self.declared_further_out;
        println!("  one of an outer binder                       {:>7}  {outer:?}; the greatest depth is {}", sum(outer), self.most_depth);
    }
}

/// The step kinds of a book, each once.
fn kinds(book: &[u8]) -> std::collections::BTreeSet<u8> {
    Book::of(book).nonterminals.iter().flat_map(|n| &n.variants).flat_map(|v| &v.steps).map(|s| s[0]).collect()
}

pub fn compare(sides: &mut Sides, cases: impl Iterator<Item = Case>, counts: &mut Counts) {
    for case in cases {
        let verdict = sides.judge(&case);
        counts.count(&case, &verdict);
        match verdict {
            Verdict::Different { .. } if counts.different <= SHOWN => {
                let smallest = shrink::smallest(sides, &case);
                show("different", &smallest);
                if let Verdict::Different { reader, rust } = sides.judge(&smallest) {
                    println!("  reader {reader:?}\n  Rust   {rust:?}");
                }
            }
            Verdict::WithoutAnswer(why) => show(&format!("{why:?}"), &case),
            _ => (),
        }
    }
}

/// The Rust alone against the answers of vectors.
pub fn compare_with_vectors(worker: &mut Worker, vectors: &[Vector], counts: &mut Counts) {
    for vector in vectors {
        let case = &vector.case;
        let verdict = vector.judge(worker);
        counts.count(case, &verdict);
        match verdict {
            Verdict::Different { reader, rust } => {
                show("different", case);
                println!("  vector {reader:?}\n  Rust   {rust:?}");
            }
            Verdict::WithoutAnswer(why) => show(&format!("{why:?}"), case),
            _ => (),
        }
    }
}

fn show(what: &str, case: &Case) {
    println!("{what}: start {} book {} text {:?}", case.start, hexadecimal(&case.book), String::from_utf8_lossy(&case.text));
}

/// Books with binders: all short texts of some, and random cases.
pub fn binders(sides: &mut Sides, seed: u64, random: u64, counts: &mut Counts) {
    for exhaustive in fixed::BINDERS {
        compare(sides, exhaustive.cases(), counts);
    }
    compare(sides, (0..random).map(|number| binder_case(seed, number)), counts);
}

/// Rows, all short texts of some books and of all small ones, and random cases; then those of books with binders.
pub fn whole(sides: &mut Sides, seed: u64, random: u64) -> Counts {
    let mut counts = Counts::default();
    compare(sides, fixed::rows().into_iter().map(|row| row.case), &mut counts);
    for exhaustive in fixed::EXHAUSTIVE {
        compare(sides, exhaustive.cases(), &mut counts);
    }
    compare(sides, small::cases(), &mut counts);
    compare(sides, (0..random).map(|number| random_case(seed, number)), &mut counts);
    binders(sides, seed, random, &mut counts);
    counts
}
