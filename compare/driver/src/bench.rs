//! Times both sides on the same texts of the example book, in one process, both built for release.
//!
//! Each side reads each text a few times, in turn with the other, and a text's least time counts. Before each call of the reader all its lists and working
//! memory are cleared; that is counted too, and a second figure is without it. The Rust has no buffers but what it allocates and frees.
use crate::fixed;
use crate::random::Random;
use crate::reader::{Reader, MOST_WORK};
use oracle::book::Book;
use oracle::Prepared;
use std::rc::Rc;
use std::time::{Duration, Instant};

const RULES: usize = 1000;
const BYTES: usize = 200;
const LEAST_OPERATORS: usize = 20;
const MOST_OPERATORS: usize = 60;
/// How often each side reads a rule, and a text of the growth table.
const TIMES: usize = 7;
const ROW_TIMES: usize = 50;

pub fn run(seed: u64) {
    let mut bench = Bench::new();
    bench.rules(seed);
    println!("\ngrowth: text, work, reader us, Rust us, reader over Rust");
    for operators in ["-", "*", "-*"] {
        for count in [20, 40, 60] {
            bench.row(&format!("{count} operators of {operators}"), &chain(count, operators.as_bytes()));
        }
    }
    for depth in 0..=5 {
        bench.row(&format!("nesting {depth}"), &nested(depth));
    }
}

struct Bench {
    book: Vec<u8>,
    reader: Reader,
    rust: Prepared,
}

/// The least time of a text on each side.
#[derive(Clone, Copy)]
struct Times {
    cleared: Duration,
    reader: Duration,
    rust: Duration,
}

impl Bench {
    fn new() -> Bench {
        let book = fixed::example(0);
        let rust = Prepared::new(&Rc::new(Book::of(&book)));
        Bench { book, reader: Reader::new(), rust }
    }

    /// Whether both sides read the text whole.
    fn is_read(&mut self, text: &[u8]) -> bool {
        let text = std::str::from_utf8(text).unwrap();
        self.reader.call(&self.book, text.as_bytes(), 0, MOST_WORK) == 0 && self.rust.reads(text)
    }

    fn times(&mut self, text: &[u8], times: usize) -> Times {
        let text = std::str::from_utf8(text).unwrap();
        let mut least = Times { cleared: Duration::MAX, reader: Duration::MAX, rust: Duration::MAX };
        for _ in 0..times {
            let begun = Instant::now();
            self.reader.clear();
            let clear = Instant::now();
            let refusal = self.reader.call(&self.book, text.as_bytes(), 0, MOST_WORK);
            let done = Instant::now();
            let read = self.rust.reads(text);
            let end = Instant::now();
            assert!(refusal == 0 && read);
            least.cleared = least.cleared.min(done - begun);
            least.reader = least.reader.min(done - clear);
            least.rust = least.rust.min(end - done);
        }
        least
    }

    fn rules(&mut self, seed: u64) {
        let texts = self.texts(seed);
        let times: Vec<Times> = texts.iter().map(|text| self.times(text, TIMES)).collect();
        let operators: Vec<usize> = texts.iter().map(|text| operators(text)).collect();
        println!("{} rules of {BYTES} bytes, {} to {} operators", times.len(), operators.iter().min().unwrap(), operators.iter().max().unwrap());
        let rust = summary("Rust", times.iter().map(|t| t.rust));
        for (name, time) in [("reader", (|t| t.cleared) as fn(&Times) -> Duration), ("reader, clearing not counted", |t| t.reader)] {
            let (median, total) = summary(name, times.iter().map(time));
            println!("  over the Rust: median {:.4}, total {:.4}", median / rust.0, total / rust.1);
        }
    }

    /// Different rules that both sides read whole.
    fn texts(&mut self, seed: u64) -> Vec<Vec<u8>> {
        let mut texts = std::collections::BTreeSet::new();
        for number in 0.. {
            if texts.len() == RULES {
                break;
            }
            let text = rule(&mut Random::new(seed, number));
            if operators(&text) >= LEAST_OPERATORS && self.is_read(&text) {
                texts.insert(text);
            }
        }
        texts.into_iter().collect()
    }

    fn row(&mut self, name: &str, text: &[u8]) {
        if !self.is_read(text) {
            return println!("{name}: not read within the limits");
        }
        let work = self.reader.work();
        let times = self.times(text, ROW_TIMES);
        let micros = |time: Duration| time.as_secs_f64() * 1e6;
        let ratio = micros(times.cleared) / micros(times.rust);
        println!("{name:<20} {work:>8} {:>10.1} {:>10.1}  {ratio:.4}", micros(times.cleared), micros(times.rust));
    }
}

/// Median and total, in microseconds.
fn summary(name: &str, times: impl Iterator<Item = Duration>) -> (f64, f64) {
    let mut micros: Vec<f64> = times.map(|t| t.as_secs_f64() * 1e6).collect();
    micros.sort_by(f64::total_cmp);
    let (median, total) = (micros[micros.len() / 2], micros.iter().sum());
    println!("{name}: median {median:.1} us, total {:.1} ms", total / 1e3);
    (median, total)
}

fn operators(text: &[u8]) -> usize {
    text.iter().filter(|b| b"-*".contains(b)).count()
}

/// A rule of 200 bytes: numbers, operators and some parentheses, one within another at most.
fn rule(random: &mut Random) -> Vec<u8> {
    let count = random.between(LEAST_OPERATORS, MOST_OPERATORS);
    let mut text = Vec::new();
    let mut open = 0;
    for i in 0..=count {
        while open < 2 && random.one_in(16) {
            text.push(b'(');
            open += 1;
        }
        text.push(b'1' + random.below(9) as u8);
        while open > 0 && random.one_in(3) {
            text.push(b')');
            open -= 1;
        }
        if i < count {
            text.push(random.byte(b"-*"));
        }
    }
    text.extend(std::iter::repeat_n(b')', open));
    lengthened(random, text)
}

/// Up to 200 bytes by further digits and some spaces.
fn lengthened(random: &mut Random, mut text: Vec<u8>) -> Vec<u8> {
    while text.len() < BYTES {
        let at = random.below(text.len());
        if text[at].is_ascii_digit() && !random.one_in(8) {
            text.insert(at, b'1' + random.below(9) as u8);
        } else if !text[at].is_ascii_digit() {
            text.insert(at, b' ');
        }
    }
    text
}

/// Numbers with so many operators between them, in turn; 200 bytes in all, the numbers as equally long as that allows.
fn chain(count: usize, operators: &[u8]) -> Vec<u8> {
    let digits = BYTES - count;
    let mut text = Vec::new();
    for i in 0..=count {
        let size = digits / (count + 1) + usize::from(i < digits % (count + 1));
        text.extend(std::iter::repeat_n(b'1', size));
        if i < count {
            text.push(operators[i % operators.len()]);
        }
    }
    text
}

/// Parentheses within parentheses, and 20 operators behind them; 200 bytes in all.
fn nested(depth: usize) -> Vec<u8> {
    let inner = format!("{}1{}", "(".repeat(depth), ")".repeat(depth));
    let mut text = inner.into_bytes();
    text.extend(b"-2".repeat(20));
    text.resize(BYTES, b' ');
    text
}
