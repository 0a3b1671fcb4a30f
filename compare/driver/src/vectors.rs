//! Vectors, one JSON object a line: a call and what it answers.
use crate::case::{of_hexadecimal, Case, Verdict};
use crate::reader;
use crate::worker::Worker;
use oracle::answer::{Answer, Parse};

pub struct Vector {
    pub case: Case,
    line: String,
}

/// The vectors of a file.
pub fn of(file: &str) -> Vec<Vector> {
    let lines = std::fs::read_to_string(file).expect("a file of vectors");
    lines.lines().map(Vector::new).collect()
}

impl Vector {
    fn new(line: &str) -> Vector {
        let field = |name: &str| behind(line, name).split([',', '}']).next().unwrap().trim().trim_matches('"');
        let number = |name| field(name).parse().expect("a number");
        let (book, text) = (of_hexadecimal(field("book")), of_hexadecimal(field("text")));
        Vector { case: Case { book, text, start: number("start"), allowance: number("allowance") }, line: line.into() }
    }

    /// The vector's answer against the Rust's.
    pub fn judge(&self, worker: &mut Worker) -> Verdict {
        let refusal = self.numbers("answer")[0];
        match refusal {
            0 | 30..=32 => worker.judge(&self.case, self.answer()),
            1..=11 => Verdict::Refused(refusal),
            _ => Verdict::Limit(refusal),
        }
    }

    /// What is compared of the vector's answer, of an accepted text that meets no limit.
    fn answer(&self) -> Answer {
        let (numbers, cells, parses) = (self.numbers("answer"), self.numbers("cells"), self.numbers("parses"));
        let parse = |p: &[u32]| {
            let value = reader::value(&cells, &self.case.text, p[3]).exact();
            Parse { rest: p[0], level: p[1], associativity: p[2], value }
        };
        let printed = behind(&self.line, "printed").split('"').nth(1).expect("a line");
        Answer {
            refusal: numbers[0],
            place: if numbers[0] == 30 { numbers[1] } else { 0 },
            parses: parses.chunks(4).map(parse).collect(),
            value: printed.strip_prefix("value ").unwrap_or("").into(),
        }
    }

    /// The numbers of a list, or of a list of lists.
    fn numbers(&self, name: &str) -> Vec<u32> {
        let list = behind(&self.line, name).split('"').next().unwrap();
        list.split(|c: char| !c.is_ascii_digit()).filter_map(|digits| digits.parse().ok()).collect()
    }
}

/// What follows a field's name.
fn behind<'a>(line: &'a str, name: &str) -> &'a str {
    line.split_once(&format!("\"{name}\":")).expect(name).1
}
