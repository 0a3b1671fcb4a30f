//! walk BOOK TEXT: computes the rule in the file TEXT and prints the number. The book in the file BOOK is
//! examples/rules.book of the repository: numbers, minus, times and parentheses.
//! Exit status: 0 a number, 1 the rule has none, 2 wrong usage, 3 no file, no thread or no output.

use midgebillon::{read, Tree, MOST_WORK};
use std::io::{self, Write};
use std::process::ExitCode;
use std::{env, fmt, fs};

/// Why a value can't be computed.
enum NoNumber {
    TooLarge,
    /// A tree that the book of the example doesn't make. Its node alone is kept: a tree can be large.
    NotOfTheBook(String),
}

impl fmt::Display for NoNumber {
    fn fmt(&self, f: &mut fmt::Formatter<'_>) -> fmt::Result {
        match self {
            NoNumber::TooLarge => f.write_str("a number is outside 64 bits with a sign"),
            NoNumber::NotOfTheBook(node) => write!(f, "the example book doesn't make {node}"),
        }
    }
}

fn main() -> ExitCode {
    run().unwrap_or_else(|error| {
        eprintln!("{error}");
        ExitCode::from(3)
    })
}

fn run() -> io::Result<ExitCode> {
    let words: Vec<_> = env::args_os().skip(1).collect();
    let [book, text] = &words[..] else {
        eprintln!("usage: walk BOOK TEXT");
        return Ok(ExitCode::from(2));
    };
    let (book, text) = (fs::read(book)?, fs::read(text)?);
    let reading = read(&book, &text, 0, MOST_WORK)?;
    let number = match reading.value() {
        Ok(tree) => computed(tree).map_err(|none| none.to_string()),
        Err(refusal) => Err(refusal.to_string()),
    };
    Ok(match number {
        Ok(number) => {
            writeln!(io::stdout(), "{number}")?;
            ExitCode::SUCCESS
        }
        Err(none) => {
            eprintln!("{none}");
            ExitCode::FAILURE
        }
    })
}

// The number that a tree stands for. It calls itself for each item: by this book each node has a byte of the text for
// itself, so there are neither many nodes nor deep calls.
fn computed(tree: Tree<'_>) -> Result<i64, NoNumber> {
    let Tree::Variant { number: variant, items } = tree else {
        return Err(not_of_the_book(tree));
    };
    let items: Vec<_> = items.iter().collect();
    match (variant, &items[..]) {
        (0, [Tree::Number(number)]) => i64::try_from(*number).map_err(|_| NoNumber::TooLarge),
        (1, &[left, right]) => computed(left)?.checked_sub(computed(right)?).ok_or(NoNumber::TooLarge),
        (2, &[left, right]) => computed(left)?.checked_mul(computed(right)?).ok_or(NoNumber::TooLarge),
        (3, &[inner]) => computed(inner),
        _ => Err(not_of_the_book(tree)),
    }
}

fn not_of_the_book(tree: Tree<'_>) -> NoNumber {
    NoNumber::NotOfTheBook(match tree {
        Tree::Variant { number, items } => format!("variant {number} of {} items", items.len()),
        Tree::List(items) => format!("a list of {} values", items.len()),
        leaf => leaf.to_string(),
    })
}
