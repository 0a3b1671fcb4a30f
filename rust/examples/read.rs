//! read BOOK TEXT: reads the rule in the file TEXT by the book in the file BOOK, and prints the line of the answer.
//! Exit status: 0 a value, 1 a refusal, 2 wrong usage, 3 no thread, or a line that is too long or can't be written.

use midgebillon::{read, MOST_WORK};
use std::io::{self, Write};
use std::process::ExitCode;
use std::{env, fs};

const MOST_ROOM: usize = 1 << 24;

fn main() -> ExitCode {
    run().unwrap_or_else(|error| {
        eprintln!("{error}");
        ExitCode::from(3)
    })
}

fn run() -> io::Result<ExitCode> {
    let words: Vec<_> = env::args_os().skip(1).collect();
    let [book, text] = &words[..] else {
        eprintln!("usage: read BOOK TEXT");
        return Ok(ExitCode::from(2));
    };
    // a missing file counts as empty
    let book = fs::read(book).unwrap_or_default();
    let text = fs::read(text).unwrap_or_default();
    let reading = read(&book, &text, 0, MOST_WORK)?;
    let Some(line) = reading.line(MOST_ROOM)? else {
        eprintln!("the line is too long");
        return Ok(ExitCode::from(3));
    };
    io::stdout().write_all(&line)?;
    Ok(ExitCode::from(reading.value().is_err() as u8))
}
