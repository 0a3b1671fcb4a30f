//! The Rust in a process of its own, so that a text on which it runs without end, overflows its stack or panics ends that process alone.
use oracle::answer::{put_bytes, put_numbers, take_bytes, take_number, Answer};
use oracle::book::Book;
use std::io::{Read, Write};
use std::process::{Child, ChildStdin, Command, Stdio};
use std::rc::Rc;
use std::sync::mpsc::{channel, Receiver, RecvTimeoutError};
use std::time::Duration;

/// The longest time for one text.
const LIMIT: Duration = Duration::from_secs(60);

/// Nesting of 200 takes a small part of it; endless nesting uses it up, or the memory.
const STACK: usize = 64 << 20;

/// The most memory of the process, in KiB.
const MEMORY: usize = 2 << 20;

/// Why the Rust has no answer.
#[derive(Clone, Copy, Debug, PartialEq, Eq, PartialOrd, Ord)]
pub enum Without {
    TimeRanOut,
    ProcessEnded,
}

/// The process and its answers, the length of each before it.
struct Process {
    child: Child,
    input: ChildStdin,
    answers: Receiver<Vec<u8>>,
}

#[derive(Default)]
pub struct Worker {
    process: Option<Process>,
}

impl Worker {
    pub fn answer(&mut self, book: &[u8], text: &[u8], start: u32) -> Result<Answer, Without> {
        let process = self.process.get_or_insert_with(Process::begin);
        let mut request = Vec::new();
        put_numbers(&mut request, &[start]);
        put_bytes(&mut request, book);
        put_bytes(&mut request, text);
        let mut sent = Vec::new();
        put_bytes(&mut sent, &request);
        let answer = match process.input.write_all(&sent).and_then(|_| process.input.flush()) {
            Ok(()) => process.answers.recv_timeout(LIMIT),
            Err(_) => Err(RecvTimeoutError::Disconnected),
        };
        match answer {
            Ok(bytes) => Ok(Answer::of(&bytes)),
            Err(error) => {
                self.end();
                Err(if error == RecvTimeoutError::Timeout { Without::TimeRanOut } else { Without::ProcessEnded })
            }
        }
    }

    fn end(&mut self) {
        if let Some(mut process) = self.process.take() {
            let _ = process.child.kill();
            let _ = process.child.wait();
        }
    }
}

impl Drop for Worker {
    fn drop(&mut self) {
        self.end();
    }
}

impl Process {
    fn begin() -> Process {
        let this = std::env::current_exe().expect("this program's path");
        let limited = format!("ulimit -v {MEMORY} && exec \"$0\" worker");
        let begun =
            Command::new("sh").arg("-c").arg(limited).arg(this).env("RUST_BACKTRACE", "0").stdin(Stdio::piped()).stdout(Stdio::piped()).spawn();
        let mut child = begun.expect("a process for the Rust");
        let (input, mut output) = (child.stdin.take().unwrap(), child.stdout.take().unwrap());
        let (send, answers) = channel();
        std::thread::spawn(move || {
            while let Some(answer) = read_one(&mut output) {
                if send.send(answer).is_err() {
                    break;
                }
            }
        });
        Process { child, input, answers }
    }
}

/// Bytes behind their length, or nothing at the end.
fn read_one(input: &mut impl Read) -> Option<Vec<u8>> {
    let mut length = [0; 4];
    input.read_exact(&mut length).ok()?;
    let mut bytes = vec![0; u32::from_le_bytes(length) as usize];
    input.read_exact(&mut bytes).ok()?;
    Some(bytes)
}

/// The process itself: answers what stands on standard input, one after the other.
pub fn work() {
    silence_ambiguity();
    let worker = std::thread::Builder::new().stack_size(STACK).spawn(|| {
        oracle::start_up::test();
        let (mut input, mut output) = (std::io::stdin().lock(), std::io::stdout().lock());
        while let Some(request) = read_one(&mut input) {
            let mut rest = &request[..];
            let (start, book, text) = (take_number(&mut rest), take_bytes(&mut rest), take_bytes(&mut rest));
            let text = std::str::from_utf8(text).expect("an accepted text is ASCII");
            let mut sent = Vec::new();
            put_bytes(&mut sent, &oracle::answer(&Rc::new(Book::of(book)), text, start).bytes());
            output.write_all(&sent).and_then(|_| output.flush()).expect("the answer is sent");
        }
    });
    worker.expect("a thread").join().expect("the Rust doesn't panic");
}

/// The panic of an ambiguous parse is an answer, and no one reads its message.
fn silence_ambiguity() {
    let usual = std::panic::take_hook();
    std::panic::set_hook(Box::new(move |panic| {
        let message = panic.payload().downcast_ref::<String>();
        if !message.is_some_and(|m| m.starts_with("ambiguous parse of")) {
            usual(panic);
        }
    }));
}
