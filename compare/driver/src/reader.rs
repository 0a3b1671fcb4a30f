//! The reader, compiled from its crates (build.rs), and its answers with the cells read as values.
use oracle::answer::{Answer, Parse};
use oracle::value::Value;

const CELLS: usize = 12288;
const PARSES: usize = 256;
const INDEX: usize = 1091;
const STORE: usize = 17408;
const ROWS: usize = 105525;

pub const MOST_WORK: u32 = 1_000_000;

/// Room for most lines.
const LINE: usize = 4096;

// Of include/midgebillon.h.
#[rustfmt::skip]
extern "C" {
    fn midgebillon_read_in(
        book: *const u8, book_len: usize, text: *const u8, text_len: usize, start: u32, allowance: u32,
        cells: *mut u32, cells_len: usize, parses: *mut u32, parses_len: usize, index: *mut usize, index_len: usize,
        store: *mut u32, store_len: usize, rows: *mut u32, rows_len: usize, answer: *mut u32, answer_len: usize,
    );

    fn midgebillon_print(
        book: *const u8, book_len: usize, text: *const u8, text_len: usize,
        cells: *const u32, cells_len: usize, answer: *const u32, answer_len: usize, out: *mut u8, out_len: usize,
    ) -> usize;
}

/// Both lists, the working memory and the answer's seven numbers.
pub struct Reader {
    cells: Vec<u32>,
    parses: Vec<u32>,
    index: Vec<usize>,
    store: Vec<u32>,
    rows: Vec<u32>,
    numbers: [u32; 7],
}

impl Reader {
    pub fn new() -> Self {
        let numbers = [0; 7];
        Reader { cells: vec![0; CELLS], parses: vec![0; PARSES], index: vec![0; INDEX], store: vec![0; STORE], rows: vec![0; ROWS], numbers }
    }

    /// Zeros in all lists and all working memory.
    pub fn clear(&mut self) {
        self.index.fill(0);
        for list in [&mut self.cells, &mut self.parses, &mut self.store, &mut self.rows] {
            list.fill(0);
        }
    }

    /// One call; the refusal.
    #[rustfmt::skip]
    pub fn call(&mut self, book: &[u8], text: &[u8], start: u32, allowance: u32) -> u32 {
        // Safety: each pointer is that of a slice with the length beside it, and no two overlap.
        unsafe {
            midgebillon_read_in(
                book.as_ptr(), book.len(), text.as_ptr(), text.len(), start, allowance,
                self.cells.as_mut_ptr(), CELLS, self.parses.as_mut_ptr(), PARSES, self.index.as_mut_ptr(), INDEX,
                self.store.as_mut_ptr(), STORE, self.rows.as_mut_ptr(), ROWS, self.numbers.as_mut_ptr(), self.numbers.len(),
            );
        }
        self.numbers[0]
    }

    /// The rest, level and associativity of each parse, in the order of document 01.
    pub fn parses(&self) -> Vec<[u32; 3]> {
        self.parses[..4 * self.numbers[5] as usize].chunks(4).map(|p| [p[0], p[1], p[2]]).collect()
    }

    pub fn work(&self) -> u32 {
        self.numbers[4]
    }

    /// The last call's answer, for a text of an accepted book.
    pub fn answer(&self, book: &[u8], text: &[u8]) -> Answer {
        let [refusal, place, _, _, _, count, _] = self.numbers;
        let parses = self.parses[..4 * count as usize].chunks(4);
        Answer {
            refusal,
            place: if refusal == 30 { place } else { 0 },
            parses: parses.map(|p| Parse { rest: p[0], level: p[1], associativity: p[2], value: value(&self.cells, text, p[3]).exact() }).collect(),
            value: if refusal == 0 { self.printed(book, text, LINE) } else { String::new() },
        }
    }

    /// The value as the reader prints it.
    #[rustfmt::skip]
    fn printed(&self, book: &[u8], text: &[u8], room: usize) -> String {
        let mut line = vec![0; room];
        // Safety: as in `call`.
        let size = unsafe {
            midgebillon_print(
                book.as_ptr(), book.len(), text.as_ptr(), text.len(),
                self.cells.as_ptr(), CELLS, self.numbers.as_ptr(), self.numbers.len(), line.as_mut_ptr(), room,
            )
        };
        if size == 0 {
            return self.printed(book, text, 8 * room);
        }
        let line = std::str::from_utf8(&line[..size]).expect("a line is ASCII");
        line.strip_prefix("value ").and_then(|value| value.strip_suffix('\n')).expect("a line with a value").to_string()
    }
}

/// What a cell stands for.
pub fn value(cells: &[u32], text: &[u8], cell: u32) -> Value {
    let [form, a, b] = numbers(cells, cell);
    match form {
        3 => Value::Variant(a, items(cells, text, b).into()),
        4 => Value::Name(String::from_utf8_lossy(&text[a as usize..(a + b) as usize]).into()),
        5 => Value::Number((a as u64) << 32 | b as u64),
        6 => Value::Variable { name: a, kind: b },
        7 => Value::Absent,
        8 => Value::List(items(cells, text, a).into()),
        9 => Value::Declared { depth: a, index: b },
        _ => panic!("cell {cell} of form {form} is no value"),
    }
}

/// The items of a chain, which is linked from its last item to the first.
fn items(cells: &[u32], text: &[u8], mut chain: u32) -> Vec<Value> {
    let mut items = Vec::new();
    while let [2, before, item] = numbers(cells, chain) {
        items.push(value(cells, text, item));
        chain = before;
    }
    assert_eq!(numbers(cells, chain)[0], 1, "a chain ends with the empty one");
    items.reverse();
    items
}

/// A cell's three numbers; of a list whose zeros at the end are left out, too.
fn numbers(cells: &[u32], cell: u32) -> [u32; 3] {
    let at = 3 * cell as usize - 3;
    [at, at + 1, at + 2].map(|at| cells.get(at).copied().unwrap_or(0))
}
