//! Books and texts that are not random: document 01's rows, and books whose short texts are all compared.
use crate::case::{of_hexadecimal, Case};
use crate::reader::MOST_WORK;
use crate::small::sequences;

/// Document 01's example book.
const EXAMPLE: &str = "00 00 01 00 04 04 FF030101 01000103 02000103 FF030103 \
    0A 03000000 08000000 002D0000 08000000 08000000 002A0000 08000000 00280000 08000000 00290000";

/// The example book, with minus of some associativity.
pub fn example(minus: u8) -> Vec<u8> {
    let mut book = of_hexadecimal(EXAMPLE);
    book[11] = minus;
    book
}

/// A case of document 01 with what it says there: the refusal, the place under 30, the value under 0.
pub struct Row {
    pub case: Case,
    pub refusal: u32,
    pub place: u32,
    pub value: &'static str,
}

/// Rows 1 to 12 and "More".
pub fn rows() -> Vec<Row> {
    let (left, right, none, both) = (example(0), example(1), example(2), example(3));
    // a number, or a level-1 Left use of the nonterminal itself: passing, and not
    let passing = of_hexadecimal("00 00 01 00 02 02 FF030101 01000301 02 03000000 08000000");
    let unpassing = of_hexadecimal("00 00 01 00 02 02 FF030101 01000101 02 03000000 08000000");
    // many of a variant without steps, as the last step, and with a character behind it
    let many = of_hexadecimal("00 00 02 00 01 00 01 02 FF030101 FF030100 01 0A010000");
    let many_and = of_hexadecimal("00 00 02 00 01 00 01 02 FF030102 FF030100 02 0A010000 00210000");
    let row = |book: &[u8], text: &str, refusal, place, value| Row {
        case: Case { book: book.to_vec(), text: text.into(), start: 0, allowance: MOST_WORK },
        refusal,
        place,
        value,
    };
    vec![
        row(&left, "1-2-3", 0, 0, "(1 (1 (0 1) (0 2)) (0 3))"),
        row(&left, "1-2*3", 0, 0, "(1 (0 1) (2 (0 2) (0 3)))"),
        row(&left, "1*2-3", 0, 0, "(1 (2 (0 1) (0 2)) (0 3))"),
        row(&left, "1//", 0, 0, "(0 1)"),
        row(&left, "1-", 31, 0, ""),
        row(&left, "", 30, 0, ""),
        row(&left, "(1", 30, 2, ""),
        row(&left, "1 2", 31, 0, ""),
        row(&right, "1-2-3", 0, 0, "(1 (0 1) (1 (0 2) (0 3)))"),
        row(&none, "1-2-3", 31, 0, ""),
        row(&both, "1-2-3", 32, 0, ""),
        row(&left, "(18446744073709551616", 30, 1, ""),
        row(&passing, "1", 0, 0, "(0 1)"),
        row(&unpassing, "1", 22, 0, ""),
        row(&many, "", 22, 0, ""),
        row(&many_and, "", 21, 0, ""),
        row(&left, &format!("1{}", " ".repeat(4095)), 0, 0, "(0 1)"),
        row(&left, &format!("{}1", "0".repeat(4095)), 0, 0, "(0 1)"),
        row(&left, &format!("1{}", " ".repeat(4096)), 10, 0, ""),
    ]
}

/// A book whose texts up to some length, over an alphabet, are all compared.
pub struct Exhaustive {
    pub book: &'static str,
    pub alphabet: &'static [u8],
    pub longest: usize,
}

pub const EXHAUSTIVE: &[Exhaustive] = &[
    Exhaustive { book: EXAMPLE, alphabet: b"1-*()", longest: 6 },
    Exhaustive { book: EXAMPLE, alphabet: b"1-/ \n", longest: 6 },
    // minus Right, None and Both at one level
    Exhaustive { book: "00 00 01 00 04 04 FF030101 01010103 01020103 01030103 0A 03000000 08000000 002D0000 08000000 08000000 002B0000 08000000 08000000 002A0000 08000000", alphabet: b"1-+*", longest: 7 },
    // indirect left recursion: 0 is 1 `-` 0 or a number; 1 is 0 `+` or, passing, 0
    Exhaustive { book: "00 00 02 00 02 00 02 04 01000103 FF030101 02000102 01000301 07 08010000 002D0000 08000000 03000000 08000000 002B0000 08000000", alphabet: b"1-+ ", longest: 6 },
    // hidden left recursion: 0 is many 1, 0 `-`, number or a number; 1 is `+`
    Exhaustive { book: "00 00 02 00 02 00 01 03 01000104 FF030101 FF030101 06 0A010000 08000000 002D0000 03000000 03000000 002B0000", alphabet: b"1-+", longest: 7 },
    // an optional 0 before a use of 0
    Exhaustive { book: "00 00 01 00 02 02 01000103 FF030101 04 09000000 002D0000 08000000 03000000", alphabet: b"1- ", longest: 8 },
    // a comma list, a delimited list and an optional delimited list of numbers, and a minus behind
    Exhaustive { book: "00 00 02 00 03 00 01 04 01030102 02030102 03030102 FF030101 07 0B010000 002D0000 0C015B5D 002D0000 0D012829 002D0000 03000000", alphabet: b"1,-()[]", longest: 5 },
    // words, names, claims: 0 claims, and is an identifier nonterminal, a variable of kind 1, or a word and 0
    Exhaustive { book: "02 01 01 69 00 01 62 02 01 01 61 00 01 62 02 01 03 02 00 03 FF030301 01030101 02000102 04 08010000 05010000 01000000 08000000", alphabet: b"aib ", longest: 7 },
    // an identifier that is no variable, uncommitted; a variable and `-`; behind a step that takes nothing, 0 and `+`
    Exhaustive { book: "01 01 01 69 01 02 01 61 01 00 03 03 FF030003 01030102 02030103 08 06000000 07000000 02000000 04000000 002D0000 07000000 08000000 002B0000", alphabet: b"ai-+", longest: 6 },
    // reserved words `a`, `i`, and names `a` of kind 1, `b` of kind 0. 0 claims, and is an identifier nonterminal, a variable of kind 1, `-` and an
    // identifier that is no variable, or `+` and a variable or, behind kind 7, an identifier
    Exhaustive { book: "02 01 01 61 01 01 69 02 01 01 61 00 01 62 02 01 05 02 00 05 FF030101 01030101 FF030103 02030102 FF030103 0A 08010000 05010000 002D0000 06000000 02000000 002B0000 04000000 002B0000 07000000 02000000", alphabet: b"aib-+ ", longest: 5 },
    // 0 is 1 `-` 1, or `+` and perhaps 1; 1 is a variant without steps, or a number
    Exhaustive { book: "00 00 02 00 02 00 02 04 01030103 02030102 FF030100 FF030101 06 08010000 002D0000 08010000 002B0000 09010000 03000000", alphabet: b"1-+ /", longest: 6 },
];

impl Exhaustive {
    pub fn cases(&self) -> impl Iterator<Item = Case> {
        let book = of_hexadecimal(self.book);
        sequences(self.alphabet, self.longest).into_iter().map(move |text| Case { book: book.clone(), text, start: 0, allowance: MOST_WORK })
    }
}

/// The same over tokens.
pub struct OverTokens {
    pub book: &'static str,
    pub tokens: &'static [&'static str],
    pub longest: usize,
}

pub const BINDERS: &[OverTokens] = &[
    // 0 is a binder of 1; 1 is a variable, `-` and 0, or, left recursion through an absent opening, 0, `+` and a number. The name `a` is also a starting name,
    // and the kind's word `u` reserved
    OverTokens { book: "02 00 01 74 01 01 75 01 00 01 61 02 03 01 00 03 04 FF030101 FF030101 01000102 02000103 07 0E013C3E 04000000 002D0000 08000000 08000000 002B0000 03000000", tokens: &["<", "t a", "u b", ",", ">", "a", "b", "-", "+1"], longest: 5 },
    // the closing is a comma. 0 is a binder of 1; 1 claims, and is an identifier nonterminal, a variable of kind 1, or a list of 0
    OverTokens { book: "02 00 01 74 01 01 75 01 01 01 61 03 03 01 01 03 02 00 04 FF030101 FF030301 FF030101 FF030101 04 0E015B2C 08020000 05010000 0C002829", tokens: &["[", "t a", "u a", ",", "a", "b", "(", ")"], longest: 5 },
    // opening and closing are alike. 0 is a binder of 1, 1 of 2; 2 is a variable, or an identifier that is none
    OverTokens { book: "01 00 01 74 00 03 03 01 03 01 00 02 04 FF030101 FF030101 FF030101 FF030102 05 0E017C7C 0E027C7C 04000000 06000000 02000000", tokens: &["|", "t a", "t b", ",", "a", "b"], longest: 6 },
    // 0 is a binder of 1; 1 is 0 `-` 0, or a number
    OverTokens { book: "01 00 01 74 00 02 03 01 00 02 03 FF030101 01000103 FF030101 05 0E013C3E 08000000 002D0000 08000000 03000000", tokens: &["<", "t a", ">", "1", "-"], longest: 6 },
];

impl OverTokens {
    pub fn cases(&self) -> impl Iterator<Item = Case> {
        let book = of_hexadecimal(self.book);
        let texts = sequences(self.tokens, self.longest).into_iter().map(|tokens| tokens.concat().into_bytes());
        texts.map(move |text| Case { book: book.clone(), text, start: 0, allowance: MOST_WORK })
    }
}

/// A book for long texts, what stands between its numbers, and the most numbers.
pub struct Long {
    pub book: Vec<u8>,
    pub between: &'static [u8],
    pub most: usize,
}

pub fn long() -> Vec<Long> {
    // 0 is a comma list of 1 or many 1; 1 is a number or 0 in parentheses
    let lists = "00 00 02 00 02 00 02 04 FF030101 FF030101 FF030101 FF030103 06 0B010000 0A010000 03000000 00280000 08000000 00290000";
    let mut books: Vec<Long> = (0..3).map(|minus| Long { book: example(minus), between: b"-*", most: 40 }).collect();
    books.push(Long { book: of_hexadecimal(lists), between: b",", most: 97 });
    books.push(Long { book: of_hexadecimal(lists), between: b" \n", most: 97 });
    books
}
