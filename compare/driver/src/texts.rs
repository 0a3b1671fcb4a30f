//! Random texts for a book: from its derivations, from its tokens, damaged, with whitespace and comments anywhere, and long ones.
use crate::books::{CHARACTERS, SPELLINGS};
use crate::fixed::Long;
use crate::random::Random;
use oracle::book::{Book, Variant, BINDER, IDENTIFIER};

const NUMBERS: &[&str] = &["0", "1", "2", "12", "007", "18446744073709551615", "18446744073709551616"];
const GAPS: &[&str] = &[" ", "  ", "\n", "\t", "//\n", " // c\n ", "\x0b\x0c\r", "// 1 - //\n//\n"];
const ENDS: &[&str] = &["", "", "", " ", "\n", "//", " // end", "/", "//\n", "\n//x\n "];

/// The longest text that the reader takes.
pub const LONGEST: usize = 4096;

pub fn text(random: &mut Random, book: &Book, start: usize) -> Vec<u8> {
    let tokens = match random.below(8) {
        0 => (0..random.below(8)).map(|_| any_token(random, book)).collect(),
        _ => derived(random, book, start),
    };
    let mut text = (joined(random, &tokens) + random.pick(ENDS)).into_bytes();
    if random.one_in(3) {
        damage(random, &mut text);
    }
    text.truncate(LONGEST);
    text
}

/// The tokens with gaps between some, and perhaps a gap before.
fn joined(random: &mut Random, tokens: &[String]) -> String {
    let often = random.between(2, 8);
    let mut text = String::new();
    for token in tokens {
        let apart = text.ends_with(is_wordy) && token.starts_with(is_wordy);
        if random.one_in(often) || (apart && !random.one_in(8)) {
            text += random.pick(GAPS);
        }
        text += token;
    }
    text
}

fn is_wordy(c: char) -> bool {
    c.is_ascii_alphanumeric() || c == '_'
}

fn damage(random: &mut Random, text: &mut Vec<u8>) {
    for _ in 0..random.between(1, 3) {
        let at = random.below(text.len() + 1);
        match random.below(5) {
            0 if random.one_in(4) => text.insert(at, random.below(128) as u8),
            0 => text.insert(at, random.byte(CHARACTERS)),
            1 => text.insert(at, random.byte(b" \n/1a_(,")),
            2 if at < text.len() => drop(text.remove(at)),
            _ if at < text.len() => text[at] = random.byte(CHARACTERS),
            _ => (),
        }
    }
}

fn number(random: &mut Random) -> String {
    let common = if random.one_in(12) { NUMBERS.len() } else { 4 };
    random.pick(&NUMBERS[..common]).to_string()
}

fn any_token(random: &mut Random, book: &Book) -> String {
    match random.below(6) {
        0 => number(random),
        1 => spelling(random, book),
        _ => {
            let steps: Vec<_> = book.nonterminals.iter().flat_map(|n| &n.variants).flat_map(|v| &v.steps).collect();
            match steps.get(random.below(steps.len() + 1)) {
                Some([0, a, ..]) => (*a as char).to_string(),
                Some([12..=14, _, b, c]) => (if random.one_in(2) { *b } else { *c } as char).to_string(),
                Some([3, ..]) => number(random),
                _ => spelling(random, book),
            }
        }
    }
}

fn spelling(random: &mut Random, book: &Book) -> String {
    let known: Vec<&str> = book.names.iter().chain(&book.words).map(|e| e.spelling.as_str()).collect();
    if known.is_empty() || random.one_in(3) {
        random.pick(SPELLINGS).into()
    } else {
        random.pick(&known).into()
    }
}

/// Tokens of a random derivation, cut off where it grows too deep.
fn derived(random: &mut Random, book: &Book, start: usize) -> Vec<String> {
    let mut derived = Derived::default();
    let deepest = random.between(2, 7);
    use_of(random, book, start, deepest, &mut derived);
    derived.tokens
}

/// The tokens so far, and names that were declared in them: those of open scopes, and some of ended ones.
#[derive(Default)]
struct Derived {
    tokens: Vec<String>,
    declared: Vec<String>,
}

const MOST_TOKENS: usize = 40;

fn use_of(random: &mut Random, book: &Book, n: usize, depth: usize, derived: &mut Derived) {
    let nonterminal = &book.nonterminals[n];
    if nonterminal.mark == IDENTIFIER {
        let name = name(random, book, derived);
        return derived.tokens.push(name);
    }
    if nonterminal.variants.is_empty() || derived.tokens.len() > MOST_TOKENS {
        return;
    }
    // few uses where little depth is left
    let uses = |v: usize| nonterminal.variants[v].steps.iter().filter(|s| s[0] >= 8).count();
    let mut chosen = random.below(nonterminal.variants.len());
    for _ in 0..if depth < 2 { 4 } else { 1 } {
        let other = random.below(nonterminal.variants.len());
        if depth < 3 && uses(other) < uses(chosen) {
            chosen = other;
        }
    }
    if !derived.declared.is_empty() && !random.one_in(4) {
        let inwards = depth > 1 && random.one_in(2);
        let is_binder = |n: u8| book.nonterminals[n as usize].mark == BINDER;
        let fits = |v: &Variant| if inwards { v.steps.iter().any(|s| s[0] >= 8 && is_binder(s[1])) } else { matches!(v.steps[..], [[4 | 5, ..]]) };
        chosen = nonterminal.variants.iter().position(fits).unwrap_or(chosen);
    }
    if depth == 0 && uses(chosen) > 0 {
        return;
    }
    for step in &nonterminal.variants[chosen].steps {
        take(random, book, step, depth, derived);
    }
}

fn take(random: &mut Random, book: &Book, step: &[u8; 4], depth: usize, derived: &mut Derived) {
    let [kind, a, b, c] = *step;
    let child = |random: &mut Random, derived: &mut Derived| use_of(random, book, a as usize, depth.saturating_sub(1), derived);
    match kind {
        0 => derived.tokens.push(character(a)),
        1 => derived.tokens.push(book.words[a as usize].spelling.clone()),
        2 | 4 | 5 => {
            let name = name(random, book, derived);
            derived.tokens.push(name);
        }
        3 => derived.tokens.push(number(random)),
        8 => child(random, derived),
        9 if random.one_in(2) => child(random, derived),
        10 => (0..random.below(4)).for_each(|_| child(random, derived)),
        11 | 12 | 13 => {
            let delimited = kind == 12 || kind == 13 && random.one_in(2);
            if kind == 13 && !delimited {
                return;
            }
            if delimited {
                derived.tokens.push(character(b));
            }
            let count = random.below(4);
            for i in 0..count {
                child(random, derived);
                if i + 1 < count || random.one_in(4) {
                    derived.tokens.push(",".into());
                }
            }
            if delimited {
                derived.tokens.push(character(c));
            }
        }
        14 => {
            let outside = derived.declared.len();
            // without an opening, what begins with a binder is left recursion; within one, depths are of weight
            let often = if derived.declared.is_empty() { 2 } else { 4 };
            if !random.one_in(often) {
                opening(random, book, [b, c], derived);
            }
            child(random, derived);
            if !random.one_in(8) {
                derived.declared.truncate(outside);
            }
        }
        _ => (),
    }
}

fn character(c: u8) -> String {
    (c as char).to_string()
}

/// A name, where some are declared mostly one of those.
fn name(random: &mut Random, book: &Book, derived: &Derived) -> String {
    if derived.declared.is_empty() || random.one_in(8) {
        return spelling(random, book);
    }
    derived.declared[random.below(derived.declared.len())].clone()
}

/// A binder's opening, names and closing, as one token.
fn opening(random: &mut Random, book: &Book, [open, close]: [u8; 2], derived: &mut Derived) {
    let count = match random.below(24) {
        0 => random.between(60, 70),
        1..=3 => 0,
        _ => random.between(1, 3),
    };
    let often = if count > 3 { 400 } else { 16 };
    let mut tokens = vec![character(open)];
    for i in 0..count {
        let name = declared_name(random, book, often);
        let gap = if random.one_in(often) { "" } else { random.pick(GAPS) };
        tokens.push(kind_word(random, book, often) + gap + &name);
        derived.declared.push(name);
        if i + 1 < count || random.one_in(4) {
            tokens.push(",".into());
        }
    }
    if !random.one_in(24) {
        tokens.push(character(close));
    }
    derived.tokens.push(joined(random, &tokens));
}

/// The word of a kind, or the ninth, which is none; but one time in so many any spelling.
fn kind_word(random: &mut Random, book: &Book, often: usize) -> String {
    let kinds = &book.words[..book.words.len().min(9)];
    if kinds.is_empty() || random.one_in(often) {
        return spelling(random, book);
    }
    kinds[random.below(kinds.len())].spelling.clone()
}

/// A name that isn't reserved, but one time in so many any spelling.
fn declared_name(random: &mut Random, book: &Book, often: usize) -> String {
    let is_reserved = |name: &str| book.words.iter().any(|w| w.label == 1 && w.spelling == name);
    let free: Vec<&str> = SPELLINGS.iter().copied().filter(|name| !is_reserved(name)).collect();
    if free.is_empty() || random.one_in(often) {
        return spelling(random, book);
    }
    random.pick(&free).into()
}

/// A long text: many numbers, deep parentheses, long stretches of skipped text.
pub fn long(random: &mut Random, of: &Long) -> Vec<u8> {
    let mut text = Vec::new();
    let terms = random.between(1, of.most);
    let deepest = random.below(8);
    let mut open = 0;
    for i in 0..terms {
        while random.one_in(3) && open < deepest {
            text.push(b'(');
            open += 1;
        }
        padding(random, &mut text);
        text.extend(number(random).bytes());
        while open > 0 && random.one_in(3) {
            text.push(b')');
            open -= 1;
        }
        padding(random, &mut text);
        if i + 1 < terms {
            text.push(random.byte(of.between));
        }
    }
    text.extend(std::iter::repeat_n(b')', open));
    if random.one_in(6) {
        damage(random, &mut text);
    }
    if random.one_in(4) && text.len() < LONGEST {
        // up to the last byte that fits
        let size = LONGEST - text.len();
        text.extend(std::iter::repeat_n(random.byte(b" \n"), size));
    }
    text.truncate(LONGEST);
    text
}

fn padding(random: &mut Random, text: &mut Vec<u8>) {
    match random.below(12) {
        0 => text.extend(std::iter::repeat_n(random.byte(b" \n\t\r"), random.below(200))),
        1 => {
            text.extend(b"//");
            text.extend(std::iter::repeat_n(b'/', random.below(200)));
            text.push(b'\n');
        }
        2 => text.extend(random.pick(GAPS).bytes()),
        _ => (),
    }
}
