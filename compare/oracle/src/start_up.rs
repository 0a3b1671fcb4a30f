//! What the driver relies on and the Rust doesn't say, tested before anything is compared.
use crate::answer::Answer;
use crate::binder::{parse_between, Bound};
use crate::book::{Book, Entry, Nonterminal, Variant, BINDER, BOTH, COMMITTED, DEFAULT_LEVEL, LEFT, NONE, PLAIN, RIGHT};
use crate::grammar;
use crate::term::Term;
use formality_core::parse::{CoreParse, Scope};
use formality_core::variable::CoreVariable;
use std::rc::Rc;

pub fn test() {
    precedences();
    associativities();
    keywords();
    reserved_names();
    binders();
    binder_bodies();
    binder_depths();
    binder_openings();
}

fn variant(level: u8, associativity: u8, steps: &[[u8; 4]]) -> Variant {
    Variant { level, associativity, flags: COMMITTED, steps: steps.to_vec() }
}

/// Each precedence is what the Rust's own Debug says, Both below level 255 too.
fn precedences() {
    for (associativity, name) in [(LEFT, "Left"), (RIGHT, "Right"), (NONE, "None"), (BOTH, "Both")] {
        for level in [0, 1, 254] {
            let made = grammar::precedence(&variant(level, associativity, &[]));
            assert_eq!(format!("{made:?}"), format!("Precedence {{ level: {level}, associativity: {name} }}"));
            assert_eq!((grammar::level(made), made.associativity()), (level as u32, associativity as u32));
        }
    }
    let default = grammar::precedence(&variant(DEFAULT_LEVEL, BOTH, &[]));
    assert_eq!((grammar::level(default), default.associativity()), (255, 3));
}

fn answer(book: Book, text: &str) -> Answer {
    crate::answer(&Rc::new(book), text, 0)
}

/// Document 01's rows 1, 9, 10 and 11: `1-2-3` with minus Left, Right, None and Both at level 1.
fn associativities() {
    let rows = [(LEFT, 0, "(1 (1 (0 1) (0 2)) (0 3))"), (RIGHT, 0, "(1 (0 1) (1 (0 2) (0 3)))"), (NONE, 31, ""), (BOTH, 32, "")];
    for (associativity, refusal, value) in rows {
        let number = variant(DEFAULT_LEVEL, BOTH, &[[3, 0, 0, 0]]);
        let minus = variant(1, associativity, &[[8, 0, 0, 0], [0, b'-', 0, 0], [8, 0, 0, 0]]);
        let book = Book { nonterminals: vec![Nonterminal { mark: 0, variants: vec![number, minus] }], ..Book::default() };
        let got = answer(book, "1-2-3");
        assert_eq!((got.refusal, got.value.as_str()), (refusal, value), "associativity {associativity}");
    }
}

/// The language's words follow the book: `if` is read as an identifier exactly where it isn't reserved.
fn keywords() {
    for reserved in [1, 0, 1] {
        let words = vec![Entry { label: reserved, spelling: "if".into() }];
        let identifier = variant(DEFAULT_LEVEL, BOTH, &[[2, 0, 0, 0]]);
        let book = Book { words, nonterminals: vec![Nonterminal { mark: 0, variants: vec![identifier] }], ..Book::default() };
        assert_eq!(answer(book, "if").refusal, if reserved == 1 { 30 } else { 0 });
    }
}

/// Document 02 f: a starting name that is reserved is read as a variable, and still not as an identifier.
fn reserved_names() {
    for (kind, refusal) in [(2, 30), (4, 0), (5, 0), (6, 30), (7, 30)] {
        let words = vec![Entry { label: 1, spelling: "if".into() }];
        let names = vec![Entry { label: 0, spelling: "if".into() }];
        let minus = variant(DEFAULT_LEVEL, BOTH, &[[0, b'-', 0, 0], [kind, 0, 0, 0]]);
        let book = Book { words, names, nonterminals: vec![Nonterminal { mark: 0, variants: vec![minus] }] };
        let got = answer(book, "-if");
        let value = if refusal == 0 { "(0 $if)" } else { "" };
        assert_eq!((got.refusal, got.value.as_str()), (refusal, value), "kind {kind}");
    }
}

fn binder(body: u8, open: u8, close: u8) -> Nonterminal {
    Nonterminal { mark: BINDER, variants: vec![variant(DEFAULT_LEVEL, BOTH, &[[14, body, open, close]])] }
}

/// 0 is a binder of 1 between these characters; 1 is a variable, `-` and 0, or 0, `+` and a number. The words are `t` and `u`, a name is `a`.
fn with_binder(open: u8, close: u8) -> Book {
    let words = ["t", "u"].map(|word| Entry { label: 0, spelling: word.into() }).to_vec();
    let names = vec![Entry { label: 0, spelling: "a".into() }];
    let variants = vec![
        variant(DEFAULT_LEVEL, BOTH, &[[4, 0, 0, 0]]),
        variant(1, RIGHT, &[[0, b'-', 0, 0], [8, 0, 0, 0]]),
        variant(1, LEFT, &[[8, 0, 0, 0], [0, b'+', 0, 0], [3, 0, 0, 0]]),
    ];
    let body = Nonterminal { mark: PLAIN, variants };
    Book { words, names, nonterminals: vec![binder(1, open, close), body] }
}

/// Document 02 d: declared names, with the language's characters and with others.
fn binders() {
    let rows = [
        ("a", "(0 - (1 $a))"),
        ("<>a", "(0 [] (1 $a))"),
        ("<t a>a", "(0 [0] (1 $0.0))"),
        ("<t b, u a,>a", "(0 [0 1] (1 $0.1))"),
        ("<u b, t b>b", "(0 [1 0] (1 $0.1))"),
        ("<t b>-<>-<u c>b", "(0 [0] (2 (0 [] (2 (0 [1] (1 $2.0))))))"),
        ("<t b>-a", "(0 [0] (2 (0 - (1 $a))))"),
        ("<t b>-b", "(0 [0] (2 (0 - (1 $0.0))))"),
    ];
    for (text, value) in rows {
        for [open, close] in [*b"<>", *b"||", *b"[)"] {
            let text = text.replace('<', &char::from(open).to_string()).replace('>', &char::from(close).to_string());
            let got = answer(with_binder(open, close), &text);
            assert_eq!((got.refusal, got.value.as_str()), (0, value), "{text}");
        }
    }
}

/// With `<` and `>`, the Rust's `CoreBinder::parse` and its body here give the same parses and errors.
fn binder_bodies() {
    let book = Rc::new(with_binder(b'<', b'>'));
    grammar::set_book(&book);
    let scope = Scope::new(grammar::bindings(&book));
    let mut texts = vec![String::new()];
    for _ in 0..5 {
        texts = texts.iter().flat_map(|text| ["<", "t b", ",", ">", "b", "-", "+1"].map(|token| format!("{text} {token}"))).collect();
        for text in &texts {
            assert_eq!(Bound::<0>::parse(&scope, text), parse_between('<', '>', &scope, text), "{text}");
        }
    }
}

/// So many binders, 0 of 1, 1 of 2 and so on, and the last one of a variable. A word is `t`, a name `a`.
fn binders_of_variable(count: u8) -> Rc<Book> {
    let [words, names] = ["t", "a"].map(|spelling| vec![Entry { label: 0, spelling: spelling.into() }]);
    let variable = Nonterminal { mark: PLAIN, variants: vec![variant(DEFAULT_LEVEL, BOTH, &[[4, 0, 0, 0]])] };
    let nonterminals = (1..=count).map(|body| binder(body, b'<', b'>')).chain([variable]).collect();
    Rc::new(Book { words, names, nonterminals })
}

/// The Rust's depth counts a binder without its opening; document 02's, and so a value's, doesn't.
fn binder_depths() {
    let book = Rc::new(Book { names: vec![], ..(*binders_of_variable(2)).clone() });
    assert_eq!(crate::answer(&book, "<t a>a", 0).value, "(0 [0] (1 - (2 $0.0)))");
    let parses = grammar::parse(0, &Scope::new([]), "<t a>a").expect("a parse");
    let depths = parses.into_iter().flat_map(|parse| counted_depths(&parse.finish().0));
    assert_eq!(depths.collect::<Vec<_>>(), [1]);
}

/// The Rust's binder is the same for an empty opening and for none.
fn binder_openings() {
    let book = binders_of_variable(1);
    assert_eq!(["<>a", "a"].map(|text| crate::answer(&book, text, 0).value), ["(0 [] (1 $a))", "(0 - (1 $a))"]);
    let scope = Scope::new(grammar::bindings(&book));
    let [opened, absent] = ["<>a", "a"].map(|text| {
        let parses = Bound::<0>::parse(&scope, text).expect("a parse");
        parses.into_iter().map(|parse| parse.finish().0).collect::<Vec<_>>()
    });
    assert_eq!((opened.len(), &opened), (1, &absent));
}

/// The depths of a term's declared variables as the Rust counts them.
fn counted_depths(term: &Term) -> Vec<usize> {
    match term {
        Term::Variable(CoreVariable::BoundVar(v)) => v.debruijn.map(|depth| depth.index).into_iter().collect(),
        Term::Variant(_, items) | Term::List(items) => items.iter().flat_map(counted_depths).collect(),
        Term::Binder(binder) => counted_depths(binder.bound.peek()),
        _ => vec![],
    }
}
