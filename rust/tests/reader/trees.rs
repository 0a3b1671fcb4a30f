//! Trees of every form, large ones, and equal ones.

use crate::held::held;
use crate::inputs::{bytes, doubling, number_and, BLEND, EXAMPLE};
use midgebillon::{read, Associativity, Items, Reading, Tree, MOST_WORK};

fn reading<'a>(book: &'a [u8], text: &'a str) -> Reading<'a> {
    held(book, text.as_bytes(), 0, MOST_WORK)
}

fn line(book: &[u8], text: &str) -> String {
    reading(book, text).value().unwrap().to_string()
}

// The second item of the value, which is a number's successor in `number_and`.
fn second<'r>(reading: &'r Reading<'_>) -> Tree<'r> {
    let Tree::Variant { number: 0, items } = reading.value().unwrap() else { panic!("no variant") };
    items.get(1).unwrap()
}

fn items(tree: Tree<'_>) -> Items<'_> {
    match tree {
        Tree::Variant { items, .. } | Tree::List(items) => items,
        other => panic!("{other} has no items"),
    }
}

#[test]
fn variants_and_numbers() {
    assert_eq!(line(EXAMPLE, "1 - 2*3 // a comment"), "(1 (0 1) (2 (0 2) (0 3)))");
    assert_eq!(line(EXAMPLE, "(1-2)*3"), "(2 (3 (1 (0 1) (0 2))) (0 3))");
    assert_eq!(line(EXAMPLE, "007"), "(0 7)");
    assert_eq!(line(EXAMPLE, &u64::MAX.to_string()), format!("(0 {})", u64::MAX));
    let reading = reading(EXAMPLE, "4294967297-2");
    let minus = items(reading.value().unwrap());
    assert_eq!(minus.iter().len(), 2);
    assert_eq!(items(minus.get(0).unwrap()).get(0), Some(Tree::Number((1 << 32) + 1)));
    assert_eq!(items(minus.get(1).unwrap()).get(0), Some(Tree::Number(2)));
    assert_eq!(format!("{:?}", reading.value().unwrap()), "Variant { number: 1, items: [(0 4294967297) (0 2)] }");
}

#[test]
fn identifiers_and_variables() {
    let book = number_and([2, 0, 0, 0]);
    let read = reading(&book, "1 net_1 // x");
    assert!(matches!(second(&read), Tree::Identifier { place: 2, spelling: "net_1" }));
    assert_eq!(line(&book, "1 net_1"), "(0 1 net_1)");
    let book = number_and([4, 0, 0, 0]);
    let read = reading(&book, "1 x");
    assert!(matches!(second(&read), Tree::Variable { name: 0, kind: 5, spelling: "x" }));
    assert_eq!(line(&book, "1 x"), "(0 1 $x)");
}

#[test]
fn absent_and_present() {
    let book = number_and([9, 1, 0, 0]);
    assert_eq!(second(&reading(&book, "1")), Tree::Absent);
    assert_eq!(line(&book, "1"), "(0 1 -)");
    assert_eq!(line(&book, "1 net"), "(0 1 net)");
}

#[test]
fn lists() {
    let book = number_and([12, 1, b'(', b')']);
    let empty = reading(&book, "1 ()");
    assert!(matches!(second(&empty), Tree::List(items) if items.is_empty() && items.iter().next().is_none()));
    assert_eq!(line(&book, "1()"), "(0 1 [])");
    assert_eq!(line(&book, "1 (a)"), "(0 1 [a])");
    assert_eq!(line(&book, "1 (a, b,a)"), "(0 1 [a b a])");
    let read = reading(&book, "1 (a, b, a)");
    let places = items(second(&read)).iter().map(|item| match item {
        Tree::Identifier { place, .. } => place,
        other => panic!("{other}"),
    });
    // equal identifiers are one cell
    assert_eq!(places.collect::<Vec<_>>(), [3, 6, 3]);
}

#[test]
fn declared_names() {
    let text = "[share hard, price basis] hard * ([share soft] soft * basis)";
    assert_eq!(line(BLEND, text), "(0 [0 1] (3 $0.0 (4 (0 [0] (3 $0.0 (2 $1.1))))))");
    assert_eq!(line(BLEND, "[share a, share a] a * spot"), "(0 [0 0] (3 $0.1 (2 $spot)))");
    assert_eq!(line(BLEND, "[price spot] ([] spot)"), "(0 [1] (4 (0 [] (2 $1.0))))");
    // without the opening the names are absent, and the depth doesn't grow
    assert_eq!(line(BLEND, "[price spot] (spot)"), "(0 [1] (4 (0 - (2 $0.0))))");
    let read = reading(BLEND, "[price a, price b] b");
    let binder = items(read.value().unwrap());
    assert_eq!(binder.get(0).unwrap().to_string(), "[1 1]");
    assert!(matches!(items(binder.get(1).unwrap()).get(0), Some(Tree::Declared { depth: 0, index: 1 })));
}

#[test]
fn equal_by_depth_and_index() {
    let value = |text| reading(BLEND, text);
    let first = value("[price a, price b] b");
    assert_eq!(first.value(), value("[price b, price a] a").value());
    for other in ["[price a, price b] a", "[price a] ([price c, price b] b)", "[price a, price b] spot"] {
        assert_ne!(first.value(), value(other).value());
    }
    let (inner, outer) = (value("[price a] ([price b] b)"), value("[price a] ([price b] a)"));
    assert_ne!(inner.value(), outer.value());
}

#[test]
fn parses() {
    let reading = reading(EXAMPLE, "1-2 ");
    let parses: Vec<_> = reading.parses().collect();
    assert_eq!(reading.answer(), [0, 0, 0, 0, 46, 2, 11]);
    assert_eq!((reading.work(), &reading.cells()[30..36]), (46, &[3, 1, 10, 2, 1, 11][..]));
    let told: Vec<_> = parses.iter().map(|p| (p.rest, p.level, p.associativity, p.value.to_string())).collect();
    let (one, both) = ("(0 1)".to_string(), "(1 (0 1) (0 2))".to_string());
    assert_eq!(told, [(1, 255, Associativity::Both, one), (3, 1, Associativity::Left, both)]);
    assert!(!reading.is_whole(&parses[0]) && reading.is_whole(&parses[1]));
    // of a longer text
    let longer = read(EXAMPLE, b"1-2-3", 0, MOST_WORK).unwrap();
    assert!(longer.parses().all(|parse| parse.rest < 5 || !reading.is_whole(&parse)));
}

#[test]
fn associativities() {
    let associativity = |number| {
        let mut book = EXAMPLE.to_vec();
        book[11] = number;
        let reading = read(&book, b"1-2", 0, MOST_WORK).unwrap();
        let minus = reading.parses().find(|parse| parse.level == 1).unwrap();
        minus.associativity
    };
    use Associativity::*;
    assert_eq!([0, 1, 2, 3].map(associativity), [Left, Right, None, Both]);
}

#[test]
fn exponential() {
    let book = doubling(17);
    let reading = reading(&book, "");
    let (mut tree, mut depth) = (reading.value().unwrap(), 0);
    while let Some(item) = items(tree).get(1) {
        assert_eq!(items(tree).get(0), Some(item));
        (tree, depth) = (item, depth + 1);
    }
    assert_eq!((depth, tree.to_string().as_str()), (17, "(17)"));
    assert_eq!(reading.answer()[6], 53);
    let whole = reading.line(1 << 24).unwrap().unwrap();
    assert_eq!(whole.iter().filter(|&&byte| byte == b'(').count(), (1 << 18) - 1);
    assert_eq!(whole, format!("value {}\n", reading.value().unwrap()).into_bytes());
}

#[test]
fn deep() {
    // docs/BOOK.md, "Limits of a rule", book 1
    let book = bytes("00 00 01 00 02 02 FF 03 01 01 FF 03 01 03 04 03 00 00 00 00 28 00 00 08 00 00 00 00 29 00 00");
    let text = format!("{}1{}", "(".repeat(199), ")".repeat(199));
    assert_eq!(line(&book, &text), format!("{}(0 1){}", "(1 ".repeat(199), ")".repeat(199)));
}

#[test]
fn equal() {
    // of one reading: `(1 (0 1) (0 1))` has the same item twice
    let once = reading(EXAMPLE, "(1-2)-(1-2)-(1-3)");
    let outer = items(once.value().unwrap());
    let inner = items(outer.get(0).unwrap());
    assert_eq!(inner.get(0), inner.get(1));
    assert_ne!(inner.get(0), outer.get(1));
    // of two, whose cells have other numbers
    let other = reading(EXAMPLE, "  (1-3)*(1-2)");
    assert_ne!(once.value(), other.value());
    let times = items(other.value().unwrap());
    assert_eq!((inner.get(0), outer.get(1)), (times.get(1), times.get(0)));
    assert_ne!(inner.get(0), times.get(0));
    let shorter = reading(EXAMPLE, "(1-2)");
    assert_eq!(inner.get(0).unwrap(), shorter.value().unwrap());
}

#[test]
fn one_item_is_not_two() {
    let twice = reading(EXAMPLE, "1-1");
    for text in ["1-2", "2-1"] {
        let once_each = reading(EXAMPLE, text);
        assert_ne!(twice.value(), once_each.value());
        assert_ne!(once_each.value(), twice.value());
    }
}

#[test]
fn equal_by_spelling() {
    let book = number_and([11, 1, 0, 0]);
    let (first, second) = (reading(&book, "1 a, b"), reading(&book, "1  a,b"));
    assert_eq!(first.value(), second.value());
    for other in ["1 a, c", "1 a", "1 a, b, b", "2 a, b", "1 b, a", "1"] {
        let other = reading(&book, other);
        assert_ne!(first.value(), other.value());
        assert_ne!(other.value(), first.value());
    }
    let large = doubling(17);
    assert_eq!(reading(&large, "").value(), reading(&large, " ").value());
}
