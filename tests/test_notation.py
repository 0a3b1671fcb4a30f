"""The notation for books: both ways without loss, and what it says of a text that is no book."""
import unittest

from midgebillon import check, decode, encode, from_text, to_text
from midgebillon.book_refusal import explained
from midgebillon.notation import is_text
from midgebillon.notation_tokens import NotationError
from midgebillon.notes import notes, placed_notes
from midgebillon.view import view
from random_books import random_book
from vectors import ROOT, accepted_books

RANDOM_BOOKS = 1000
BINDER_LINE = "  | ('[' names,* ']')? e\n"
BINDER = f"e (declares names)\n{BINDER_LINE}".rstrip()
BINDER_OF_F = "e (declares names)\n  | ('[' names,* ']')? f\n"


class RoundTrips(unittest.TestCase):
    def same(self, data):
        """Bytes to text to bytes, and that text to itself; the text has every name and number."""
        book = decode(data)
        self.assertEqual(encode(book), data)
        text = to_text(book)
        source = from_text(text)
        self.assertEqual(source.data, data, text)
        self.assertEqual(to_text(decode(source.data), source.names, [""] * len(book.variants)), text)
        self.assertTrue(is_text(text.encode()))
        self.assertFalse(is_text(data), "a book in bytes is taken for text")

    def test_every_accepted_book_of_the_vectors(self):
        books = accepted_books()
        self.assertGreater(len(books), 100)
        for data in books:
            self.same(data)

    def test_random_books(self):
        kinds, marks, flags = set(), set(), set()
        for seed in range(RANDOM_BOOKS):
            book = random_book(seed)
            data = encode(book)
            self.assertIsNone(check(data), f"seed {seed}: the reader refuses the book")
            self.same(data)
            marks |= {nonterminal.mark for nonterminal in book.nonterminals}
            flags |= {(v.flags, v.associativity) for v in book.variants}
            kinds |= {step.kind for variant in book.variants for step in variant.steps}
        self.assertEqual((kinds, marks, len(flags)), (set(range(15)), {0, 1, 2, 3}, 16))

    def test_the_examples(self):
        for name in ("rules", "blend"):
            with open(f"{ROOT}/examples/{name}.grammar", encoding="utf-8") as file:
                text = file.read()
            with open(f"{ROOT}/examples/{name}.book", "rb") as file:
                self.assertEqual(from_text(text).data, file.read())

    def test_names_and_comments_stay(self):
        text = "amount\n  | number  # 0 plain\n"
        found = view(text.encode())
        self.assertEqual(to_text(found.book, found.names, [found.label(0)]), text)

    def test_spaces_comments_and_line_ends_do_not_matter(self):
        plain = from_text("words kg\nweight\n  | number \"kg\"  ; left 3\n").data
        other = "\ufeff# words of a book\r\n\twords\tkg # of weight\r\n\r\nweight\r\n|number\"kg\";left 3# 0\r\n"
        self.assertEqual(view(other.encode()).data, plain)


# A text, the line and column of the first problem, and a part of what is said.
PROBLEMS = [
    ("", 1, 1, "the book has no nonterminal"),
    ("# nothing\n", 2, 1, "the book has no nonterminal"),
    ("| number\n", 1, 1, "below its nonterminal's name"),
    ("e = number\n", 1, 3, "stands alone on its line"),
    ("e: number\n", 1, 2, "stands alone on its line"),
    ("e ::= number\n", 1, 3, "stands alone on its line"),
    ("'a'\n", 1, 1, "a line is a nonterminal's name"),
    ("number\n", 1, 1, "can't be a nonterminal's name"),
    ("e\n  number\n", 2, 3, "a | is missing before it"),
    ("e\n  e '-' e\n", 2, 3, "a | is missing before it"),
    ("e\ne\n", 2, 1, "there is a nonterminal e already"),
    ("e (identifyer)\n", 1, 3, "(claims variables), (identifier) or (declares names)"),
    ("e (identifier\n", 1, 3, "(claims variables), (identifier) or (declares names)"),
    ("e (declares)\n", 1, 3, "(claims variables), (identifier) or (declares names)"),
    ("e (declares names)\n  | ('[' names,* ']') e\n", 2, 21, "a ? stands behind declared names"),
    ("e (declares names)\n  | ('[' names,* ']')?\n", 2, 23, "('[' names,* ']')? amount"),
    ("e (declares names)\n  | ('[' names,* ']')? number\n", 2, 24, "a nonterminal: ('[' names,* ']')? amount"),
    ("e (declares names)\n  | ('[' names,* ']')? e*\n", 2, 25, "for one nonterminal"),
    ("e (declares names)\n  | ('[' names,* ']')? e+\n", 2, 25, "e e*"),
    ("e (declares names)\n  | ('[' names,* ']')? f\n", 2, 24, "f is no nonterminal"),
    ("e (declares names)\n  | ('[' names ']')? e\n", 2, 5, "('[' names,* ']')? amount"),
    ("e (declares names)\n  | '[' names,* ']' e\n", 2, 9, "('[' names,* ']')? amount"),
    ("e (declares names)\n  | ('[' name,* ']')? e\n", 2, 10, "('[' names,* ']')? amount"),
    ("e (declares names)\n  | ('[' names,* 'é')? e\n", 2, 18, "one of ASCII"),
    ("e\nwords a\n", 2, 1, "words stand before the first nonterminal"),
    ("names x\ne\n", 1, 7, "x:0"),
    ("names x:a\ne\n", 1, 9, "is a number"),
    ("names x:256\ne\n", 1, 9, "at most 7"),
    ('reserved "if"\ne\n', 1, 10, "without quotation marks and commas"),
    ("words if, then\ne\n", 1, 7, "without quotation marks and commas"),
    ("names x:1\ne\n  | x\n", 3, 5, "write variable, or variable:1"),
    ("words é\ne\n", 1, 7, "a letter or underscore"),
    ("e\n  |\n", 2, 3, "| empty"),
    ("e\n  | ; left 1\n", 2, 3, "| empty"),
    ("e\n  | empty number\n", 2, 11, "behind empty stands no step"),
    ("e\n  | number | e\n", 2, 12, "a line of its own"),
    ("e\n  | expr\n", 2, 5, "expr is no nonterminal"),
    ("expression\n  | expresion\n", 2, 5, "did you mean expression?"),
    ("e\n  | e+\n", 2, 6, "e e*"),
    ("e\n  | e, e\n", 2, 6, "e,*"),
    ("e\n  | number*\n", 2, 11, "only a nonterminal may have ?, * or ,*: give number a nonterminal x of its own"),
    ("e\n  | number+\n", 2, 11, "then x x* is one or more"),
    ('words kg\ne\n  | "kg"?\n', 3, 9, "only a nonterminal may have"),
    ("e\n  | e ('-' e)*\n", 2, 7, "any other group has a nonterminal of its own"),
    ("e\n  | '\\n'\n", 2, 5, "without a backslash"),
    ("e\n  | e ; left, 1\n", 2, 13, "no commas"),
    ("%left '-'\ne\n", 1, 1, "levels stand behind a variant"),
    ("<e> ::= number\n", 1, 1, "a name has no < >"),
    ("reserved\ne\n", 1, 1, "no words stand on this line"),
    ("e\n  | * e\n", 2, 5, "right behind a nonterminal's name; the character is '*'"),
    ("e\n  | e * e ; left 1\n", 2, 7, "right behind a nonterminal's name; the character is '*'"),
    ("e\n  | number ? e\n", 2, 12, "the character is '?'"),
    ("e\n  | e '-' e left 1\n", 2, 13, "a semicolon stands before left"),
    ("e\n  | '<='\n", 2, 5, "'<' '='"),
    ("e\n  | 'if'\n", 2, 5, '"if"'),
    ("e\n  | ''\n", 2, 5, "a character is missing"),
    ("e\n  | '-\n", 2, 5, "the apostrophe behind the character is missing"),
    ("e\n  | 'é'\n", 2, 5, "one of ASCII"),
    ('e\n  | "-"\n', 2, 5, "'-'"),
    ('e\n  | "<="\n', 2, 5, "'<' '='"),
    ('e\n  | "if"\n', 2, 5, "words if"),
    ('words then\ne\n  | "than"\n', 3, 5, "did you mean then?"),
    ("words if\ne\n  | if\n", 3, 5, '"if"'),
    ('e\n  | "if\n', 2, 5, "the quotation mark that ends the word is missing"),
    ('words i\ne\n  | "if\n', 3, 5, "the quotation mark that ends the word is missing"),
    ('words a b\ne\n  | "a":1\n', 3, 9, "word 1 isn't spelled a"),
    ('words a b\ne\n  | "a":\n', 3, 9, "the number of a word is missing"),
    ("e\n  | variable:x\n", 2, 14, "is a number"),
    ("e\n  | !number\n", 2, 5, "variable or reserved"),
    ("e\n  | !\n", 2, 5, "variable or reserved"),
    ("e\n  | ('(' e ')')\n", 2, 5, "('[' amount,* ']')"),
    ("e\n  | (e)\n", 2, 5, "('[' amount,* ']')"),
    ("e\n  | e ;\n", 2, 8, "behind ;"),
    ("e\n  | e ; left\n", 2, 13, "the level of an operator is missing"),
    ("e\n  | e ; left x\n", 2, 14, "is a number"),
    ("e\n  | e ; left 256\n", 2, 14, "at most 254"),
    ("e\n  | e ; 1\n", 2, 9, "left 1"),
    ("e\n  | e ; left 1 right 2\n", 2, 16, "said twice"),
    ("e\n  | e ; left 1, passing\n", 2, 15, "no commas"),
    ("e\n  | e ; pasing\n", 2, 9, "did you mean passing?"),
    ("e\n  | $\n", 2, 5, "'$'"),
    ("e\n\t| $\n", 2, 11, "'$'"),
    ("e\n  | e - e ; left 1\n", 2, 7, "'-'"),
    ("e\n  | \u2018-\u2019\n", 2, 5, "another character than an apostrophe"),
    ("e\n  | [ e ]\n", 2, 5, "amount?"),
    ("e\n  | \u03b5\n", 2, 5, "empty"),
    ("e\n  | \u00e9\n", 2, 5, "no step begins so"),
    ("e\n  | NUMBER\n", 2, 5, "did you mean number?"),
    ("e\n  | e '-' e LEFT 1\n", 2, 13, "a semicolon stands before left"),
    ("e\n  | if e\n", 2, 5, 'for the word, write "if"'),
    ("e\n  | name\n", 2, 5, "variable:1"),
    ("// a book\ne\n", 1, 1, "a comment begins with #"),
    ("e\n  | number // digits\n", 2, 12, "a comment begins with #"),
    ("words\n  if\ne\n", 1, 1, "no words stand on this line"),
    ("words: if\ne\n", 1, 1, "behind words stands a space"),
    ("word if\ne\n", 1, 6, "did you mean words?"),
    ("names a: 0\ne\n", 1, 7, "right behind a colon: a:0"),
]

# A text that the notation takes and the reader's check refuses: the refusal, line, column, a part of what is said.
REFUSED = [
    (f"words {' '.join('w%d' % i for i in range(65))}\ne\n", 4, 1, 253, "a book has 0 to 64 words"),
    (f"names {' '.join('w%d:0' % i for i in range(65))}\ne\n", 4, 1, 381, "a book has 0 to 64 names"),
    ("\n".join(f"e{i}" for i in range(33)) + "\n", 4, 33, 1, "a book has 1 to 32 nonterminals"),
    ("".join(f"e{i}\n" + "| number\n" * 16 for i in range(8)) + "f\n| number\n", 4, 138, 1, "at most 128 variants"),
    ("words a-b\ne\n", 5, 1, 7, "'a-b' can't be spelled so"),
    ("words <= kg\ne\n", 5, 1, 7, "'<=' can't be spelled so"),
    ("words abcdefghijklmnop\ne\n", 5, 1, 7, "1 to 15"),
    ("names x1:0 :3\ne\n", 5, 1, 12, "it is empty"),
    ("names x:8\ne\n", 6, 1, 9, "a kind is 0 to 7"),
    ("e\n" + "  | number\n" * 17, 6, 18, 3, "a nonterminal has at most 16 variants"),
    ("e (identifier)\n  | number\n", 6, 2, 3, "(identifier) has no variants"),
    ("e\n  | number ; left 255\n", 6, 2, 14, "an operator's is at most 254"),
    ("e\n  | e e e e e e e e e\n", 6, 2, 21, "a variant has at most 8 steps"),
    ("e\n  | ' '\n", 6, 2, 5, "33 to 126"),
    ("e\n  | number (' ' e,* ')')\n", 6, 2, 13, "33 to 126"),
    ("e\n  | ('(' e,* '\x7f')?\n", 6, 2, 14, "33 to 126"),
    ("e\n  | variable:8\n", 6, 2, 14, "a kind is 0 to 7"),
    ("e\n  | number ; passing\n", 7, 2, 14, "one nonterminal and nothing else"),
    ("e\n  | e e ; uncommitted passing\n", 7, 2, 23, "one nonterminal and nothing else"),
    ("e\n  | e e ; passing uncommitted\n", 7, 2, 11, "one nonterminal and nothing else"),
    # each place of document 02 d
    ("e (declares names)\n", 6, 1, 1, "has one variant, of one step: ('[' names,* ']')? amount"),
    (f"{BINDER}\n{BINDER_LINE}", 6, 3, 3, "has one variant, of one step"),
    (f"{BINDER}\n  | number\n", 6, 3, 3, "has one variant, of one step"),
    (f"{BINDER} ; left 1\n", 6, 2, 33, "has no level"),
    (f"{BINDER} ; both 254\n", 6, 2, 33, "has no level"),
    (f"{BINDER} ; left 255\n", 6, 2, 28, "has no level"),
    (f"{BINDER} ; passing\n", 6, 2, 28, "neither passing nor uncommitted"),
    (f"{BINDER} ; uncommitted\n", 6, 2, 28, "neither passing nor uncommitted"),
    (f"{BINDER} '.'\n", 6, 2, 26, "has one variant, of one step"),
    (f"{BINDER} '.' '.'\n", 6, 2, 26, "has one variant, of one step"),
    ("e (declares names)\n  | empty\n", 6, 2, 3, "has one variant, of one step"),
    ("e (declares names)\n  | e\n", 6, 2, 5, "has one variant, of one step"),
    ("e (declares names)\n  | ('[' e,* ']')? ; passing\n", 6, 2, 22, "neither passing nor uncommitted"),
    (f"e\n{BINDER_LINE}", 6, 2, 5, "(declares names) behind its name"),
    (f"e (claims variables)\n  | number\n{BINDER_LINE}", 6, 3, 5, "(declares names) behind its name"),
    ("e (declares names)\n  | (' ' names,* ']')? e\n", 6, 2, 6, "33 to 126"),
    ("e (declares names)\n  | ('[' names,* '\x7f')? e\n", 6, 2, 18, "33 to 126"),
]


# A byte of a binder's book, another one, and a part of what is said of it.
BINDER_BYTES = [
    (6, 4, "the mark of nonterminal 0 is 4: it has to be 0 to 3"),
    (7, 0, "the number of variants of nonterminal 0 is 0: it has to be 0 to 16, and 0 with mark 2, 1 with mark 3"),
    (7, 2, "the number of variants of nonterminal 0 is 2"),
    (11, 254, "the level of variant 0 is 254: in a nonterminal of mark 3 it has to be 255"),
    (12, 2, "the associativity of variant 0 is 2: in a nonterminal of mark 3 it has to be 3"),
    (13, 3, "the byte of flags of variant 0 is 3: in a nonterminal of mark 3 it has to be 1"),
    (13, 0, "the byte of flags of variant 0 is 0: in a nonterminal of mark 3 it has to be 1"),
    (14, 0, "the number of steps of variant 0 is 0: in a nonterminal of mark 3 it has to be 1"),
    (16, 0, "level 255 goes with both alone, and variant 1 has left with it"),
    (20, 13, "the kind of step 0 is 13: in a nonterminal of mark 3 it has to be 14"),
    (20, 15, "the kind of step 0 is 15: in a nonterminal of mark 3 it has to be 14"),
    (21, 2, "byte a of step 0 is 2: nonterminals are numbered from 0, and the book has 2"),
    (22, 32, "byte b of step 0 is 32: a character is one of 33 to 126"),
    (23, 127, "byte c of step 0 is 127: a character is one of 33 to 126"),
    (24, 14, "the kind of step 1 is 14: it has to be 0 to 13, and 14 with mark 3"),
]

# A book that is accepted, and a part of a note on it.
NOTES = [
    ("e\n  | e\n", "nothing can be read as e: each of its variants needs what can't be read"),
    ("e\n  | number f?\nf\n", "nothing can be read as f: it has no variants"),
    ("e\n  | number\nf\n  | number\n", "e doesn't lead to f"),
    ("e\n  | e*\n  | empty\n", "book:2:3: e may take nothing, so e* is"),
    ("e\n  | number\n  | e\n", "book:3:3: it makes e of e"),
    ("e\n  | t\n  | number\nt\n  | e\n", "book:2:3: it makes e of e"),
    ("e\n  | number\n  | e*e\n", "book:3:3: it makes e of e"),
    ("e\n  | s? e\n  | number\ns\n  | '-'\n", "book:2:3: it makes e of e"),
    ("e\n  | number\n  | e '-' e\n", "book:3:3: e '-' e has no level"),
    ("e\n  | number\n  | '~' e ; left 2\n", "book:3:3: an operator before its operand that is left"),
    ("e\n  | number\n  | e '!' ; right 2\n", "book:3:3: an operator behind its operand that is right"),
    ("e\n  | number\n  | e '-' e ; left 1\n  | e '+' e ; right 1\n", "book:4:3: level 1 has another associativity"),
    ("e\n  | number\n  | '~' e\n  | e '-' e ; left 1\n", "'~' e has no level"),
    ("e\n  | number\n  | '~' e\n  | e '-' e ; left 1\n", "`; right 2`"),
    ("e\n  | number\n  | e '*' e\n  | e '-' e ; left 1\n", "`; left 2`"),
    ("e\n  | number\n  | '(' e\n", "book:3:3: it has '(' and ')' not equally often"),
    ("e\n  | number ; left 1\n  | e '-' e ; left 1\n", "book:2:3: it has a level and is no operator on e"),
    ("e\n  | number\n  | e '!'\n  | '~' e ; right 2\n", "e '!' has no level"),
    ("words kg\ne\n  | number\n", "the word kg is in no variant"),
    ("names x:1\ne\n  | variable:2\n", "no name has kind 2"),
    ("names x:1 x:2\ne\n  | variable:1\n", "no name has kind 1"),
    ("e\n  | variable\n", "the book has no names"),
    (f"{BINDER_OF_F}f\n  | variable\n", "book:2:3: no name can be declared"),
    (f"{BINDER_OF_F}f\n  | variable\n", "book:4:3: variable takes nothing: the book has no names"),
    (f"words a\n{BINDER_OF_F}f\n  | number\n", "book:3:3: it declares names, and no step takes a variable"),
    (f"words a\n{BINDER_OF_F}f\n  | variable:1\n", "book:5:3: variable:1 takes nothing: no name has kind 1"),
    (f"words a a\n{BINDER_OF_F}f\n  | variable:1\n", "no name has kind 1"),
    (f"words a\n{BINDER_OF_F}f\n  | '[' variable ']'\n", "book:3:3: f may begin with '[', too"),
    (f"words a b c d e f g h i\n{BINDER_OF_F}f\n  | variable\n", "the word i is in no variant"),
    (f"words a\n{BINDER_OF_F}f\n  | e\n  | variable\n", "book:5:3: it makes f of f"),
]


class Notes(unittest.TestCase):
    def test_each_note(self):
        for text, part in NOTES:
            found = view(text.encode())
            self.assertIsNone(check(found.data))
            placed = [f"{place}: {note}" for place, note in placed_notes(found, "book")]
            self.assertTrue(any(part in note for note in placed), (text, placed))

    def test_a_good_book_has_none(self):
        for name in ("rules.grammar", "rules.book", "blend.grammar", "blend.book"):
            with open(f"{ROOT}/examples/{name}", "rb") as file:
                self.assertEqual(notes(view(file.read())), [])
        self.assertEqual(notes(view(b"e\n  | number\n  | e ; left 1 passing\n  | 'x' e ; right 2\n")), [])
        self.assertEqual(notes(view(b"e\n  | number\n  | e '!'\n")), [])
        self.assertEqual(notes(view(b'words kg kg\ne\n  | number "kg":1\n')), [])
        self.assertEqual(notes(view(b"reserved x\nnames x:1\ne\n  | variable:1\n")), [])
        words = "words a b c d e f g h\n"
        self.assertEqual(notes(view(f"{words}{BINDER_OF_F}f\n  | variable:7\n  | '(' e ')'\n")), [])


class Problems(unittest.TestCase):
    def test_each_problem_has_its_place(self):
        for text, line, column, part in PROBLEMS:
            with self.subTest(text=text), self.assertRaises(NotationError) as raised:
                from_text(text)
            self.assertIn(f"book:{line}:{column}: ", raised.exception.shown("book"), text)
            self.assertIn(part, raised.exception.shown("book").split("\n")[0], text)

    def test_a_picture_has_its_caret_below_the_place(self):
        with self.assertRaises(NotationError) as raised:
            from_text("e\n\t| number expr  # a remark\n")
        lines = raised.exception.shown("book").split("\n")
        self.assertEqual(lines[1].index("expr"), lines[2].index("^"))
        self.assertEqual(lines[2].count("^"), len("expr"))

    def test_other_encodings(self):
        with self.assertRaises(NotationError) as raised:
            view("e\n  | number  # na\u00efve\n".encode("latin-1"))
        self.assertIn("book:2:17: this is no UTF-8", str(raised.exception))
        data = b"e\n  | number  # \x1a\n"
        said = explained(*check(data), view(data), "book")
        self.assertIn("line 2 has a control character", said)

    def test_every_word_of_a_line_is_told(self):
        with self.assertRaises(NotationError) as raised:
            from_text('e\n  | "if" e "then" f\n')
        self.assertEqual(len(raised.exception.problems), 3)

    def test_every_line_with_a_problem_is_told(self):
        with self.assertRaises(NotationError) as raised:
            from_text("e\n  | x\n  | number\n  | y\n")
        self.assertEqual([p.message[0] for p in raised.exception.problems], ["x", "y"])

    def test_more_than_a_byte_counts(self):
        words, steps = "words" + " a" * 256 + "\ne\n", "e\n| " + "e " * 256
        texts = [words, steps, "e\n" + "| number\n" * 300, "e\n" + f"| {'e ' * 8}\n" * 40]
        for text in texts:
            with self.assertRaises(NotationError):
                from_text(text)

    def test_refusals_of_the_reader_are_led_back(self):
        for text, number, line, column, part in REFUSED:
            with self.subTest(text=text):
                found = view(text.encode())
                refusal, place = check(found.data)
                said = explained(refusal, place, found, "book")
                self.assertEqual(refusal, number)
                self.assertTrue(said.startswith(f"book:{line}:{column}: "), said)
                self.assertIn(part, said)

    def test_a_binder_in_bytes(self):
        """Each byte that document 02 d fixes, with another: the place, and what is said of it."""
        plain = bytes.fromhex("010001740002 0301 0001 02 ff030101 ff030101 02 0e015b5d 04000000")
        self.assertIsNone(check(plain))
        for place, byte, part in BINDER_BYTES:
            data = bytearray(plain)
            data[place] = byte
            refusal, at = check(bytes(data))
            self.assertEqual((refusal, at), (6, place))
            self.assertIn(part, explained(refusal, at, view(bytes(data)), "book"))


if __name__ == "__main__":
    unittest.main()
