"""Whatever is written as a book or as a rule, something is said of it, and nothing fails."""
import random
import unittest

import explanations
from midgebillon import MOST_WORK, NotationError, check, explain, read, to_text, view
from midgebillon.book_listing import listing
from midgebillon.book_refusal import explained
from midgebillon.drawing import bracketed, drawing
from midgebillon.json_form import as_json
from midgebillon.notes import notes
from random_books import random_book

TEXTS = 3000
MARKS = [*"'\"|;:?*,()!#+ \n\t-\u00e99_", ",*"]
WORDS = ["words ", "reserved ", "names ", "x:1 ", "identifier", "number", "variable:3", "!variable", "empty", "left 1"]
WORDS += ["none 255", "passing", "uncommitted", "'('", '"if"', "(claims variables)", "(identifier)", "\n  | "]
WORDS += ["(declares names)", "('[' names,* ']')? ", "\ne (declares names)\n  | ('[' names,* ']')? "]
RULE = [*"1()-*,>#\t\n\0\u00e9", "99999999999999999999", "foo", "//c\n", "if"]
BOOKS = [explanations.ARITHMETIC, explanations.MARGIN, explanations.BLEND]


def changed(text, choose):
    """A text with some parts put in, taken out or put in place of others."""
    for _ in range(choose.randint(1, 5)):
        place, part = choose.randrange(len(text) + 1), choose.choice(MARKS + WORDS)
        taken = choose.choice((0, 1, choose.randint(1, 8)))
        text = text[:place] + part * choose.randrange(2) + text[place + taken :]
    return text


def some_rule(book, choose):
    own = [entry.spelling for entry in (*book.words, *book.names)]
    own += [chr(step.a) for variant in book.variants for step in variant.steps if step.kind == 0]
    for step in (step for variant in book.variants for step in variant.steps if step.kind == 14):
        own += [chr(step.b), chr(step.c), *(f"{chr(step.b)}{kind} foo{chr(step.c)}" for kind in book.kind_words)]
    return " ".join(choose.choice(RULE + own) for _ in range(choose.randrange(14))).encode()


class AnyText(unittest.TestCase):
    def book(self, text):
        """The view of a text that is an accepted book; else what is said of it has its refusal's number."""
        try:
            found = view(text.encode())
        except NotationError as error:
            self.assertIn("book:", error.shown("book"))
            return None
        refused = check(found.data)
        if refused:
            self.assertIn(f"(refusal {refused[0].value})", explained(*refused, found, "book"))
            return None
        return found

    def rule(self, found, text, start, allowance):
        reading = read(found.data, text, start, allowance)
        said = explain(reading, found)
        self.assertEqual(said == "", reading.refusal is None)
        if reading.refusal:
            self.assertIn(f"(refusal {reading.refusal.value})", said)
        as_json(reading, found, "rule", said, None)
        for parse in reading.parses[:3]:
            drawing(found, parse.value, 50)
            bracketed(found, parse.value, text=text)

    def test_any(self):
        choose, accepted = random.Random(20), 0
        for seed in range(TEXTS):
            text = choose.choice([*BOOKS, to_text(random_book(seed))])
            found = self.book(changed(text, choose))
            if found is None:
                continue
            accepted += 1
            notes(found)
            listing(found)
            start = choose.randrange(len(found.book.nonterminals) + 1)
            self.rule(found, some_rule(found.book, choose), start, choose.choice((MOST_WORK, 300, 5)))
        self.assertGreater(accepted, 100)


if __name__ == "__main__":
    unittest.main()
