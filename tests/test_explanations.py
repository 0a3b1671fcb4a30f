"""What is said to each refusal and error: as tests/explanations.txt has it, which people read."""
import unittest

import explanations
from midgebillon import ErrorKind, Reading, Refusal, decode, explain, read
from midgebillon.picture import line_and_column, picture
from midgebillon.reading import last_end
from midgebillon.view import view
from midgebillon.wanted import wanted
from vectors import vectors

EASY = 20_000  # units of work


class Explanations(unittest.TestCase):
    def test_the_page_is_up_to_date(self):
        with open(explanations.FILE, encoding="utf-8") as file:
            self.assertEqual(file.read(), explanations.page()[0])

    def test_every_refusal_and_error_is_on_the_page(self):
        met = explanations.page()[1]
        self.assertEqual({refusal for refusal, _ in met}, {r.value for r in Refusal} - {Refusal.SHORT_LISTS})
        self.assertEqual({kind for refusal, kind in met if refusal == 30}, {kind.value for kind in ErrorKind})

    def test_short_lists(self):
        reading = Reading(b"", b"", (1, 0, 0, 0, 0, 0, 0), [], [])
        self.assertIn("(refusal 1)", explain(reading, view(b"e\n")))

    def test_a_declared_name_is_wanted(self):
        """An error that no answer has, since its choice drops it."""
        found = view(explanations.BLEND.encode())
        reading = Reading(found.data, b"[a", (30, 1, 11, 32, 9, 0, 0), [], [], 1)
        self.assertIn("rule:1:2: a declared name is wanted here", explain(reading, found))

    def test_titles_say_what_is_met(self):
        for title, *case in explanations.CASES:
            _, refusal, kind = explanations.explanation(*case)
            numbers = title.split(":")[0].split(", ")
            self.assertEqual(numbers, [str(refusal), str(kind)][: len(numbers)], title)

    def test_every_vector_is_explained(self):
        """No answer is without words, and each has its number, and the place where there is one."""
        count = 0
        for v in vectors():
            if v["answer"][0] <= 1 or v["answer"][4] > EASY:
                continue
            count += 1
            book, text = bytes.fromhex(v["book"]), bytes.fromhex(v["text"])
            reading = read(book, text, v["start"], v["allowance"])
            said = explain(reading)
            self.assertIn(f"(refusal {reading.answer.refusal})", said)
            if reading.answer.refusal in (11, 30):
                place = reading.answer.place
                line, column = line_and_column(text, place)
                self.assertTrue(v["printed"].endswith(f"line {line} column {column}"), v["printed"])
                line, column = line_and_column(text, last_end(text) if place == len(text) else place)
                self.assertTrue(said.startswith(f"rule:{line}:{column}: "), said)
        self.assertGreater(count, 400)


class WhatTheStepsWant(unittest.TestCase):
    """Levels and claims left out, the steps reach at least as far as the reader."""

    def check(self, book, text, start, answer):
        found = wanted(book, text, start)
        if found is None:
            return
        if answer[0] in (0, 32):
            self.assertTrue(found.fits)
        if answer[0] == 30:
            self.assertGreaterEqual(found.place, answer[1])

    def test_vectors(self):
        for v in vectors():
            if v["answer"][0] in (0, 30, 31, 32) and v["answer"][4] <= EASY:
                book = decode(bytes.fromhex(v["book"]))
                self.check(book, bytes.fromhex(v["text"]), v["start"], v["answer"])

    def test_a_long_rule_takes_no_long_time(self):
        book = view(explanations.ARITHMETIC.encode()).book
        self.assertIsNone(wanted(book, b"-".join([b"1"] * 2000), 0))


class Pictures(unittest.TestCase):
    def test_a_caret_stands_below_its_place(self):
        cases = [(b"\t(1", 3, 4 + 10), (b"ab\n\tx\ty", 6, 4 + 16), (b"x" * 300 + b"!" + b"x" * 300, 300, None)]
        for text, place, column in cases:
            line, carets = picture(text, place).split("\n")
            shown = text[place : place + 1].decode() or " "
            self.assertEqual((line + " ")[carets.index("^")], shown)
            self.assertLessEqual(len(line), 104)
            if column is not None:
                self.assertEqual(carets.index("^"), column)

    def test_control_characters_do_not_reach_a_terminal(self):
        self.assertNotIn("\x1b", picture(b"1 \x1b[31m 2", 0))


if __name__ == "__main__":
    unittest.main()
