"""The Python package: the library's answers as they are, trees, threads."""
import doctest
import json
import os
import pickle
import subprocess
import sys
import threading
import unittest

import midgebillon
from midgebillon import Absent, Associativity, Declared, Error, ErrorKind, Identifier, List, Number, Refusal, Variable
from midgebillon import Variant, from_text, read
from midgebillon.drawing import bracketed, drawing
from midgebillon.json_form import tree_json
from midgebillon.library import Library, NoLibrary, loaded
from midgebillon.tree import node_count, printed
from midgebillon.view import view
from vectors import ROOT, vectors

LONGEST = 1 << 16

EVERY_FORM = """words w
names x:3

first
  | identifier number variable item? '.' rest

rest
  | item* '.' item,* '.' ('(' item,* ')') ('[' item,* ']')?

item
  | "w"
"""


class Readings(unittest.TestCase):
    def test_vectors(self):
        """Every number of the answer and the lists, and the line; a value's tree prints as the line has it."""
        values = 0
        for v in vectors():
            if v["answer"][0] == 1:
                continue
            reading = read(bytes.fromhex(v["book"]), bytes.fromhex(v["text"]), v["start"], v["allowance"])
            self.assertEqual(list(reading.answer), v["answer"])
            known = v["cells"] or []
            self.assertEqual(list(reading.cells), known + [0] * (len(reading.cells) - len(known)))
            found = [[parse.rest, parse.level, parse.associativity] for parse in reading.parses]
            self.assertEqual(found, [numbers[:3] for numbers in v["parses"] or []])
            line = reading.line(LONGEST)
            if v.get("printed") is not None:
                self.assertEqual(line, v["printed"].encode() + b"\n")
            if reading.value is not None and line is not None:
                self.assertEqual(line, b"value " + printed(reading.value).encode() + b"\n")
                values += 1
        self.assertGreater(values, 100)

    def test_parses(self):
        source = from_text("e\n  | number\n  | e '-' e ; right 7\n")
        parses = read(source, b"1-2-3").parses
        known = [(1, 255, Associativity.BOTH, "(0 1)"), (5, 7, Associativity.RIGHT, "(1 (0 1) (1 (0 2) (0 3)))")]
        found = [(p.rest, p.level, p.associativity, str(p.value)) for p in parses]
        self.assertEqual([found[0], found[-1]], known)

    def test_every_form(self):
        source = from_text(EVERY_FORM)
        w = Variant(2, ())
        full = read(source.data, b"net 7 x w . w w . w, w . (w) [w, w, w]").value
        self.assertEqual(full.items[:4], (Identifier(0, "net"), Number(7), Variable(0, 3, "x"), w))
        self.assertEqual(full.items[4], Variant(1, (List((w, w)), List((w, w)), List((w,)), List((w, w, w)))))
        empty = read(source.data, b"net 7 x . . . ()").value
        self.assertEqual(empty.items[3:], (Absent(), Variant(1, (List(()),) * 4)))

    def test_numbers_that_do_not_fit(self):
        for start, allowance in ((-1, 5), (2**32, 5), (0, -1), (0, 2**32)):
            with self.assertRaises(ValueError):
                read(b"", b"", start, allowance)

    def test_other_types(self):
        source = from_text("e\n  | number\n")
        self.assertEqual(str(read(bytearray(source.data), memoryview(b"7")).value), "(0 7)")
        for words in ((source.data, "7"), (source.text, b"7"), (source.data, b"7", "e"), (source.data, b"7", 0, "1")):
            with self.assertRaisesRegex(TypeError, "has to be"):
                read(*words)

    def test_a_reading_can_be_pickled(self):
        source = from_text("e\n  | number\n")
        reading = read(source, b"7")
        self.assertEqual(pickle.loads(pickle.dumps(reading)).line(), reading.line())

    def test_a_text_for_a_book(self):
        source = from_text("e\n  | number\n")
        self.assertEqual(view(source.text).data, source.data)
        self.assertIn("has to be encoded first", midgebillon.explain(read(source.text.encode(), b"7")))
        with self.assertRaisesRegex(TypeError, "has to be a str"):
            from_text(source.text.encode())

    def test_a_library_without_proofs_warns(self):
        script = "import midgebillon; midgebillon.check(b'')"
        variables = {**os.environ, "PYTHONPATH": f"{ROOT}/python"}
        done = subprocess.run([sys.executable, "-c", script], capture_output=True, text=True, env=variables)
        self.assertEqual("NotProved" in done.stderr, loaded().proved is False)

    def test_a_line_that_does_not_fit(self):
        with open(f"{ROOT}/examples/rules.book", "rb") as file:
            reading = read(file.read(), b"-".join([b"1"] * 60))
        length = len(reading.line())
        self.assertIsNone(reading.line(length - 1))
        self.assertEqual(len(reading.line(length)), length)

    def test_threads(self):
        source, found = from_text("e\n  | number\n  | e '-' e ; left 1\n"), []
        call = lambda n: found.append((n, printed(read(source.data, b"%d-1" % n).value)))
        threads = [threading.Thread(target=call, args=(n,)) for n in range(16)]
        for thread in threads:
            thread.start()
        for thread in threads:
            thread.join()
        self.assertEqual(sorted(found), [(n, f"(1 (0 {n}) (0 1))") for n in range(16)])

    def test_furthest(self):
        errors = [Error(2, ErrorKind.DIGITS_WANTED, 0), Error(5, ErrorKind.TEXT_ENDED, 1), Error(5, ErrorKind(3), 6)]
        self.assertEqual(midgebillon.furthest(errors), errors[2])
        self.assertIsNone(midgebillon.furthest([]))

    def test_no_library(self):
        for path in ("/nowhere/libmidgebillon.so", f"{ROOT}/README.md"):
            with self.assertRaises(NoLibrary):
                Library(path)

    def test_documentation(self):
        self.assertEqual(doctest.testmod(midgebillon), (0, 9))


BLEND = """words share price share
reserved if
names spot:1 a:3

rule (declares names)
  | ('[' names,* ']')? amount

amount
  | number
  | variable
  | amount '*' amount  ; left 2
  | '(' rule ')'
  | '=' variable:1
"""


class DeclaredNames(unittest.TestCase):
    def setUp(self):
        self.book = view(BLEND)

    def value(self, text):
        reading = read(self.book, text)
        self.assertIsNone(reading.refusal, text)
        self.assertEqual(reading.line(), b"value %s\n" % str(reading.value).encode())
        return reading.value

    def variables(self, text):
        """The variables of a value, in order."""
        found, todo = [], [self.value(text)]
        while todo:
            node = todo.pop()
            todo += reversed(node.items if isinstance(node, (Variant, List)) else ())
            found += [str(node)] if isinstance(node, (Variable, Declared)) else []
        return " ".join(found)

    def test_the_items_of_a_binder(self):
        one = Variant(1, (Number(1),))
        self.assertEqual(self.value(b"1"), Variant(0, (Absent(), one)))
        self.assertEqual(self.value(b"[] 1"), Variant(0, (List(()), one)))
        kinds = List((Number(1), Number(0), Number(3)))
        self.assertEqual(self.value(b"[price x, share y, if z,] 1"), Variant(0, (kinds, one)))

    def test_depth_and_index(self):
        cases = [
            (b"[share x, price y] y * x", "$0.1 $0.0"),
            (b"[share x] ([price y] x * y) * x", "$1.0 $0.0 $0.0"),
            (b"[share x] ([] x) * (x)", "$1.0 $0.0"),
            (b"[share x] ([share x] x) * x", "$0.0 $0.0"),
            (b"[share x, price x] x", "$0.1"),
            (b"[share spot] spot * a", "$0.0 $a"),
            (b"([share spot] spot) * spot", "$0.0 $spot"),
        ]
        for text, wanted in cases:
            self.assertEqual(self.variables(text), wanted, text)
        self.assertIn(Declared(depth=1, index=0), self.value(b"[share x] ([] x)").items[1].items[0].items[1].items)

    def test_what_is_no_such_name(self):
        cases = [(b"[share x] y", 30, 10), (b"([share x] x) * x", 31, 0), (b"[share spot] = spot", 30, 15)]
        for text, refusal, place in cases:
            answer = read(self.book, text).answer
            self.assertEqual((answer.refusal, answer.place), (refusal, place), text)

    def test_many_names(self):
        names = ", ".join(f"share x{i}" for i in range(65))
        reading = read(self.book, f"[{names}] 1".encode())
        self.assertEqual((reading.refusal, reading.refusal.of_limit), (Refusal.TOO_MANY_NAMES, True))
        self.assertEqual((reading.answer.refusal, reading.value, set(reading.cells)), (41, None, {0}))
        self.assertIsNone(read(self.book, f"[{names.replace(', share x64', '')}] x63".encode()).refusal)

    def test_json(self):
        found = json.loads(tree_json(self.book, self.value(b"[share x] ([] x)")))
        self.assertEqual(found["items"][0], {"form": "list", "items": [{"form": "number", "value": "0"}]})
        inner = found["items"][1]["items"][0]["items"][1]["items"]
        self.assertEqual(inner, [{"form": "declared", "depth": 1, "index": 0}])
        self.assertEqual(json.loads(tree_json(self.book, self.value(b"1")))["items"][0], {"form": "absent"})

    def test_drawing(self):
        lines = drawing(self.book, self.value(b"[price x] x * (2)"))
        self.assertEqual(lines[1:3], ["├─ names: 1 in the list", "│  └─ price (kind 1)"])
        self.assertIn("   │  └─ $0.0", lines)
        self.assertIn("         ├─ no names", lines)

    def test_written_again(self):
        """With the names of the text, or with v0, v1 and so on where the two don't fit."""
        text = b"[share x, price yy] yy * ([if x] (02 * x) * yy)"
        spaced = "[ share {} , price {} ] {} * ( [ if {} ] ( 2 * {} ) * {} )"
        value = self.value(text)
        names, numbers = spaced.format("x", "yy", "yy", "x", "x", "yy"), spaced.format(*"v0 v1 v1 v2 v2 v1".split())
        self.assertEqual(bracketed(self.book, value, 400, False, text), names)
        self.assertEqual(self.value(names.encode()), value)
        self.assertEqual(bracketed(self.book, value, 400, False, text.replace(b"yy]", b"y, ]")), numbers)
        self.assertEqual(bracketed(self.book, value, 400, False), numbers)
        self.assertEqual(self.value(numbers.encode()), value)
        self.assertEqual(bracketed(self.book, value.items[1], 400, False), "0.1 * ( [ if v0 ] ( 2 * v0 ) * 1.1 )")

    def test_commas_behind_the_last(self):
        text = b"[share x , price y , ] y"
        self.assertEqual(bracketed(self.book, self.value(text), 400, False, text), "[ share x , price y ] y")


class LargeTrees(unittest.TestCase):
    def doubling(self, depth):
        """A book whose value doubles with each nonterminal, and takes no text."""
        text = "".join(f"n{i}\n  | n{i + 1} n{i + 1}\n" for i in range(depth)) + f"n{depth}\n  | empty\n"
        return view(text.encode())

    def test_many_nodes(self):
        book = self.doubling(16)
        value = read(book.data, b"").value
        self.assertEqual(node_count(value), 2**17 - 1)
        self.assertEqual(len(drawing(book, value, 100)), 101)
        self.assertLess(len(bracketed(book, value)), 1000)
        self.assertEqual(bracketed(book, value, with_braces=False), "...")
        self.assertEqual(tree_json(book, value), "null")

    def test_deep(self):
        """A value whose depth is beyond Python's recursion."""
        book = view(b"row\n  | number\n  | row '!'\n")
        tree = Variant(0, (Number(1),))
        for _ in range(5000):
            tree = Variant(1, (tree,))
        self.assertEqual(node_count(tree), 5002)
        self.assertEqual(printed(tree), "(1 " * 5000 + "(0 1)" + ")" * 5000)
        self.assertEqual(len(drawing(book, tree, 6000)), 5002)
        self.assertEqual(tree_json(book, tree).count('"items"'), 5001)
        self.assertIn("{ {", bracketed(book, tree))


if __name__ == "__main__":
    unittest.main()
