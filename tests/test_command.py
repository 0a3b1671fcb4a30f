"""The command line, as a program: what it prints, where, and its exit status."""
import json
import os
import subprocess
import sys
import tempfile
import unittest

from midgebillon.library import loaded
from vectors import ROOT, vectors

COMMAND = [sys.executable, f"{ROOT}/bin/midgebillon"]
BOOK, GRAMMAR, RULE = (f"{ROOT}/examples/{name}" for name in ("rules.book", "rules.grammar", "rule.txt"))


def run(*words, given=b"", variables=()):
    """The exit status, and what was written to standard output and to standard error."""
    done = subprocess.run([*COMMAND, *words], input=given, capture_output=True, env={**os.environ, **dict(variables)})
    return done.returncode, done.stdout, done.stderr.decode()


class Command(unittest.TestCase):
    def setUp(self):
        self.folder = tempfile.TemporaryDirectory()
        self.addCleanup(self.folder.cleanup)

    def file(self, name, data):
        path = f"{self.folder.name}/{name}"
        with open(path, "wb") as file:
            file.write(data)
        return path

    # ---- read
    def test_a_value(self):
        for book in (BOOK, GRAMMAR):
            status, out, _ = run("read", book, RULE)
            self.assertEqual((status, out), (0, b"value (1 (0 1) (2 (0 2) (0 3)))\n"))

    def test_declared_names(self):
        for name in ("blend.book", "blend.grammar"):
            status, out, _ = run("read", f"{ROOT}/examples/{name}", f"{ROOT}/examples/blend.txt")
            self.assertEqual((status, out), (0, b"value (0 [0 1] (3 $0.0 (4 (0 [0] (3 $0.0 (2 $1.1))))))\n"))
        status, out, _ = run("read", f"{ROOT}/examples/blend.grammar", "-", "--json", given=b"[price p] p")
        amount = json.loads(out)["tree"]["items"][1]
        self.assertEqual((status, amount["items"]), (0, [{"form": "declared", "depth": 0, "index": 0}]))
        names = b"[%s] 1" % b", ".join([b"share s"] * 65)
        status, out, _ = run("read", f"{ROOT}/examples/blend.grammar", "-", "--line", given=names)
        self.assertEqual((status, out), (1, b"refused 41 place 0 kind 0 argument 0 line 0 column 0\n"))
        out = run("read", f"{ROOT}/examples/blend.grammar", "-", "--json", given=names)[1]
        self.assertEqual(json.loads(out)["refusal"], "too_many_names")

    def test_a_refusal(self):
        status, out, said = run("read", GRAMMAR, "-", given=b"1 - x\n")
        self.assertEqual((status, out), (1, b""))
        self.assertIn("standard input:1:3: ", said)
        self.assertIn("standard input:1:5: wanted here: expression", said)

    def test_the_line_is_document_01s(self):
        chosen = [v for v in vectors() if v["answer"][0] != 1 and v.get("printed") is not None and v["book"]][::25]
        self.assertGreater(len(chosen), 25)
        for v in chosen:
            book, text = self.file("book", bytes.fromhex(v["book"])), self.file("text", bytes.fromhex(v["text"]))
            words = ["--start", str(v["start"]), "--allowance", str(v["allowance"])]
            status, out, _ = run("read", book, text, "--line", *words)
            self.assertEqual((status, out.decode()), (int(v["answer"][0] != 0), v["printed"] + "\n"))

    def test_a_line_for_a_refusal(self):
        status, out, _ = run("read", BOOK, "-", "--line", given=b"(1")
        self.assertEqual((status, out), (1, b"refused 30 place 2 kind 1 argument 41 line 1 column 3\n"))

    def test_standard_input_for_the_book(self):
        with open(GRAMMAR, "rb") as file:
            self.assertEqual(run("read", "-", RULE, given=file.read())[0], 0)
        status, _, said = run("read", "-", "-")
        self.assertEqual(status, 2)
        self.assertIn("once", said)

    def test_a_book_and_a_rule_in_the_wrong_order(self):
        for book in (BOOK, GRAMMAR):
            status, _, said = run("read", RULE, book)
            self.assertEqual((status, "the book comes first" in said), (1, True))
        self.assertNotIn("the book comes first", run("read", RULE, RULE)[2])

    def test_start(self):
        book = self.file("book", b"first\n  | number\n\nsecond\n  | identifier\n")
        self.assertEqual(run("read", book, "-", given=b"a")[0], 1)
        for start in ("1", "second"):
            self.assertEqual(run("read", book, "-", "--start", start, given=b"a")[:2], (0, b"value (1 a)\n"))
        status, _, said = run("read", book, "-", "--start", "2", given=b"a")
        self.assertEqual(status, 1)
        self.assertIn("(refusal 9)", said)
        status, _, said = run("read", book, "-", "--start", "third", given=b"a")
        self.assertEqual(status, 2)
        self.assertIn("first, second", said)
        self.assertEqual(run("read", BOOK, RULE, "--start", "n0")[0], 0)

    def test_allowance(self):
        for units, status, part in (("5", 1, "(refusal 20)"), ("0", 1, "(refusal 2)"), ("1000001", 1, "(refusal 2)"),
                                    ("-1", 2, "1 to 1,000,000"), ("4294967296", 2, "1 to 1,000,000"),
                                    ("x", 2, "invalid int")):
            found, _, said = run("read", BOOK, RULE, f"--allowance={units}")
            self.assertEqual(found, status, units)
            self.assertIn(part, said)

    def test_json(self):
        status, out, _ = run("read", GRAMMAR, RULE, "--json")
        found = json.loads(out)
        self.assertEqual((status, found["answer"]["refusal"], found["refusal"]), (0, 0, None))
        self.assertEqual(found["tree"]["name"], "minus")
        self.assertEqual(found["tree"]["items"][0]["items"], [{"form": "number", "value": "1"}])
        self.assertEqual([parse["whole"] for parse in found["parses"]], [False, False, True])
        self.assertEqual(found["parses"][-1]["tree"], found["tree"])
        status, out, _ = run("read", GRAMMAR, "-", "--json", given=b"\t(1")
        found = json.loads(out)
        self.assertEqual((status, found["refusal"], found["error"]), (1, "no_parse", "character_wanted"))
        self.assertEqual((found["line"], found["column"], found["tree"]), (1, 11, None))
        self.assertIn("wanted where the text ends: ')'", found["explanation"])

    def test_json_of_a_book_with_problems(self):
        status, out, _ = run("read", self.file("book", b"e\n  | x\n"), RULE, "--json")
        problem = json.loads(out)["problems"][0]
        self.assertEqual((status, problem["line"], problem["column"]), (1, 2, 5))

    def test_long_and_closed_input(self):
        done = subprocess.run(f"{' '.join(COMMAND)} read {BOOK} - <&-", shell=True, capture_output=True, text=True)
        self.assertEqual((done.returncode, "Traceback" in done.stderr), (2, False))
        status, _, said = run("read", BOOK, "/dev/zero")
        self.assertEqual((status, "(refusal 10)" in said), (1, True))

    def test_a_carriage_return_ends_no_comment(self):
        self.assertIn("a comment ends at a line feed", run("read", BOOK, "-", given=b"1 // one\r- 2")[2])
        self.assertNotIn("a comment ends", run("read", BOOK, "-", given=b"1 // one\r\n- 2")[2])

    def test_json_of_a_book_that_is_refused(self):
        status, out, _ = run("read", self.file("book", b"\0"), RULE, "--json")
        self.assertEqual((status, json.loads(out)["answer"]["refusal"]), (1, 3))

    def test_tree(self):
        status, out, _ = run("read", GRAMMAR, RULE, "--tree")
        lines = out.decode().splitlines()
        self.assertEqual((status, len(lines)), (0, 8))
        self.assertEqual(lines[0], "expression 1 (minus): expression '-' expression")
        self.assertEqual(lines[3], "└─ expression 2 (times): expression '*' expression")

    def test_all(self):
        _, out, _ = run("read", GRAMMAR, "-", "--all", given=b"1-2")
        self.assertEqual(out.decode().splitlines(), [
            "value (1 (0 1) (0 2))",
            "parse 1: up to line 1, column 2; both 255",
            "    (0 1)",
            "parse 2: the whole rule; left 1",
            "    (1 (0 1) (0 2))",
        ])

    def test_many_files(self):
        good, bad = self.file("good", b"1"), self.file("bad", b"x")
        status, out, said = run("read", GRAMMAR, good, bad, good)
        self.assertEqual((status, out.decode().count("value")), (1, 2))
        self.assertIn("3 files", said)
        self.assertIn("2 with a value, 1 refused", said)
        status, _, said = run("read", GRAMMAR, good, f"{self.folder.name}/none")
        self.assertEqual(status, 2)
        self.assertIn("none: No such file or directory", said)
        self.assertIn("1 not read", said)

    def test_progress(self):
        hard = self.file("hard", b"(" * 14 + b"1" + b")" * 14)
        status, _, said = run("read", GRAMMAR, *[hard] * 120, "--line")
        self.assertEqual(status, 0)
        self.assertRegex(said, r"midgebillon: \d+ of 120 files read\n")
        self.assertIn("120 with a value, 0 refused", said)

    def test_each_file_has_its_line(self):
        good, none = self.file("good", b"1"), f"{self.folder.name}/none"
        self.assertEqual(run("read", BOOK, good, none, good, "--line")[1].decode().count("\n"), 3)
        found = [json.loads(line) for line in run("read", BOOK, good, none, "--json")[1].splitlines()]
        self.assertIn("No such file", found[1]["unread"])
        self.assertEqual(run("read", BOOK, good, "--line", "--all")[0], 2)

    def test_files_that_cannot_be_read(self):
        for words in (["read", f"{self.folder.name}/none", RULE], ["read", BOOK, f"{self.folder.name}/none"],
                      ["read", self.folder.name, RULE], ["book", "check", f"{self.folder.name}/none"]):
            status, out, said = run(*words)
            self.assertEqual((status, out), (2, b""), words)
            self.assertRegex(said, r"No such file or directory|Is a directory")

    def test_misuse(self):
        both = ["read", BOOK, RULE, "--tree", "--json"]
        for words in ([], ["read"], ["read", BOOK], ["book"], ["book", "eat", BOOK], both):
            self.assertEqual(run(*words)[0], 2, words)

    def test_help(self):
        for words in (["--help"], ["read", "--help"], ["book", "--help"], ["book", "encode", "--help"]):
            status, out, _ = run(*words)
            self.assertEqual(status, 0)
            self.assertIn(b"examples:\n  midgebillon ", out)

    # ---- book
    def test_check(self):
        status, out, _ = run("book", "check", GRAMMAR)
        counts = b"0 words, 0 names, 1 nonterminal, 4 variants, 10 steps, 63 bytes"
        self.assertEqual((status, out), (0, b"accepted: " + counts + b"\n"))
        status, out, said = run("book", "check", self.file("book", b"e\n  | numer\n"))
        self.assertEqual((status, out), (1, b""))
        self.assertIn(":2:5: numer is no nonterminal of this book; did you mean number?", said)
        status, _, said = run("book", "check", self.file("book", b"e\n  | number ; left 255\n"))
        self.assertEqual(status, 1)
        self.assertIn(":2:14: 255 is the level of variants that are no operators", said)
        status, out, _ = run("book", "check", self.file("book", b"e\n  | e*\n  | empty\n"))
        self.assertIn(b"book:2:3: note: e may take nothing", out)

    def test_encode_and_decode(self):
        target = f"{self.folder.name}/made"
        with open(BOOK, "rb") as file:
            data = file.read()
        self.assertEqual(run("book", "encode", GRAMMAR)[:2], (0, data))
        self.assertEqual(run("book", "encode", GRAMMAR, "-o", target)[:2], (0, b""))
        with open(target, "rb") as file:
            self.assertEqual(file.read(), data)
        status, out, _ = run("book", "decode", BOOK)
        self.assertEqual(status, 0)
        self.assertEqual(run("book", "encode", "-", given=out)[:2], (0, data))
        with open(GRAMMAR, "rb") as file:
            self.assertEqual(run("book", "decode", GRAMMAR)[1], file.read())

    def test_a_refused_book_is_not_written(self):
        target = self.file("kept", b"as it was")
        for words in (["encode", self.file("b", b"e\n  | number ; left 255\n")], ["decode", self.file("c", b"\0")]):
            status, out, _ = run("book", *words, "-o", target)
            self.assertEqual((status, out), (1, b""))
            with open(target, "rb") as file:
                self.assertEqual(file.read(), b"as it was")
        self.assertEqual(run("book", "encode", GRAMMAR, "-o", f"{self.folder.name}/no/such")[0], 2)

    def test_what_is_read_is_not_overwritten(self):
        for action, data in (("encode", b"e\n  | number\n"), ("decode", b"\0\0\1\0\0\0\0")):
            path = self.file("book", data)
            status, _, said = run("book", action, path, "-o", path)
            self.assertEqual(status, 2)
            self.assertIn("this is the book itself", said)
            with open(path, "rb") as file:
                self.assertEqual(file.read(), data)
        self.assertEqual(run("book", "encode", GRAMMAR, "-o", "-")[1][:3], b"\0\0\1")
        other = self.file("other", b"e\n")
        self.assertEqual(run("book", "decode", BOOK, "-o", other)[0], 2)
        self.assertEqual(run("book", "decode", BOOK, "-o", other, "--force")[0], 0)
        made = self.file("made", b"\0")
        self.assertEqual(run("book", "encode", GRAMMAR, "-o", made)[0], 0)

    def test_output_that_is_not_written_is_no_success(self):
        hard = self.file("hard", b"1")
        for words in (f"read {BOOK} {RULE}", f"read {BOOK} {RULE} --json", f"book show {BOOK}"):
            done = subprocess.run(f"{' '.join(COMMAND)} {words} >/dev/full", shell=True, capture_output=True, text=True)
            self.assertEqual(done.returncode, 2, words)
            self.assertIn("standard output: No space left on device", done.stderr)
            self.assertNotIn("Traceback", done.stderr)
        done = subprocess.run(f"{' '.join(COMMAND)} read {BOOK} {RULE} >&-", shell=True, capture_output=True, text=True)
        self.assertEqual((done.returncode, "closed" in done.stderr), (2, True))
        many = " ".join([hard] * 3000)
        piped = f"set -o pipefail; {' '.join(COMMAND)} read {BOOK} {many} --all | head -1"
        done = subprocess.run(["bash", "-c", piped], capture_output=True, text=True)
        self.assertEqual(done.returncode, 2)
        self.assertNotIn("Traceback", done.stderr)

    def test_show(self):
        status, out, _ = run("book", "show", BOOK)
        lines = out.decode().splitlines()
        self.assertEqual((status, len(lines)), (0, 20))
        self.assertEqual(lines[8].split()[:6], ["18", "FF", "03", "01", "03", "variant"])

    def test_other_texts(self):
        status, _, said = run("book", "check", self.file("book", "e\n".encode("utf-16")))
        self.assertEqual(status, 2)
        self.assertIn("UTF-16", said)

    # ---- the library
    def test_no_library(self):
        status, _, said = run("read", BOOK, RULE, variables={"MIDGEBILLON_LIBRARY": "/nowhere/lib.so"}.items())
        self.assertEqual(status, 2)
        self.assertIn("/nowhere/lib.so", said)
        script = (
            f"import sys; sys.path.insert(0, {ROOT + '/python'!r})\n"
            "from midgebillon import command, library\n"
            "library.PLACES = ()\nlibrary.ctypes.util.find_library = lambda name: None\n"
            f"sys.exit(command.main(['read', {BOOK!r}, {RULE!r}]))"
        )
        free = {name: value for name, value in os.environ.items() if name != "MIDGEBILLON_LIBRARY"}
        done = subprocess.run([sys.executable, "-c", script], capture_output=True, text=True, env=free)
        self.assertEqual(done.returncode, 2)
        for part in ("`rt lib` in crates/midgebillon_c", "tools/library.py --quick", "without its proofs"):
            self.assertIn(part, done.stderr)

    def test_what_is_not_proved_says_so(self):
        said = run("read", BOOK, RULE)[2]
        self.assertEqual("NOT PROVED" in said, loaded().proved is False)
        self.assertIs(json.loads(run("read", BOOK, RULE, "--json")[1])["proved"], loaded().proved)


if __name__ == "__main__":
    unittest.main()
