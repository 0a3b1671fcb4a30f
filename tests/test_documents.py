"""The documents' commands, run as they stand, and what they print compared; and their tables about the examples."""
import os
import re
import subprocess
import tempfile
import unittest

from midgebillon import read
from vectors import ROOT

BLOCK = re.compile(r"^```(\S+)\n(.*?)^```$", re.M | re.S)
NOTE = "midgebillon: note: "  # of the library
BYTES = re.compile(r"^\| (\d+) \| `([0-9A-F ]+)` \|", re.M)
VALUE = re.compile(r"^\| `([^`]+)` \| `(\([^`]+)` \|$", re.M)
ERROR = re.compile(r"^\| `([^`]+)` \| place (\d+), kind (\d+), argument (\d+) \|", re.M)


def section(name, title):
    """A section of a document."""
    with open(f"{ROOT}/docs/{name}", encoding="utf-8") as file:
        found = re.search(rf"^## {title}\n(.*?)(?=^## |\Z)", file.read(), re.M | re.S)
    return found.group(1)


def example(name):
    with open(f"{ROOT}/examples/{name}", "rb") as file:
        return file.read()


def printed(command, folder):
    """What a command prints, to either output."""
    path = f"{ROOT}/bin:{os.environ['PATH']}"
    done = subprocess.run(
        ["bash", "-c", f"{command} 2>&1"], cwd=folder, capture_output=True, text=True, env={**os.environ, "PATH": path}
    )
    return [line.rstrip() for line in done.stdout.splitlines() if not line.startswith(NOTE)]


class Documents(unittest.TestCase):
    maxDiff = None

    def followed(self, name):
        """Writes the blocks that are files, and runs those that are commands. How many there were of both."""
        with open(f"{ROOT}/docs/{name}", encoding="utf-8") as file:
            blocks = BLOCK.findall(file.read())
        files = commands = 0
        with tempfile.TemporaryDirectory() as folder:
            for head, body in blocks:
                if head != "console":
                    files += 1
                    with open(f"{folder}/{head}", "w", encoding="utf-8") as file:
                        file.write(body)
                    continue
                for part in re.split(r"^\$ ", body, flags=re.M)[1:]:
                    command, *wanted = part.splitlines()
                    commands += 1
                    piped = command.replace(" | midgebillon", " 2>&1 | midgebillon", 1)
                    self.assertEqual(printed(piped, folder), [line.rstrip() for line in wanted], command)
        return files, commands

    def test_examples_byte_by_byte(self):
        for title, name in (("The example", "rules.book"), ("Names that a rule declares", "blend.book")):
            made = b""
            for place, digits in BYTES.findall(section("BOOK.md", title)):
                self.assertEqual(int(place), len(made))
                made += bytes.fromhex(digits)
            self.assertEqual(made, example(name))

    def test_declared_names(self):
        text, book = section("BOOK.md", "Names that a rule declares"), example("blend.book")
        shown = "".join(line[4:] or "\n" for line in text.splitlines(True)[1:] if line[:4] in ("    ", "\n"))
        self.assertTrue(shown.startswith(example("blend.grammar").decode()))
        values = VALUE.findall(text)
        self.assertEqual([str(read(book, rule.encode()).value) for rule, _ in values], [value for _, value in values])
        errors = ERROR.findall(section("READING.md", "Kinds of errors"))
        for rule, *numbers in errors:
            self.assertEqual(read(book, rule.encode()).answer[:4], (30, *map(int, numbers)), rule)
        self.assertEqual((len(values), len(errors)), (7, 6))

    def test_first_hour(self):
        files, commands = self.followed("FIRST_HOUR.md")
        self.assertGreater(files, 5)
        self.assertGreater(commands, 12)


if __name__ == "__main__":
    unittest.main()
