"""The command line: midgebillon read, midgebillon book."""
import argparse
import json
import os
import sys
import textwrap
import time
import warnings

from . import __version__
from . import book as books
from .book_listing import listing
from .book_refusal import explained
from .drawing import drawing
from .explanation import explain
from .json_form import as_json
from .library import LARGEST, ROOT, NoLibrary, NotProved, loaded
from .notation import is_text, to_text
from .notation_tokens import NotationError
from .notes import placed_notes
from .picture import line_and_column
from .reading import MOST_WORK, check, read
from .tree import node_count, printed
from .view import view

VALUE, REFUSED, MISUSE = 0, 1, 2
LONGEST_LINE = 1 << 24
LONGEST_FILE = 1 << 20  # no rule is as long, and no book
PATIENCE = 1.0  # seconds before a progress line


class Misuse(Exception):
    """What the caller has to mend before anything can be read."""


def say(words):
    print(words, file=sys.stderr, flush=True)


# ---- Files
def load(path):
    """The bytes of a file, or of standard input for -; of a longer one so many that it is too long for any use."""
    try:
        if path != "-":
            with open(path, "rb") as file:
                return file.read(LONGEST_FILE)
        if sys.stdin is None:
            raise Misuse("standard input is closed")
        return sys.stdin.buffer.read(LONGEST_FILE)
    except OSError as error:
        raise Misuse(f"{path}: {error.strerror or error}") from None


def called(path):
    return "standard input" if path == "-" else path


def save(path, data, options):
    """Writes to a file, or to standard output without one or for -. A book that somebody wrote isn't overwritten."""
    if path in (None, "-"):
        if sys.stdout.isatty() and isinstance(data, bytes):
            raise Misuse("a book in bytes isn't for a terminal: name a file with -o FILE")
        sys.stdout.buffer.write(data if isinstance(data, bytes) else data.encode())
        return
    if options.book != "-" and os.path.exists(path) and os.path.samefile(path, options.book):
        raise Misuse(f"{path}: this is the book itself: name another file with -o")
    if os.path.isfile(path) and os.path.getsize(path) and is_text(load(path)) and not options.force:
        raise Misuse(f"{path}: a text is there already: name another file with -o, or say --force")
    try:
        with open(path, "wb") as file:
            file.write(data if isinstance(data, bytes) else data.encode())
    except OSError as error:
        raise Misuse(f"{path!r}: {error.strerror or error}") from None


def load_book(path):
    """The view of a book's file, in either form."""
    data = load(path)
    if data[:2] in (b"\xff\xfe", b"\xfe\xff"):
        raise Misuse(f"{called(path)}: this is text in UTF-16: save it as UTF-8 or ASCII")
    return view(data)


def accepted_book(path):
    """A book that the reader accepts, or None, and then it is said why."""
    book = load_book(path)
    label_library()
    refused = check(book.data)
    if refused:
        say(explained(*refused, book, called(path)))
        return None
    return book


# ---- The library
def newest_source():
    """When the reader's code was changed last, where it stands beside this package."""
    crates = os.path.join(ROOT, "crates")
    files = [os.path.join(folder, name) for folder, _, names in os.walk(crates) for name in names]
    return max((os.path.getmtime(file) for file in files if file.endswith(".rt")), default=0)


def label_library():
    """Says what a reader of the output has to know of the library: that it isn't proved, or isn't this code's."""
    used = loaded()
    if used.proved is False:
        say("midgebillon: note: this reader is NOT PROVED: its library was built without the proofs (--quick)")
    if used.path.startswith(ROOT) and os.path.getmtime(used.path) < newest_source():
        say("midgebillon: note: the library is older than the reader's code: build it anew by tools/library.py")


# ---- read
def start_number(book, start):
    """A start by its number, or by the name of a nonterminal."""
    if start.isascii() and start.isdecimal() and len(start) <= len(str(LARGEST)) and int(start) <= LARGEST:
        return int(start)
    if check(book.data):
        return 0  # the refusal of the book comes before that of the start
    if start not in book.names:
        raise Misuse(f"the book has no nonterminal {start}: it has {', '.join(book.names)}")
    return book.names.index(start)


class Progress:
    """How many files are done: said while it takes long, and at the end."""

    def __init__(self, total):
        self.total, self.counts, self.begun = total, {VALUE: 0, REFUSED: 0, MISUSE: 0}, time.monotonic()
        self.said = self.begun

    def add(self, status):
        self.counts[status] += 1
        done, now = sum(self.counts.values()), time.monotonic()
        if self.total > 1 and done < self.total and now - self.said >= PATIENCE:
            self.said = now
            say(f"midgebillon: {done} of {self.total} files read")

    def summary(self):
        if self.total > 1:
            unread = f", {self.counts[MISUSE]} not read" if self.counts[MISUSE] else ""
            seconds = time.monotonic() - self.begun
            say(
                f"midgebillon: {self.total} files in {seconds:.1f} s: {self.counts[VALUE]} with a value,"
                f" {self.counts[REFUSED]} refused{unread}"
            )

    @property
    def status(self):
        return max(status for status, count in self.counts.items() if count)


class Reader:
    """Reads files by one book, and prints what is asked for."""

    def __init__(self, options):
        self.options, self.book_file = options, called(options.book)
        self.book = load_book(options.book)
        self.start = start_number(self.book, options.start)

    def file(self, path):
        """Reads a file and prints its answer. The exit status of it."""
        try:
            text = load(path)
        except Misuse as misuse:
            return self.unread(path, misuse)
        if b"//" in text and b"\r" in text.replace(b"\r\n", b""):
            say(f"midgebillon: note: {called(path)} has carriage returns alone, and a comment ends at a line feed")
        reading = read(self.book, text, self.start, self.options.allowance)
        self.print(reading, path, explain(reading, self.book, called(path), self.book_file))
        return VALUE if reading.refusal is None else REFUSED

    def unread(self, path, misuse):
        """A file that can't be read has its line, too, where each file has one."""
        if self.options.json:
            print(json.dumps({"file": path, "unread": str(misuse)}))
        elif self.options.line:
            print("not read")
        say(f"midgebillon: {misuse}")
        return MISUSE

    def print(self, reading, path, explanation):
        if self.options.json:
            print(as_json(reading, self.book, called(path), explanation, loaded().proved))
        elif self.options.line:
            line = reading.line(LONGEST_LINE)
            print(line.decode().rstrip("\n") if line else f"the line has more than {LONGEST_LINE} bytes")
        else:
            self.value(reading, path)
            if self.options.all:
                self.parses(reading)
            if reading.refusal is not None:
                sys.stdout.flush()
                say(explanation)

    def value(self, reading, path):
        if reading.value is None:
            return
        before = f"{path}: " if len(self.options.text) > 1 else ""
        if self.options.tree:
            print(*([before.rstrip()] if before else []), *drawing(self.book, reading.value), sep="\n")
        else:
            line = reading.line(LONGEST_LINE)
            nodes = f"a value of {node_count(reading.value):,} nodes: too long to print"
            print(before + (line.decode().rstrip("\n") if line else nodes))

    def parses(self, reading):
        """Every parse, in the order in which they were found."""
        for number, parse in enumerate(reading.parses, 1):
            line, column = line_and_column(reading.text, parse.rest)
            whole = "the whole rule" if reading.is_whole(parse) else f"up to line {line}, column {column}"
            operator = f"{books.ASSOCIATIVITIES[parse.associativity]} {parse.level}"
            print(f"parse {number}: {whole}; {operator}")
            if self.options.tree:
                print(*(f"    {each}" for each in drawing(self.book, parse.value)), sep="\n")
            else:
                size = node_count(parse.value)
                print(f"    {printed(parse.value)}" if size < LONGEST_LINE // 64 else f"    {size:,} nodes")


def command_read(options):
    if [options.book, *options.text].count("-") > 1:
        raise Misuse("standard input (-) can be read once: for the book, or for one text")
    if options.line and options.all:
        raise Misuse("--line prints one line for a rule: --all goes with --tree, --json or neither")
    if not 0 <= options.allowance <= LARGEST:
        raise Misuse(f"an allowance is 1 to {MOST_WORK:,} units of work")
    reader, progress = Reader(options), Progress(len(options.text))
    label_library()
    for path in options.text:
        progress.add(reader.file(path))
    progress.summary()
    return progress.status


# ---- book
def command_check(options):
    book = accepted_book(options.book)
    if book is None:
        return REFUSED
    records, steps = book.book, sum(len(variant.steps) for variant in book.book.variants)
    counts = [(len(records.words), "word"), (len(records.names), "name"), (len(records.nonterminals), "nonterminal")]
    counts += [(len(records.variants), "variant"), (steps, "step"), (len(book.data), "byte")]
    print("accepted: " + ", ".join(f"{count} {what}{'s' * (count != 1)}" for count, what in counts))
    for place, note in placed_notes(book, called(options.book)):
        print(textwrap.fill(f"{place}: note: {note}", 100, subsequent_indent="    ", break_long_words=False))
    return VALUE


def command_encode(options):
    book = accepted_book(options.book)
    if book is None:
        return REFUSED
    save(options.output, book.data, options)
    return VALUE


def command_decode(options):
    book = accepted_book(options.book)
    if book is None:
        return REFUSED
    save(options.output, book.source.text if book.source else to_text(book.book), options)
    return VALUE


def command_show(options):
    book = accepted_book(options.book)
    if book is None:
        return REFUSED
    print(*listing(book), sep="\n")
    return VALUE


# ---- The words of the command line
READ = """
examples:
  midgebillon read rules.grammar rule.txt            the value, or why there is none
  echo '1 - 2*3' | midgebillon read rules.grammar -  the rule from standard input
  midgebillon read rules.book rule.txt --tree        the value as a drawing
  midgebillon read rules.book rule.txt --start 2     from nonterminal 2, or --start amount by its name
  midgebillon read rules.book *.txt --line           document 01's line for each rule

The exit status is 0 if every rule has a value, 1 if one is refused, 2 for misuse, for a file that can't be read, and
for output that can't be written. docs/READING.md tells what each refusal means."""

BOOK = """
examples:
  midgebillon book check rules.grammar               whether the reader accepts it, or where it is wrong
  midgebillon book encode rules.grammar -o rules.book
  midgebillon book decode rules.book -o decoded.grammar
  midgebillon book show rules.book                   byte by byte, with what each says

A book is in bytes or in the notation; each command takes either. docs/BOOK.md has both.
The exit status is 0, or 1 if the book is refused, or 2 for misuse and for files that can't be read or written."""


def _raw(parsers, name, words, examples):
    return parsers.add_parser(
        name, help=words, description=words, epilog=examples, formatter_class=argparse.RawDescriptionHelpFormatter
    )


def parser():
    whole = argparse.ArgumentParser(
        prog="midgebillon",
        description="Reads margin rules by a rule book.",
        epilog=READ + "\n" + BOOK,
        formatter_class=argparse.RawDescriptionHelpFormatter,
    )
    whole.add_argument("--version", action="version", version=f"midgebillon {__version__}")
    commands = whole.add_subparsers(dest="command", metavar="COMMAND", required=True)
    reading = _raw(commands, "read", "read rules by a book", READ)
    reading.add_argument("book", metavar="BOOK", help="a book's file, in bytes or in the notation; - is standard input")
    reading.add_argument("text", metavar="TEXT", nargs="+", help="a rule's file; - is standard input")
    reading.add_argument("--start", default="0", help="a nonterminal's number or name (the first)")
    words = f"the units of work that a rule may take (1 to {MOST_WORK}, which it is without)"
    reading.add_argument("--allowance", type=int, default=MOST_WORK, metavar="UNITS", help=words)
    form = reading.add_mutually_exclusive_group()
    form.add_argument("--line", action="store_true", help="print document 01's line alone")
    words = "print everything, one object a line for each rule: answer, parses, trees, explanation"
    form.add_argument("--json", action="store_true", help=words)
    form.add_argument("--tree", action="store_true", help="print values as drawings")
    reading.add_argument("--all", action="store_true", help="print every parse, also of a part of the rule")
    reading.set_defaults(run=command_read)
    book = _raw(commands, "book", "check a book, or turn it from one form into the other", BOOK)
    actions = book.add_subparsers(dest="action", metavar="ACTION", required=True)
    for name, run, words in (
        ("check", command_check, "say whether the reader accepts a book"),
        ("encode", command_encode, "write a book in bytes"),
        ("decode", command_decode, "write a book in the notation"),
        ("show", command_show, "list a book byte by byte"),
    ):
        action = _raw(actions, name, words, BOOK)
        action.add_argument("book", metavar="BOOK", help="a book's file, in either form; - is standard input")
        if name in ("encode", "decode"):
            action.add_argument("-o", dest="output", metavar="FILE", help="write there, and not to standard output")
            action.add_argument("--force", action="store_true", help="overwrite a text that is there already")
        action.set_defaults(run=run)
    return whole


def is_swapped(options):
    """Whether the rule's file is a book, where the book's is none."""
    try:
        data = load(options.text[0]) if getattr(options, "text", ["-"]) != ["-"] else b""
        return data != b"" and check(view(data)) is None
    except (Misuse, NotationError):
        return False


def command(words):
    """Runs a command and gives its exit status."""
    options = parser().parse_args(words)
    warnings.simplefilter("ignore", NotProved)  # label_library says it
    for stream in (sys.stdout, sys.stderr):
        stream.reconfigure(errors="replace")  # of what a terminal can't show
    try:
        return options.run(options)
    except NotationError as error:
        if getattr(options, "json", False):
            problems = [{"line": line, "column": column, "message": said} for line, column, said in error.places()]
            print(json.dumps({"book": called(options.book), "problems": problems}))
        say(error.shown(called(options.book)))
        if is_swapped(options):
            say(f"midgebillon: {options.text[0]} is a book: the book comes first, and then the rule")
        return REFUSED
    except (Misuse, NoLibrary) as error:
        say(f"midgebillon: {error}")
        return MISUSE


def main(words=None):
    """Runs a command. The exit status is 2 where not all of the output was written."""
    sys.stderr = sys.stderr or open(os.devnull, "w", encoding="utf-8")
    if sys.stdout is None:
        say("midgebillon: standard output is closed")
        return MISUSE
    try:
        try:
            status = command(words)
        except SystemExit as done:  # of argparse
            status = done.code
        sys.stdout.flush()
        return status
    except OSError as error:
        os.dup2(os.open(os.devnull, os.O_WRONLY), sys.stdout.fileno())  # for what Python writes as it ends
        if not isinstance(error, BrokenPipeError):
            say(f"midgebillon: standard output: {error.strerror or error}")
        return MISUSE
    except KeyboardInterrupt:
        return MISUSE
