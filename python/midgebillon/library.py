"""The library of the reader: where it is, and its functions. include/midgebillon.h documents them."""
import ctypes
import ctypes.util
import os
import threading
import warnings

ROOT = os.path.dirname(os.path.dirname(os.path.dirname(os.path.abspath(__file__))))
FILE = "libmidgebillon.so"
VARIABLE = "MIDGEBILLON_LIBRARY"  # names another file
PLACES = (f"{ROOT}/target/proved/lib/{FILE}", f"{ROOT}/target/quick/lib/{FILE}")

CELLS, PARSES, ANSWER, ERROR = 12288, 256, 7, 3
LARGEST = 2**32 - 1
STACK = 8 << 20  # twice what a call can need

HOW_TO_BUILD = """in the reader's folder,

    python3 tools/library.py            proves it and builds it, in some minutes (by `rt lib` in crates/midgebillon_c)
    python3 tools/library.py --quick    builds the same code without its proofs, in seconds

(or set MIDGEBILLON_LIBRARY to the path of a libmidgebillon.so)"""


class NoLibrary(Exception):
    """There is no library to load, or it is not this one."""


class NotProved(UserWarning):
    """The library was built without its proofs."""


def _bytes(data):
    return [data, len(data)]


def as_bytes(what, data):
    if not isinstance(data, (bytes, bytearray, memoryview)):
        raise TypeError(f"the {what} has to be bytes, not {type(data).__name__}")
    return bytes(data)


def _as_number(what, number):
    if not isinstance(number, int):
        raise TypeError(f"the {what} has to be a number, not {type(number).__name__}")
    if not 0 <= number <= LARGEST:
        raise ValueError(f"the {what} {number} is not from 0 to {LARGEST}")
    return number


class Library:
    """The functions of a shared library. Each call has a thread of its own: it can take 4 MiB of stack, which is more
    than some threads have."""

    def __init__(self, path):
        self.path = path
        try:
            self._functions = ctypes.CDLL(path)
            self._declare()
        except (OSError, AttributeError) as error:
            raise NoLibrary(f"{path} can't be used: {error}") from None
        self._starting = threading.Lock()

    def _declare(self):
        numbers, length = ctypes.POINTER(ctypes.c_uint32), ctypes.c_size_t
        texts, lists = [ctypes.c_char_p, length] * 2, [numbers, length]
        read, line = self._functions.midgebillon_read, self._functions.midgebillon_print
        read.restype = None
        read.argtypes = [*texts, ctypes.c_uint32, ctypes.c_uint32, *lists * 3]
        line.restype = length
        line.argtypes = [*texts, *lists * 2, ctypes.c_char_p, length]
        self._functions.midgebillon_furthest.restype = ctypes.c_uint32
        self._functions.midgebillon_furthest.argtypes = [*lists * 2]

    @property
    def proved(self):
        """False where the library says of itself that it was built without its proofs; True where it is the one that
        tools/library.py builds with them; else that isn't known here: None."""
        if hasattr(self._functions, "midgebillon_not_proved"):
            return False
        return True if os.path.realpath(self.path) == os.path.realpath(PLACES[0]) else None

    def _with_stack(self, call, *words):
        given = []
        thread = threading.Thread(target=lambda: given.append(call(*words)))
        with self._starting:  # the size is one setting for all threads
            before = threading.stack_size(STACK)
            try:
                thread.start()
            finally:
                threading.stack_size(before)
        thread.join()
        return given[0]

    def read(self, book, text, start, allowance):
        """The seven numbers of the answer, the cells and the parses."""
        start, allowance = _as_number("start", start), _as_number("allowance", allowance)
        lists = [(ctypes.c_uint32 * size)() for size in (CELLS, PARSES, ANSWER)]
        words = [word for numbers in lists for word in (numbers, len(numbers))]
        self._with_stack(self._functions.midgebillon_read, *_bytes(book), *_bytes(text), start, allowance, *words)
        cells, parses, answer = lists
        return tuple(answer), cells, parses

    def line(self, book, text, cells, answer, room):
        """The printed line, or None where it has more than `room` bytes. The cells are an array."""
        out = ctypes.create_string_buffer(room)
        numbers = (ctypes.c_uint32 * ANSWER)(*answer)
        lent = (ctypes.c_uint32 * len(cells)).from_buffer(cells)
        words = [*_bytes(book), *_bytes(text), lent, len(lent), numbers, ANSWER, out, room]
        length = self._with_stack(self._functions.midgebillon_print, *words)
        return out.raw[:length] if length else None

    def furthest(self, errors):
        """The furthest of some errors, three numbers each, or None of none."""
        listed = [number for error in errors for number in error]
        numbers, out = (ctypes.c_uint32 * len(listed))(*listed), (ctypes.c_uint32 * ERROR)()
        none = self._functions.midgebillon_furthest(numbers, len(listed), out, ERROR)
        return None if none else tuple(out)


def found():
    """The path of the library: the one that is named, the proved one, the quick one, or the system's."""
    named = os.environ.get(VARIABLE)
    if named:
        return named
    return next((path for path in PLACES if os.path.exists(path)), None) or ctypes.util.find_library("midgebillon")


_library = None


def loaded():
    """The library, loaded once. NoLibrary where there is none."""
    global _library
    if _library is None:
        path = found()
        if not path:
            raise NoLibrary(f"the reader's library isn't built yet: {HOW_TO_BUILD}")
        _library = Library(path)
        if _library.proved is False:
            warnings.warn(f"{path} is NOT PROVED: it was built without the proofs", NotProved, stacklevel=3)
    return _library
