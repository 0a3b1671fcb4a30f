"""The vectors of the repository: inputs with the answers that the documents fix."""
import glob
import json
import os

ROOT = os.path.dirname(os.path.dirname(os.path.abspath(__file__)))
BOOK_REFUSALS = range(1, 9)  # and of the call


def vectors():
    for path in sorted(glob.glob(f"{ROOT}/vectors/*.jsonl")):
        with open(path, encoding="utf-8") as lines:
            yield from map(json.loads, lines)


def accepted_books():
    """The different books that the reader accepts, in bytes."""
    return sorted({bytes.fromhex(v["book"]) for v in vectors() if v["answer"][0] not in BOOK_REFUSALS})
