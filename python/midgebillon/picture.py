"""A line of a text with a caret under a place of it, as an editor shows it: with tab stops every eight columns."""

TAB = 8
WIDTH = 100  # how much of a long line is shown
MARGIN = "    "


def line_and_column(text, place):
    """Of a place in bytes: both from 1, as document 02 a counts columns."""
    start = text.rfind(b"\n", 0, place) + 1
    return text.count(b"\n", 0, place) + 1, 1 + len(_shown(text[start:place]))


def _shown(line):
    """The line without tabs, control characters or bytes that are no text: one character a column."""
    out = ""
    for character in line.decode("utf-8", "replace"):
        if character == "\t":
            out += " " * (TAB - len(out) % TAB)
        else:
            out += character if character.isprintable() else "?"
    return out


def picture(text, place, end=None):
    """The line that has the place, and below it a caret, or carets up to an end in the same line."""
    start = text.rfind(b"\n", 0, place) + 1
    stop = text.find(b"\n", place)
    line = text[start : stop if stop >= 0 else len(text)].rstrip(b"\r")
    shown, before = _shown(line), len(_shown(text[start:place]))
    after = len(_shown(text[start : min(end, start + len(line))])) if end else before + 1
    carets = " " * before + "^" * max(1, after - before)
    cut = max(0, before - WIDTH // 2) if len(shown) > WIDTH else 0
    if cut:
        shown, carets = "..." + shown[cut + 3 :], carets[cut:]
    if len(shown) > WIDTH:
        shown, carets = shown[: WIDTH - 3] + "...", carets[:WIDTH]
    return f"{MARGIN}{shown}\n{MARGIN}{carets}"
