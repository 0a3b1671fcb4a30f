"""A book byte by byte: each record's place, its bytes and what they say."""
from . import book as books


def _records(data):
    """The records in order: their section, number, place and bytes; a section's count is one with no number."""
    rows = []
    for field in books.fields(data):
        if rows and field.record is not None and rows[-1][:2] == [field.section, field.record]:
            rows[-1][3].append(field.value)
        else:
            rows.append([field.section, field.record, field.place, [field.value]])
    return rows


def _said(view, section, number, row):
    if number is None:
        return f"{row[0]} {section}{'s' * (row[0] != 1)}"
    if section in ("word", "name"):
        entry = (view.book.words if section == "word" else view.book.names)[number]
        label = f"kind {entry.label}" if section == "name" else "reserved" if entry.label else "not reserved"
        return f"{section} {number}: {entry.spelling}, {label}"
    if section == "nonterminal":
        mark = ("", ", claims variables", ", an identifier", ", declares names")[row[0]]
        return f"nonterminal {number}: {view.names[number]}{mark}, {row[1]} variant{'s' * (row[1] != 1)}"
    if section == "variant":
        variant = view.book.variants[number]
        flags = ", passing" * variant.passing + ", uncommitted" * (not variant.committed)
        level = f"level {variant.level}, {books.ASSOCIATIVITIES[variant.associativity]}{flags}"
        return f"variant {view.title(number)}; {level}"
    return view.step(books.Step(*row))


def listing(view):
    """The lines: place, bytes in hexadecimal, what they say."""
    rows = _records(view.data)
    steps = [v for v, variant in enumerate(view.book.variants) for _ in variant.steps]
    lines, before = [], None
    for section, number, place, row in rows:
        said = _said(view, section, number, row)
        if section == "step" and number is not None:
            said = f"of variant {steps[number]}: {said}" if steps[number] != before else f"  {said}"
            before = steps[number]
        bytes_shown = " ".join(f"{byte:02X}" for byte in row)
        lines.append(f"{place:5}  {bytes_shown:12}  {said}")
    return lines
