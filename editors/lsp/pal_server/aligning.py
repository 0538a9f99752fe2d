"""The numbers of a table, written so that they can be compared: digits in groups, and the columns of rows that follow each other below one another."""

import re

from .table import Entry, Row, Value, read_table

DECIMAL = re.compile(r"[+-]?(0|[1-9][0-9]*(_[0-9]+)*)")
SMALLEST_IN_GROUPS = 10_000
# Where an edit begins and ends, and what it writes.
Edit = tuple[int, int, str]


def written(number: str) -> str:
    """A decimal as it is written here: from 10,000 on in groups of three digits, without `+`."""
    value = int(number.replace("_", ""))
    return f"{value:_}" if abs(value) >= SMALLEST_IN_GROUPS else str(value)


def is_decimal(value: Value) -> bool:
    return not value.is_text and DECIMAL.fullmatch(value.text) is not None


def formatted(content: str) -> list[Edit]:
    """The edits that format the numbers of a table. Only the layout of the text changes, and no value."""
    top = read_table(content)
    blocks = [it for it in blocks_of(content, top) if len(it) > 1 and any(is_decimal(entry.values[0]) for entry in it[0].entries)]
    inside = {id(row) for block in blocks for row in block}
    plain = [value for row in top.all() if id(row) not in inside for it in row.entries for value in it.values if is_decimal(value)]
    edits = [(it.start, it.end, written(it.text)) for it in plain]
    edits += [edit for block in blocks for edit in aligned(content, block)]
    return [(start, end, new) for start, end, new in edits if content[start:end] != new]


def blocks_of(content: str, top: Row) -> list[list[Row]]:
    """The inline rows within a line, each with those on the following lines that have the same keys in the same order."""
    found: list[list[Row]] = []
    for row in top.all():
        if not row.is_inline or row.below or "\n" in content[row.start : row.end] or not all(it.values for it in row.entries):
            continue
        before = found[-1][-1] if found else None
        if before and content.count("\n", before.end, row.start) == 1 and keys(before) == keys(row):
            found[-1].append(row)
        else:
            found.append([row])
    return found


def keys(row: Row) -> list[str]:
    return [it.key for it in row.entries]


def aligned(content: str, block: list[Row]) -> list[Edit]:
    """The edits that write the rows of a block in columns: integers at the right, other values at the left, and the blanks after the commas."""
    columns = [column_of(content, [row.entries[at] for row in block]) for at in range(len(block[0].entries))]
    rows = [" ".join(cells).rstrip().removesuffix(",") for cells in zip(*columns)]
    return [(row.start, row.end, f"{{ {text} }}") for row, text in zip(block, rows)]


def column_of(content: str, entries: list[Entry]) -> list[str]:
    """The cells of a column with their commas, as wide as the widest of them."""
    is_number = all(is_decimal(it.values[0]) for it in entries)
    cells = [written(it.values[0].text) if is_number else content[it.equals : it.until].strip() for it in entries]
    width = max(len(it) for it in cells) if is_number else 0
    cells = [f"{content[it.start : it.end]} = {cell.rjust(width)}," for it, cell in zip(entries, cells)]
    width = max(len(it) for it in cells)
    return [it.ljust(width) for it in cells]
