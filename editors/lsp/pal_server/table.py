"""What a module table has, as far as it can be seen. The table may be wrong or half written: `mb` judges it, this only looks.

A table is read as rows: the table itself, a row for each partition, port, window and channel, and for each `hm` and `cost`.
"""

import re
from dataclasses import dataclass, field
from functools import lru_cache

WORD = re.compile(
    r"(?P<comment>#[^\n]*)|(?P<header>(?:(?<=\n)|\A)[ \t]*\[\[?[ \t]*[A-Za-z0-9_. \t-]*\]{0,2}(?=[ \t]*(?:#|\r?\n|\Z)))|(?P<line>\n)"
    r"|(?P<text>\"\"\".*?(?:\"\"\"|\Z)|'''.*?(?:'''|\Z)|\"(?:\\.|[^\"\\\n])*\"?|'[^'\n]*'?)|(?P<bare>[A-Za-z0-9_+.:-]+)|(?P<sign>[^\s])",
    re.S,
)
# The kinds of the rows below others, by the kind of the row above and the key.
BELOW = {("table", it): it for it in ("partition", "window", "channel", "cost")} | {("partition", it): it for it in ("hm", "port")}


@dataclass(frozen=True, slots=True)
class Word:
    kind: str
    text: str
    start: int
    end: int


@dataclass(frozen=True, slots=True)
class Value:
    """A text, a number or a boolean. A text has the quotes around its place, and none in its text."""

    text: str
    is_text: bool
    start: int
    end: int


@dataclass(slots=True)
class Entry:
    """A key of a row with its values, several in an array. The values are between the `=` and what ends the entry."""

    key: str
    start: int
    end: int
    equals: int | None = None
    until: int = 0
    values: list[Value] = field(default_factory=list)


@dataclass(slots=True)
class Row:
    """A row: the row above it, where it begins and ends, its entries, and the rows below it. An inline row has its own brackets."""

    kind: str
    above: "Row | None"
    start: int
    end: int
    is_inline: bool = False
    entries: list[Entry] = field(default_factory=list)
    below: list["Row"] = field(default_factory=list)

    def value(self, key: str) -> Value | None:
        """The value of a key, the first one of an array."""
        return next((it.values[0] for it in self.entries if it.key == key and it.values), None)

    def text(self, key: str) -> str:
        value = self.value(key)
        return value.text if value else ""

    def rows(self, kind: str) -> list["Row"]:
        """The rows of a kind below this one."""
        return [it for it in self.below if it.kind == kind]

    def all(self) -> list["Row"]:
        """This row and all below it."""
        return [self, *(row for it in self.below for row in it.all())]

    def number(self, key: str) -> int | None:
        """The integer of a key, if it is one."""
        try:
            return int(self.text(key).replace("_", ""), 0)
        except ValueError:
            return None


def words_of(text: str) -> list[Word]:
    return [Word(it.lastgroup, it[0], it.start(), it.end()) for it in WORD.finditer(text) if it.lastgroup != "comment"]


class Reading:
    """Reads the rows from the words of a table."""

    def __init__(self, text: str) -> None:
        self.words = words_of(text)
        self.length = len(text)
        self.at = 0
        self.top = self.row = Row("table", None, 0, len(text))

    def next(self) -> Word | None:
        return self.words[self.at] if self.at < len(self.words) else None

    def take(self) -> Word:
        self.at += 1
        return self.words[self.at - 1]

    def read(self) -> Row:
        while word := self.next():
            if word.kind == "header":
                self.header(self.take())
            elif word.kind in ("bare", "text"):
                self.entry(self.row, ("header", "line"))
            else:
                self.take()
        return self.top

    def header(self, word: Word) -> None:
        """Goes to the row that a header names: a new one behind `[[`, and for `hm` and `cost`."""
        row = self.top
        names = word.text.strip(" \t[]").split(".")
        for name in (it.strip() for it in names[:-1]):
            row = next((it for it in reversed(row.below) if it.kind == name), row)
        self.row = self.add(row, names[-1].strip(), word)

    def add(self, above: Row, key: str, word: Word) -> Row:
        """A new row that begins with a word. Where nothing of its kind belongs, it is of the kind `other`."""
        row = Row(BELOW.get((above.kind, key), "other"), above, word.start, word.end, word.text == "{")
        above.below.append(row)
        self.reaches(row, word)
        return row

    def reaches(self, row: Row, word: Word) -> None:
        """Notes that a row, and those above it, reach to the end of a word."""
        while row:
            row.end = max(row.end, word.end)
            row = row.above

    def entry(self, row: Row, ends: tuple[str, ...]) -> None:
        """Reads a key and its value, up to one of these kinds or signs."""
        word = self.take()
        names = word.text.split(".") if word.kind == "bare" else [word.text.strip("\"'")]
        for name in names[:-1]:
            row = next((it for it in row.below if it.kind == name), None) or self.add(row, name, word)
        entry = Entry(names[-1], word.end - len(names[-1]) if len(names) > 1 else word.start, word.end)
        row.entries.append(entry)
        self.reaches(row, word)
        if (sign := self.next()) and sign.text == "=":
            entry.equals = self.take().end
            self.value(row, entry)
        while (word := self.next()) and word.kind not in ends and word.text not in ends:
            self.take()
        entry.until = word.start if word else self.length

    def value(self, row: Row, entry: Entry) -> None:
        """Reads a value into an entry: a text, a number, an array or an inline table."""
        word = self.next()
        if not word or word.kind in ("header", "line"):
            return
        self.reaches(row, self.take())
        if word.text == "{":
            self.inline(self.add(row, entry.key, word))
        elif word.text == "[":
            self.array(row, entry)
        elif word.kind in ("text", "bare"):
            content = re.sub(r"^(\"\"\"|'''|\"|')|(\"\"\"|'''|\"|')$", "", word.text) if word.kind == "text" else word.text
            entry.values.append(Value(content, word.kind == "text", word.start, word.end))

    def array(self, row: Row, entry: Entry) -> None:
        while (word := self.next()) and word.kind != "header":
            if word.text == "]":
                self.reaches(row, self.take())
                return
            if word.kind in ("text", "bare") or word.text in ("{", "["):
                self.value(row, entry)
            else:
                self.take()

    def inline(self, row: Row) -> None:
        """Reads an inline table. One that is not closed ends where another begins."""
        while (word := self.next()) and word.kind != "header" and word.text != "{":
            if word.text == "}":
                self.reaches(row, self.take())
                return
            if word.kind in ("text", "bare"):
                self.entry(row, ("header", ",", "{", "}"))
            else:
                self.take()
        row.end = word.start if word else self.length


@lru_cache(maxsize=64)
def read_table(text: str) -> Row:
    """The table of a text."""
    return Reading(text).read()


def row_at(top: Row, offset: int) -> Row:
    """The row to which a key that is written at a place belongs: the innermost inline row around the place, or that of the header before it."""
    rows = sorted(top.all(), key=lambda it: it.start)
    around = [it for it in rows if it.is_inline and it.start < offset < it.end]
    return around[-1] if around else [it for it in rows if not it.is_inline and it.start <= offset][-1]


def entry_at(row: Row, offset: int) -> Entry | None:
    """The entry of a row whose values are written at a place."""
    return next((it for it in row.entries if it.equals is not None and it.equals <= offset <= it.until), None)
