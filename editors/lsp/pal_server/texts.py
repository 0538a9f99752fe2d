"""Texts and the places in them. The protocol counts lines from 0 and UTF-16 units; `mb` counts both from 1, and characters."""

import re
from dataclasses import dataclass
from functools import cached_property, lru_cache
from typing import Any

WORD = re.compile(r"[A-Za-z0-9_]+|\"[^\"\n]*\"|'[^'\n]*'|[^\sA-Za-z0-9_]")


def units(text: str) -> int:
    """How many UTF-16 units a text has."""
    return len(text) if text.isascii() else sum(1 + (it > "\uffff") for it in text)


@dataclass(frozen=True)
class Text:
    """A text that is open in the editor, or a file."""

    text: str

    @cached_property
    def starts(self) -> list[int]:
        """Where the lines begin."""
        return [0, *(it.end() for it in re.finditer("\n", self.text))]

    def line(self, number: int) -> str:
        """A line from 0 on, without its end."""
        end = self.starts[number + 1] - 1 if number + 1 < len(self.starts) else len(self.text)
        return self.text[self.starts[number] : end].removesuffix("\r")

    def offset(self, position: dict[str, int]) -> int:
        """The place of a position. One beyond its line is the line's end, and one beyond the text is the text's."""
        number, left = max(position["line"], 0), max(position["character"], 0)
        if number >= len(self.starts):
            return len(self.text)
        line = self.line(number)
        if line.isascii():
            return self.starts[number] + min(left, len(line))
        for at, character in enumerate(line):
            if left <= 0:
                return self.starts[number] + at
            left -= units(character)
        return self.starts[number] + len(line)

    def position(self, offset: int) -> dict[str, int]:
        low, high = 0, len(self.starts)
        while high - low > 1:
            middle = (low + high) // 2
            low, high = (middle, high) if self.starts[middle] <= offset else (low, middle)
        return {"line": low, "character": units(self.text[self.starts[low] : offset])}

    def range(self, start: int, end: int) -> dict[str, Any]:
        return {"start": self.position(start), "end": self.position(end)}

    def word_at(self, line: int, column: int) -> tuple[int, int]:
        """The word at a place that `mb` names, or what is nearest to it."""
        number = min(max(line, 1), len(self.starts)) - 1
        content = self.line(number)
        at = min(max(column, 1) - 1, len(content))
        found = WORD.match(content, at)
        return self.starts[number] + at, self.starts[number] + (found.end() if found else at)

    def line_at(self, line: int) -> tuple[int, int]:
        """The content of a line that `mb` names, without the blanks around it."""
        number = min(max(line, 1), len(self.starts)) - 1
        content = self.line(number)
        start = self.starts[number] + len(content) - len(content.lstrip())
        return start, start + len(content.strip())


@lru_cache(maxsize=64)
def text_of(text: str) -> Text:
    """The text, whose lines are found once."""
    return Text(text)
