"""The words of a Pal source (section 1 of PAL.md)."""

import re
from collections import namedtuple

import limits
from refusal import Refusal
from services import BY_NAME

# `kind` is "name", "nat", "SERVICE", "wrong", "end", or the word itself.
Word = namedtuple("Word", "kind text line place")

GRAMMAR_WORDS = frozenset(
    "var array semaphore event buffer blackboard port proc fifo priority init stack handler process period capacity local"
    " if else while work return or and not".split()
)
FORM = re.compile(
    r"(?P<blank>[ \t\n]+|\#[^\n]*)|(?P<name>[a-z][a-z0-9_]*)|(?P<nat>[0-9]+)|(?P<SERVICE>[A-Z][A-Z_]*)"
    r"|(?P<sign>:=|->|<>|<=|>=|[-+*/%=<>;,(){}\[\]])"
)


class Wrong(Exception):
    """The source breaks the rule of this number in this line."""

    def __init__(self, number, line):
        super().__init__(number, line)
        self.number, self.line = number, line

    def refusal(self, partition):
        return Refusal(f"pal {partition} {self.number} line {self.line}")


def judge_bytes(data):
    """Rule 1."""
    head = data[: limits.SOURCE_BYTES + 1]
    above = re.search(rb"[\x80-\xff]", head)
    if above:
        raise Wrong(1, 1 + head.count(b"\n", 0, above.start()))
    if len(data) > limits.SOURCE_BYTES:
        raise Wrong(1, 1 + head.count(b"\n", 0, limits.SOURCE_BYTES))


def words_of(text):
    """The words of the text, up to one that is wrong or to the end."""
    place, line = 0, 1
    while place < len(text):
        found = FORM.match(text, place)
        if found is None:
            yield Word("wrong", text[place], line, place)
            return
        if found.lastgroup != "blank":
            yield word_of(found, line)
        line += text.count("\n", place, found.end())
        place = found.end()
    yield Word("end", "", line, place)


def word_of(found, line):
    kind, text = found.lastgroup, found[0]
    if kind == "sign" or (kind == "name" and text in GRAMMAR_WORDS):
        kind = text
    elif kind == "SERVICE" and text not in BY_NAME:
        kind = "wrong"
    return Word(kind, text, line, found.start())
