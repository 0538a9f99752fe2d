"""What a Pal source declares and uses, as far as it can be seen. The source may be wrong or half written: `mb` judges it, this only looks.

The words that begin a declaration or a body are in no other place of the grammar, so each part of the text reaches to the next of them.
"""

import re
from dataclasses import dataclass, field
from functools import lru_cache

from .knowledge import GRAMMAR

WORD = re.compile(r"(?P<comment>#[^\n]*)|(?P<name>[a-z][a-z0-9_]*)|(?P<number>[0-9]+)|(?P<service>[A-Z][A-Z_]*)|(?P<sign>:=|->|<>|<=|>=|[^\s])")
KINDS = {"var": "variable", "proc": "procedure"} | {it: it for it in ("array", "semaphore", "event", "buffer", "blackboard", "port", "process")}
BODIES = ("init", "handler", "process", "proc")


@dataclass(frozen=True, slots=True)
class Word:
    """A word of a source. Those of the grammar are of the kind `word`."""

    kind: str
    text: str
    start: int
    end: int


@dataclass(frozen=True, slots=True)
class Name:
    """A declared name: what it names, where the name is, and what its declaration says."""

    kind: str
    word: Word
    said: str


@dataclass(slots=True)
class Part:
    """A declaration, or a body with its head: its words, the name that it declares, and those of its parameters and locals."""

    kind: str
    words: list[Word]
    name: Name | None = None
    own: list[Name] = field(default_factory=list)

    @property
    def start(self) -> int:
        return self.words[0].start

    @property
    def end(self) -> int:
        return self.words[-1].end

    @property
    def title(self) -> str:
        if self.kind in ("init", "handler"):
            return self.kind.upper()
        return self.name.word.text if self.name else ""


@dataclass(slots=True)
class Source:
    """The parts of a source, in their order."""

    parts: list[Part]
    # The words before the first part.
    loose: list[Word]

    def part_at(self, offset: int) -> Part | None:
        """The part in which a place is, or after which it is."""
        return next((it for it in reversed(self.parts) if it.start <= offset), None)

    def names(self, part: Part | None) -> dict[str, Name]:
        """The names that a part knows, its own first. The first declaration of a name counts."""
        known: dict[str, Name] = {}
        for it in [*(part.own if part else []), *(it.name for it in self.parts if it.name)]:
            known.setdefault(it.word.text, it)
        return known


def words_of(text: str) -> list[Word]:
    """The words of a text, without its comments."""
    found = []
    for it in WORD.finditer(text):
        kind = "word" if it.lastgroup == "name" and it[0] in GRAMMAR else it.lastgroup
        if kind != "comment":
            found.append(Word(kind, it[0], it.start(), it.end()))
    return found


@lru_cache(maxsize=64)
def read_source(text: str) -> Source:
    """The parts of a text."""
    words = words_of(text)
    heads = [at for at, it in enumerate(words) if it.kind == "word" and it.text in {*KINDS, *BODIES}]
    ends = [*heads[1:], len(words)]
    parts = [part_of(text, words[at:end]) for at, end in zip(heads, ends)]
    return Source(parts, words[: heads[0]] if heads else words)


def part_of(text: str, words: list[Word]) -> Part:
    """The part of these words, the first of which says what it is."""
    part = Part(words[0].text, words)
    if part.kind in KINDS and len(words) > 1 and words[1].kind == "name":
        part.name = Name(KINDS[part.kind], words[1], head_of(text, part))
    if part.kind == "proc":
        part.own += parameters(words)
    if part.kind in BODIES:
        following = zip(words, words[1:])
        part.own += [Name("local", name, f"local {name.text}") for it, name in following if it.text == "local" and name.kind == "name"]
    return part


def parameters(words: list[Word]) -> list[Name]:
    """The parameters in the head of a procedure."""
    head = words[2 : next((at for at, it in enumerate(words) if it.text in (")", "{")), len(words))]
    return [Name("parameter", it, f"parameter {it.text}") for it in head if it.kind == "name"]


def head_of(text: str, part: Part) -> str:
    """What a declaration says, up to its `;`, or the head of a body up to its `{`."""
    ends = "{" if part.kind in BODIES else ";"
    end = next((it.start for it in part.words if it.text == ends), part.words[-1].end)
    return re.sub(r"\s+", " ", re.sub(r"#[^\n]*", "", text[part.start : end])).strip()


def number_of(source: Source, name: Name) -> int:
    """The number of a process or an object: its place among those of its kind."""
    return [it.name.word for it in source.parts if it.name and it.name.kind == name.kind].index(name.word) + 1


@dataclass(frozen=True, slots=True)
class Call:
    """A call in which a place is: what is called, and which argument or target the place is in, from 0."""

    called: Word
    index: int
    is_target: bool


def call_at(part: Part | None, offset: int) -> Call | None:
    """The call of a service or a procedure in whose arguments or targets a place is, if it is in one."""
    words = [it for it in part.words if it.end <= offset] if part else []
    open_calls: list[tuple[Word, int]] = []
    closed, target = None, None
    for before, word in zip(words, words[1:]):
        if word.text in (";", "{", "}"):
            open_calls, closed, target = [], None, None
        elif word.text == "(":
            open_calls.append((before, 0))
        elif word.text == ")" and open_calls:
            closed = open_calls.pop()[0]
        elif word.text == "->":
            target = 0
        elif word.text == "," and open_calls:
            called, index = open_calls.pop()
            open_calls.append((called, index + 1))
        elif word.text == "," and target is not None:
            target += 1
    if target is not None:
        return Call(closed, target, True) if closed else None
    called, index = open_calls[-1] if open_calls else (None, 0)
    return Call(called, index, False) if called and called.kind in ("service", "name") else None
