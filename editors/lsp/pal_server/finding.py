"""Where the names of a module are: declarations, uses, and the outline of a file."""

from dataclasses import dataclass
from functools import cached_property, lru_cache
from pathlib import Path
from typing import Any

from .module import Files, Module
from .source import Part, Word, read_source
from .table import Row, Value, read_table
from .texts import text_of

# What an occurrence is of: a kind, and what tells two names of it apart.
Symbol = tuple[str, ...]
# The kinds of what several files of a module may name.
SHARED = ("partition", "port", "service")
MODULE, FUNCTION, VARIABLE, ARRAY, OBJECT, EVENT, INTERFACE = 2, 12, 13, 18, 19, 24, 11
OUTLINED = {"variable": VARIABLE, "array": ARRAY, "event": EVENT, "port": INTERFACE, "process": FUNCTION, "procedure": FUNCTION}


@dataclass(frozen=True, slots=True)
class Occurrence:
    """A place where a name is. A source declares its partition at its beginning, in a place without characters."""

    symbol: Symbol
    path: Path
    start: int
    end: int
    declares: bool


@lru_cache(maxsize=64)
def in_source(path: Path, content: str, partition: str) -> list[Occurrence]:
    """The names and services in a source. A port is the partition's, all other names are the source's."""
    source = read_source(content)
    found = [Occurrence(("partition", partition), path, 0, 0, True)] if partition else []
    outer = source.names(None)
    for part in source.parts:
        own = {it.word.text for it in part.own}
        declared = {it.word.start for it in [*part.own, *([part.name] if part.name else [])]}
        for word in part.words:
            if word.kind == "service":
                found.append(Occurrence(("service", word.text), path, word.start, word.end, False))
            elif word.kind == "name":
                symbol = symbol_of(word, part, own, outer, path, partition)
                found.append(Occurrence(symbol, path, word.start, word.end, word.start in declared))
    return found


def symbol_of(word: Word, part: Part, own: set[str], outer: dict[str, Any], path: Path, partition: str) -> Symbol:
    if word.text in own:
        return ("own", str(path), str(part.start), word.text)
    if partition and word.text in outer and outer[word.text].kind == "port":
        return ("port", partition, word.text)
    return ("name", str(path), word.text)


def in_table(path: Path, top: Row) -> list[Occurrence]:
    """The names of partitions, ports and channels in a table."""
    found = []
    for row in top.all():
        name = row.value("name")
        if row.kind == "port" and name:
            found.append(of_value(("port", row.above.text("name"), name.text), path, name, True))
        elif row.kind in ("partition", "channel") and name:
            found.append(of_value((row.kind, name.text), path, name, True))
        elif row.kind == "window" and row.value("partition"):
            found.append(of_value(("partition", row.text("partition")), path, row.value("partition"), False))
        if row.kind == "channel":
            ends = [it for entry in row.entries if entry.key in ("source", "destinations") for it in entry.values]
            found += [of_value(("port", *it.text.split(".", 1)), path, it, False) for it in ends if "." in it.text]
    return found


def of_value(symbol: Symbol, path: Path, value: Value, declares: bool) -> Occurrence:
    return Occurrence(symbol, path, value.start, value.end, declares)


def in_module(module: Module, files: Files, beside: Path) -> list[Occurrence]:
    """The names in the table and the sources of a module, and in another file next to them."""
    found = in_table(module.table, module.top) if module.table else []
    for path in dict.fromkeys([*module.sources.values(), beside]):
        text = files.text(path) if path and path.suffix == ".pal" else None
        if text is not None:
            found += in_source(path, text, module.partition_of(path) or "")
    return found


@dataclass(frozen=True)
class Place:
    """A place in a file of a module, with the text of the file."""

    path: Path
    content: str
    offset: int
    module: Module
    files: Files

    @property
    def is_table(self) -> bool:
        return self.path.suffix == ".toml"

    @property
    def partition(self) -> str | None:
        """The partition whose source the file is."""
        return self.module.partition_of(self.path)

    @cached_property
    def near(self) -> list[Occurrence]:
        """The names in the file."""
        if self.is_table:
            return in_table(self.path, self.module.top)
        return in_source(self.path, self.content, self.partition or "")

    @cached_property
    def here(self) -> Occurrence | None:
        """The name at the place, or the one that ends there."""
        found = [it for it in self.near if it.start <= self.offset <= it.end and it.start < it.end]
        return max(found, key=lambda it: it.start, default=None)

    @cached_property
    def same(self) -> list[Occurrence]:
        """All places of the name at the place: in the file, or of what several files name, in the module."""
        if not self.here:
            return []
        known = in_module(self.module, self.files, self.path) if self.here.symbol[0] in SHARED else self.near
        return [it for it in known if it.symbol == self.here.symbol]


def definitions(place: Place) -> list[Occurrence]:
    """Where a name is declared: in its own file, or if it is asked for there, in the other one."""
    here = place.here
    declared = [it for it in place.same if it.declares and it != here]
    near = [it for it in declared if it.path == place.path and not here.declares]
    return (near or declared)[:1]


def references(place: Place, with_declarations: bool) -> list[Occurrence]:
    """All places of a name."""
    return [it for it in place.same if it.start < it.end and (with_declarations or not it.declares)]


def outline_of_source(content: str) -> list[dict[str, Any]]:
    """The declarations and bodies of a source, the parameters and locals within their bodies."""
    text = text_of(content)
    found = []
    for part in read_source(content).parts:
        if not part.title:
            continue
        word = part.name.word if part.name else part.words[0]
        kind = OUTLINED.get(part.name.kind, OBJECT) if part.name else FUNCTION
        inside = [outlined(it.word.text, it.kind, VARIABLE, text.range(it.word.start, it.word.end)) for it in part.own]
        detail = part.name.said if part.name else part.kind
        found.append(outlined(part.title, detail, kind, text.range(part.start, part.end), text.range(word.start, word.end), inside))
    return found


def outline_of_table(content: str) -> list[dict[str, Any]]:
    """The partitions of a table with their ports, its windows and its channels."""
    text = text_of(content)

    def of_row(row: Row) -> dict[str, Any]:
        name = row.value("partition" if row.kind == "window" else "name")
        place = text.range(name.start, name.end) if name else text.range(row.start, row.start)
        kind = {"partition": MODULE, "port": INTERFACE}.get(row.kind, OBJECT)
        inside = [of_row(it) for it in row.rows("port")]
        return outlined(name.text if name and name.text else row.kind, row.kind, kind, text.range(row.start, row.end), place, inside)

    return [of_row(it) for it in read_table(content).below if it.kind in ("partition", "window", "channel")]


def outlined(name: str, detail: str, kind: int, whole: dict, place: dict | None = None, inside: list | None = None) -> dict[str, Any]:
    return {"name": name, "detail": detail, "kind": kind, "range": whole, "selectionRange": place or whole, "children": inside or []}
