"""What can be written at a place: services, names and words in a source; keys and values in a table."""

import re
from typing import Any, Iterable

from .finding import Place
from .knowledge import GRAMMAR, KEYS, SERVICES, VALUES, parts_of
from .module import Module
from .source import BODIES, KINDS, Part, Source, call_at, read_source
from .table import Entry, Row, entry_at, row_at
from .texts import text_of

FUNCTION, VARIABLE, PROPERTY, VALUE, KEYWORD = 3, 6, 10, 12, 14
# The words that begin a declaration or a body.
HEADS = [it for it in GRAMMAR if it in KINDS or it in BODIES]
# The words that begin a statement, and those that are in expressions.
STATEMENTS = ("local", "if", "else", "while", "work", "return")
OPERATORS = ("and", "or", "not")
SCALARS = ("variable", "parameter", "local")
# What an expression may name.
VALUES_OF_NAMES = (*SCALARS, "array", "procedure")
OBJECTS = ("process", "semaphore", "event", "buffer", "blackboard", "port")


def item(label: str, kind: int, detail: str) -> dict[str, Any]:
    return {"label": label, "kind": kind, "detail": detail}


def complete(place: Place) -> list[dict[str, Any]]:
    """What can be written at a place, with the edits that write it."""
    before = place.content[place.content.rfind("\n", 0, place.offset) + 1 : place.offset]
    start = place.offset - len(re.search(r"[\w.]*\Z" if place.is_table else r"\w*\Z", before)[0])
    found = in_table(place, before) if place.is_table else in_source(read_source(place.content), before, start)
    where = text_of(place.content).range(start, place.offset)
    is_quoted = before.count('"') % 2 == 1
    for it in found:
        has_quotes = it["kind"] == VALUE and it["label"] not in ("true", "false") and not is_quoted
        it["textEdit"] = {"range": where, "newText": f'"{it["label"]}"' if has_quotes else it["label"]}
    return found


def in_source(source: Source, line: str, start: int) -> list[dict[str, Any]]:
    """What can be written where a word begins, after this much of its line."""
    if "#" in line:
        return []
    part = source.part_at(start)
    if part is None or part.kind not in BODIES:
        return words(HEADS)
    before = [it for it in part.words if it.end <= start]
    if not any(it.text == "{" for it in before):
        return words(it for it in ("stack", "priority", "period", "capacity") if it not in [word.text for word in before])
    call = call_at(part, start)
    if call and call.called.kind == "service":
        return arguments(source, part, call.called.text, call.index, call.is_target)
    if [it.text for it in before].count("{") == [it.text for it in before].count("}"):
        return words(HEADS)
    if before[-1].text in (";", "{", "}"):
        return [*services(), *names(source, part, (*SCALARS, "array")), *words(it for it in STATEMENTS if it != "return" or part.kind == "proc")]
    return [*names(source, part, VALUES_OF_NAMES), *words(OPERATORS)]


def arguments(source: Source, part: Part, service: str, index: int, is_target: bool) -> list[dict[str, Any]]:
    """The names that fit as an argument or a target of a service."""
    wanted = parts_of(SERVICES[service]["call"])[0] if service in SERVICES else []
    asked = wanted[index] if index < len(wanted) and not is_target else ""
    if is_target:
        return names(source, part, SCALARS)
    if asked in (*OBJECTS, "array"):
        return names(source, part, (asked,))
    return [*names(source, part, VALUES_OF_NAMES), *words(OPERATORS)]


def services() -> list[dict[str, Any]]:
    return [item(name, FUNCTION, f"{it['call']} {it['ticks']} ticks") for name, it in SERVICES.items()]


def names(source: Source, part: Part, kinds: tuple[str, ...]) -> list[dict[str, Any]]:
    """The names that a body knows, of these kinds."""
    known = source.names(part).values()
    return [item(it.word.text, FUNCTION if it.kind == "procedure" else VARIABLE, it.said) for it in known if it.kind in kinds]


def words(them: Iterable[str]) -> list[dict[str, Any]]:
    return [item(it, KEYWORD, "") for it in them]


def in_table(place: Place, line: str) -> list[dict[str, Any]]:
    """What can be written after this much of a line: headers, keys or values."""
    top = place.module.top
    if re.fullmatch(r"\s*\[\[?[\w.]*", line):
        return [item(it, KEYWORD, "") for it in ("partition", "partition.port", "partition.hm", "window", "channel", "cost")]
    row = row_at(top, place.offset)
    entry = entry_at(row, place.offset)
    if entry:
        return [item(value, VALUE, said) for value, said in values(row, entry, place.module)]
    begun = {it.key for it in row.entries if not it.start <= place.offset <= it.end} | {it.kind for it in row.below}
    other = {"SAMPLING": "queuing", "QUEUING": "sampling"}.get(row.text("kind"), "none")
    keys = {key: it for key, it in KEYS.get(row.kind, {}).items() if key not in begun and other not in it["type"]}
    return [item(key, PROPERTY, f"{it['type']}: {it['text']}") for key, it in keys.items()]


def values(row: Row, entry: Entry, module: Module) -> list[tuple[str, str]]:
    """The values that a key takes, where they are words."""
    if row.kind == "hm":
        return list(VALUES["hm"].items())
    if entry.key in VALUES:
        return list(VALUES[entry.key].items())
    if row.kind == "window" and entry.key == "partition":
        return [(it.text("name"), "partition") for it in module.top.rows("partition") if it.text("name")]
    if row.kind == "window" and entry.key == "release":
        return [("true", ""), ("false", "")]
    if row.kind == "channel" and entry.key in ("source", "destinations"):
        wanted = "SOURCE" if entry.key == "source" else "DESTINATION"
        ports = [it for partition in module.top.rows("partition") for it in partition.rows("port") if it.text("direction") == wanted]
        ends = [(f"{it.above.text('name')}.{it.text('name')}", it.text("kind")) for it in ports]
        return [*ends, ("DEVICE", "outside the module")]
    return []
