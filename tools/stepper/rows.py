"""The rows of a state (docs/STATE.md), what they say, and how two states differ."""

from collections.abc import Iterator
from typing import Any

Row = dict[str, Any]
# How many keys of a row tell it apart from the others of its kind and partition, where that is not its first one alone.
NAMING = {"tick": 0, "owner": 0, "mode": 0, "message": 2, "waiter": 2, "stack": 2, "array": 2, "frame": 2, "local": 3}
# Rows of values, whose first key is the place of the first of them.
OF_VALUES = ("data", "stack", "array")


def text_of(value: Any) -> str:
    if isinstance(value, list):
        return " ".join(map(str, value))
    return "-" if value is None else str(value)


def words_of(row: Row) -> str:
    """A row as `mb state` writes it without --json."""
    return " ".join([text_of(row["partition"]), *(f"{key} {text_of(row[key])}" for key in list(row)[1:])])


def kind_of(row: Row) -> str:
    """What the row is of: its first key after the partition."""
    return list(row)[1]


def named(row: Row) -> dict[str, Any]:
    """The keys that tell the row apart from all others of its kind and partition."""
    keys = list(row)[1 : 1 + NAMING.get(kind_of(row), 1)]
    return {it: row[it] for it in keys}


def name_of(row: Row) -> tuple[Any, ...]:
    return (row["partition"], kind_of(row), *named(row).values())


def fitted(words: list[str], told: list[str]) -> list[str] | None:
    """The words for which `_` stands, if what is told begins with the words. `..` stands for any words, or none. `mb state --until` has the same rule."""
    if not words:
        return []
    first, rest = words[0], words[1:]
    if first == "..":
        ends = (fitted(rest, told[at:]) for at in range(len(told) + 1))
        return next((it for it in ends if it is not None), None)
    if not told or first not in ("_", told[0]):
        return None
    found = fitted(rest, told[1:])
    return found if found is None or first != "_" else [told[0], *found]


def has(row: Row, words: list[str]) -> bool:
    """Whether the row begins with the words."""
    return fitted(words, words_of(row).split()) is not None


def said(row: Row, words: list[str]) -> Any:
    """What is watched in a row with the words: those for which `_` stands; else all but what changes in every tick."""
    return fitted(words, words_of(row).split()) or {key: value for key, value in row.items() if key not in ("tick", "spent")}


class State:
    """The state before a tick."""

    def __init__(self, rows: list[Row]):
        self.rows = rows
        self.tick: int = rows[0]["tick"]
        self.origin: int | None = rows[0]["origin"]
        self.owner: Row = next(self.of("owner"), {"owner": None, "begin": None, "end": None, "ended": None})

    def of(self, kind: str, partition: str | None = None) -> Iterator[Row]:
        """The rows of a kind, of all partitions or of one."""
        return (it for it in self.rows if kind in it and kind_of(it) == kind and partition in (None, it["partition"]))

    def one(self, kind: str, partition: str, name: str) -> Row | None:
        """The row of a process."""
        return next((it for it in self.of(kind, partition) if it[kind] == name), None)

    def running(self, partition: str) -> Row | None:
        """Where the process is that was chosen last in the partition, and has not stopped since."""
        mode = next(self.of("mode", partition))
        return self.one("runner", partition, mode["running"]) if mode["running"] else None

    def said(self, words: list[str]) -> list[Any]:
        """What the rows with these words say."""
        return [said(it, words) for it in self.rows if has(it, words)]


def differences(old: State, new: State) -> list[tuple[str, str]]:
    """What is not the same in two states, each with the kind of its row, in the order of the rows."""
    before = {name_of(it): it for it in old.rows}
    after = {name_of(it): it for it in new.rows}
    found = [(kind_of(it), f"gone: {words_of(it)}") for name, it in before.items() if name not in after]
    for name, row in after.items():
        if name not in before:
            found.append((kind_of(row), f"new: {words_of(row)}"))
        elif "tick" not in row:
            found += [(kind_of(row), it) for it in between(before[name], row)]
    return found


def between(old: Row, new: Row) -> Iterator[str]:
    """What two rows of one thing say differently. Words of data and of a stack are counted on from the place of their row."""
    kind = kind_of(new)
    title = " ".join([text_of(new["partition"]), *(f"{key} {text_of(it)}" for key, it in named(new).items())] if named(new) else [text_of(new["partition"]), kind])
    if kind not in OF_VALUES:
        for key in new:
            if key != "spent" and old.get(key) != new[key]:
                yield f"{title}: {key} {text_of(old.get(key))} -> {text_of(new[key])}"
        return
    title = title.replace(f"{kind} {new[kind]}", kind, 1).replace("array name", "array", 1)
    for place, (one, other) in enumerate(zip(old["values"], new["values"]), new[kind]):
        if one != other:
            yield f"{title} word {place}: {one} -> {other}"
    if len(old["values"]) != len(new["values"]):
        yield f"{title}: {len(old['values'])} -> {len(new['values'])} words from {new[kind]} on"
