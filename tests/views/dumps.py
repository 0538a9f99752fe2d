"""A strict reader of value change dumps, by the grammar of IEEE 1364 for dumps of four states, where each command stands on a line of its
own and each variable in a scope in a scope. Variables of strings, which viewers know and the standard does not, are read too."""

import re
from dataclasses import dataclass, field

CODE = re.compile(r"[!-~]+")
IDENTIFIER = re.compile(r"[A-Za-z_][A-Za-z0-9_]*")


# The sizes of variables, and their values.
SIZES = {"wire": "1", "event": "1", "string": "1", "reg": "64"}
VALUES = {"wire": re.compile("[01]"), "event": re.compile("1"), "string": re.compile("s(-|[A-Z_]+)"), "reg": re.compile("b(0|1[01]{0,63})")}


class NoDump(Exception):
    """The text is no dump, or not one of these."""


def require(is_so, what):
    if not is_so:
        raise NoDump(what)


@dataclass(frozen=True)
class Variable:
    """A variable: its scopes from the outside in and its name, with dots between them, and its type."""

    path: str
    kind: str


@dataclass(frozen=True)
class Change:
    """A variable takes a value."""

    time: int
    path: str
    value: str


@dataclass
class Dump:
    """The variables by their codes, the changes without the first values, and all times."""

    variables: dict = field(default_factory=dict)
    changes: list = field(default_factory=list)
    times: list = field(default_factory=list)

    def times_of(self, path, value):
        """The times at which a variable takes a value."""
        require(path in self.paths(), f"there is no variable {path}")
        return [it.time for it in self.changes if it.path == path and it.value == value]

    def paths(self):
        return [it.path for it in self.variables.values()]


def read(text):
    """Reads a dump."""
    require(text.endswith("\n"), "the last line has no end")
    dump, lines = Dump(), iter(text.split("\n")[:-1])
    read_declarations(dump, lines)
    read_changes(dump, lines)
    return dump


def read_declarations(dump, lines):
    """Reads the commands up to the end of the definitions."""
    scopes = []
    for line in lines:
        require(line.endswith(" $end"), f"'{line}' has no end")
        keyword, _, fields = line.removesuffix(" $end").partition(" ")
        if keyword == "$timescale":
            require(fields == "1 ns", f"a time scale of {fields}")
        elif keyword == "$scope":
            enter(scopes, fields)
        elif keyword == "$upscope":
            require(fields == "" and scopes, "the end of no scope")
            scopes.pop()
        elif keyword == "$var":
            declare(dump, scopes, fields)
        elif keyword == "$enddefinitions":
            require(fields == "" and not scopes, "a scope without an end")
            return
        else:
            require(keyword in ("$version", "$comment"), f"'{keyword}' declares nothing")
    raise NoDump("the definitions have no end")


def enter(scopes, fields):
    """A scope begins."""
    kind, _, name = fields.partition(" ")
    require(kind == "module" and IDENTIFIER.fullmatch(name), f"no scope: '{fields}'")
    require(len(scopes) < 2, f"'{name}' is no scope in a scope")
    scopes.append(name)


def declare(dump, scopes, fields):
    """Reads a variable: its type, its size, its code and its name. Its code and its path are its own."""
    kind, size, code, name = (*fields.split(" "), *[""] * 4)[:4]
    require(len(fields.split(" ")) == 4 and SIZES.get(kind) == size, f"no variable: '{fields}'")
    require(CODE.fullmatch(code) and IDENTIFIER.fullmatch(name) and len(scopes) in (1, 2), f"no variable: '{fields}'")
    variable = Variable(".".join([*scopes, name]), kind)
    require(code not in dump.variables and variable.path not in dump.paths(), f"'{fields}' is declared twice")
    dump.variables[code] = variable


def read_changes(dump, lines):
    """Reads times, changes, and the first values."""
    are_first = False
    for line in lines:
        if line == "$dumpvars":
            require(not are_first and not dump.changes, "first values behind changes")
            are_first = True
        elif line == "$end":
            require(are_first, "the end of nothing")
            are_first = False
        elif line.startswith("#"):
            require(not are_first and line[1:].isdecimal(), f"no time: '{line}'")
            require(not dump.times or dump.times[-1] < int(line[1:]), f"time {line[1:]} is not later")
            dump.times.append(int(line[1:]))
        else:
            read_change(dump, line, are_first)
    require(not are_first, "the first values have no end")


def read_change(dump, line, is_first):
    """Reads a value and the code of a variable."""
    value, code = line.split(" ") if line[:1] in ("s", "b") and line.count(" ") == 1 else (line[:1], line[1:])
    variable = dump.variables.get(code)
    require(variable and dump.times and VALUES[variable.kind].fullmatch(value), f"no change: '{line}'")
    require(variable.kind != "event" or not is_first, f"an event is no value: '{line}'")
    if not is_first:
        dump.changes.append(Change(dump.times[-1], variable.path, value if variable.kind in ("wire", "event") else value[1:]))
