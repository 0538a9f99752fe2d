"""What the proofs of a crate can take of the libraries below it: the contracts and types that its own text names, and the definitions that it and
these lead to. All is read from what `rt ci` wrote of each library (`lang/antt`), where a contract has its clauses and the names that they use.
"""

import functools
import json
import re
from pathlib import Path

# A module of definitions, as a `use` names it.
MODULE = re.compile(r"Rattle\.(\w+)\.(specs\.[\w.]+)")
TYPE = re.compile(r'"Declared": {"symbol": "[\w:]*?(\w+)"')
# What the module of a contract has of the file in which the contract is.
OF_FILE = ("types", "constants", "functions", "uses")


def words_of(text, comment):
    """Returns the words of a text, without its lines of comment and its hints for inlining, of which no proof takes notice."""
    return " ".join(" ".join(it for it in text.split("\n") if not it.lstrip().startswith((comment, "#[inline("))).split())


def without_places(value):
    """Returns a part of a contract without the columns in which it is written."""
    if isinstance(value, dict):
        return {key: without_places(it) for key, it in value.items() if key not in ("column", "header")}
    return [without_places(it) for it in value] if isinstance(value, list) else value


def parted(use):
    """Returns the module that a `use` names, and the names that it takes."""
    module, _, names = use["Read"]["bytes"].partition(".{")
    return module, names.rstrip("}").split(", ")


class Promise:
    """What a library says of a function, a type or an `impl` that it exports."""

    def __init__(self, said):
        self.is_impl = "block" in said
        self.text = json.dumps(without_places({key: it for key, it in said.items() if key not in OF_FILE}), ensure_ascii=False)
        self.name = re.search(r'"symbol": "[\w:]*?(\w+)"', self.text)[1]
        self.words = {*re.findall(r"[\w-]+", self.text)}
        self.uses = [f"{module}.{name}" for module, names in map(parted, said.get("uses", [])) for name in names if self.has(name)]

    def has(self, name):
        return name.rpartition(" as ")[2].strip("◌") in self.words

    def is_named(self, words):
        """Whether a text of these words names it; an `impl` is named with its types."""
        names = TYPE.findall(self.text) if self.is_impl else [self.name]
        return any(it in words for it in names)

    def says(self):
        return f"{self.text} {' '.join(sorted(self.uses))}"


class Library:
    """A library, as `rt ci` left it."""

    def __init__(self, folder):
        antt = Path(folder) / "lang/antt"
        self.made = (antt / "made.json").read_bytes()
        rows = map(json.loads, (Path(folder) / "toolchain/made.json").read_text().splitlines())
        self.places = {name: (at, length) for name, at, length, *_ in rows if "specs/" in name}
        self.definitions = {".".join(it.relative_to(antt).with_suffix("").parts): it for it in antt.glob("specs/**/*.antt")}

    def module(self, name):
        """Returns the kind of a module, and what it says."""
        at, length = self.places[name]
        found, _ = json.JSONDecoder().raw_decode(self.made[at : at + length].decode())
        return next(iter(found.items())) if isinstance(found, dict) else (found, {})

    def origin(self, name):
        """Returns the name of the module for which this one is another name."""
        kind, said = self.module(name)
        source = said["source"].split("-", 2)[2].replace(".", "/") if kind == "StandsFor" else name
        return name if source == name or source not in self.places else self.origin(source)

    @functools.cached_property
    def promises(self):
        exported = {self.origin(it) for it in self.places if it.startswith("facade/specs/contracts/") and not it.endswith("/Key")}
        found = [self.module(it) for it in sorted(exported)]
        return [Promise(said) for kind, said in found if kind in ("Contract", "TypeOf", "ImplValues", "BoundOf")]

    def defined(self, module):
        """Returns what a module of definitions or of constants says, and nothing where this library has no such module."""
        names = ["specs"] + [".".join(module.split(".")[:end]) for end in range(2, module.count(".") + 2)]
        file = next((self.definitions[it] for it in reversed(names) if it in self.definitions), None)
        if file:
            return words_of(file.read_text(), "--")
        place = next((it.replace(".", "/") for it in reversed(names) if "TheConstants" in it and it.replace(".", "/") in self.places), None)
        return json.dumps(without_places(self.module(place)[1])) if place else ""


def taken(text, libraries):
    """Returns what proofs about this text can take of these libraries, by their names."""
    words = {*re.findall(r"\w+", text)}
    said = sorted(it.says() for library in libraries.values() for it in library.promises if it.is_named(words))
    left, seen = {match for it in (text, *said) for match in MODULE.findall(it)}, {}
    while left:
        name, module = place = left.pop()
        seen[place] = libraries[name].defined(module) if name in libraries else ""
        left |= {it for it in MODULE.findall(seen[place]) if it not in seen}
    return said + sorted({*seen.values()})
