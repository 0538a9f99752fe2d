"""The wrong edits of the crates, and the ledger `edits.tried`: on what each of them was refused last.

The edits of a crate are the blocks of its file `edits`, and the files in `must-fail`, which `rt ci` tries too. The ledger is a memory and no
proof: it says which edits nothing has changed for since the prover refused them. So an edit's line is its name and a sum of its text, of the code,
definitions and clauses of its crate, and of what its crate can take of those below: the clauses that they export of what it names, and the
definitions to which these lead (`promises.py`). Written proofs do not count, nor do comments, breaks of lines and the place of the edit.
"""

import fcntl
import functools
import hashlib
import os
import re
import shutil
import sys
from pathlib import Path

# What a crate is, and what is below it, `rt` itself says.
sys.path.insert(0, os.path.dirname(os.path.realpath(shutil.which("rt"))))
import rtlib  # noqa: E402
from promises import Library, taken, words_of  # noqa: E402

ROOT = Path(__file__).resolve().parent.parent
FILE = ROOT / "edits.tried"
NAMED = ROOT / "docs/WRONG_BODIES.md"
HEAD = "# The wrong edits that the prover refused, as `.ci/edits` writes them: each with the sum of what it was tried on.\n"
COMMENT = {".rt": "//", ".antt": "--"}
# The crates of texts, findings and views, whose edits may stay stale until their printing is tested in place of pinned.
MAY_BE_STALE = {
    *("number_tables", "finding_lines", "source_findings", "table_findings", "image_findings", "schedule_load", "lint"),
    *("trace_text", "trace_stays", "trace_windows", "trace_view", "trace_picture", "trace_lines", "trace_page", "wave_dump"),
    *("text_beginnings", "command_words", "view_command"),
}


class BadEdit(Exception):
    """An edit that cannot be read or applied, or that the prover cannot read."""


class Edit:
    """Texts that are replaced in files of a crate, and the function that the prover must then refuse."""

    def __init__(self, crate, name, lines):
        self.crate, self.name, self.lines = crate, f"{crate}/{name}", lines
        self.function, self.changes, self.must_be_alone = "", [], False
        file = old = ""
        for line in lines:
            word, _, rest = line.partition(": ")
            if word == "file":
                file = rest.strip()
            elif word == "function":
                self.function = f"{crate}::{rest.strip()}"
            elif word == "alone":
                self.must_be_alone = True
            elif word == "old":
                old = rest
            elif word in ("new", "new:") and file and old:
                self.changes.append((file, old, rest))
            else:
                raise BadEdit(f"{self.name} has a line that is not read: {line}")
        if not self.function or not self.changes:
            raise BadEdit(f"{self.name} names no function, or changes nothing")

    def applied(self, texts):
        """Returns these texts with the edit made in them, or None where a text that it replaces is not there exactly once."""
        texts = dict(texts)
        for file, old, new in self.changes:
            if texts.get(file, "").count(old) != 1:
                return None
            texts[file] = texts[file].replace(old, new)
        return texts


def blocks_of(crate):
    """Returns the names and lines of a crate's edits: those of `must-fail`, then those of its file."""
    folder = ROOT / "crates" / crate
    for file in sorted(folder.glob("must-fail/*.edit")):
        yield file.stem, file.read_text().rstrip("\n").split("\n")
    text = (folder / "edits").read_text() if (folder / "edits").is_file() else ""
    for block in filter(None, (it.strip("\n") for it in text.split("\n\n"))):
        first, *lines = block.split("\n")
        word, _, name = first.partition(": ")
        if word != "edit":
            raise BadEdit(f"a block of crates/{crate}/edits begins with no name: {first}")
        yield name, lines


@functools.cache
def edits_of(crate):
    """Returns the edits of a crate."""
    edits = [Edit(crate, name, lines) for name, lines in blocks_of(crate)]
    names = [it.name for it in edits]
    if len({*names}) < len(names):
        raise BadEdit(f"{crate} has two edits of one name: {', '.join(it for it in names if names.count(it) > 1)}")
    return edits


@functools.cache
def crates():
    """Returns the crates of the workspace, each after those below it."""
    return rtlib.crates_below(str(ROOT))


def all_edits():
    return [edit for crate in crates() for edit in edits_of(crate.name)]


def named():
    """Returns the names of the edits of named wrong bodies, as the last column of the page's table lists them."""
    rows = re.findall(r"^\| `\w+` \|.*\| ([^|]*) \|$", NAMED.read_text(), re.M)
    return [name for row in rows for name in re.findall(r"`(\w+/\w+)`", row)]


def sum_of(texts):
    return hashlib.sha256("\0".join(texts).encode()).hexdigest()[:16]


def texts_of(folder):
    """Returns what counts of a crate's code and definitions: of each file its path and its words."""
    files = [it for part in ("src", "specs") for it in sorted((Path(folder) / part).rglob("*")) if it.suffix in COMMENT]
    return [f"{it.relative_to(folder)}\0{words_of(it.read_text(), COMMENT[it.suffix])}" for it in files]


@functools.cache
def library(folder):
    return Library(folder)


@functools.cache
def crate_sum(name):
    """Returns the sum of what the edits of a crate are tried on."""
    crate = next(it for it in crates() if it.name == name)
    own = texts_of(crate.folder)
    return sum_of([*own, *taken("\0".join(own), {it.name: library(it.rlib) for it in crate.below()})])


def sum_of_edit(edit):
    return sum_of([crate_sum(edit.crate), *edit.lines])


def read():
    """Returns what each edit was refused on last, by its name."""
    lines = FILE.read_text().splitlines() if FILE.exists() else []
    return dict(it.split() for it in lines if not it.startswith("#"))


def note(tried):
    """Writes what edits came to: the sum on which each was refused, or None. Runs side by side wait for each other here."""
    with open(FILE, "a") as file:
        fcntl.flock(file, fcntl.LOCK_EX)
        there = {it.name for it in all_edits()}
        rows = {name: sum for name, sum in {**read(), **tried}.items() if sum and name in there}
        FILE.write_text(HEAD + "".join(f"{name} {rows[name]}\n" for name in sorted(rows)))


def stale():
    """Returns the edits that were not refused on what they stand on now, those first that must not stay so."""
    known = read()
    found = [it for it in all_edits() if known.get(it.name) != sum_of_edit(it)]
    return sorted(found, key=lambda edit: edit.crate in MAY_BE_STALE)
