#!/usr/bin/env python3
"""What one has to believe to believe a promise: the files of definitions that a definition needs, by the `use` lines of its own file, and
of the files that these name, and so on; each file whole.

    .ci/trust.py NAME           prints the files that the definition of this name needs, in reading order: `Means`, or `module.Runs.Runs`
    .ci/trust.py --compare      compares docs/TRUST.md with what is computed; `.ci/programs` does too
    .ci/trust.py --write        writes the numbers of docs/TRUST.md anew, and says which rows it lacks

The lines of a file are those that are not empty and no comment. Types of the code are files too: a definition that names a type of the
code needs the file in `src` that declares it. They are counted apart, and what they name in turn is not followed. What is in the
libraries of the kit is left out. Of the promises of the programs (`COUNTED`) the page has the counts, and no row for each file.

The README says how many files the main promise needs, of how many in all, and docs/CONTRACTS.md how many promises it lists. These are compared too.
"""

import re
import sys
from functools import cache
from pathlib import Path

ROOT = Path(__file__).resolve().parent.parent
PAGE = ROOT / "docs/TRUST.md"
CRATES = ROOT / "crates"
COUNTED = ("B", "V", "K", "D")
SHARE = re.compile(r"for sentences 2 and 3 (\d+) of (\d+) files")
LISTED = re.compile(r"^## The (\w+) promises\n\n\|.*\n\|[-|]*\n((?:\|.*\n)*)", re.M)
WORDS = ("no", "one", "two", "three", "four", "five", "six", "seven", "eight", "nine")
PROMISE = re.compile(r"^\| (?P<letter>[A-Z]) \|.*\| \[`(?P<name>\w+)`\]\(\.\./(?P<path>crates/\S+\.antt)\) \| (?P<counts>.*) \|$", re.M)
ROW = re.compile(r"^\| \[\S+\]\(\.\./(?P<path>crates/\S+\.(?:antt|rt))\) \| (?P<needs>(?:\d+ \| )?[A-Z]+) \| (?P<says>.+) \|$", re.M)


class Differs(Exception):
    """The page does not say what is computed."""


def file_with(crate, path):
    """The file of a crate that has what a path after `Rattle.CRATE.specs.` names: one of `specs`, or of code where it is a name of code."""
    folder, words, ending = CRATES / crate / "specs", path.split("."), ".antt"
    if words[0] in ("declared", "contracts"):
        folder, words, ending = folder.parent / "src", words[1:], ".rt"
    longest_first = [(folder / "/".join(words[:n])).with_suffix(ending) for n in range(len(words), 0, -1)]
    return next((it for it in longest_first if it.is_file()), folder / "lib.rt")


@cache
def named(path):
    """The files of definitions, and the files of types, that the `use` lines of a file name."""
    found = re.findall(r"^ *(?:pub )?use Rattle\.(\w+)\.specs\.([\w.]*\w)", path.read_text(), re.M)
    files = {file_with(crate, name) for crate, name in found if (CRATES / crate).is_dir()}
    return {it for it in files if it.suffix == ".antt"}, {it for it in files if it.suffix == ".rt"}


def needed(path):
    """All files of definitions, and all files of types, that a file needs, itself among them."""
    definitions, types, left = {path}, set(), [path]
    while left:
        more, code = named(left.pop())
        types |= code
        left += more - definitions
        definitions |= more
    return definitions, types


def lines_of(path):
    return sum(1 for line in path.read_text().splitlines() if line.strip() and not line.strip().startswith("--"))


def reading_order():
    """The files of definitions, as `crates.txt` names the crates and each `Lib.antt` its files."""
    for crate in re.findall(r"^(\w+).*:", (ROOT / "crates.txt").read_text(), re.M):
        lib = CRATES / crate / "specs/Lib.antt"
        if lib.is_file():
            yield from (lib.parent / f"{name}.antt" for name in re.findall(r"^(?:pub )?mod (\w+)$", lib.read_text(), re.M))


def in_order(files):
    order = {it: place for place, it in enumerate(reading_order())}
    return sorted(files, key=lambda it: (order.get(it, len(order)), it))


def file_of(name):
    """The file of definitions in which this name, or the name at the end of this path, is defined."""
    *path, last = name.split(".")
    files = [it for it in reading_order() if re.search(rf"^ *(?:abbrev |unfoldable )?pub (?:record |data )?{last}\b", it.read_text(), re.M)]
    files = [it for it in files if not path or [it.parts[-3], it.stem][-len(path) :] == path[-2:] or [it.parts[-3]] == path]
    if len(files) != 1:
        sys.exit(f"trust: {len(files)} files define {name}: {', '.join(str(it.relative_to(CRATES)) for it in files)}")
    return files[0]


def counts_of(definitions, types):
    return f"{len(definitions)} | {sum(map(lines_of, definitions)):,} | {len(types)}"


def computed():
    """What the page has to say: the promises with their counts, and the rows of the files, with the letters of those that need each."""
    promises, needs = [], {}
    for row in PROMISE.finditer(PAGE.read_text()):
        path = ROOT / row["path"]
        if file_of(f"{path.parts[-3]}.{path.stem}.{row['name']}") != path:
            raise Differs(f"{row['name']} is not defined in {row['path']}")
        definitions, types = needed(path)
        promises.append((row, counts_of(definitions, types)))
        for it in definitions | types if row["letter"] not in COUNTED else ():
            needs[it] = needs.get(it, "") + row["letter"]
    definitions = in_order(it for it in needs if it.suffix == ".antt")
    return promises, {it: f"{lines_of(it)} | {needs[it]}" for it in definitions} | {it: needs[it] for it in sorted(it for it in needs if it.suffix == ".rt")}


def compare_counts():
    """Compares what the README and docs/CONTRACTS.md count."""
    means, _ = needed(file_of("Means"))
    computed = (len(means), sum(1 for _ in reading_order()))
    share = SHARE.search((ROOT / "README.md").read_text())
    if not share or computed != (int(share[1]), int(share[2])):
        raise Differs(f"the README has '{share and share[0]}', which is {computed[0]} of {computed[1]}")
    listed = LISTED.search((ROOT / "docs/CONTRACTS.md").read_text())
    if not listed or WORDS[listed[2].count("\n")] != listed[1]:
        raise Differs("docs/CONTRACTS.md counts its promises wrong")


def compare():
    """Compares the pages with what is computed; returns what it compared."""
    promises, files = computed()
    for row, counts in promises:
        if row["counts"] != counts:
            raise Differs(f"{row['name']} needs {counts} (files, lines, files of types), and docs/TRUST.md has {row['counts']}")
    rows = {ROOT / row["path"]: row["needs"] for row in ROW.finditer(PAGE.read_text())}
    for path, needs in files.items():
        where = path.relative_to(ROOT)
        if path not in rows:
            raise Differs(f"docs/TRUST.md lacks {where}, which {needs.split(' | ')[-1]} need")
        if rows[path] != needs:
            raise Differs(f"docs/TRUST.md has '{rows[path]}' of {where}, which is '{needs}'")
    for path in rows:
        if path not in files:
            raise Differs(f"docs/TRUST.md has {path.relative_to(ROOT)}, which no promise needs")
    compare_counts()
    return f"{len(promises)} promises and {len(files)} files"


def write():
    """Writes the counts of the page and what is said of its rows before their sentences."""
    promises, files = computed()
    counts = {row["letter"]: it for row, it in promises}
    text = PROMISE.sub(lambda row: row[0].replace(f" | {row['counts']} |", f" | {counts[row['letter']]} |"), PAGE.read_text())
    had = {ROOT / row["path"] for row in ROW.finditer(text)}
    text = ROW.sub(lambda row: row[0].replace(f" | {row['needs']} | ", f" | {files.get(ROOT / row['path'], 'no promise')} | ", 1), text)
    PAGE.write_text(text)
    for path, needs in files.items():
        if path not in had:
            print(f"| [{path.stem}](../{path.relative_to(ROOT)}) | {needs} | ... |")


def main(words):
    if words == ["--compare"]:
        try:
            print(f"trust: {compare()} as written")
        except Differs as why:
            sys.exit(f"trust: {why}")
    elif words == ["--write"]:
        write()
    elif len(words) == 1:
        definitions, types = needed(file_of(words[0]))
        for it in in_order(definitions):
            print(f"{lines_of(it):5} {it.relative_to(CRATES)}")
        for it in sorted(types):
            print(f" type {it.relative_to(CRATES)}")
        print(f"{len(definitions)} files with {sum(map(lines_of, definitions))} lines, and {len(types)} files of types")
    else:
        sys.exit(__doc__)


if __name__ == "__main__":
    main(sys.argv[1:])
