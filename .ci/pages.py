#!/usr/bin/env python3
"""Whether the pages hold together: every relative link of every page leads to a file and, after a `#`, to a heading of it; all lists of
services, in pages and for editors, are the list in the code; and each name in code style on README.md and in docs is in the tree.

    .ci/pages.py        compares, and says what is wrong; `.ci/programs` does too
"""

import itertools
import json
import re
import subprocess
import sys
from functools import cache
from pathlib import Path

ROOT = Path(__file__).resolve().parent.parent
LIST = ROOT / "crates/apex_types/src/service.rt"
INDEX = ROOT / "docs/SERVICES.md"
VIM = ROOT / "editors/vim/syntax/pal.vim"
VSCODE = ROOT / "editors/vscode/syntaxes/pal.tmLanguage.json"
# Names that are not in the tree: of the toolchain, of a dump, whose code puts them together, of an output, and of wrong bodies that only tests hold.
NAMES = {"13b", "Crate", "DrainKeeps", "linux", "option_append", "set_word", "PORT_MOVE", "PORT_ARRIVE", "PORT_LOST", "CHANNEL_OUT", "PORT_MOVE_WORD"}
NAMES |= {"start_condition", "always_out_of_memory", "upgrade_always_out_of_memory"}
PATHS = {"./-", "arrayvec/uses"}
PLACES = re.compile(r"\b(?:NAME|FILE|FUNCTION|EDIT|PID|TICK|PREFIX)\b|(?:^|/)out/")
LINK = re.compile(r"\[(?:[^\[\]]|\[[^\[\]]*\](?:\([^()]*\))?)*\]\(([^()\s]+)\)")


class Differs(Exception):
    """A page does not say what it has to."""


def pages():
    """The pages of the repository: what git tracks, or would."""
    words = ["git", "ls-files", "--cached", "--others", "--exclude-standard", "--", "*.md"]
    told = subprocess.run(words, cwd=ROOT, stdout=subprocess.PIPE, check=True, encoding="utf-8").stdout
    return sorted({it for it in (ROOT / line for line in told.splitlines()) if it.is_file()})


@cache
def prose(page):
    """The lines of a page, those of blocks of code empty."""
    lines, is_code = [], False
    for line in page.read_text().splitlines():
        if line.lstrip().startswith("```"):
            is_code = not is_code
            line = ""
        lines.append("" if is_code else line)
    return lines


@cache
def anchors(page):
    """The anchors of the headings of a page, as the hosts of repositories make them."""
    found = []
    for line in prose(page):
        heading = re.match(r"#{1,6} +(.*?) *#*$", line)
        if heading:
            text = re.sub(r"\[([^\]]*)\]\([^)]*\)", r"\1", heading[1])
            name = re.sub(r"[^\w\- ]", "", text.lower()).replace(" ", "-")
            same = sum(1 for it in found if it == name or re.fullmatch(re.escape(name) + r"-\d+", it))
            found.append(f"{name}-{same}" if name in found else name)
    return found


def links(page):
    """The relative links of a page, each with its line. Text in code style has none."""
    for number, line in enumerate(prose(page), 1):
        for target in LINK.findall(re.sub(r"`[^`]*`", "code", line)):
            if not re.match(r"[a-z]+:", target):
                yield number, target


def leads_to(page, target):
    """What is wrong with a link, or nothing."""
    path, _, anchor = target.partition("#")
    file = (page.parent / path).resolve() if path else page
    if not file.exists() or not file.is_relative_to(ROOT):
        return "no file"
    if anchor and (file.suffix != ".md" or anchor not in anchors(file)):
        return "no heading"
    return None


def expect_links():
    """Expects that every relative link leads somewhere; returns what it compared."""
    found = [(page, number, target, leads_to(page, target)) for page in pages() for number, target in links(page)]
    wrong = [f"{page.relative_to(ROOT)}, line {number}: {target} leads to {end}" for page, number, target, end in found if end]
    if wrong:
        raise Differs("; ".join(wrong))
    return "those of all pages"


def services():
    """The names of the services in the order of their numbers, as programs write them."""
    found = re.search(r"pub static SERVICES: .*?= &?\[(.*?)\];", LIST.read_text(), re.S)
    return [re.sub(r"(?<!^)(?=[A-Z])", "_", it).upper() for it in re.findall(r"Service::(\w+)", found[1])]


def for_vim():
    """The names of services in the colours for Vim."""
    return re.search(r'^syntax match palService "\\%\((.*?)\\\)', VIM.read_text(), re.M | re.S)[1]


def for_vscode():
    """The names of services in the colours for VS Code."""
    patterns = json.loads(VSCODE.read_text())["patterns"]
    return next(it["match"] for it in patterns if it.get("name") == "support.function.service.pal").partition(")")[0]


def expect_same(where, wanted, had):
    """Expects the same of two lists of services, and names the first that differs."""
    for one, other in itertools.zip_longest(wanted, had):
        if one != other:
            raise Differs(f"{where} has {other}, and not {one}")


def expect_services():
    """Expects that the pages and the editors have the services of the code, and that one page alone says how many there are."""
    names = services()
    rows = [(name, int(number)) for number, name, *_ in re.findall(r"^\| (\d+) \| \[(\w+)\]\(([\w/.#-]+)\) \|", INDEX.read_text(), re.M)]
    numbered = [(name, number) for number, name in enumerate(names, 1)]
    expect_same("docs/SERVICES.md", numbered, rows)
    text = "\n".join("\n".join(prose(page)) for page in sorted((ROOT / "docs/services").glob("*.md")))
    sections = re.findall(r"^#+ ([A-Z_]+), (\d+)\n\n`([^`]*)` (\d+) ticks\.", text, re.M)
    sections = sorted((int(number), name, call, ticks) for name, number, call, ticks in sections)
    expect_same("docs/services", numbered, [(name, number) for number, name, _, _ in sections])
    calls = re.findall(r"^\| \d+ \| `([^`]*)` \| (\d+) \|$", (ROOT / "docs/PAL.md").read_text(), re.M)
    expect_same("docs/PAL.md", [it[2:] for it in sections], calls)
    for file, words in ((VIM, for_vim()), (VSCODE, for_vscode())):
        expect_same(str(file.relative_to(ROOT)), names, re.findall(r"[A-Z_]+", words))
    count = re.search(r"\b(\d+) services\b", INDEX.read_text())
    if not count or int(count[1]) != len(names):
        raise Differs(f"docs/SERVICES.md does not say that there are {len(names)} services")
    said = re.compile(rf"\b{len(names)} (?:\w+ )?(?:services|names)\b|\b1 to {len(names)}\b|\bthe {len(names)}\b|\bof {len(names)} (?:rows|arms)\b")
    for page in [*pages(), VIM, VSCODE]:
        for number, line in enumerate(prose(page), 1):
            if page != INDEX and said.search(line):
                raise Differs(f"{page.relative_to(ROOT)}, line {number}, says how many services there are; docs/SERVICES.md alone does")
    return "the lists of the pages and of the editors"


def files():
    """The files of the repository, without its pages: what git tracks, or would."""
    words = ["git", "ls-files", "--cached", "--others", "--exclude-standard"]
    listed = subprocess.run(words, cwd=ROOT, stdout=subprocess.PIPE, check=True, encoding="utf-8").stdout
    return [it for it in map(Path, listed.splitlines()) if it.suffix != ".md" and (ROOT / it).is_file()]


def words_of(paths):
    """The words in the names and the texts of files; of rows only in their names, since their traces have words of any module."""
    found = set()
    for path in paths:
        found.update(re.findall(r"\w+", str(path)))
        if path.parts[:2] != ("tests", "rows"):
            found.update(re.findall(r"\w+", (ROOT / path).read_bytes().decode(errors="replace")))
    return found


def is_path(page, name):
    """Whether a name with `/` is a file or a folder, from the top, from its page or from a crate, or a wrong edit of a crate."""
    crates = [it for it in (ROOT / "crates").iterdir() if it.is_dir()]
    folders = [ROOT, ROOT / "crates", page.parent, *crates, *(it / part for it in crates for part in ("src", "specs", "proofs"))]
    if any(next(folder.glob(name.rstrip("/") + end), None) for folder in folders for end in ("", ".antt", ".rt")):
        return True
    crate, _, edit = name.partition("/")
    edits = ROOT / "crates" / crate / "edits"
    return (edits.parent / f"must-fail/{edit}.edit").is_file() or (edits.is_file() and f"edit: {edit}\n" in edits.read_text())


@cache
def in_blocks(page):
    """The words in the blocks of code of a page, and after four blanks."""
    lines = zip(page.read_text().splitlines(), prose(page))
    return {word for line, said in lines if not said or said.startswith("    ") for word in re.findall(r"\w+", line)}


def names(page):
    """The names in code style of a page, each with its line: a word, a path, or a function with its arguments."""
    for number, line in enumerate(prose(page), 1):
        for text in re.findall(r"`([^`]+)`", line):
            if re.fullmatch(r"[\w.*/:#-]+(\(.*\))?", text):
                yield number, text.partition("(")[0]


def is_name(page, name, words):
    """Whether a name is in the tree, or in a block of its page. Of a path `crate::name` the crate has to have the name."""
    if name in PATHS or name.startswith("/") or PLACES.search(name):
        return True
    if "/" in name:
        return is_path(page, name)
    parts = [it for it in re.findall(r"\w+", name) if not it.isdigit()]
    crate = parts[0] if parts and "::" in name else ""
    known = words[crate] if crate and crate in words else words[""] | in_blocks(page)
    return all(it in known or (it.endswith("_") and f"{it}meaning" in known) for it in parts)


def expect_names():
    """Expects that each name in code style of README.md and of docs is in the tree; returns what it compared."""
    found = files()
    words = {"": words_of(found) | NAMES}
    for crate in {it.parts[1] for it in found if it.parts[0] == "crates" and len(it.parts) > 2}:
        words[crate] = words_of(it for it in found if it.parts[:2] == ("crates", crate))
    read = [it for it in pages() if it == ROOT / "README.md" or it.is_relative_to(ROOT / "docs")]
    named = [(page, number, name) for page in read for number, name in names(page)]
    wrong = [f"{page.relative_to(ROOT)}, line {number}: {name}" for page, number, name in named if not is_name(page, name, words)]
    if wrong:
        raise Differs("not in the tree: " + "; ".join(wrong))
    return "those of README and docs"


def main():
    status = 0
    for name, compare in (("links", expect_links), ("services", expect_services), ("names", expect_names)):
        try:
            print(f"{name}: {compare()} as written")
        except Differs as why:
            print(f"{name}: {why}")
            status = 1
    return status


if __name__ == "__main__":
    sys.exit(main())
