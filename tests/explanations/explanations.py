#!/usr/bin/env python3
"""Tries what `--explain` says of mistakes, word for word.

    explanations.py MB

MB is the program `mb`. `rows` has the mistakes in tables, with a line `====` between two of them: what it is, behind `#`; the lines of a file that
are written in place of those with these numbers; and all that standard error says of it. The first line changed names the file, which
stands beside this one.

`text_rows` has those in texts and images for the module of `table.toml`: what it is; `devices` or `inputs` and the lines of the text, or how
the image is changed; behind a line `--`, all that standard error says. `\\r` at the end of a line is a carriage return, and `\\` leaves its line feed
out, `\\0` is a NUL and BOM a byte order mark. LENGTH is how many bytes the image has, and LONGER one more. The replay is that of `display`.

`source_rows` has those in the source of `flight`: what it is; the lines of the source, in which `\\xHH` is the byte of that number, and a line that
begins with `N times:` stands for N lines with what follows; behind a line `--`, all that standard error says.

`module_rows` has those in the module of the folder `module`, four sources with their table: what it is; for each change a line with the name of
the file, a line of it and how many lines are replaced from there, then the new lines, each behind `+`; or the name and `crlf` or `bom`, for carriage
returns at all ends of lines and a byte order mark; behind a line `--`, all that standard error says. A first line behind `$` has the words of the
command, where they are others than `check` with the table and the sources in their order.

Each mistake is tried with `--explain`, and with `--explain=json`, where what is wanted is read off the lines for people. The sentence of a rule comes
before what is wrong by it; the pages have its number.

The last line printed is how many mistakes were tried, and the exit status is 1 if anything was not as written.
"""

import json
import re
import subprocess
import sys
import tempfile
from pathlib import Path

HERE = Path(__file__).resolve().parent
PAGES = HERE.parent.parent / "docs"
PARTITIONS = {"a.pal": "flight", "source.pal": "display"}
PARTITIONS |= {f"{it}.pal": it for it in ("flight", "autopilot", "display", "maint")}
MODULE = ["table.toml", "flight.pal", "autopilot.pal", "display.pal", "maint.pal"]
SOURCE = "init stack 16 { local r; SET_PARTITION_MODE(3) -> r; }\n"
CHANGE = re.compile(r"(\w+\.toml):(\d+)(?: (.*))?$")
FLAGS = ["--explain", "--explain=json"]
AT_PLACE = re.compile(r"(?P<file>[\w.]+):(?P<line>\d+):(?P<column>\d+): (?P<message>.*)$")
AT_BYTE = re.compile(r"(?P<file>[\w.]+): byte (?P<byte>\d+): (?P<message>.*)$")
OF_FILE = re.compile(r"(?P<file>[\w.]+): (?P<message>.*)$")


def sentences():
    """The sentences of the rules for tables and sources, as the pages have them: what a refusal by it is called, and its number."""
    found = {}
    for kind, page in (("table", "TABLE.md"), ("pal", "PAL.md")):
        for number, sentence in re.findall(r"(?m)^\| (\d+) \| (?:`\w+` \| )?(.*\.) \|$", (PAGES / page).read_text()):
            found[sentence] = (kind, number)
    return found


SENTENCES = sentences()


def rule_of(sentence, line):
    """What a refusal by the rule of this sentence would say, if its first finding is in this line."""
    kind, number = SENTENCES[sentence]
    place = AT_PLACE.match(line)
    return f"table {number}" if kind == "table" else f"pal {PARTITIONS[place['file']]} {number} line {place['line']}"


def objects_of(said):
    """What is said as JSON objects, by what is said for people: the line of the refusal, and an object for each finding."""
    refusal, _, *lines = said.splitlines()
    told = refusal + "\n"
    rule = refusal.removeprefix("mb: ")
    while lines:
        if lines[0] in SENTENCES:
            rule, lines = rule_of(*lines[:2]), lines[1:]
        if found := AT_PLACE.match(lines[0]):
            advice, lines = lines[3], lines[4:]
        else:
            found = AT_BYTE.match(lines[0]) or OF_FILE.match(lines[0])
            advice, lines = lines[1], lines[2:]
        finding = {key: int(it) if key in ("line", "column", "byte") else it for key, it in found.groupdict().items()}
        finding |= {"rule": rule, "advice": advice}
        told += json.dumps(finding, sort_keys=True, separators=(",", ":"), ensure_ascii=False) + "\n"
    return told


def read_rows():
    """The mistakes: what each is, the name of its file, the lines that are changed in it by their numbers, and what is said of it."""
    for block in (HERE / "rows").read_text().split("\n====\n"):
        title, *lines = block.rstrip("\n").split("\n")
        changes = {}
        while found := CHANGE.match(lines[0]):
            name, number, text = found.groups()
            if lines[0].startswith(f"{name}:{number}:"):
                break
            changes[int(number)] = text or ""
            lines.pop(0)
        yield title.removeprefix("# "), name, changes, "".join(line + "\n" for line in lines)


def explain(program, flag, name, changes, folder):
    """What the program says of a file with these changes."""
    lines = (HERE / name).read_text().split("\n")
    for number, text in changes.items():
        lines[number - 1] = text
    (folder / name).write_text("\n".join(lines))
    (folder / "source.pal").write_text(SOURCE)
    words = [program, "check", flag, name, "source.pal"]
    done = subprocess.run(words, cwd=folder, stdin=subprocess.DEVNULL, capture_output=True, text=True, timeout=60)
    return done.returncode, done.stdout, done.stderr


def read_text_rows():
    """The mistakes in texts and images: what each is, the text or the change of the image, and what is said of it."""
    for block in (HERE / "text_rows").read_text().split("\n====\n"):
        title, rest = block.rstrip("\n").split("\n", 1)
        given, said = rest.split("\n--\n")
        kind, *lines = given.split("\n")
        text = "".join(line + "\n" for line in lines).replace("\\r\n", "\r\n").replace("\\\n", "").replace("\\0", "\0").replace("BOM", "\ufeff")
        yield title.removeprefix("# "), kind.split(), text, said + "\n"


def read_source_rows():
    """The mistakes in sources: what each is, the source, and what is said of it."""
    for block in (HERE / "source_rows").read_text().split("\n====\n"):
        title, rest = block.rstrip("\n").split("\n", 1)
        source, said = rest.split("\n--\n")
        source = re.sub(rb"\\x([0-9a-f]{2})", lambda it: bytes([int(it[1], 16)]), source.encode() + b"\n")
        source = re.sub(rb"(?m)^(\d+) times:(.*\n)", lambda it: int(it[1]) * it[2], source)
        yield title.removeprefix("# "), source, said + "\n"


def explain_source(program, flag, source, folder):
    """What the program says of a source."""
    (folder / "table.toml").write_text((HERE / "table.toml").read_text())
    (folder / "a.pal").write_bytes(source)
    (folder / "source.pal").write_text(SOURCE)
    words = [program, "check", flag, "table.toml", "a.pal", "source.pal"]
    done = subprocess.run(words, cwd=folder, stdin=subprocess.DEVNULL, capture_output=True, text=True, timeout=60)
    return done.returncode, done.stdout, done.stderr


def read_module_rows():
    """The mistakes in a module of four sources: what each is, its changes, and what is said of it."""
    for block in (HERE / "module_rows").read_text().split("\n====\n"):
        title, rest = block.rstrip("\n").split("\n", 1)
        changes, said = rest.split("\n--\n")
        yield title.removeprefix("# "), changes.split("\n"), said + "\n"


def changed_module(changes):
    """The files of the module with these changes."""
    files = {it: (HERE / "module" / it).read_bytes().split(b"\n") for it in MODULE}
    name, first, last, added = None, 0, 0, []

    def replace():
        if name:
            files[name][first:last] = added

    for line in changes:
        if line.startswith("+"):
            added.append(re.sub(rb"\\x([0-9a-f]{2})", lambda it: bytes([int(it[1], 16)]), line[1:].encode()))
            continue
        replace()
        name, *how = line.split()
        if how == ["crlf"]:
            files[name], name = [it + b"\r" for it in files[name][:-1]] + files[name][-1:], None
        elif how == ["bom"]:
            files[name][0], name = b"\xef\xbb\xbf" + files[name][0], None
        else:
            first, last, added = int(how[0]) - 1, int(how[0]) - 1 + int(how[1]), []
    replace()
    return {it: b"\n".join(lines) for it, lines in files.items()}


def explain_module(program, flag, changes, folder):
    """What the program says of the module with these changes."""
    words = ["check", *MODULE]
    if changes[0].startswith("$ "):
        words, changes = changes[0].split()[1:], changes[1:]
    for name, text in changed_module(changes).items():
        (folder / name).write_bytes(text)
    done = subprocess.run([program, words[0], flag, *words[1:]], cwd=folder, stdin=subprocess.DEVNULL, capture_output=True, text=True, timeout=60)
    return done.returncode, done.stdout, done.stderr


def build(program, folder):
    """The bytes of the image of the module."""
    (folder / "table.toml").write_text((HERE / "table.toml").read_text())
    (folder / "source.pal").write_text(SOURCE)
    subprocess.run([program, "build", "table.toml", "image", "source.pal", "source.pal"], cwd=folder, check=True, capture_output=True, timeout=60)
    return (folder / "image").read_bytes()


def changed(image, how, *numbers):
    """An image that is cut, longer, or has another byte."""
    place, *byte = map(int, numbers)
    if how == "cut":
        return image[:place]
    if how == "add":
        return image + bytes(place)
    return image[:place] + bytes(byte) + image[place + 1 :]


def explain_text(program, flag, image, kind, text, folder):
    """What the program says of a text or of an image."""
    name, *change = kind
    (folder / "image").write_bytes(changed(image, *change) if change else image)
    (folder / name if not change else folder / "devices").write_bytes(text.encode())
    words = {"devices": ["run", "image", "devices", "20"], "inputs": ["replay", "image", "display", "inputs", "20"], "image": ["dis", "image"]}[name]
    words = [program, words[0], flag, *words[1:]]
    done = subprocess.run(words, cwd=folder, stdin=subprocess.DEVNULL, capture_output=True, text=True, timeout=60)
    return done.returncode, done.stdout, done.stderr


def main(program):
    program = Path(program).resolve()
    tried, wrong = 0, 0

    def compare(title, wanted, explained):
        nonlocal tried, wrong
        tried += 1
        for flag, said in zip(FLAGS, [wanted, objects_of(wanted)]):
            found = explained(flag)
            if found != (1, "", said):
                wrong += 1
                print(f"{title}, {flag}: wanted\n{said}had status {found[0]} and\n{found[1]}{found[2]}")

    with tempfile.TemporaryDirectory() as folder:
        folder = Path(folder)
        for title, name, changes, wanted in read_rows():
            compare(title, wanted, lambda flag: explain(program, flag, name, changes, folder))
        for title, source, wanted in read_source_rows():
            compare(title, wanted, lambda flag: explain_source(program, flag, source, folder))
        for title, changes, wanted in read_module_rows():
            compare(title, wanted, lambda flag: explain_module(program, flag, changes, folder))
        image = build(program, folder)
        for title, kind, text, wanted in read_text_rows():
            wanted = wanted.replace("LENGTH", str(len(image))).replace("LONGER", str(len(image) + 1))
            compare(title, wanted, lambda flag: explain_text(program, flag, image, kind, text, folder))
    print(f"{tried} mistakes")
    return 1 if wrong else 0


if __name__ == "__main__":
    sys.exit(main(*sys.argv[1:]) if len(sys.argv) == 2 else __doc__)
