#!/usr/bin/env python3
"""Compares `mb run --until` with what stands in the whole traces of the examples.

    tests/until/until.py MB

For each example it asks for the words of each line, also with `_` for a word, with a word cut short, with a word more and with one less.
A run has to write the lines up to the end of the first tick with a line that has these words behind its tick and no others, and to answer
0; if none comes, all lines and 3. The runs end far behind the line, just behind it, and just before it. The last line counts the runs; the
exit status is 1 if one is not as it has to be.
"""

import subprocess
import sys
import tempfile
from concurrent.futures import ThreadPoolExecutor
from pathlib import Path

EXAMPLES = Path(__file__).resolve().parent.parent.parent / "examples"
# The sources in the order of the table, and the ticks of the trace.
MODULES = {
    "air_data": (["left", "right", "standby", "voter"], 1500),
    "fault_contained": (["flight", "fuel", "cabin"], 1800),
    "isolation": (["sensor", "monitor"], 2900),
    "modes": (["logbook", "neighbour"], 950),
    "telemetry": (["sensors", "radio"], 2400),
}
# Of so many lines, the words of one are asked for.
STRIDE = 10


def stands_for(asked, words):
    return len(asked) == len(words) and all(ask in ("_", word) for ask, word in zip(asked, words))


def expected(asked, lines, ticks):
    """The text and the status of a run of so many ticks."""
    run = [line for line in lines if int(line[:13]) < ticks]
    for line in run:
        if stands_for(asked, line.split(" ")[1:]):
            return "".join(f"{it}\n" for it in run if it[:13] <= line[:13]), 0
    return "".join(f"{it}\n" for it in run), 3


def askings(lines):
    """Words to ask for: those of lines, and words that nearly are."""
    found = []
    for number, line in enumerate(lines[::STRIDE]):
        words = line.split(" ")[1:]
        place = number % len(words)
        found += [words, [*words[:place], "_", *words[place + 1 :]], [*words, "_"], words[:-1]]
        if len(words[place]) > 1:
            found.append([*words[:place], words[place][:-1], *words[place + 1 :]])
    return [list(it) for it in dict.fromkeys(tuple(it) for it in found if it)]


def options(asked):
    """The words of the command line for them: a word that begins with `-` stands behind `=`."""
    if any(len(word) > 1 and word.startswith("-") for word in asked):
        return [f"--until={word}" for word in asked]
    return ["--until", *asked]


def ends(asked, lines, ticks):
    """For how many ticks a run is tried: all; and where a line comes, one that ends with its tick, and one that ends before it."""
    text, status = expected(asked, lines, ticks)
    if status == 3:
        return [ticks]
    last = int(text.splitlines()[-1][:13])
    return [ticks, last + 1, last]


def run(words):
    done = subprocess.run(words, stdin=subprocess.DEVNULL, capture_output=True, encoding="utf-8", timeout=60)
    return done.stdout, done.returncode, done.stderr


def tried(mb, name, image):
    """The runs of one example; returns how many there are, and what was wrong with each that is not as it has to be."""
    sources, ticks = MODULES[name]
    folder = EXAMPLES / name
    built = run([mb, "build", folder / "table.toml", image, *(folder / f"{it}.pal" for it in sources)])
    lines = (folder / "trace.txt").read_text().splitlines()
    cases = [(asked, end) for asked in askings(lines) for end in ends(asked, lines, ticks)]

    def differs(case):
        asked, end = case
        had = run([mb, "run", image, folder / "devices.txt", str(end), *options(asked)])
        return "" if had == (*expected(asked, lines, end), "") else f"{name}, {end} ticks, {' '.join(asked)}: {had}"

    with ThreadPoolExecutor(4) as pool:
        wrong = [it for it in pool.map(differs, cases) if it]
    return len(cases), wrong + ([] if built[1] == 0 else [f"{name}: {built}"])


def main(mb):
    mb = Path(mb).resolve()
    count, wrong = 0, []
    with tempfile.TemporaryDirectory() as room:
        for name in MODULES:
            cases, differing = tried(mb, name, Path(room) / name)
            count, wrong = count + cases, wrong + differing
    print("\n".join([*wrong[:5], f"{count} runs"]))
    return int(bool(wrong))


if __name__ == "__main__":
    sys.exit(main(sys.argv[1]) if sys.argv[1:] else __doc__)
