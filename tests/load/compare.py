#!/usr/bin/env python3
"""Compares `mb load --csv` with the count of load.py, on tables that are named and on random ones, and whole texts of `mb load` with those in `wholes`.

    tests/load/compare.py MB [--random N] [--first SEED] [TABLE..]

Random tables have gaps, windows that follow directly on one another, periods that windows cross, and frames of up to 5,000 ticks. At the first
difference the table is shown, and the exit status is 1. The program wrote the texts in `wholes` when a proof held each byte of them.
"""

import argparse
import io
import random
import subprocess
import sys
import tempfile
import tomllib
from pathlib import Path

sys.dont_write_bytecode = True
import load  # noqa: E402

ROOT = Path(__file__).resolve().parent.parent.parent
WHOLES = Path(__file__).resolve().parent / "wholes"

TRIAL = "tests/views/trial/table.toml tests/views/trial/control.pal tests/views/trial/display.pal tests/views/trial/monitor.pal"
AIR = "examples/air_data/table.toml examples/air_data/left.pal examples/air_data/right.pal examples/air_data/standby.pal examples/air_data/voter.pal"

# The words after `mb load`, for each whole text.
LOADS = {
    "trial.txt": TRIAL,
    "trial.csv": f"--csv {TRIAL}",
    "trial.svg": f"--svg {TRIAL}",
    "air_data.txt": AIR,
    "air_data.csv": f"--csv {AIR}",
    "rate_groups.txt": "examples/rate_groups/table.toml examples/rate_groups/control.pal",
    "rate_groups.csv": "--csv examples/rate_groups/table.toml examples/rate_groups/control.pal",
    "narrow.svg": "--svg tests/load/narrow.toml",
}

ERRORS = "DEADLINE_MISSED APPLICATION_ERROR NUMERIC_ERROR ILLEGAL_REQUEST STACK_OVERFLOW MEMORY_VIOLATION HARDWARE_FAULT".split()


def windows_of(draw, frame, names):
    """Windows in the order of the frame, and of each partition one that is a release point at least."""
    found, at = [], 0
    while at < frame and len(found) < 64:
        at += draw.choice([0, 0, 1, draw.randrange(1, 1 + frame // 8)])
        length = draw.randrange(1, 2 + frame // 8)
        if at + length > frame:
            break
        found.append({"partition": draw.choice(names), "offset": at, "length": length, "release": draw.random() < 0.5})
        at += length
    for name in names:
        own = [window for window in found if window["partition"] == name]
        if own and not any(window["release"] for window in own):
            own[0]["release"] = True
    return found


def random_table(seed):
    """A module table as a dictionary, in which each partition wants as much as it is offered at least."""
    draw = random.Random(seed)
    period = draw.randrange(1, 60)
    frame = period * draw.randrange(1, 84)
    windows = windows_of(draw, frame, [f"p{number}" for number in range(draw.randrange(1, 6))])
    names = sorted({window["partition"] for window in windows})
    if not names:
        return random_table(seed + 1_000_000)
    periods = [it for it in range(1, frame + 1) if frame % it == 0]
    table = {"frame": frame, "fault": "IGNORE", "window": windows, "partition": [{"name": name, "period": draw.choice(periods), "duration": 0} for name in names]}
    of = load.owners(table)
    for partition in table["partition"]:
        length = partition["period"]
        partition["duration"] = min(of[start : start + length].count(partition["name"]) for start in range(0, frame, length))
    return table


def written(table):
    """The text of such a table."""
    health = ", ".join(f'{error} = "IGNORE"' for error in ERRORS)
    lines = [f"frame = {table['frame']}", f'fault = "{table["fault"]}"']
    for partition in table["partition"]:
        lines += ["[[partition]]", f'name = "{partition["name"]}"', f"period = {partition['period']}", f"duration = {partition['duration']}", f"hm = {{ {health} }}"]
    for window in table["window"]:
        release = str(window["release"]).lower()
        lines += ["[[window]]", f'partition = "{window["partition"]}"', f"offset = {window['offset']}", f"length = {window['length']}", f"release = {release}"]
    return "\n".join(lines) + "\n"


def differs(program, path):
    """What differs between the program and the count, or an empty text."""
    counted = io.StringIO()
    load.write(tomllib.loads(path.read_text()), counted)
    done = subprocess.run([program, "load", "--csv", path], stdin=subprocess.DEVNULL, capture_output=True, text=True)
    if (done.returncode, done.stderr, done.stdout) == (0, "", counted.getvalue()):
        return ""
    return f"wanted\n{counted.getvalue()}had status {done.returncode}\n{done.stdout}{done.stderr}"


def other_text(program, name):
    """What differs between a whole text and what the program writes, or an empty text."""
    words = [Path(program).resolve(), "load", *LOADS[name].split()]
    done = subprocess.run(words, cwd=ROOT, stdin=subprocess.DEVNULL, capture_output=True, text=True)
    if (done.returncode, done.stderr, done.stdout) == (0, "", (WHOLES / name).read_text()):
        return ""
    return f"status {done.returncode}\n{done.stdout}{done.stderr}"


def main():
    words = argparse.ArgumentParser(description=__doc__, formatter_class=argparse.RawDescriptionHelpFormatter)
    words.add_argument("program")
    words.add_argument("tables", nargs="*", type=Path)
    words.add_argument("--random", type=int, default=0)
    words.add_argument("--first", type=int, default=1)
    given = words.parse_args()
    with tempfile.TemporaryDirectory() as room:
        for seed in range(given.first, given.first + given.random):
            path = Path(room) / f"{seed}.toml"
            path.write_text(written(random_table(seed)))
            given.tables.append(path)
        for path in given.tables:
            why = differs(given.program, path)
            if why:
                sys.exit(f"{path}:\n{path.read_text()}{why}")
    for name in LOADS:
        why = other_text(given.program, name)
        if why:
            sys.exit(f"{WHOLES / name}: mb load {LOADS[name]} had {why}")
    print(f"{len(given.tables)} tables and {len(LOADS)} whole texts, no difference")


if __name__ == "__main__":
    main()
