#!/usr/bin/env python3
"""The load of a schedule, counted from the module table alone, tick by tick.

    tests/load/load.py TABLE       prints the load of the table as `mb load --csv TABLE` does

It knows nothing of the program: it reads the table as TOML, writes down whose each tick of the frame is, and counts.
"""

import csv
import sys
import tomllib
from pathlib import Path

HEADINGS = """kind partition name frame owned owned_percent unowned unowned_percent windows ticks percent period wanted
least_offered most_offered from until length release cost body_period capacity capacity_percent""".split()


def percent(part, whole):
    """A share in percent with one decimal, the nearest; of two that are as near the greater one."""
    tenths = (2000 * part + whole) // (2 * whole)
    return f"{tenths // 10}.{tenths % 10}"


def owners(table):
    """The name of the partition that owns each tick of the frame, or None."""
    of = [None] * table["frame"]
    for window in table["window"]:
        for tick in range(window["offset"], window["offset"] + window["length"]):
            assert of[tick] is None
            of[tick] = window["partition"]
    return of


def gaps(of):
    """The first tick of each run of ticks that nobody owns, and the first one behind it."""
    found, first = [], None
    for tick, owner in enumerate([*of, "the end"]):
        if owner is None and first is None:
            first = tick
        if owner is not None and first is not None:
            found.append((first, tick))
            first = None
    return found


def rows(table):
    """The rows of the load, as dictionaries by their columns."""
    of, frame = owners(table), table["frame"]
    unowned = of.count(None)
    owned = sum(owner is not None for owner in of)
    yield {"kind": "frame", "frame": frame, "owned": owned, "owned_percent": percent(owned, frame), "unowned": unowned, "unowned_percent": percent(unowned, frame)}
    for partition in table["partition"]:
        name, period = partition["name"], partition["period"]
        offered = [of[start : start + period].count(name) for start in range(0, frame, period)]
        ticks = of.count(name)
        yield {
            "kind": "partition",
            "partition": name,
            "windows": sum(window["partition"] == name for window in table["window"]),
            "ticks": ticks,
            "percent": percent(ticks, frame),
            "period": period,
            "wanted": partition["duration"],
            "least_offered": min(offered),
            "most_offered": max(offered),
        }
    for window in table["window"]:
        offset, length = window["offset"], window["length"]
        release = "yes" if window["release"] else "no"
        yield {"kind": "window", "partition": window["partition"], "from": offset, "until": offset + length, "length": length, "release": release}
    for first, behind in gaps(of):
        yield {"kind": "gap", "from": first, "until": behind, "length": behind - first}


def write(table, out):
    sheet = csv.DictWriter(out, HEADINGS, lineterminator="\n")
    sheet.writeheader()
    sheet.writerows(rows(table))


if __name__ == "__main__":
    if len(sys.argv) != 2:
        sys.exit(__doc__)
    write(tomllib.loads(Path(sys.argv[1]).read_text()), sys.stdout)
