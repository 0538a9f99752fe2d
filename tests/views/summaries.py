"""Reads what `mbview summary` writes, and what the script of a page counts, in the same form."""

import csv
import io
import subprocess
from collections import Counter
from pathlib import Path

WORKED = "Processes: ticks in which they worked, and their share of all ticks"
WINDOWS = "Partitions: ticks of their windows, and those in which none of their processes worked"
UNUSED = "The module: ticks in no window, and those behind a shutdown"

# What a page in a browser is asked: the counts of its story.
COUNTS = f"(() => {{\n{(Path(__file__).resolve().parent / 'drawn.js').read_text()}\nreturn countsOf(window.page.story);\n}})()"
# The columns of states and modes, and those of messages with the kind of their lines.
COLUMNS = {"process": ("RUNNING", "READY", "WAITING", "DORMANT"), "partition": ("NORMAL", "COLD_START", "WARM_START", "IDLE")}
MESSAGES = {"moved": "MOVE", "arrived": "ARRIVE", "lost": "LOST", "out": "OUT"}
# An INIT that starts its own partition again is RUNNING and READY in one tick. `mbview` counts the tick for both, and the page draws it as RUNNING.
BOTH = "INIT READY"


class Refused(Exception):
    """The trace is not shown."""


def told(*words):
    """What a command writes."""
    done = subprocess.run(words, capture_output=True, encoding="utf-8", timeout=60)
    if done.returncode:
        raise Refused(done.stderr)
    return done.stdout


def sheet(out):
    """The rows of comma-separated values."""
    return list(csv.DictReader(io.StringIO(out), strict=True))


def rows_under(out, title):
    """The rows of a table of the output; none if it is not there."""
    for block in out.split("\n\n"):
        lines = block.splitlines()
        if lines[0] == title:
            return [it.split() for it in lines[2:]]
    return []


def summarized(program, trace, table, ticks=None):
    """What the summary says, in the words of the page."""
    words = [program, "summary", trace, *(["--ticks", str(ticks)] if ticks else [])]
    rows, out = sheet(told(*words, "--csv")), told(*words, "--table", table)
    states, lines = Counter(), Counter()
    for it in rows:
        partition, name = it["partition"], it["name"]
        for state in COLUMNS.get(it["kind"], ()):
            states[f"{partition} {name or 'mode'} {state}"] += int(it[state.lower()])
        for column, kind in MESSAGES.items():
            lines[partition, kind, name] += int(it[column] or 0)
        if it["kind"] == "process":
            lines[partition, "REPORT", name] += int(it["messages"])
        if it["kind"] == "error":
            lines[partition, "HM", name, it["level"], it["action"]] += int(it["errors"])
    worked = Counter({f"{partition} {name}": int(ticks) for partition, name, ticks, _ in rows_under(out, WORKED)})
    windows = {partition: int(ticks) for partition, ticks, _, _, _ in rows_under(out, WINDOWS)}
    idle = {partition: int(ticks) for partition, _, _, ticks, _ in rows_under(out, WINDOWS)}
    unowned, down = (int(rows_under(out, UNUSED)[0][it]) for it in (0, 2))
    return {"states": +states, "worked": +worked, "windows": windows, "idle": idle, "unowned": unowned, "down": down, "lines": +lines}


def counted(page):
    """What the script of a page counts, in the same words."""
    states, worked, windows, up = Counter(page["states"]), Counter(page["worked"]), page["windows"], page["up"]
    if states != Counter(page["stays"]) or windows != page["pieces"]:
        raise Refused("the page counts in two ways")
    at_work = Counter()
    for it, count in worked.items():
        at_work[it.split()[0]] += count
    lines = Counter()
    for it, count in page["marks"].items():
        partition, kind, *words = it.split()
        rest = [words[0], *words[2:]] if kind == "HM" else words[:1]
        lines[(partition, kind, *rest)] += count
    idle = {it: count - at_work[it] for it, count in windows.items()}
    unowned, down = up - sum(windows.values()), page["ticks"] - up
    return {"states": states, "worked": worked, "windows": windows, "idle": idle, "unowned": unowned, "down": down, "lines": lines}


def difference(wanted, had):
    """What is not the same in numbers, or in numbers by their names; nothing if all is."""
    if not isinstance(wanted, dict):
        return "" if wanted == had else f"wanted {wanted}, had {had}"
    wrong = [it for it in {*wanted, *had} if wanted.get(it, 0) != had.get(it, 0) and not str(it).endswith(BOTH)]
    return ", ".join(f"wanted {wanted.get(it, 0)} of {it}, had {had.get(it, 0)}" for it in sorted(wrong, key=str))
