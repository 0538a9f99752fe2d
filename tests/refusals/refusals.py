#!/usr/bin/env python3
"""Tries what the programs answer where they have to give up, and that they do not give up where they need not (docs/RELIABILITY.md).

    refusals.py MB LIBRARY_TESTS [--jobs N] [--whole] [PART ..]

MB is the program `mb`, LIBRARY_TESTS the program `library_tests`. The parts, all of them where none is named:

    memory   each request for memory of the library's calls and of the commands is refused once; the commands with ever less address space
    sinks    a sink that fails behind each byte of a trace; a full device and a closed pipe
    images   damaged images, judged against a second reading of docs/IMAGE.md; with --whole each byte of two of them with every value
    limits   an input at half of each limit and one at it, through all commands; a module that is at all of its limits at once

Each part prints its counts, what was not as it has to be, and a last line with what was tried. The exit status is 1 if anything was not
as it has to be. Where there is no `cc`, refused memory is not tried; a line says so, and under `CI` this is a failure.
"""

import argparse
import os
import sys
import tempfile
from concurrent.futures import ProcessPoolExecutor
from pathlib import Path

sys.dont_write_bytecode = True
import at_limits  # noqa: E402
import calls  # noqa: E402
import largest  # noqa: E402
import sinks  # noqa: E402
import sweep  # noqa: E402
import trial  # noqa: E402

# The ticks of a run of the largest module, and of the replays of its partitions.
RUN, REPLAYED = 10**6, 10**5


def gathered(pool, tasks):
    """Does the tasks, each a function with what it is given, side by side; returns what they told together."""
    told = trial.Told()
    for it in [pool.submit(*task) for task in tasks]:
        told.add(it.result())
    return told


def counted(told):
    return ", ".join(f"{number:,} {what}" for what, number in told.counts.items())


def try_memory(pool, words):
    """Refuses memory."""
    if trial.compiler() is None:
        is_allowed = "CI" not in os.environ
        print(f"memory: refused memory is not tried, since there is no cc{'' if is_allowed else ', as it has to be under CI'}")
        return is_allowed
    with tempfile.TemporaryDirectory() as room:
        library = trial.build_library(room)
        on_rows = [(row, call) for row in calls.CALLED for call in calls.REFUSED]
        on_modules = [(number, name) for number, module in enumerate(calls.MODULES) for name in module.commands()]
        told = [
            gathered(pool, [(calls.count_calls, library, words.library_tests, row) for row in calls.CALLED]),
            gathered(pool, [(calls.refuse_call, library, words.library_tests, *it) for it in on_rows]),
            gathered(pool, [(calls.refuse_command, library, words.mb, *it) for it in on_modules]),
            gathered(pool, [(calls.limit_command, library, words.mb, *it) for it in on_modules]),
        ]
    for name, it in zip(("ticks", "calls", "commands", "address space"), told):
        print(f"memory, {name}: {counted(it)}")
    return finish("memory", told, f"{len(on_rows)} calls and {len(on_modules)} commands")


def try_sinks(pool, words):
    """Sinks that fail."""
    told = gathered(pool, [(sinks.fail_sinks, words.library_tests), (sinks.break_outputs, words.mb)])
    return finish("sinks", [told], counted(told))


def try_images(_, words):
    """Damaged images."""
    names = sweep.WHOLE if words.whole else sweep.NAMES
    told = sweep.sweep(words.mb, words.library_tests, names, words.whole)
    damaged = told.counts.pop("damaged images")
    print(f"images, answers: {', '.join(f'{told.counts[it]:,} {it}' for it in sorted(told.counts))}")
    return finish("images", [told], f"{len(names)} images, {damaged:,} damaged images")


def try_limits(pool, words):
    """Inputs at the limits."""
    tasks = [(at_limits.try_input, words.mb, number) for number in range(len(at_limits.INPUTS))]
    told = gathered(pool, [(at_limits.name_limits,), *tasks, (largest.try_largest, words.mb, RUN, REPLAYED)])
    return finish("limits", [told], counted(told))


def finish(part, told, tried):
    """Prints what was wrong, and what was tried; returns whether nothing was wrong."""
    wrong = [it for each in told for it in each.wrong]
    for it in wrong:
        print(f"{part}: {it}")
    print(f"{part}: {tried}, {len(wrong) or 'nothing'} wrong")
    return not wrong


def try_part(pool, words, part):
    """Tries a part; returns whether nothing was wrong."""
    try:
        return PARTS[part](pool, words)
    except trial.Wrong as why:
        print(f"{part}: {why}")
        return False


PARTS = {"memory": try_memory, "sinks": try_sinks, "images": try_images, "limits": try_limits}


def main():
    parser = argparse.ArgumentParser(usage=__doc__.split("\n\n")[1].strip())
    parser.add_argument("mb", type=Path)
    parser.add_argument("library_tests", type=Path)
    parser.add_argument("--jobs", type=int, default=os.cpu_count())
    parser.add_argument("--whole", action="store_true")
    parser.add_argument("parts", nargs="*", metavar="PART")
    words = parser.parse_intermixed_args()
    words.mb, words.library_tests = words.mb.resolve(), words.library_tests.resolve()
    if not set(words.parts) <= set(PARTS):
        parser.error(f"the parts are {', '.join(PARTS)}")
    with ProcessPoolExecutor(words.jobs) as pool:
        return int(not all([try_part(pool, words, part) for part in words.parts or PARTS]))


if __name__ == "__main__":
    sys.exit(main())
