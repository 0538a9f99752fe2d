#!/usr/bin/env python3
"""Measures what a modelled tick costs the program `mb`.

    measure.py MB [INPUT..] [--baseline PROGRAM] [--rows] [--replay] [--growth] [--json FILE]

MB is the program. For each input it prints the machine instructions a tick, which valgrind counts (they are the same on every run, but
paths of other lengths change them by up to 0.2 %), and the ticks a second of the best of five runs. Both are of ticks only: a run of twice
as many ticks is measured too, and the difference is taken. With `--baseline`, another program that takes `run IMAGE DEVICES TICKS` is
measured too, and the ratio is printed: how many of its instructions come on one of `mb`. Without names it measures all inputs but `hostile`.

`--rows` prints the rows of the table on docs/PERFORMANCE.md instead, and takes no time of runs. `--replay` prints for each partition of each
input what share of the instructions of `mb run` its `mb replay` takes. `--growth` measures modules of growing size. `--json` writes all
numbers to a file, from which `plot.py` draws.
"""

import argparse
import json
import re
import subprocess
import sys
import tempfile
import time
from pathlib import Path

sys.dont_write_bytecode = True
import modules  # noqa: E402

HOSTILE = Path(__file__).resolve().parent.parent / "tests" / "hostile" / "hostile.py"
RUNS = 5


def built(mb, module, folder):
    """The image and the device text of a module, in a folder."""
    folder.mkdir(parents=True)
    (folder / "table.toml").write_text(module.table())
    (folder / "devices").write_text(module.devices)
    sources = []
    for it in module.partitions:
        sources.append(folder / f"{it.name}.pal")
        sources[-1].write_text(it.source)
    image = folder / "image"
    subprocess.run([mb, "build", folder / "table.toml", image, *sources], check=True, stdout=subprocess.DEVNULL)
    if module.wild:
        partition, text = module.wild
        (folder / "wild").write_text(text)
        subprocess.run([sys.executable, HOSTILE, image, partition, "0", folder / "wild", image], check=True, stdout=subprocess.DEVNULL)
    return image, folder / "devices"


def instructions(program, *words):
    """How many machine instructions a call of a program takes."""
    words = ["valgrind", "--tool=callgrind", "--callgrind-out-file=/dev/null", program, *map(str, words)]
    done = subprocess.run(words, stdout=subprocess.DEVNULL, stderr=subprocess.PIPE, text=True)
    found = re.search(r"Collected : (\d+)", done.stderr)
    if done.returncode or not found:
        sys.exit(done.stderr)
    return int(found[1])


def seconds(program, *words):
    """The time of the fastest of some calls."""
    best = None
    for _ in range(RUNS):
        start = time.perf_counter()
        subprocess.run([program, *map(str, words)], check=True, stdout=subprocess.DEVNULL)
        took = time.perf_counter() - start
        best = took if best is None else min(best, took)
    return best


def per_tick(program, image, devices, ticks):
    """The instructions of a tick."""
    first = instructions(program, "run", image, devices, ticks)
    return (instructions(program, "run", image, devices, 2 * ticks) - first) / ticks


def ticks_a_second(program, image, devices, ticks):
    """How many ticks pass in a second, or nothing where they take no time that can be measured."""
    took = seconds(program, "run", image, devices, 2 * ticks) - seconds(program, "run", image, devices, ticks)
    return ticks / took if took > 0.001 else None


def measure_inputs(mb, names, baseline, rows, folder):
    """A line for each input, or its row of the table."""
    numbers = {}
    for name in names:
        module = modules.INPUTS[name]()
        image, devices = built(mb, module, folder / name)
        counts = [per_tick(it, image, devices, module.ticks) for it in (mb, baseline) if it]
        numbers[name] = dict(zip(("instructions", "baseline"), counts))
        if rows:
            line = " | ".join([f"| `{name}`", modules.INPUTS[name].__doc__.rstrip("."), *(f"{it:,.2f}" for it in counts)]) + " |"
        else:
            speed = ticks_a_second(mb, image, devices, 10 * module.ticks)
            line = f"{name:10} {counts[0]:9.2f} instructions a tick, {'over 10^9' if speed is None else f'{speed:.3g}'} ticks a second"
            line += "".join(f", baseline {it:.2f}" + (f", ratio {it / counts[0]:.3f}" if counts[0] >= 0.005 else "") for it in counts[1:])
            numbers[name]["ticks_a_second"] = speed
        print(line, flush=True)
    return numbers


def measure_replays(mb, names, folder):
    """For each partition the share of the module's instructions that its replay takes."""
    numbers = {}
    for name in names:
        module = modules.INPUTS[name]()
        image, devices = built(mb, module, folder / f"replay_{name}")
        ticks = min(module.ticks, 20_000)
        whole = instructions(mb, "run", image, devices, ticks)
        for it in module.partitions:
            text = subprocess.run([mb, "inputs", image, it.name, devices, str(ticks)], check=True, capture_output=True).stdout
            inputs = image.parent / "inputs"
            inputs.write_bytes(text)
            share = instructions(mb, "replay", image, it.name, inputs, ticks) / whole
            numbers[f"{name} {it.name}"] = share
            print(f"replay of {it.name} of {name}: {share:.2f} of the instructions of the run", flush=True)
    return numbers


def measure_growth(mb, folder):
    """How a tick grows with the size of a module."""
    numbers = {}
    for title, (make, sizes) in modules.GROWTH.items():
        numbers[title] = []
        for size in sizes:
            module = make(size)
            image, devices = built(mb, module, folder / f"{make.__name__}_{size}")
            count = per_tick(mb, image, devices, 20_000)
            numbers[title].append([size, count])
            print(f"{title} {size}: {count:.2f} instructions a tick", flush=True)
    return numbers


def main():
    parser = argparse.ArgumentParser(description=__doc__, formatter_class=argparse.RawDescriptionHelpFormatter)
    parser.add_argument("mb", type=lambda path: Path(path).resolve())
    parser.add_argument("inputs", nargs="*", metavar="INPUT", help=", ".join(modules.INPUTS))
    parser.add_argument("--baseline", type=lambda path: Path(path).resolve())
    parser.add_argument("--rows", action="store_true")
    parser.add_argument("--replay", action="store_true")
    parser.add_argument("--growth", action="store_true")
    parser.add_argument("--json", type=Path)
    args = parser.parse_args()
    names = args.inputs or [name for name in modules.INPUTS if name != "hostile"]
    unknown = [name for name in names if name not in modules.INPUTS]
    if unknown:
        parser.error(f"no input is named {', '.join(unknown)}")
    with tempfile.TemporaryDirectory() as place:
        folder = Path(place)
        numbers = {"inputs": measure_inputs(args.mb, names, args.baseline, args.rows, folder)}
        if args.replay:
            numbers["replay"] = measure_replays(args.mb, names, folder)
        if args.growth:
            numbers["growth"] = measure_growth(args.mb, folder)
    if args.json:
        args.json.write_text(json.dumps(numbers, indent=1) + "\n")


if __name__ == "__main__":
    main()
