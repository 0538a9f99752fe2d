#!/usr/bin/env python3
"""Measures the memory that the program `mb` takes for a run.

    memory.py MB

MB is the program. For each kind of piece that a module may have it prints the bytes of the heap that one piece more takes in `mb run`, at the
peak: valgrind's massif counts what two modules ask for that differ in nothing but the number of these pieces. Then it prints the greatest
resident sets of the smallest module and of the largest one that is measured, in kilobytes, as `/usr/bin/time` tells them.
"""

import argparse
import re
import subprocess
import sys
import tempfile
from dataclasses import dataclass
from pathlib import Path

sys.dont_write_bytecode = True
from measure import built  # noqa: E402
from modules import Module, Process, created, endless, partition, queuing  # noqa: E402

TICKS = 1_000
PARTITIONS, PROCESSES, STACK, DATA = 32, 63, 64, 1_000


@dataclass(frozen=True)
class Shape:
    """How many pieces of each kind a module has."""

    partitions: int = 1
    processes: int = 0
    stack_words: int = 16
    ports: int = 0
    port_messages: int = 1
    buffers: int = 0
    buffer_messages: int = 1
    data_words: int = 0
    instructions: int = 0

    def module(self):
        return Module([self.partition(f"p{number}") for number in range(self.partitions)], 100)

    def partition(self, name):
        """The processes, buffers and ports are created; the first process computes for ever."""
        ports = [queuing(f"q{number}", "SOURCE", 1, self.port_messages) for number in range(self.ports)]
        buffers = [f"b{number}" for number in range(self.buffers)]
        head = f"array d[{self.data_words}];" * (self.data_words > 0) + "".join(f"buffer {it} 1 {self.buffer_messages} fifo;" for it in buffers)
        first = created("BUFFER", *buffers) + "work 1;" * self.instructions
        processes = [Process(f"r{number}", 5, endless("work 1000;"), "", self.stack_words) for number in range(self.processes)]
        return partition(name, *processes, head=head, ports=ports, first=first, stack=16)


# What is counted, and two modules that differ in the number of it alone.
PIECES = [
    ("partition", "partitions", Shape(), Shape(partitions=PARTITIONS)),
    ("process", "processes", Shape(processes=1), Shape(processes=PROCESSES)),
    ("word of a stack", "stack_words", Shape(processes=1), Shape(processes=1, stack_words=4_096)),
    ("queuing port of one message", "ports", Shape(), Shape(ports=16)),
    ("message of a queuing port", "port_messages", Shape(ports=1), Shape(ports=1, port_messages=32)),
    ("buffer of one message", "buffers", Shape(), Shape(buffers=16)),
    ("message of a buffer", "buffer_messages", Shape(buffers=1), Shape(buffers=1, buffer_messages=32)),
    ("word of data", "data_words", Shape(data_words=1), Shape(data_words=65_536)),
    ("instruction", "instructions", Shape(), Shape(instructions=60_000)),
]
SIZES = [
    ("the smallest module", Shape()),
    (
        f"{PARTITIONS} partitions of {PROCESSES} processes, each with a stack of {STACK} words, a buffer and {DATA} words of data",
        Shape(partitions=PARTITIONS, processes=PROCESSES, stack_words=STACK, buffers=1, data_words=DATA),
    ),
]


def peak(mb, image, devices, folder):
    """The most bytes of the heap that are held at once in a run."""
    told = folder / "massif"
    words = ["valgrind", "--tool=massif", "--peak-inaccuracy=0.0", f"--massif-out-file={told}", mb, "run", image, devices, str(TICKS)]
    done = subprocess.run(words, stdout=subprocess.DEVNULL, stderr=subprocess.PIPE, text=True)
    if done.returncode:
        sys.exit(done.stderr)
    return max(int(it) for it in re.findall(r"^mem_heap_B=(\d+)$", told.read_text(), re.M))


def resident(mb, image, devices):
    """The greatest resident set of a run, in kilobytes."""
    words = ["/usr/bin/time", "-f", "%M", mb, "run", image, devices, str(TICKS)]
    done = subprocess.run(words, stdout=subprocess.DEVNULL, stderr=subprocess.PIPE, text=True)
    if done.returncode:
        sys.exit(done.stderr)
    return int(done.stderr)


def main():
    parser = argparse.ArgumentParser(description=__doc__, formatter_class=argparse.RawDescriptionHelpFormatter)
    parser.add_argument("mb", type=lambda path: Path(path).resolve())
    args = parser.parse_args()
    with tempfile.TemporaryDirectory() as place:
        folder = Path(place)
        for number, (title, key, few, many) in enumerate(PIECES):
            peaks = [peak(args.mb, *built(args.mb, it.module(), folder / f"{number}_{which}"), folder) for which, it in enumerate((few, many))]
            pieces = getattr(many, key) - getattr(few, key)
            print(f"{title}: {(peaks[1] - peaks[0]) / pieces:,.0f} bytes", flush=True)
        for number, (title, shape) in enumerate(SIZES):
            image, devices = built(args.mb, shape.module(), folder / f"size_{number}")
            print(f"{title}: {resident(args.mb, image, devices):,} kB resident", flush=True)


if __name__ == "__main__":
    main()
