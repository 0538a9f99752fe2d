#!/usr/bin/env python3
"""Tries what `mb` reports of its runs with `--progress`.

    progress.py MB

MB is the program `mb`. A run, one that waits for a line, and one that lists inputs tell once a second on standard error how many ticks they have made,
and what share of all ticks that is. Short ones tell nothing; what they write is as without. A run tells as much if it is slow: here, since nobody reads
its lines any faster.

The last line says that all is so, and the exit status is 0. At the first difference it is 1, and the difference is shown.
"""

import re
import subprocess
import sys
import tempfile
import threading
import time
from pathlib import Path

FILES = Path(__file__).resolve().parent.parent / "programs/files"
# A partition that computes without an end, and one that has a line every few ticks.
COMPUTING = (FILES / "computing").read_text()
TALKING = "init stack 16 { local r; local t; while 1 { GET_TIME() -> r, t; } }\n"
COMMANDS = {"run": (["image", "devices"], [], 0), "run until": (["image", "devices"], ["--until", "_", "MODE", "NORMA"], 3), "inputs": (["image", "a", "devices"], [], 0)}
# How long a run is followed, in seconds.
FOLLOWED = 3.5
TOLD = re.compile(r"tick (\d+), (\d+)\.(\d) %")


class Differs(Exception):
    """The program does something else."""


def expect(is_so, said):
    if not is_so:
        raise Differs(said)


def build(mb, source, folder):
    (folder / "source").write_text(source)
    subprocess.run([mb, "build", "table", "image", "source"], cwd=folder, check=True, stdout=subprocess.DEVNULL)


def command(mb, name, ticks, *flags):
    words, until, _ = COMMANDS[name]
    return [mb, name.split()[0], *flags, *words, str(ticks), *until]


def short(mb, name, folder):
    """A run of a thousand ticks, with these flags or without."""
    return lambda *flags: subprocess.run(command(mb, name, 1000, *flags), cwd=folder, capture_output=True, text=True)


def followed(mb, name, ticks, folder, reader):
    """The standard output and the reports of a run that is ended after a while, with a reader of its output."""
    began = subprocess.Popen(command(mb, name, ticks, "--progress"), cwd=folder, stdout=subprocess.PIPE, stderr=subprocess.PIPE)
    printed = []
    reading = threading.Thread(target=reader, args=(began.stdout, printed))
    reading.start()
    time.sleep(FOLLOWED)
    expect(began.poll() is None, f"{name} of {ticks} ticks has ended")
    began.terminate()
    told = began.stderr.read().decode().splitlines()
    reading.join()
    began.wait()
    return b"".join(printed), told


def read_all(pipe, printed):
    printed.append(pipe.read())


def read_slowly(pipe, printed):
    """Reads some hundred lines a second, and the rest when the run is ended."""
    until = time.monotonic() + FOLLOWED
    while time.monotonic() < until:
        printed.append(pipe.read1(16384))
        time.sleep(0.1)
    printed.append(pipe.read())


def reports(name, told, total):
    """The ticks of the reports, which have to rise, each with its share of the total."""
    found = [TOLD.fullmatch(line) for line in told]
    expect(all(found), f"{name} told {told}")
    ticks, shares = [int(it[1]) for it in found], [int(it[2]) * 10 + int(it[3]) for it in found]
    expect(2 <= len(ticks) <= 4 and ticks == sorted(set(ticks)), f"{name} told {told}")
    expect(shares == [it * 1000 // total for it in ticks], f"{name} told {told} of {total} ticks")
    return ticks


def try_command(mb, name, folder):
    run = short(mb, name, folder)
    wanted, watched = run(), run("--progress")
    expect(wanted.returncode == COMMANDS[name][2], f"{name} ends with {wanted.returncode}")
    same = (watched.returncode, watched.stdout, watched.stderr) == (wanted.returncode, wanted.stdout, wanted.stderr)
    expect(same, f"{name} with --progress is another run")
    total = 2**32
    printed, told = followed(mb, name, total, folder, read_all)
    expect(printed.decode() == wanted.stdout, f"{name} with --progress wrote {printed[:99]}")
    # So many that a report names a share that a wrong one would not be.
    total = 8 * reports(name, told, total)[0]
    _, told = followed(mb, name, total, folder, read_all)
    expect(reports(name, told, total)[-1] * 20 > total, f"{name} told {told} of {total} ticks")


def main(mb):
    mb = Path(mb).resolve()
    with tempfile.TemporaryDirectory() as folder:
        folder = Path(folder)
        (folder / "table").write_bytes((FILES / "table").read_bytes())
        (folder / "devices").write_text("")
        try:
            build(mb, COMPUTING, folder)
            for name in COMMANDS:
                try_command(mb, name, folder)
            build(mb, TALKING, folder)
            for name in ("run", "run until"):
                _, told = followed(mb, name, 2**32, folder, read_slowly)
                reports(f"slow {name}", told, 2**32)
        except Differs as why:
            print(why)
            return 1
    print("a line a second")
    return 0


if __name__ == "__main__":
    sys.exit(main(*sys.argv[1:]) if len(sys.argv) == 2 else __doc__)
