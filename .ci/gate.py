"""The gate: proves everything, tries the wrong edits in `must-fail` and runs the tests (`rt ci`), tries the named wrong edits and some others
(`.ci/edits --named`), then the programs as processes (`.ci/programs`). At its end it prints how long that took, by part and by crate. Pages are
tried in a Chromium; where none starts, the line `browser` says so (`tests/browser/install` gets one from Debian).

Each check of `rt ci` has one job, and as many run side by side as there are cores, if there are 5 GiB of memory for each; else `rt ci` plans by
itself. With more jobs, which it would give the last checks, each job loads all libraries again: such a check ends sooner, and takes a tenth to a
half more of a core. Where there is this memory, the prover also keeps what it no longer needs: a check then takes a twentieth less of a core, and
a tenth more memory.
"""

import os
import resource
import subprocess
import sys
import threading
import time
from pathlib import Path

sys.dont_write_bytecode = True
from ledger import rtlib  # noqa: E402

ROOT = Path(__file__).resolve().parent.parent
# The crate whose check is the unit in which the times of machines are compared.
UNIT = "regions"
TICKS_A_MINUTE = 60 * os.sysconf("SC_CLK_TCK")


class Spent:
    """A time of this run, or one that went by in it: minutes by the clock, and of a core."""

    def __init__(self, clock=None, core=None):
        used = resource.getrusage(resource.RUSAGE_CHILDREN)
        self.clock = time.monotonic() / 60 if clock is None else clock
        self.core = (used.ru_utime + used.ru_stime) / 60 if core is None else core

    def since(self, start):
        return Spent(self.clock - start.clock, self.core - start.core)


class Proofs(threading.Thread):
    """Notes how much of a core each proof takes, while it runs. The last seconds of a proof may be missing."""

    def __init__(self):
        super().__init__(daemon=True)
        self.minutes = {}

    def run(self):
        while True:
            for process in filter(str.isdigit, os.listdir("/proc")):
                self.look_at(Path("/proc") / process)
            time.sleep(2)

    def look_at(self, process):
        try:
            words = (process / "cmdline").read_text().split("\0")
            folder = Path(os.readlink(process / "cwd"))
            if words[0] == rtlib.RATTLE and folder.parent == ROOT / "crates":
                fields = (process / "stat").read_text().rpartition(")")[2].split()
                self.minutes[process.name, fields[19], folder.name] = (int(fields[11]) + int(fields[12])) / TICKS_A_MINUTE
        except OSError:
            pass  # (the process has ended)

    def by_crate(self):
        sums = {}
        for (_, _, name), minutes in self.minutes.copy().items():
            sums[name] = sums.get(name, 0) + minutes
        return sorted(sums.items(), key=lambda it: -it[1])


def settings():
    """Returns the environment in which `rt ci` runs."""
    lanes = rtlib.cores() if rtlib.fits(*[5 << 30] * rtlib.cores()) else None
    return {**os.environ, "RT_JOBS": str(lanes), "MIMALLOC_PURGE_DELAY": "-1"} if lanes else {**os.environ}


def unit():
    """Checks one crate by itself, from nothing but the libraries below it, and returns what that took."""
    crate = next(it for it in rtlib.crates_below(str(ROOT)) if it.name == UNIT)
    words = crate.words(["--jobs", "1"], keeps=False)
    start = Spent()
    subprocess.run([*rtlib.guarded(), rtlib.RATTLE, "check", *words], cwd=crate.folder, stdin=subprocess.DEVNULL, stdout=subprocess.DEVNULL, check=True)
    return Spent().since(start)


def main():
    proofs, start, parts, failed = Proofs(), Spent(), [], []
    proofs.start()
    for command in (["rt", "ci"], [".ci/edits", "--named"], [".ci/programs"]):
        begun = Spent()
        if subprocess.run(command, cwd=ROOT, env=settings()).returncode:
            failed.append(" ".join(command))
        parts.append((" ".join(command), Spent().since(begun)))
    if failed:
        print(f"failed: {', '.join(failed)}")
        return 1
    whole, one = Spent().since(start), unit()
    print("minutes of a core by crate:", ", ".join(f"{name} {minutes:.1f}" for name, minutes in proofs.by_crate()))
    for name, spent in (*parts, ("the gate", whole)):
        print(f"{name}: {spent.clock:.1f} minutes by the clock, {spent.core:.1f} of a core")
    print(f"a check of {UNIT}: {one.clock:.2f} minutes by the clock, {one.core:.2f} of a core")
    print(f"the gate in such checks: {whole.clock / one.clock:.0f} by the clock, {whole.core / one.core:.0f} of a core")
    return 0


sys.exit(main())
