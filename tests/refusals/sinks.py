"""Sinks that fail, in the library and behind `mb`."""

import os
import subprocess
import tempfile
from pathlib import Path

import calls
import trial
from trial import Told

TICKS = 128
# How a sink takes bytes, and how it fails when it is full: always or once, by an error or by taking none.
WAYS = [f"{most}, {end}" for most in ("many bytes a call", "one byte a call") for end in ("then errors", "then one error", "then none", "then none once")]


def failed_ticks(trace):
    """For a sink with room for each beginning of the trace, how many ticks come after the one in which it fails."""
    return sum(len(line) * (TICKS - 1 - int(line.split()[0])) for line in trace.splitlines(keepends=True))


def fail_sinks(library_tests):
    """Runs the smallest module into sinks that fail behind each byte, in each way."""
    told = Told()
    trace = (calls.ROWS / "smallest/trace").read_text()
    lines = [f"{way}: {len(trace)} runs, {len(trace)} machines, {failed_ticks(trace)} ticks failed, whole true" for way in WAYS]
    answer = trial.run([library_tests], calls.ROWS, f"sinks smallest {TICKS}\n".encode())
    found = answer.out.decode().splitlines()
    if answer.status != 0 or found != lines:
        told.wrong.append(f"{answer}; wanted {lines}, had {found}")
    told.count("bytes behind which a sink fails", len(trace))
    told.count("ways", len(WAYS))
    told.count("ticks after a failure", len(WAYS) * failed_ticks(trace))
    return told


def broken_output(kind):
    """A file that takes no byte: a full device, or a pipe whose reader is gone."""
    if kind == "full device":
        return os.open("/dev/full", os.O_WRONLY)
    reader, writer = os.pipe()
    os.close(reader)
    return writer


def break_outputs(mb):
    """Gives each command an output that takes no byte. `build` and `upgrade` write IMAGE all the same."""
    told = Told()
    with tempfile.TemporaryDirectory() as room:
        folder = Path(room)
        module = calls.MODULES[-1]
        module.lay(mb, folder)
        image = (folder / "image").read_bytes()
        for name, words in module.commands().items():
            for kind in ("full device", "closed pipe"):
                if name in trial.WRITING:
                    (folder / "image").write_bytes(b"before")
                output = broken_output(kind)
                done = subprocess.run([mb, *words], cwd=folder, stdin=subprocess.DEVNULL, stdout=output, stderr=subprocess.PIPE, timeout=60)
                os.close(output)
                told.count("commands into a full device or a closed pipe")
                if done.returncode != 1 or done.stderr != b"mb: write\n" or (folder / "image").read_bytes() != image:
                    told.wrong.append(f"{name} into a {kind}: status {done.returncode}, {done.stderr}")
    return told
