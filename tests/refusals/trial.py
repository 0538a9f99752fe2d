"""Runs a program in a folder, and what it needs to have a request for memory refused."""

import os
import resource
import shutil
import subprocess
import tempfile
from dataclasses import dataclass, field
from pathlib import Path

HERE = Path(__file__).resolve().parent
# More than any command uses, and less than a shell allows.
STACK = 4 << 20


class Wrong(Exception):
    """A list cannot be tried at all."""


@dataclass
class Told:
    """What a trial found: how often each thing came, and what was not as it has to be."""

    counts: dict = field(default_factory=dict)
    wrong: list = field(default_factory=list)

    def count(self, what, number=1):
        self.counts[what] = self.counts.get(what, 0) + number

    def add(self, other):
        for what, number in other.counts.items():
            self.count(what, number)
        self.wrong += other.wrong


@dataclass(frozen=True)
class Answer:
    """The status of a program, if it ended, and what it wrote on both outputs."""

    status: int | None
    out: bytes
    err: bytes

    def __str__(self):
        return f"status {self.status}, {len(self.out)} bytes, '{self.err.decode(errors='replace').strip()}'"


@dataclass(frozen=True)
class Held:
    """The requests for memory so far, and the blocks and bytes that are held."""

    requests: int
    blocks: int
    bytes: int


@dataclass(frozen=True)
class Watched:
    """An answer with what the library has told: whether the program began, what was held at each line, and at the end."""

    answer: Answer
    has_begun: bool
    lines: list
    end: Held | None


def commands(sources, partition, ticks):
    """The words of each command of `mb` on a module, by its name, in an order in which one leaves what the next one reads. With its sources in
    the wrong order `lint` has something to write."""
    return {
        "check": ["check", "table", *sources],
        "cost": ["cost", "table", *sources],
        "lint": ["lint", "table", *reversed(sources)],
        "load": ["load", "table", *sources],
        "build": ["build", "table", "image", *sources],
        "upgrade": ["upgrade", "old", "image"],
        "dis": ["dis", "image"],
        "run": ["run", "image", "devices", str(ticks)],
        "until": ["run", "image", "devices", str(ticks), "--until", partition, "MODE", "NORMAL"],
        "inputs": ["inputs", "image", partition, "devices", str(ticks)],
        "replay": ["replay", "image", partition, "inputs", str(ticks)],
        "state": ["state", "image", "devices", str(ticks)],
        "state of one": ["state", "--json", "--partition", partition, "image", "devices", str(ticks)],
        "states": ["state", "--every", str(ticks // 3 + 1), "image", "devices", str(ticks)],
        "first state": ["state", "image", "devices", str(ticks), "--until", partition, "mode"],
    }


# The commands that write IMAGE.
WRITING = ("build", "upgrade")
# The commands that may have written a beginning where memory lacks: one holds the text of a tick until it has looked for the line, the other
# that of a state.
BEGINNING = ("until", "states")


def compiler():
    """The C compiler, if there is one."""
    return shutil.which("cc")


def build_library(folder):
    """Compiles the library into the folder; returns its file."""
    library = Path(folder) / "refuse.so"
    words = [compiler(), "-O2", "-Wall", "-Wextra", "-Werror", "-shared", "-fPIC", "-o", library, HERE / "refuse.c", "-ldl"]
    done = subprocess.run(words, capture_output=True, encoding="utf-8")
    if done.returncode != 0:
        raise Wrong(f"the library is not compiled: {done.stderr}")
    return library


def run(words, folder, text=b"", environment=None, limit=None, seconds=600):
    """Runs a program with this text on its standard input, and with a limit of its address space if there is one. One that does not end
    has no status."""
    set_limit = None if limit is None else lambda: resource.setrlimit(resource.RLIMIT_AS, (limit, limit))
    try:
        done = subprocess.run(
            [str(it) for it in words],
            cwd=folder,
            input=text,
            env=os.environ | (environment or {}),
            capture_output=True,
            preexec_fn=set_limit,
            timeout=seconds,
        )
    except subprocess.TimeoutExpired as why:
        return Answer(None, why.stdout or b"", why.stderr or b"")
    return Answer(done.returncode, done.stdout, done.stderr)


def watch(library, words, folder, text=b"", refused=None, limit=None):
    """Runs a program under the library, which refuses the request of that number."""
    with tempfile.NamedTemporaryFile() as log:
        environment = {"LD_PRELOAD": str(library), "REFUSE_LOG": log.name}
        if refused is not None:
            environment["REFUSE_AT"] = str(refused)
        if limit is not None:
            environment["REFUSE_STACK"] = str(STACK)
        answer = run(words, folder, text, environment, limit)
        told = log.read().decode().splitlines()
    lines = [Held(*map(int, it.split())) for it in told if it[0].isdigit()]
    ends = [Held(*map(int, it.split()[1:])) for it in told if it.startswith("end ")]
    return Watched(answer, "start" in told, lines, ends[-1] if ends else None)
