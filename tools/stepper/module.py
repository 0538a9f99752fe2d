"""A module that runs: its image, its states and the lines of its trace, as `mb` gives them."""

import functools
import json
import os
import shutil
import subprocess
import tempfile
import tomllib
from collections.abc import Iterator
from pathlib import Path
from typing import NamedTuple

from .rows import State

HERE = Path(__file__).resolve().parent
# Where `mb` is if it is not on the PATH: where `tools/install` puts it, and where the repository has it.
NEAR = [HERE.parents[3] / "bin/mb", HERE.parents[1] / "crates/mb/out/mb"]
BLOCK = 1 << 20


class Refused(Exception):
    """`mb` refuses something, or there is no `mb`. The text is for the user."""


def program() -> str:
    """The program `mb`: the one in the environment, the one on the PATH, or the one that came with this one."""
    found = os.environ.get("MB") or shutil.which("mb") or next((str(it) for it in NEAR if it.is_file()), None)
    if not found:
        raise Refused("there is no `mb` on the PATH; the variable MB may name one")
    return found


class Source(NamedTuple):
    """The source of a partition."""

    name: str
    lines: list[str]


class Module:
    """A module with a device text. All are copies, so that a session shows one run, whatever becomes of the files."""

    def __init__(self, table: str, devices: str, sources: list[str]):
        self.mb = program()
        self.folder = tempfile.TemporaryDirectory(prefix="mb-step-")
        self.image = str(Path(self.folder.name) / "image")
        self.told("build", "--explain", table, self.image, *sources)
        self.told("run", "--explain", self.image, devices, "0")
        self.table, self.devices, *self.sources = (shutil.copy(it, f"{self.image}_{place}") for place, it in enumerate([table, devices, *sources]))
        self.names = [Path(it).name for it in sources]
        self.state = functools.lru_cache(maxsize=1024)(self._state)
        top = tomllib.loads(Path(table).read_text())
        self.frame = top["frame"]
        self.edges = sorted({it["offset"] + length for it in top["window"] for length in (0, it["length"])})

    def told(self, *words: str) -> str:
        """What `mb` prints."""
        try:
            done = subprocess.run([self.mb, *words], stdin=subprocess.DEVNULL, capture_output=True, text=True)
        except OSError as why:
            raise Refused(f"{self.mb}: {why.strerror}") from why
        if done.returncode != 0:
            raise Refused(done.stderr.removesuffix("\n"))
        return done.stdout

    def _state(self, tick: int, partition: str | None = None) -> State:
        """The state before a tick, of all partitions or of one."""
        words = ["state", "--json", *(["--partition", partition] if partition else [])]
        text = self.told(*words, "--sources", self.table, self.devices, str(tick), *self.sources)
        return State([json.loads(it) for it in text.splitlines()])

    def lines(self, begin: int, end: int) -> Iterator[tuple[int, str]]:
        """The lines of the trace in the ticks from `begin` on and before `end`. The run ends when nobody asks for more."""
        if begin >= end:
            return
        words = [self.mb, "run", self.image, self.devices, str(end)]
        with subprocess.Popen(words, stdin=subprocess.DEVNULL, stdout=subprocess.PIPE) as run:
            try:
                rest = b""
                while piece := run.stdout.read1(BLOCK):
                    whole, feed, rest = (rest + piece).rpartition(b"\n")
                    if feed and int(whole[whole.rfind(b"\n") + 1 :][:13]) >= begin:
                        for line in whole.decode().split("\n"):
                            if int(line[:13]) >= begin:
                                yield int(line[:13]), line
            finally:
                run.kill()

    def next_edge(self, state: State, tick: int) -> int | None:
        """The first tick after this one in which a window begins or ends; none after a shutdown."""
        if state.origin is None:
            return None
        begun = tick - (tick - state.origin) % self.frame
        return next(at for frame in (begun, begun + self.frame) for it in self.edges if (at := frame + it) > tick)

    @functools.cached_property
    def source(self) -> dict[str, Source]:
        """The source of each partition, by its name."""
        partitions = (it["name"] for it in tomllib.loads(Path(self.table).read_text())["partition"])
        return {it: Source(name, Path(text).read_text().split("\n")) for it, name, text in zip(partitions, self.names, self.sources)}
