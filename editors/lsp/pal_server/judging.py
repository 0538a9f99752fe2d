"""What `mb check` and `mb lint` say of a module as it is in the editor.

The texts that are open are written to a folder of their own, so that `mb` judges what is typed. It names one file's mistakes at a time: an open source that
this hides is judged by itself, in a table that stands in for the module's.
"""

import json
import re
import subprocess
import tempfile
from dataclasses import dataclass, replace
from pathlib import Path

from .knowledge import KEYS
from .module import Files, Module

ERROR, WARNING, INFORMATION = 1, 2, 3
SECONDS = 20
LINT = re.compile(r"(\S+?)(?: line (\d+))?: (.*)")
RULE = re.compile(r"(pal|compile) \S+ (\d+).*")
SMALLEST = "init stack 16 { local r; SET_PARTITION_MODE(3) -> r; }\n"
MOST_TICKS = 1 << 24


class NotJudged(Exception):
    """`mb` did not judge the module; the text says why."""


@dataclass(frozen=True)
class Finding:
    """What is wrong with a file, or probably is. Lines and columns are those of `mb`, and 0 where it names none."""

    path: Path
    message: str
    line: int = 0
    column: int = 0
    advice: str = ""
    rule: str = ""
    severity: int = ERROR
    # Where no line says it: the place in the text.
    span: tuple[int, int] | None = None


def stand_in(period: int | None) -> str:
    """A table with one partition of this period, or of any."""
    frame = period if period and period <= MOST_TICKS else 128
    health = "\n".join(f'{it} = "IGNORE"' for it in KEYS["hm"])
    row = f'[[partition]]\nname = "p"\nperiod = {frame}\nduration = 0\n[partition.hm]\n{health}'
    return f'frame = {frame}\nfault = "IGNORE"\n{row}\n[[window]]\npartition = "p"\noffset = 0\nlength = {frame}\nrelease = true\n'


def judged(program: str, module: Module, files: Files) -> list[Finding]:
    """What is wrong with a module, or probably is, as this program says."""
    with tempfile.TemporaryDirectory(prefix="mb-lsp-") as room:
        return Judge(program, Path(room)).findings(module, files)


class Judge:
    """Judges a module with the program `mb`, and writes the texts that are open to a folder."""

    def __init__(self, program: str, room: Path) -> None:
        self.program, self.room = program, room

    def findings(self, module: Module, files: Files) -> list[Finding]:
        """What is wrong with the module, or probably is."""
        opened = [it for it in [*module.sources.values(), *module.others] if it in files.open]
        found = self.of_module(module, files) if module.table else []
        is_refused = any(it.severity == ERROR for it in found)
        judged = {it.path for it in found} if is_refused else set(module.sources.values())
        hidden = [it for it in opened if it not in judged]
        return [*found, *self.unmatched(module, opened), *(it for path in hidden for it in self.by_itself(path, module, files))]

    def unmatched(self, module: Module, opened: list[Path]) -> list[Finding]:
        """Says of what has no place in the module that it has none. A table without any source next to it may have them elsewhere."""
        limits = "it is judged by the rules 1 to 5 of Pal"
        if not module.table:
            return [Finding(it, f"there is no table.toml in this folder; {limits}", 1, rule="mb-lsp", severity=INFORMATION) for it in opened]
        lonely = [it for it in opened if not module.partition_of(it)]
        found = [Finding(it, f"no partition of {module.table.name} has this source; {limits}", 1, rule="mb-lsp", severity=INFORMATION) for it in lonely]
        is_here = any(module.sources.values()) or module.others
        for name in (it for it, source in module.sources.items() if is_here and not source):
            said = f"the partition {name} has no source: there is no {name}.pal in this folder"
            found.append(Finding(module.table, said, rule="mb-lsp", severity=WARNING, span=place_of(module, name)))
        return found

    def of_module(self, module: Module, files: Files) -> list[Finding]:
        """What `mb check` says of the module, or where it accepts it, what `mb lint` does. A source that is not there is taken for the smallest."""
        smallest = self.room / "smallest"
        smallest.write_text(SMALLEST)
        paths = [module.table, *(module.sources.values() or [None])]
        words = [str(self.written(it, files) if it else smallest) for it in paths]
        status, errors = self.run("check", "--explain=json", *words)
        if status == 0:
            return [it for line in self.run("lint", *words)[1].splitlines() for it in warning_of(line, module)]
        return [error_of(it, dict(zip(words, paths)), module.table) for it in objects_of(errors)]

    def by_itself(self, path: Path, module: Module, files: Files) -> list[Finding]:
        """What `mb check` says of a source in a table that stands in for that of the module."""
        row = module.row_of(module.partition_of(path))
        period = row.number("period") if row else None
        table = self.room / "stand_in"
        table.write_text(stand_in(period))
        source = self.written(path, files)
        status, errors = self.run("check", "--explain=json", str(table), str(source))
        found = [error_of(it, {str(source): path}, path) for it in objects_of(errors)] if status else []
        return [it for it in found if period or it.rule != "pal 6"]

    def written(self, path: Path, files: Files) -> Path:
        """A file with the text that the editor has open, or the file itself where it has none."""
        if path not in files.open:
            return path
        place = self.room / path.name
        place.write_bytes(files.open[path].encode("utf-8", "surrogatepass"))
        return place

    def run(self, *words: str) -> tuple[int, str]:
        """Runs `mb`; returns its status, and what it says."""
        try:
            done = subprocess.run([self.program, *words], stdin=subprocess.DEVNULL, capture_output=True, timeout=SECONDS)
        except (FileNotFoundError, PermissionError) as why:
            raise NotJudged(f"the program {self.program} cannot be started: {why.strerror}") from why
        except (OSError, subprocess.TimeoutExpired) as why:
            raise NotJudged(f"{self.program} {words[0]}: {why}") from why
        said = (done.stderr or done.stdout).decode(errors="replace")
        if done.returncode not in (0, 1, 3):
            raise NotJudged(f"{self.program} {words[0]} ended with the status {done.returncode}: {said.strip()}")
        return done.returncode, said


def objects_of(errors: str) -> list[dict]:
    """The objects that follow the line of a refusal."""
    lines = [it for it in errors.splitlines() if it.startswith("{")]
    if not lines:
        raise NotJudged(errors.strip() or "mb said nothing")
    return [json.loads(it) for it in lines]


def error_of(said: dict, words: dict[str, Path | None], otherwise: Path) -> Finding:
    """The finding of an object. One that names no file is about the table."""
    path = words.get(said.get("file", "")) or otherwise
    rule = RULE.sub(r"\1 \2", said["rule"])
    return Finding(path, said["message"], said.get("line", 1), said.get("column", 0), said["advice"], rule)


def warning_of(line: str, module: Module) -> list[Finding]:
    """The finding of a line of `mb lint`: in the source of the partition, or where it names no line, at the partition in the table."""
    name, number, said = LINT.fullmatch(line).groups()
    source = module.sources.get(name)
    if not source:
        return []
    plain = Finding(source, said, rule="lint", severity=WARNING)
    if number:
        return [replace(plain, line=int(number))]
    return [replace(plain, path=module.table, span=place_of(module, name))]


def place_of(module: Module, partition: str) -> tuple[int, int]:
    """Where the table names a partition."""
    value = module.row_of(partition).value("name")
    return value.start, value.end
