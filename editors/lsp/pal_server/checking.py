"""Judges modules while the editor goes on, and publishes what is found."""

import logging
import shutil
import threading
from pathlib import Path
from typing import Any

from .diagnosing import diagnostic
from .judging import Finding, NotJudged, judged
from .module import Files, Module, module_of
from .opened import Opened
from .texts import text_of
from .wire import Writer

log = logging.getLogger("mb-lsp")
ERROR = 1
HERE = Path(__file__).resolve().parent
# Where `mb` is if it is not on the PATH: where `tools/install` puts it, and where the repository has it.
NEAR = [HERE.parents[4] / "bin/mb", HERE.parents[2] / "crates/mb/out/mb"]
# The diagnostics of a file, with the text that was judged.
Judged = tuple[str, list[dict[str, Any]]]


def program_of(wanted: str | None) -> str | None:
    """The program `mb`: the one that the editor names, or the one on the PATH, or the one that came with the server."""
    return wanted or shutil.which("mb") or next((str(it) for it in NEAR if it.is_file()), None)


class Checker(threading.Thread):
    """Judges the modules of the folders in which files have changed, as they are when their turn comes."""

    def __init__(self, opened: Opened, writer: Writer) -> None:
        super().__init__(daemon=True)
        self.opened, self.writer = opened, writer
        self.program: str | None = None
        self.changed: set[Path] = set()
        self.is_over = False
        self.turn = threading.Condition()
        # What was found in the files of each module, by its table, or by its folder if it has none.
        self.found: dict[Path, dict[Path, Judged]] = {}
        self.told: set[str] = set()

    def ask(self, paths: list[Path]) -> None:
        """Has the modules next to these files judged."""
        with self.turn:
            self.changed.update(paths)
            self.turn.notify()

    def end(self) -> None:
        with self.turn:
            self.is_over = True
            self.turn.notify()

    def run(self) -> None:
        while paths := self.next():
            for folder in sorted({it.parent for it in paths}):
                self.judge_folder(folder, self.opened.files())

    def next(self) -> set[Path]:
        """The files that have changed since the last turn, or none when all is over."""
        with self.turn:
            self.turn.wait_for(lambda: self.changed or self.is_over)
            paths, self.changed = self.changed, set()
            return set() if self.is_over else paths

    def judge_folder(self, folder: Path, files: Files) -> None:
        """Judges the modules of a folder of which files are open: mostly one, but a second table that is open has its own."""
        modules = [module_of(it, files) for it in sorted(files.open) if it.parent == folder]
        by_key = {it.table or folder: it for it in modules}
        gone = [it for it in self.found if folder in (it, it.parent) and it not in by_key]
        left = [path for key in gone for path in self.found.pop(key)]
        for key, module in by_key.items():
            self.judge(key, module, files)
        self.publish(left, files)

    def judge(self, key: Path, module: Module, files: Files) -> None:
        """Judges a module, and publishes what is found."""
        try:
            if not self.program:
                raise NotJudged("there is no program mb on the PATH, so nothing is judged; `rt run` in crates/mb builds it, and tools/install puts it into a folder")
            found = by_file(judged(self.program, module, files), files)
            before, self.found[key] = self.found.get(key, {}), found
            self.publish([*before, *found, *(module.files() & files.open.keys())], files)
            self.told.clear()
        except NotJudged as why:
            self.tell(str(why))
        except Exception as why:  # (a fault here ends no other judgement)
            log.exception("while a module is judged")
            self.tell(f"a fault of the server while it judged {module.folder}: {why!r}")

    def tell(self, why: str) -> None:
        """Shows a message, once until a module is judged again."""
        if why not in self.told:
            self.told.add(why)
            self.writer.notify("window/showMessage", type=ERROR, message=f"mb-lsp: {why}")

    def publish(self, paths: list[Path], files: Files) -> None:
        """Publishes what is found in files, also where it is nothing."""
        for path in sorted(set(paths)):
            version = {"version": files.versions[path]} if path in files.open else {}
            self.writer.notify("textDocument/publishDiagnostics", uri=self.opened.uri(path), **version, diagnostics=self.diagnostics(path))

    def diagnostics(self, path: Path, content: str | None = None) -> list[dict[str, Any]]:
        """What is found in a file, or only what is found in this text of it. Two tables may share a source."""
        of_modules = [it[path] for it in list(self.found.values()) if path in it]
        found = [it for text, diagnostics in of_modules if content in (None, text) for it in diagnostics]
        return [it for at, it in enumerate(found) if it not in found[:at]]


def by_file(findings: list[Finding], files: Files) -> dict[Path, Judged]:
    """The diagnostics of each file."""
    found: dict[Path, Judged] = {}
    for it in findings:
        content = files.text(it.path) or ""
        found.setdefault(it.path, (content, []))[1].append(diagnostic(it, text_of(content)))
    return found
