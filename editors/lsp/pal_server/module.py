"""Which files make a module: the table of a folder, and a source for each partition."""

import os
from dataclasses import dataclass
from pathlib import Path

from .table import Row, read_table

TABLE = "table.toml"


@dataclass(frozen=True)
class Files:
    """The texts of files: those that are open in the editor, with their versions, and the others as they are."""

    open: dict[Path, str]
    versions: dict[Path, int]

    def text(self, path: Path) -> str | None:
        """The text of a file, or none if it cannot be read."""
        if path in self.open:
            return self.open[path]
        try:
            return path.read_bytes().decode(errors="surrogateescape")
        except OSError:
            return None

    def in_folder(self, folder: Path, ending: str) -> list[Path]:
        """The files of a folder with this ending, by their names. Those that are open need not exist."""
        try:
            there = [folder / it for it in os.listdir(folder)]
        except OSError:
            there = []
        return sorted({it for it in [*there, *self.open] if it.parent == folder and it.suffix == ending})


@dataclass(frozen=True)
class Module:
    """A table, the source of each partition by its name, in the order of the table, and the sources that are left over."""

    folder: Path
    table: Path | None
    top: Row
    sources: dict[str, Path | None]
    others: list[Path]

    def files(self) -> set[Path]:
        """All files of the folder that the module has, or could have."""
        return {it for it in [self.table, *self.sources.values(), *self.others] if it}

    def partition_of(self, path: Path) -> str | None:
        """The partition of a source. A source whose name begins with that of a partition and `_` is another source for it."""
        own = next((name for name, source in self.sources.items() if source == path), None)
        begun = [it for it in self.sources if path.stem.startswith(f"{it}_")]
        return own or (max(begun, key=len) if begun else None)

    def row_of(self, partition: str | None) -> Row | None:
        return next((it for it in self.top.rows("partition") if it.text("name") == partition), None)


def table_of(path: Path, files: Files) -> Path | None:
    """The table of the module to which a file belongs: a `.toml` file itself, if sources are next to it or it has the usual name; for a source
    `table.toml` of its folder, or else the only `.toml` file."""
    if path.suffix == ".toml":
        return path if path.name == TABLE or files.in_folder(path.parent, ".pal") else None
    tables = files.in_folder(path.parent, ".toml")
    if path.parent / TABLE in tables:
        return path.parent / TABLE
    return tables[0] if len(tables) == 1 else None


def module_of(path: Path, files: Files) -> Module:
    """The module to which a file belongs."""
    table = table_of(path, files)
    top = read_table((files.text(table) or "") if table else "")
    names = list(dict.fromkeys(it.text("name") for it in top.rows("partition") if it.text("name")))
    sources = matched(names, files.in_folder(path.parent, ".pal"))
    taken = set(sources.values())
    return Module(path.parent, table, top, sources, [it for it in files.in_folder(path.parent, ".pal") if it not in taken])


def matched(names: list[str], paths: list[Path]) -> dict[str, Path | None]:
    """The source of each partition: the one of its name, or else the next one that no partition has by its name, in the order of names."""
    by_name = {it.stem: it for it in paths if it.stem in names}
    left = iter([it for it in paths if it.stem not in names and not any(it.stem.startswith(f"{name}_") for name in names)])
    return {name: by_name.get(name) or next(left, None) for name in names}
