"""The texts that the editor has open."""

import threading
from pathlib import Path
from urllib.parse import unquote, urlsplit

from .module import Files


def path_of(uri: str) -> Path:
    """The file of a URI. A text that is no file has a path in a folder that is not there."""
    parts = urlsplit(uri)
    if parts.scheme == "file":
        return Path(unquote(parts.path))
    return Path("/dev/null") / (unquote(parts.path).strip("/") or "untitled")


class Opened:
    """The texts by their files, with their versions, and the URIs by which the editor names these."""

    def __init__(self) -> None:
        self.texts: dict[Path, str] = {}
        self.versions: dict[Path, int] = {}
        self.uris: dict[Path, str] = {}
        self.lock = threading.Lock()

    def put(self, uri: str, version: int, text: str) -> Path:
        path = path_of(uri)
        with self.lock:
            self.texts[path], self.versions[path], self.uris[path] = text, version, uri
        return path

    def drop(self, uri: str) -> Path:
        path = path_of(uri)
        with self.lock:
            self.texts.pop(path, None)
        return path

    def files(self) -> Files:
        """The files as they are now."""
        with self.lock:
            return Files(dict(self.texts), dict(self.versions))

    def uri(self, path: Path) -> str:
        with self.lock:
            return self.uris.get(path) or path.as_uri()
