"""The requests of an editor, and the answers.

One thread reads messages, so that a request can be cancelled before its turn; one answers them in their order; one judges modules.
"""

import logging
import queue
import threading
from pathlib import Path
from typing import Any, BinaryIO, Callable

from . import wire
from .aligning import formatted
from .checking import Checker, program_of
from .completing import complete
from .diagnosing import quick_fixes
from .finding import Occurrence, Place, definitions, outline_of_source, outline_of_table, references
from .module import Files, module_of
from .opened import Opened, path_of
from .telling import hover
from .texts import text_of

log = logging.getLogger("mb-lsp")
FULL_TEXTS = 1
CAPABILITIES = {
    "positionEncoding": "utf-16",
    "textDocumentSync": {"openClose": True, "change": FULL_TEXTS, "save": True},
    "hoverProvider": True,
    "completionProvider": {"triggerCharacters": ["(", ".", '"']},
    "definitionProvider": True,
    "referencesProvider": True,
    "documentSymbolProvider": True,
    "documentFormattingProvider": True,
    "codeActionProvider": {"codeActionKinds": ["quickfix"]},
}
Params = dict[str, Any]


class Refused(Exception):
    """A request that is not answered, with its code."""

    def __init__(self, code: int, why: str) -> None:
        super().__init__(why)
        self.code = code


def member(params: Any, *names: str, kind: type = str) -> Any:
    """A member of the parameters, of this type."""
    found = params
    for name in names:
        found = found.get(name) if isinstance(found, dict) else None
    if not isinstance(found, kind) or isinstance(found, bool):
        raise Refused(wire.INVALID_PARAMS, f"the parameters have no {'.'.join(names)}, or one of another type")
    return found


def position(params: Any, *names: str) -> dict[str, int]:
    return {it: member(params, *names, it, kind=int) for it in ("line", "character")}


class Server:
    """A server for one editor."""

    def __init__(self, source: BinaryIO, sink: BinaryIO) -> None:
        self.reader, self.writer = wire.Reader(source), wire.Writer(sink)
        self.opened = Opened()
        self.checker = Checker(self.opened, self.writer)
        self.messages: queue.SimpleQueue[dict[str, Any] | wire.Malformed | None] = queue.SimpleQueue()
        self.cancelled: set[int | str] = set()
        self.is_ready = self.is_shut_down = False
        self.requests: dict[str, Callable[[Params], Any]] = {
            "initialize": self.initialize,
            "shutdown": self.shutdown,
            "textDocument/hover": self.hover,
            "textDocument/completion": self.completion,
            "textDocument/definition": self.definition,
            "textDocument/references": self.references,
            "textDocument/documentSymbol": self.symbols,
            "textDocument/formatting": self.formatting,
            "textDocument/codeAction": self.fixes,
        }
        self.notifications: dict[str, Callable[[Params], None]] = {
            "textDocument/didOpen": self.opens,
            "textDocument/didChange": self.changes,
            "textDocument/didClose": self.closes,
            "textDocument/didSave": self.saved,
            "workspace/didChangeWatchedFiles": self.saved,
        }

    def serve(self) -> int:
        """Answers until the editor ends; returns the status of the process: 0 if the editor asked for the end before."""
        threading.Thread(target=self.read, daemon=True).start()
        while (message := self.messages.get()) is not None:
            if isinstance(message, wire.Malformed):
                self.writer.refuse(None, wire.PARSE_ERROR, str(message))
            elif message.get("method") == "exit":
                break
            else:
                self.take(message)
        self.checker.end()
        if self.checker.is_alive():
            self.checker.join(5)
        return 0 if self.is_shut_down else 1

    def read(self) -> None:
        """Puts the messages into their queue, and notes which requests are cancelled."""
        try:
            for message in self.reader:
                if isinstance(message, dict) and message.get("method") == "$/cancelRequest":
                    params = message.get("params")
                    number = params.get("id") if isinstance(params, dict) else None
                    if isinstance(number, (int, str)):
                        self.cancelled.add(number)
                else:
                    self.messages.put(message)
        finally:
            self.messages.put(None)

    def take(self, message: dict[str, Any]) -> None:
        """Answers a request, or does what a notification says. Answers of the editor are dropped, since the server asks nothing."""
        method, number = message.get("method"), message.get("id")
        if not isinstance(method, str) or ("id" in message and not isinstance(number, (int, str))):
            if "result" not in message and "error" not in message:
                self.writer.refuse(None, wire.INVALID_REQUEST, "a message is neither a request nor a notification")
            return
        try:
            if "id" in message:
                self.writer.answer(number, self.result(method, number, message.get("params")))
            elif self.is_ready and method in self.notifications:
                self.notifications[method](message.get("params"))
        except Refused as why:
            if "id" in message:
                self.writer.refuse(number, why.code, str(why))
            else:
                self.writer.notify("window/logMessage", type=1, message=f"{method}: {why}")
        except Exception as why:  # (a fault in one answer ends no other)
            log.exception("%s", method)
            if "id" in message:
                self.writer.refuse(number, wire.INTERNAL_ERROR, f"a fault of the server: {why!r}")

    def result(self, method: str, number: int | str, params: Any) -> Any:
        """The result of a request."""
        if number in self.cancelled:
            self.cancelled.discard(number)
            raise Refused(wire.CANCELLED, "the request was cancelled")
        if self.is_shut_down:
            raise Refused(wire.INVALID_REQUEST, "the server is shut down")
        if not self.is_ready and method != "initialize":
            raise Refused(wire.NOT_INITIALIZED, "the first request has to be initialize")
        if method not in self.requests:
            raise Refused(wire.METHOD_NOT_FOUND, f"the server has no {method}")
        return self.requests[method](params)

    # ---- the life of the server

    def initialize(self, params: Params) -> dict[str, Any]:
        if self.is_ready:
            raise Refused(wire.INVALID_REQUEST, "initialize came before")
        options = params.get("initializationOptions") if isinstance(params, dict) else None
        wanted = options.get("mb") if isinstance(options, dict) else None
        self.checker.program = program_of(wanted if isinstance(wanted, str) else None)
        self.checker.start()
        self.is_ready = True
        return {"capabilities": CAPABILITIES, "serverInfo": {"name": "mb-lsp"}}

    def shutdown(self, _: Params) -> None:
        self.is_shut_down = True

    # ---- texts

    def opens(self, params: Params) -> None:
        self.put(params, member(params, "textDocument", "text"))

    def changes(self, params: Params) -> None:
        changes = member(params, "contentChanges", kind=list)
        if any(isinstance(it, dict) and "range" in it for it in changes):
            raise Refused(wire.INVALID_PARAMS, "the server takes whole texts, and no changes of a part")
        if changes:
            self.put(params, member(changes[-1], "text"))

    def put(self, params: Params, text: str) -> None:
        uri, version = member(params, "textDocument", "uri"), member(params, "textDocument", "version", kind=int)
        self.checker.ask([self.opened.put(uri, version, text)])

    def closes(self, params: Params) -> None:
        self.checker.ask([self.opened.drop(member(params, "textDocument", "uri"))])

    def saved(self, _: Params) -> None:
        """A file has changed, perhaps one that is not open: all modules are judged again."""
        self.checker.ask(list(self.opened.files().open))

    # ---- what is asked of a place

    def file(self, params: Params) -> tuple[Path, str, Files]:
        """The file that a request is about, its text, and all files as they are now."""
        path, files = path_of(member(params, "textDocument", "uri")), self.opened.files()
        content = files.text(path)
        if content is None:
            raise Refused(wire.INVALID_PARAMS, f"the file {path} is not open, and cannot be read")
        return path, content, files

    def place(self, params: Params) -> Place:
        path, content, files = self.file(params)
        offset = text_of(content).offset(position(params, "position"))
        return Place(path, content, offset, module_of(path, files), files)

    def location(self, found: Occurrence, files: Files) -> dict[str, Any]:
        text = text_of(files.text(found.path) or "")
        return {"uri": self.opened.uri(found.path), "range": text.range(found.start, found.end)}

    def hover(self, params: Params) -> dict[str, Any] | None:
        said = hover(self.place(params))
        return {"contents": {"kind": "markdown", "value": said}} if said else None

    def completion(self, params: Params) -> list[dict[str, Any]]:
        return complete(self.place(params))

    def definition(self, params: Params) -> list[dict[str, Any]]:
        place = self.place(params)
        return [self.location(it, place.files) for it in definitions(place)]

    def references(self, params: Params) -> list[dict[str, Any]]:
        place = self.place(params)
        context = params.get("context")
        with_declarations = isinstance(context, dict) and context.get("includeDeclaration") is True
        return [self.location(it, place.files) for it in references(place, with_declarations)]

    def symbols(self, params: Params) -> list[dict[str, Any]]:
        path, content, _ = self.file(params)
        return outline_of_table(content) if path.suffix == ".toml" else outline_of_source(content)

    def formatting(self, params: Params) -> list[dict[str, Any]]:
        path, content, _ = self.file(params)
        text = text_of(content)
        edits = formatted(content) if path.suffix == ".toml" else []
        return [{"range": text.range(start, end), "newText": new} for start, end, new in edits]

    def fixes(self, params: Params) -> list[dict[str, Any]]:
        """The quick fixes in a range, of what was found in the text as it is now."""
        path, content, _ = self.file(params)
        wanted = {it: position(params, "range", it) for it in ("start", "end")}
        return quick_fixes(self.opened.uri(path), text_of(content), self.checker.diagnostics(path, content), wanted)
