"""Messages between an editor and the server: JSON-RPC with a header each, over two streams."""

import json
import threading
from typing import Any, BinaryIO, Iterator

PARSE_ERROR, INVALID_REQUEST, METHOD_NOT_FOUND, INVALID_PARAMS, INTERNAL_ERROR = -32700, -32600, -32601, -32602, -32603
NOT_INITIALIZED, CANCELLED = -32002, -32800
# The bytes of the longest message.
LONGEST = 1 << 28


class Malformed(Exception):
    """What was read is no message. The next one can be read."""


class Reader:
    """Reads messages."""

    def __init__(self, stream: BinaryIO) -> None:
        self.stream = stream

    def __iter__(self) -> Iterator[dict[str, Any] | Malformed]:
        """The messages up to the end of the stream, and in place of what is none, why."""
        while True:
            try:
                message = self.message()
            except Malformed as why:
                yield why
                continue
            if message is None:
                return
            yield message

    def message(self) -> dict[str, Any] | None:
        """The next message, or none at the end of the stream."""
        length = self.length()
        if length is None:
            return None
        body = self.stream.read(length)
        if len(body) < length:
            return None
        try:
            message = json.loads(body)
        except (ValueError, RecursionError) as why:
            raise Malformed(f"a message is not JSON: {why}") from why
        if not isinstance(message, dict):
            raise Malformed("a message is not an object")
        return message

    def length(self) -> int | None:
        """The length that a header gives, or none at the end of the stream."""
        found = None
        while line := self.stream.readline():
            if not line.strip():
                if found is None:
                    raise Malformed(f"a header has no Content-Length, or one above {LONGEST}")
                return found
            name, _, value = line.partition(b":")
            if name.strip().lower() == b"content-length" and value.strip().isdigit():
                found = int(value) if int(value) <= LONGEST else None
        return None


class Writer:
    """Writes messages. Several threads may."""

    def __init__(self, stream: BinaryIO) -> None:
        self.stream = stream
        self.lock = threading.Lock()

    def send(self, **members: Any) -> None:
        body = json.dumps({"jsonrpc": "2.0", **members}).encode()
        with self.lock:
            try:
                self.stream.write(b"Content-Length: %d\r\n\r\n%b" % (len(body), body))
                self.stream.flush()
            except (OSError, ValueError):
                pass  # (the editor is gone; the end of its messages ends the server)

    def notify(self, method: str, **params: Any) -> None:
        self.send(method=method, params=params)

    def answer(self, number: Any, result: Any) -> None:
        self.send(id=number, result=result)

    def refuse(self, number: Any, code: int, why: str) -> None:
        self.send(id=number, error={"code": code, "message": why})
