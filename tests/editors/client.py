"""An editor without a screen: it starts the language server, and talks to it as editors do."""

import json
import os
import queue
import subprocess
import threading

SECONDS = 60


class Refused(Exception):
    """An answer that is an error."""

    def __init__(self, error):
        super().__init__(f"{error['code']}: {error['message']}")
        self.code = error["code"]


class Client:
    """Talks to a server that it starts. `waiting` has the notifications that came and were not asked for yet, `published` the URIs of the files
    whose diagnostics came."""

    def __init__(self, server, environment, options=None, ready=True):
        self.process = subprocess.Popen(
            [server], stdin=subprocess.PIPE, stdout=subprocess.PIPE, stderr=subprocess.PIPE, env={**os.environ, **environment}
        )
        self.published = set()
        self.came, self.waiting, self.number, self.version, self.answers = queue.Queue(), [], 0, 0, {}
        threading.Thread(target=self.read, daemon=True).start()
        if ready:
            self.ask("initialize", processId=os.getpid(), rootUri=None, capabilities={}, initializationOptions=options or {})
            self.tell("initialized")

    def read(self):
        stream = self.process.stdout
        while line := stream.readline():
            length = int(line.split(b":")[1])
            stream.readline()
            self.came.put(json.loads(stream.read(length)))
        self.came.put(None)

    def raw(self, data):
        self.process.stdin.write(data)
        self.process.stdin.flush()

    def send(self, **members):
        body = json.dumps({"jsonrpc": "2.0", **members}).encode()
        self.raw(b"Content-Length: %d\r\n\r\n" % len(body) + body)

    def tell(self, method, **params):
        self.send(method=method, params=params)

    def ask(self, method, **params):
        """The result of a request."""
        self.number += 1
        self.send(id=self.number, method=method, params=params)
        return self.answer(self.number)

    def answer(self, number):
        while number not in self.answers:
            message = self.next()
            if "id" in message and "method" not in message:
                self.answers[message["id"]] = message
            else:
                self.waiting.append(message)
        message = self.answers.pop(number)
        if "error" in message:
            raise Refused(message["error"])
        return message["result"]

    def next(self):
        try:
            message = self.came.get(timeout=SECONDS)
        except queue.Empty:
            raise TimeoutError(f"nothing has come for {SECONDS} seconds; before, {self.waiting}") from None
        if message and message.get("method") == "textDocument/publishDiagnostics":
            self.published.add(message["params"]["uri"])
        if message is None:
            raise EOFError(f"the server has ended: {self.process.stderr.read().decode()}")
        return message

    def notified(self, method):
        """The parameters of the next notification of this method, one that came before included."""
        while True:
            for at, message in enumerate(self.waiting):
                if message.get("method") == method:
                    return self.waiting.pop(at)["params"]
            message = self.next()
            if "id" in message and "method" not in message:
                self.answers[message["id"]] = message
            else:
                self.waiting.append(message)

    def open(self, path, text=None):
        """Opens a file with this text, or its own; returns its diagnostics."""
        text = path.read_text() if text is None else text
        self.version += 1
        document = {"uri": path.as_uri(), "languageId": path.suffix[1:], "version": self.version, "text": text}
        self.tell("textDocument/didOpen", textDocument=document)
        return self.diagnostics(path, self.version)

    def change(self, path, text, wait=True):
        """Types a text; returns its diagnostics, if it waits for them."""
        self.version += 1
        self.tell("textDocument/didChange", textDocument={"uri": path.as_uri(), "version": self.version}, contentChanges=[{"text": text}])
        return self.diagnostics(path, self.version) if wait else None

    def close(self, path):
        self.tell("textDocument/didClose", textDocument={"uri": path.as_uri()})

    def diagnostics(self, path, version=None):
        """The diagnostics of a version of a file, or of a file that is not open. Those of earlier ones are dropped."""
        while True:
            found = self.notified("textDocument/publishDiagnostics")
            if (found["uri"], found.get("version")) == (path.as_uri(), version):
                return found["diagnostics"]

    def at(self, method, path, line, character, **params):
        """Asks of a place: its line and its character, both from 0."""
        place = {"line": line, "character": character}
        return self.ask(f"textDocument/{method}", textDocument={"uri": path.as_uri()}, position=place, **params)

    def of(self, method, path, **params):
        return self.ask(f"textDocument/{method}", textDocument={"uri": path.as_uri()}, **params)

    def end(self):
        """Ends the server as editors do; returns its status, and what it said on the standard error."""
        self.ask("shutdown")
        self.tell("exit")
        return self.ended()

    def ended(self):
        status = self.process.wait(SECONDS)
        return status, self.process.stderr.read().decode()
