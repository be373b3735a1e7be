"""A client of the language server: messages in frames, and texts that are counted as the protocol does."""
import json
import re
import subprocess
import threading

from tests import TOP
from tests.adapter.frames import Channel

ENDS = re.compile("\r\n|\n|\r")


def sources():
    """The sources of course/ and examples/, each with its name."""
    for path in (*sorted(TOP.glob("course/**/*.mixal")), *sorted(TOP.glob("examples/*.mixal"))):
        yield str(path), path.read_bytes().decode()


class Client(Channel):
    """Speaks with `PROGRAM lsp`; `encoding` is utf-8, utf-16 or utf-32."""

    def __init__(self, command, encoding=None):
        super().__init__(command)
        self.asked = 0
        self.encoding = encoding or "utf-16"
        general = {"general": {"positionEncodings": [encoding]}} if encoding else {}
        self.abilities = self.ask("initialize", {"processId": None, "rootUri": None, "capabilities": general})
        self.tell("initialized", {})

    def tell(self, method, params, **more):
        message = {"jsonrpc": "2.0", "method": method, "params": params, **more}
        self.send(json.dumps(message).encode())

    def hear(self):
        """The next message; a server that says none for two minutes is ended."""
        late = threading.Timer(120, self.process.kill)
        late.start()
        body = self.read_frame()
        late.cancel()
        return json.loads(body)

    def ask(self, method, params):
        """The result of a request, or its error."""
        self.asked += 1
        self.tell(method, params, id=self.asked)
        answer = self.hear()
        assert answer["id"] == self.asked, answer
        return answer["result"] if "result" in answer else answer["error"]

    def open(self, uri, text, version=1):
        document = {"uri": uri, "languageId": "mixal", "version": version, "text": text}
        self.tell("textDocument/didOpen", {"textDocument": document})
        return self.hear()["params"]

    def change(self, uri, version, changes):
        document = {"textDocument": {"uri": uri, "version": version}}
        self.tell("textDocument/didChange", {**document, "contentChanges": changes})
        return self.hear()["params"]

    def at(self, method, uri, position, **more):
        return self.ask(method, {"textDocument": {"uri": uri}, "position": position, **more})

    def end(self):
        """Shuts the server down: its status."""
        self.ask("shutdown", None)
        self.tell("exit", None)
        return super().end()


def units(text, encoding):
    """How many units of an encoding a text has."""
    if encoding == "utf-8":
        return len(text.encode())
    return len(text.encode("utf-16-le")) // 2 if encoding == "utf-16" else len(text)


def place_of(text, at, encoding):
    """The place of a character of a text. It does not stand between a carriage return and its line feed."""
    ends = [end.end() for end in ENDS.finditer(text) if end.end() <= at]
    return {"line": len(ends), "character": units(text[ends[-1] if ends else 0:at], encoding)}


def check(program, text):
    """What `mixrev check --json` says of a text."""
    run = subprocess.run([program, "check", "--json", "-"], input=text.encode(), stdout=subprocess.PIPE)
    return [json.loads(line) for line in run.stdout.splitlines()]


def wanted(program, text, encoding):
    """The diagnostics that the server has to tell of a text: those of the check."""
    starts = [0] + [end.end() for end in re.finditer("\n", text)]
    found = []
    for fault in check(program, text):
        line = fault["line"] - 1
        start = starts[line] if line < len(starts) else len(text)
        if start == len(text) and line:
            first = last = {"line": len(ENDS.split(text)) - (text.endswith(("\n", "\r")) or not text), "character": 0}
        else:
            first = place_of(text, start + fault.get("column", 1) - 1, encoding)
            last = place_of(text, start + fault.get("endColumn", fault.get("column", 1)) - 1, encoding)
        found.append({"range": {"start": first, "end": last}, "severity": 1 if fault["severity"] == "error" else 2,
                      "code": fault["code"], "source": "mixrev", "message": fault["text"]})
    return found
