"""Random edits of sources: after each the diagnostics are those of `mixrev check --json` for the
text as the client has it. Talks with bytes altered, which no server dies of. How long a key takes."""
import json
import time

import pytest

from tests.adapter.frames import frame, sent
from tests.drawing import altered
from tests.lsp import server as client

SOURCES = [text for _, text in client.sources()]
LINES = sorted({line for source in SOURCES for line in source.splitlines()})
PIECES = [*'AXZ19+-*/:=(), "\t', " ", "  ", "\n", "\n", "\r\n", "\r", "LDA "]
PIECES += "2H 2B é Δ 😀 END ALF *".split()
URI = "file:///t.mixal"
KINDS = ["L{0}   LDA  {1}(1:3)  a remark", "     STA  L{2},1", "     ADD  {3}", "* a comment"]
KINDS.append("     ORIG {1}")
POSITIONED = "definition references rename documentSymbol documentHighlight codeAction inlayHint"


def edited(dice, text, encoding):
    """One change of a text, and the text after it."""
    if dice.random() < 0.02:
        text = dice.choice(SOURCES)
        return {"text": text}, text
    first = dice.randint(0, len(text))
    last = min(len(text), first + dice.choice([0, 0, 0, 0, 1, 1, 2, 8, 40]))
    # A place between the two bytes that end a line is none of the protocol.
    first, last = (at - (0 < at and text[at - 1 : at + 1] == "\r\n") for at in (first, last))
    new = "".join(dice.choice(PIECES) for _ in range(dice.choice([0, 1, 1, 1, 2, 3])))
    if dice.random() < 0.1:
        new = dice.choice(LINES) + "\n"
    places = {
        side: client.place_of(text, at, encoding) for side, at in (("start", first), ("end", last))
    }
    return {"range": places, "text": new}, text[:first] + new + text[last:]


@pytest.mark.parametrize("encoding", [None, "utf-8", "utf-32"])
@pytest.mark.parametrize("part", range(4))
def test_edits(serve, program, request, dice, encoding, part):
    server, text = serve(encoding), dice.choice(SOURCES)
    server.open(URI, text)
    for version in range(2, 2 + (request.config.getoption("--examples") or 600) // 12):
        changes = []
        for _ in range(dice.choice([1, 1, 1, 2])):
            change, text = edited(dice, text, server.encoding)
            changes.append(change)
        told = server.change(URI, version, changes)
        want = client.wanted(program, text, server.encoding)
        assert told == {"uri": URI, "version": version, "diagnostics": want}, (changes, text)


def talk(dice):
    """A talk that asks about places of a text in an encoding."""
    encoding = dice.choice(["utf-8", "utf-16", "utf-32"])
    capabilities = {"general": {"positionEncodings": [encoding]}}
    asked = [("initialize", {"capabilities": capabilities})]
    for method in [*POSITIONED.split(), "semanticTokens/full"]:
        where = {"line": dice.randint(0, 4), "character": dice.randint(0, 12)}
        params = {"position": where, "range": {"start": where, "end": {"line": 9, "character": 0}}}
        more = {"newName": "NEW", "context": {"includeDeclaration": True}}
        asked.append((f"textDocument/{method}", {"textDocument": {"uri": URI}, **params, **more}))
    messages = [
        {"id": at, "method": method, "params": params} for at, (method, params) in enumerate(asked)
    ]
    text = "2H   LDA  X,1(2:3)  é\n     JMP  2B\nX    CON  5\n     END  2B\n"
    document = {"textDocument": {"uri": URI, "version": 1, "text": text}}
    messages.insert(1, {"method": "textDocument/didOpen", "params": document})
    end = {"line": dice.randint(0, 3), "character": 4}
    change = {"range": {"start": {"line": 0, "character": 3}, "end": end}, "text": "Q"}
    changed = {"textDocument": {"uri": URI, "version": 2}, "contentChanges": [change]}
    messages.insert(3, {"method": "textDocument/didChange", "params": changed})
    messages.append({"id": 99, "method": "shutdown"})
    return b"".join(frame(json.dumps({"jsonrpc": "2.0", **one}).encode()) for one in messages)


@pytest.mark.parametrize("part", range(6))
def test_altered_frames(program, request, dice, part):
    """The status is 0, or 2 with one line on standard error, or 1 where the talk says `exit`."""
    for _ in range((request.config.getoption("--examples") or 600) // 6):
        said = talk(dice)
        for _ in range(dice.choice([1, 1, 2, 5])):
            said = altered(dice, said, b'0 9 - " } [ \r\n null 1e99'.split(b" "))
        _, errors, status = sent([program, "lsp"], said)
        told = errors.startswith(b"mixrev: T") and errors.count(b"\n") == 1
        assert status == 2 and told or status in (0, 1) and not errors, said


@pytest.mark.parametrize("count, most", [(2000, 30), (20000, 150)])
def test_key(serve, count, most):
    """The least of twenty keys, or of two hundred: three times 10 and 50 ms, beside other programs."""
    lines = [KINDS[(n - 1) % 5].format(n, n % 3000, n - 1, n % 4000) for n in range(1, count - 1)]
    server = serve()
    server.open(URI, "\n".join(["     ORIG 0", *lines, "     END  0\n"]))
    best = most + 1
    for version in range(2, 202):
        if version >= 22 and best <= most:
            break
        at = {"line": count - 5, "character": 20}
        began = time.perf_counter()
        server.change(URI, version, [{"range": {"start": at, "end": at}, "text": "x"}])
        best = min(best, (time.perf_counter() - began) * 1000)
    assert best <= most, f"{best:.1f} ms for a key in {count} lines"
