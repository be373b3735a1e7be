"""The hints and tokens of each line of every source of course/ and examples/, and of altered ones.

- The hints of a range are the rows of `mixrev list` with a location, a word and one of its lines.
- The tokens are the parts of each line, as docs/LANGUAGE.md has them, with their kinds."""
import re

import pytest

from tests.adapter.frames import sent
from tests.lsp import server as client

ROW = re.compile(r"(\d{4}  [+-](?: \d\d){5})  +(\d+)  ")
PIECES = [*'AXZ19+-*/:=(), "\t', " ", "  ", "\n", *'2H 2B END HLT = * "'.split(), "LDA ", "ALF "]


def parts(line):
    """The parts of a line: each with its kind and its first and last character."""
    if line.startswith("*"):
        return [("comment", 0, len(line))]
    found = []
    loc = re.match(r"[^ \t]*", line)
    op = re.compile(r"[ \t]*([^ \t]*)").match(line, loc.end())
    found += [("label", *loc.span()), ("keyword", *op.span(1))]
    rest = re.compile(r"[ \t]*").match(line, op.end()).end()
    word = op.group(1).upper()
    if word == "ALF" and line[rest : rest + 1] == '"':
        end = line.find('"', rest + 1) + 1 or len(line)
        found.append(("string", rest, end))
    elif word == "ALF":
        start = min(op.end() + 1 + (line[op.end() + 1 : op.end() + 2] in (" ", "\t")), len(line))
        end = min(start + 5, len(line))
        found.append(("string", start, end))
    elif word in ("HLT", "NUM", "CHAR") and re.match("[A-Za-z]", line[rest : rest + 1]):
        end = rest
    else:
        end = re.compile(r"[^ \t]*").match(line, rest).end()
        address, start = line[rest:end], rest
        if address.startswith("="):
            literal = re.match("=[^=]*=?", address).end()
            found.append(("macro", rest, rest + literal))
            address, start = address[literal:], rest + literal
        for atom in re.finditer("[A-Za-z0-9]+", address):
            kind = "number" if atom.group().isdigit() else "variable"
            found.append((kind, start + atom.start(), start + atom.end()))
    found.append(("comment", re.compile(r"[ \t]*").match(line, end).end(), len(line)))
    return [one for one in found if one[1] < one[2]]


def decoded(data, kinds):
    """Tokens by their places: the line, the first unit, the length and the kind."""
    line = start = 0
    for down, right, length, kind, modifiers in zip(*(data[at::5] for at in range(5))):
        line, start = (line + down, right) if down else (line, start + right)
        assert modifiers == 0
        yield line, start, length, kinds[kind]


def altered(dice, text):
    """A source with some of its characters altered."""
    text = text.encode("ascii", "replace").decode()
    for _ in range(dice.choice([1, 3, 10, 40])):
        at = dice.randrange(len(text))
        text = text[:at] + dice.choice([*PIECES, ""]) + text[at + dice.choice([0, 0, 1, 3]) :]
    return text


@pytest.mark.parametrize("encoding", ["utf-16", "utf-8", "utf-32"])
def test_lines(serve, program, dice, encoding):
    sources = [text.replace("remark", "rémark 😀") for _, text in client.sources()]
    sources += [altered(dice, dice.choice(sources)) for _ in range(200)]
    server = serve(encoding)
    provider = server.abilities["capabilities"]["semanticTokensProvider"]
    kinds, units = provider["legend"]["tokenTypes"], lambda text: client.units(text, encoding)
    for number, text in enumerate(sources):
        lines = [line.rstrip("\r") for line in text.split("\n")]
        document = {"textDocument": {"uri": f"file:///{number}.mixal"}}
        server.open(document["textDocument"]["uri"], text)
        listing = sent([program, "list", "-"], text.encode())[0].decode().split("\n")
        rows = {int(found[2]) - 1: found[1] for found in map(ROW.match, listing) if found}
        first = dice.randrange(len(lines))
        for first, last in ((0, len(lines)), (first, dice.randrange(first, len(lines)))):
            ends = ({"line": line, "character": 0} for line in (first, last))
            asked = {**document, "range": dict(zip(("start", "end"), ends))}
            places = {at: {"line": at, "character": units(lines[at])} for at in rows}
            assert server.ask("textDocument/inlayHint", asked) == [
                {"position": places[at], "label": rows[at], "paddingLeft": True}
                for at in sorted(rows)
                if first <= at <= last
            ]
        data = server.ask("textDocument/semanticTokens/full", document)["data"]
        assert [*decoded(data, kinds)] == [
            (at, units(line[:start]), units(line[start:end]), kind)
            for at, line in enumerate(lines)
            for kind, start, end in parts(line)
        ]
