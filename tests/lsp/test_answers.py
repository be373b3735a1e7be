"""What the server answers, message by message. answers.rows has the rows of each kind."""
import json
import random
import re
import string
from itertools import zip_longest
from pathlib import Path

import pytest

from tests.adapter.frames import frame, messages, sent
from tests.lsp import server as client
from tests.rowfiles import rows_of
from tests.rows.faces import bytes_of

URI = "file:///a.mixal"
OPERATIONS = client.TOP / "docs" / "operations.tsv"
PSEUDO = ["EQU", "ORIG", "CON", "ALF", "END"]
LETTERS = string.ascii_uppercase + string.digits
ABLE = """definitionProvider referencesProvider documentHighlightProvider documentSymbolProvider
    hoverProvider foldingRangeProvider codeActionProvider documentFormattingProvider
    inlayHintProvider"""
TYPES = ["label", "keyword", "variable", "number", "macro", "string", "comment"]
TOKENS = {"full": True, "legend": {"tokenModifiers": [], "tokenTypes": TYPES}}
ABILITIES = dict.fromkeys(ABLE.split(), True) | {
    "textDocumentSync": {"openClose": True, "change": 2},
    "completionProvider": {},
    "renameProvider": {"prepareProvider": True},
    "semanticTokensProvider": TOKENS,
}


def rows():
    """The rows, each of them with the text that it is about."""
    text = ""
    for number, kind, fields, wanted in rows_of(Path(__file__).with_name("answers.rows")):
        fields = [bytes_of(field).decode("utf-8", "surrogateescape") for field in fields]
        if kind == "text":
            (text,) = fields
        else:
            yield pytest.param(kind, text, fields, wanted.strip(), id=f"{number} {kind}")


def frame_of(field):
    """The bytes of a frame as rows have it."""
    if field[0] == ":":
        return field[1:].encode()
    if field[0] not in '{["':
        method, _, number = field.partition("#")
        params = {"capabilities": {}} if method == "initialize" else {}
        message = {"jsonrpc": "2.0", "method": method, "params": params}
        number = int(number) if number.isdigit() else number
        field = json.dumps({**message, "id": number} if number else message)
    return frame(field.encode("utf-8", "surrogateescape"))


def talk(command, fields):
    """The answers, each as its id and its code, and how the talk ended."""
    output, errors, status = sent(command, b"".join(map(frame_of, filter(None, fields))))
    found = [
        f"{one.get('id')} {one['error']['code'] if 'error' in one else 'ok'}"
        for one in messages(output)
    ]
    return [*found, f"status {status}", *errors.decode().splitlines()]


def told(command, fields):
    output, _, _ = sent(command, b"".join(map(frame_of, fields)))
    found = messages(output)
    return [one["error"]["message"] if "error" in one else str(one.get("method")) for one in found]


@pytest.fixture
def ask(serve):
    """Asks a server about a text: a method, a place or the first and last line, and more."""
    server = serve()

    def asked(text, method, where="", **more):
        server.open(URI, text)
        place = {"textDocument": {"uri": URI}, **more}
        if re.search("[-:]", where):
            first, last = map(int, re.split("[-:]", where))
            ends = [{"line": line, "character": 0} for line in (first, last)]
            span = {"start": ends[0], "end": ends[1]}
            at = {"line": first, "character": last}
            place |= {"position": at} if ":" in where else {"range": span}
        return server.ask(method, place)

    return asked


def point(place):
    return f"{place['line']}:{place['character']}"


def mended(text, action):
    """An action's title, and the lines of the text that its only edit alters."""
    (edit,) = action["edit"]["changes"][URI]
    lines = text.splitlines(True)
    start, end = (
        sum(map(len, lines[: place["line"]])) + place["character"]
        for place in (edit["range"]["start"], edit["range"]["end"])
    )
    new = (text[:start] + edit["newText"] + text[end:]).splitlines(True)
    differ = [f"[{two}]".replace("\n", "") for one, two in zip_longest(lines, new) if one != two]
    return " ".join([action["title"], *differ]).replace("\r]", "]")


def actions(ask, text, where):
    """What mends some lines of a text, each as `mended` has it."""
    found = ask(text, "textDocument/codeAction", where, context={"diagnostics": []})
    return [mended(text, action) for action in found]


def hover(found):
    assert found["contents"]["kind"] == "plaintext"
    return [found["contents"]["value"]]


# What a row has of the result of a request, by its method.
SHOWN = {
    "textDocument/rename": lambda found: sorted(
        f"{point(edit['range']['start'])} {edit['newText']}" for edit in found["changes"][URI]
    ),
    "textDocument/prepareRename": lambda found: [f"{point(found['start'])}-{point(found['end'])}"],
    "textDocument/documentHighlight": lambda found: [
        f"{'=' if one['kind'] == 3 else '@'}{point(one['range']['start'])}" for one in found
    ],
    "textDocument/documentSymbol": lambda found: [one["name"] for one in found],
    "textDocument/completion": lambda found: [one["label"] for one in found],
    "textDocument/hover": hover,
    "textDocument/inlayHint": lambda found: [
        f"{point(one['position'])} {one['label']}" for one in found
    ],
    "textDocument/foldingRange": lambda found: [
        f"{one['startLine']}-{one['endLine']} {one['kind']}" for one in found
    ],
}


@pytest.mark.parametrize("kind, text, fields, wanted", rows())
def test_row(program, ask, kind, text, fields, wanted):
    if kind in ("talk", "told"):
        found = {"talk": talk, "told": told}[kind]([program, "lsp"], fields)
    elif kind == "mend":
        found = actions(ask, text, fields[0])
    elif kind == "meant":
        found = actions(ask, text.replace("%", fields[0]), "3-3")
    elif kind == "kinds":
        found = [
            one["kind"]
            for one in ask(*fields, "textDocument/codeAction", "0-0", context={"diagnostics": []})
        ]
    elif kind == "tokens":
        data = ask(text, "textDocument/semanticTokens/full")["data"]
        found = [" ".join(map(str, data[at : at + 5])) for at in range(0, len(data), 5)]
    else:
        more = {"newName": fields[1]} if kind == "textDocument/rename" else {}
        result = ask(text, kind, fields[0], **more)
        failed = result is None or "code" in result
        found = (
            [f"error {result['code']}" if result else "nothing"] if failed else SHOWN[kind](result)
        )
    assert ", ".join(found) == bytes_of(wanted).decode()


@pytest.mark.parametrize("encoding", ["utf-8", "utf-16", "utf-32"])
def test_encodings(serve, program, encoding):
    server = serve(encoding)
    able = {**ABILITIES, "positionEncoding": encoding}
    assert server.abilities == {"capabilities": able, "serverInfo": {"name": "mixrev"}}
    lines = "\r\n2H   LDA  X\rX    CON  2F\n2H   JMP  2B\n     END  2B\n"
    server.open(URI, f"* é😀{lines}")
    place = {"line": 3, "character": 11}
    more = {"context": {"includeDeclaration": True}}
    found = server.at("textDocument/references", URI, place, **more)
    assert [point(one["range"]["start"]) for one in found] == ["1:0", "3:10"]
    ends = ({"line": 0, "character": at} for at in (2, client.units("* é😀", encoding)))
    change = {"range": dict(zip(("start", "end"), ends)), "text": "ok"}
    told = server.change(URI, 2, [change])["diagnostics"]
    assert told == client.wanted(program, f"* ok{lines}", encoding)


def test_no_character_is_cut(serve, program):
    server = serve("utf-8")
    server.open(URI, "é    NOP\n     END  0\n")
    within = {"start": {"line": 0, "character": 1}, "end": {"line": 0, "character": 2}}
    told = server.change(URI, 2, [{"range": within, "text": "A"}])["diagnostics"]
    assert told == client.wanted(program, "A    NOP\n     END  0\n", "utf-8")


def test_closed(serve):
    server = serve()
    server.open(URI, " END 0\n")
    server.tell("textDocument/didClose", {"textDocument": {"uri": URI}})
    assert server.hear()["params"] == {"uri": URI, "diagnostics": []}
    place = {"line": 0, "character": 0}
    assert server.at("textDocument/definition", URI, place)["code"] == -32602


def operations():
    """Each operation, and how what is said of it ends: its C, its F and its time, by the table."""
    for row in OPERATIONS.read_text().splitlines()[1:]:
        name, code, field, time = row.split("\t")[:4]
        time = time.replace("1+2F", str(1 + 2 * int(field)))
        for offset, letter in enumerate("A123456X" if "r" in name else "r"):
            ends = f"(C = {int(code) + offset}, F = {field}, {time}u)"
            yield name.replace("r", letter), ends


EVERY = dict(operations())


def test_completion_of_op(ask):
    items = ask("X    EQU  5\n     LDA  X\n     END  0\n", "textDocument/completion", "1:6")
    assert sorted(one["label"] for one in items) == sorted([*EVERY, *PSEUDO])
    for one in items:
        assert one["detail"].endswith(EVERY.get(one["label"], "")), one


def slips(word):
    """A word with a letter less, another one, one more, or two exchanged."""
    cuts = [(word[:at], word[at:]) for at in range(len(word) + 1)]
    found = {a + b[1:] for a, b in cuts} | {a + b[1::-1] + b[2:] for a, b in cuts}
    return (found | {a + c + b[k:] for a, b in cuts for c in LETTERS for k in (0, 1)}) - {word}


def test_operations_that_are_near(ask):
    """Instead of a word that is near to several, the first in the order of C and F is written."""
    codes = {name: [int(one) for one in re.findall(r"\d+", EVERY[name])[:2]] for name in EVERY}
    ordered = [*sorted(EVERY, key=codes.get), *PSEUDO]
    dice, near = random.Random(7), {name: slips(name) for name in ordered}
    words = [dice.choice(sorted(near[dice.choice(ordered)] - {*ordered, ""})) for _ in range(300)]
    for at in range(0, 300, 10):
        text = "".join(f" {word} 0\n" for word in words[at : at + 10])
        found = ask(text, "textDocument/codeAction", "0-9", context={"diagnostics": []})
        meant = [
            next(name for name in ordered if word in near[name]) for word in words[at : at + 10]
        ]
        assert [one["title"] for one in found] == [f"Write {name}" for name in meant]
