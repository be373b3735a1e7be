"""The layout of every source of course/ and examples/, and of each with other blanks in its lines.

- The edits are of whole lines, and of those that change alone; what follows END stays.
- `mixrev list` has the same cells, words and symbols, and `mixrev check` the same faults by line.
- A text that was laid out stays as it is; parts with other blanks between them come back to their
  columns."""
import re

from tests.adapter.frames import sent
from tests.lsp import server as client

# LOC, OP, ADDRESS and a remark, at the columns 1, 9, 14 and 27
COLUMNS = re.compile(
    r"(?=.{8})(\S{1,7} *(?<=^.{8})| {8})([A-Z0-9]{2,4})"
    r'(?: *(?<=^.{13})("[^"]{5}"|[^\s"]{1,12})(?: +(?<=^.{26})(\S.*))?)?$'
)
BODY = re.compile(r"(?sm).*?^[A-Z0-9]*[ ]+END\b[^\n]*\n|.*")


def laid(server, uri, text):
    """A text after the edits of its layout."""
    asked = {"textDocument": {"uri": uri}, "options": {"tabSize": 8, "insertSpaces": True}}
    lines = text.split("\n")
    for edit in server.ask("textDocument/formatting", asked):
        number = edit["range"]["start"]["line"]
        old = lines[number].rstrip("\r")
        ends = ({"line": number, "character": at} for at in (0, client.units(old, "utf-16")))
        assert edit["range"] == dict(zip(("start", "end"), ends))
        assert edit["newText"] != old
        lines[number] = edit["newText"] + "\r" * lines[number].endswith("\r")
    return "\n".join(lines)


def told(program, text):
    """The cells, the words and the symbols of a text, and its faults and warnings by their lines."""
    listing = sent([program, "list", "-"], text.encode())[0].decode().splitlines()
    said = [
        (fault["line"], fault["code"], fault["severity"]) for fault in client.check(program, text)
    ]
    return [line[:29] if re.match(r".{24} *\d+  ", line) else line for line in listing], said


def with_other_blanks(dice, line):
    """A line in its columns with other blanks between its parts."""
    found = COLUMNS.match(line)
    if not found or line.startswith("*"):
        return line
    loc, op, address, remark = (part or "" for part in found.groups())

    def blanks():
        return dice.choice([" ", "  ", "\t", "   ", " \t "])

    # one blank before a comma, a sign or a bracket may be a slip, and then the line stays
    before = "  " if remark[:1] in tuple(",(+-*/") else dice.choice([" ", "   ", "\t"])
    parts = [loc.strip(), blanks(), op, blanks() + address if address else ""]
    return "".join([*parts, before + remark if remark else "", dice.choice(["", "", " ", "\t "])])


def test_layout(serve, program, dice):
    server = serve()
    for number, (name, source) in enumerate(client.sources()):
        body, uri, results = BODY.match(source).group(), f"file:///{number}.mixal", set()
        after = source[len(body) :]
        others = "\n".join(with_other_blanks(dice, line) for line in body.split("\n"))
        for text in (body + after, others + after):
            server.open(uri, text)
            new = laid(server, uri, text)
            assert told(program, new) == told(program, text), name
            assert new.endswith(after), name
            server.change(uri, 2, [{"text": new}])
            assert laid(server, uri, new) == new, name
            results.add(new)
        assert len(results) == 1, name
