"""What a hover says of an operation, and how a line of the console may go on. What is wanted is
worked out by hand from docs/DAP.md and the commands of docs/FORMATS.md."""

import json
import re

import pytest

from machine import rows
from tests.adapter.frames import DONE, GOOD, framed, launch, texts
from tests.adapter.test_exact import rows_of

SYMBOLS = "LIST EQU 100\nLOOP LDA LIST\n STA LAST\n HLT\n END LOOP\n"


def test_hovers(command):
    """A hover over an operation says what docs/operations.tsv says of it; a watch, and any other name, does not."""
    wanted = {}
    for name, *_, sentence in rows("operations.tsv"):
        sentence = re.sub(r"{([VMF])}", r"\1", sentence).replace("{cell}", "cell M").replace("{line}", "M")
        for short, register in (("A", "rA"), ("X", "rX"), *((str(n), f"rI{n}") for n in range(1, 7))) if "r" in name else (("", ""),):
            wanted[name.replace("r", short)] = sentence.replace("{r}", register)
    asked = [("evaluate", {"expression": f" {name} ", "context": "hover"}) for name in wanted]
    found = [json.loads(text) for text in texts(command, framed(launch(SYMBOLS), DONE, *asked))[0]]
    same = [message["body"].get("result") for message in found if message.get("command") == "evaluate"]
    assert dict(zip(wanted, same, strict=True)) == wanted, "hovers over operations"
    for given in ({"expression": "LDA", "context": "watch"}, {"expression": "LDA"},
                  {"expression": "FADD", "context": "hover"}, {"expression": "LDA 5", "context": "hover"}):
        found = texts(command, framed(launch(SYMBOLS), DONE, ("evaluate", given)))[0]
        assert '"id":202' in found[-1], (f"{given}", found)
    found = texts(command, framed(launch("LDA EQU 5\n END 0\n"), DONE, asked[[*wanted].index("LDA")]))[0]
    assert '"result":"+ 00 00 00 00 05 = 5"' in found[-1], ("a symbol comes before an operation", found)


@pytest.mark.parametrize("first", (0, 1))
def test_completes(command, first):
    """Each line, whether columns are counted from 1 or from 0."""
    rows = [row[1:] for row in rows_of("completions") if row[1]["column"] >= 1 - first]
    asked = [{**given, "column": given["column"] - 1 + first} for given, _ in rows]
    opening = ("initialize", {"columnsStartAt1": first == 1}), launch(SYMBOLS), DONE
    talk = framed(*opening, *(("completions", given) for given in asked))
    found, ended = texts(command, talk)
    found = [it["body"] for it in map(json.loads, found) if it.get("command") == "completions"]
    assert (len(found), ended) == (len(asked), GOOD), "how lines may go on"
    for given, (_, wanted), body in zip(asked, rows, found):
        *labels, start, length = wanted.split() if wanted != "nothing" else (0, 0)
        place = {"start": int(start) - 1 + first, "length": int(length)}
        targets = [{"label": label, **place} for label in labels]
        assert body == {"targets": targets}, f"{given}, columns from {first} on"


def test_missing(command):
    """Neither the text nor the column may be missing, nor the program."""
    asked = [("completions", given) for given in ({"text": "st"}, {"column": 1}, {"text": 5, "column": 1}, {"text": "st", "column": "3"})]
    found, _ = texts(command, framed(asked[0], launch(SYMBOLS), *asked))
    numbers = [message["body"]["error"]["id"] for message in map(json.loads, found) if message.get("command") == "completions"]
    assert numbers == [303, 302, 302, 302, 302], "what is missing"
