"""What `show analysis`, `show nodes` and `show passages` answer of small programs: the talks of shows.txt, worked by hand.

In a talk stands the source, then each line that is asked with `$`, and its reply; `..` is a reply that nobody looks at. The requests for the same
values, `mix/analysis` and the others, are asked after each, and the reply is written again from what they give."""
import pathlib
import re

import pytest

from running import Bundle
from tests.asking import asked, line, reply_of
from tests.rowfiles import parts


def talks():
    for name, talk in parts(pathlib.Path(__file__).with_name("shows.txt")):
        source, *replies = re.split(r"(?m)^\$ ", talk)
        yield pytest.param(source, [reply.partition("\n")[::2] for reply in replies], id=name)


def nodes(body, source):
    def led(link):
        back = "back:" if link.get("back") else ""
        if "cell" in link:
            return f"{back}{link['cell']:04}"
        return f"inside:{link['inside']:04}" if "inside" in link else f"out:{link['out']}" if "out" in link else "nil"

    yield from (f"head {each['head']} {led(each)}" for each in body["heads"])
    yield from (f"pointer {each['register']} {each['cell']:04}" for each in body["pointers"])
    for each in body["nodes"]:
        labels = " ".join(["", "label", *each["labels"]] if each["labels"] else "")
        yield " ".join([f"node {each['cell']:04} row {each['row']}{labels} links", *map(led, each["links"])])
    yield from (f"unreached {many}" for many in [body["unreached"]] if many)


def passages(body, source):
    widths = [7, *(max(11, len(column)) for column in body["columns"])]
    rows = [["state", *body["columns"], body.get("assertion")]]
    rows += [[each["state"], *each["numbers"], str(each["holds"]).lower() if "holds" in each else None] for each in body["rows"]]
    for *row, last in rows:
        yield "  ".join([*(f"{each:>{width}}" for each, width in zip(row, widths, strict=True)), *filter(None, [last])])
    yield from (f".. and {many} before" for many in [body["before"]] if many)


def analysis(body, source):
    said = body["text"].splitlines()
    for each in body["lines"]:
        number = each["line"]
        yield f"{each['count']:>10}  {each['value']:>10}  {each['verdict']:4}{number:5}  {source[number - 1]}"
        assert f"[{each['formula']}]" in source[number - 1]
        yield from (text for text in said if text.startswith(f"? line {number} "))
    names = " ".join(["names", *(f"{each['name']}={each['value']}" for each in body["names"])])
    assert names in said
    yield from (text for text in said if text[0] != "?")


@pytest.mark.parametrize("source, replies", talks())
def test_talk(program, source, replies):
    bundle = Bundle(source)
    topics = [re.match(r"show (analysis|nodes|passages)\b ?(.*)", text) for text, _ in replies]
    requests = [[line(text), *([(f"mix/{topic[1]}", {"of": topic[2]})] if topic else [])] for (text, _), topic in zip(replies, topics, strict=True)]
    found = iter(asked(program, bundle, sum(requests, [])))
    for (text, wanted), topic in zip(replies, topics, strict=True):
        each = next(found)
        assert wanted == "..\n" or reply_of(each) + "\n" * (not each["success"]) == wanted, text
        if topic:
            # no line of a script stands for it: it only asks
            assert "line" not in each.get("body", {}), text
            values = next(found)
            written = globals()[topic[1]]
            assert [*written(values["body"], bundle.source)] == reply_of(each).splitlines() if each["success"] else values["message"] == each["message"], text
