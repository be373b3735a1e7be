"""Walks: tests as steps, one a line, in files *.walk.

A step is a method of what is tested, such as the page, and its arguments: words, numbers, or JSON
from a quote or a bracket on; an object names arguments. After a sign such as `=>` it says what the
method has to give, where a text needs no quotes. `keep NAME STEP` keeps what a step gives, and
`until STEP` waits for it. `$NAME`, or `${NAME}` in a text, is what was kept, or what a line
`NAME = JSON` at the top says.

    == NAME: WHAT IT SHOWS [MARKS]                       begins a walk, with marks of pytest
    -- WORD NAME | NAME ..                               defines a step `WORD | TEXT | TEXT ..`
    each NAME NAME ..: TEXT TEXT .. | TEXT TEXT ..       repeats the indented steps below it

In the steps of the last two {NAME} is its text. Lines with # first are remarks."""

import functools
import json
import operator
import pathlib
import re
from typing import NamedTuple

import pytest

DECODER = json.JSONDecoder()
PLAIN = {"true": True, "false": False, "null": None}
SIGNS = {
    "=>": operator.eq,
    "!=": operator.ne,
    ">=": operator.ge,
    "<=": operator.le,
    "<": operator.lt,
    "=~": operator.contains,
    "!~": lambda found, wanted: wanted not in found,
    "=^": lambda found, wanted: found.startswith(wanted),
    "=$": lambda found, wanted: found.endswith(wanted),
    "=/": lambda found, wanted: re.search(wanted, found),
}


class Walk(NamedTuple):
    file: pathlib.Path
    steps: list
    given: dict

    def go(self, subject, **kept):
        """Does the steps; a failure names its line."""
        going = Going(subject, kept, self.given)
        for number, line in self.steps:
            try:
                going.step(line)
            except Exception as fault:
                raise AssertionError(f"{self.file}:{number}: {line}: {fault!r}") from fault


def params(folder):
    """The walks of a folder, each as a case of pytest."""
    for file in sorted(pathlib.Path(folder).glob("*.walk")):
        yield from read(file)


def read(file):
    blocks = [("", "", [])]
    for number, line in enumerate(file.read_text().split("\n"), 1):
        if found := re.match("(==|--) (.*)", line):
            blocks.append((*found.groups(), []))
        elif line.strip() and not line.startswith("#"):
            blocks[-1][2].append((number, line))
    given = dict(line.split(" = ", 1) for _, line in blocks[0][2])
    given = {name: json.loads(text) for name, text in given.items()}
    own = {}
    for kind, title, lines in blocks[1:]:
        name, marks = re.fullmatch(r"(.*?)(?: \[(.*)\])?", title).groups()
        if kind == "--":
            word, _, names = name.partition(" ")
            own[word] = names.split(" | ") if names else [], lines
            continue
        walk = Walk(file, list(expanded(lines, own)), given)
        marks = [getattr(pytest.mark, mark) for mark in (marks or "").split()]
        yield pytest.param(walk, marks=marks, id=f"{file.stem}: {name.partition(':')[0]}")


def expanded(lines, own):
    """The steps with the numbers of their lines, each as often as it is to be done."""
    lines = list(lines)
    while lines:
        number, line = lines.pop(0)
        indent, word, rest = re.match(r"( *)(\S+) ?(.*)", line).groups()
        if word == "each":
            names, _, texts = rest.partition(": ")
            names, body = names.split(), []
            rows = [row.split(None, len(names) - 1) for row in texts.split(" | ")]
            while lines and lines[0][1].startswith(f"{indent}  "):
                body.append(lines.pop(0))
        elif word in own:
            names, body = own[word]
            rows = [[text.strip() for text in re.split(r" \|(?= |$)", rest)] if rest else []]
        else:
            yield number, line.strip()
            continue
        for row in rows:
            texts = dict(zip(names, row, strict=True))
            fill = lambda it: texts.get(it[1], it[0])
            filled = [(at, re.sub(r"\{(\w+)\}", fill, text)) for at, text in body]
            yield from expanded(filled, own)


class Going:
    """A walk under way, with what it has kept."""

    def __init__(self, subject, kept, given):
        self.subject, self.kept = subject, kept
        for name, value in given.items():
            assert name not in kept, f"{name} at the top hides what has this name for all walks"
            kept[name] = self.filled(value)

    def step(self, line):
        word, _, rest = line.partition(" ")
        if word == "keep":
            name, _, rest = rest.partition(" ")
            self.kept[name], _ = self.done(rest)
        elif word == "until":
            assert self.subject.wait(lambda: self.done(rest, True)[1]), "it does not come"
        else:
            found, holds = self.done(line)
            assert holds, found

    def done(self, text, has_to_be=False):
        """What a step gives, and whether that is as it has to be."""
        (word, *given), sign, wanted = self.parsed(text)
        named = given.pop() if given and isinstance(given[-1], dict) else {}
        method = getattr(self.subject, word, None) or functools.partial(self.subject.js, word)
        found = plain(method(*given, **named))
        if not sign:
            return found, found or not has_to_be
        if not isinstance(found, str) or wanted[:1] == '"':
            (wanted,), *_ = self.parsed(wanted)
        return found, SIGNS[sign](found, plain(self.filled(wanted)))

    def parsed(self, text):
        """The values of a text up to a sign, the sign, and what is after it."""
        values = []
        while text := text.strip():
            if text[0] in '"[{':
                value, end = DECODER.raw_decode(text)
            else:
                value = text.split(None, 1)[0]
                end = len(value)
                if value in SIGNS:
                    return values, value, text[end:].strip()
                value = (
                    int(value) if re.fullmatch(r"0|-?[1-9]\d*", value) else PLAIN.get(value, value)
                )
            values.append(self.filled(value))
            text = text[end:]
        return values, None, None

    def filled(self, value):
        """A value with what was kept in its place."""
        if isinstance(value, list):
            return [*map(self.filled, value)]
        if isinstance(value, dict):
            return {name: self.filled(each) for name, each in value.items()}
        if not isinstance(value, str):
            return value
        if value[:1] == "$" and value[1:] in self.kept:
            return self.kept[value[1:]]
        fill = lambda it: str(self.kept.get(it[1], it[0]))
        return re.sub(r"\$\{?(\w+)\}?", fill, value)


def plain(value):
    return [*map(plain, value)] if isinstance(value, (list, tuple)) else value
