"""Work grows with what is asked and no faster, by the instructions that callgrind counts: no clock is read.

Of a text of one, two and four lengths the step from two to four takes twice the step from one to two. Each command has a bound of its instructions and of the
bytes that it asks for, after ten, a thousand and a million changes."""

import contextlib
import os
import pathlib
import pty
import re
import shutil
import subprocess

import pytest

from tests.adapter.frames import DONE, framed, launch
from tests.asking import line as typed
from tests.hostile.inputs import HERE, bundle, lines, repeated, rows_of

pytestmark = pytest.mark.skipif(not shutil.which("valgrind"), reason="what counts instructions, since there is no valgrind")

# Twice, and a tenth for what is done once and for the lengths of numbers.
MOST = 2.2


@contextlib.contextmanager
def given(runner, text, is_typed=False):
    """A file that has this text, or a terminal at which it is typed, and then the input's end."""
    if not is_typed:
        with open(runner.place / runner.file("in", text)) as file:
            yield file.fileno()
        return
    ours, theirs = pty.openpty()
    os.write(ours, text + b"\4")
    yield theirs
    os.close(ours)
    os.close(theirs)


def valgrind(runner, file, words, *options):
    command = ["valgrind", "--tool=callgrind", *options, runner.program, *words]
    return subprocess.run(command, stdin=file, cwd=runner.place, capture_output=True).stderr


def instructions(runner, text, words=()):
    with given(runner, text, "debug" in words) as file:
        said = valgrind(runner, file, words, "--callgrind-out-file=/dev/null")
    return int(re.search(rb"Collected : (\d+)", said)[1])


TAPE = b" ".join([b"+0102030405"] * 100) + b"\n"
# Name, the text of a length, the first length, the words, and the power with which the work may grow.
TEXTS = [
    (name.decode(), lambda n, text=text: repeated(text.replace(b"TAPE", TAPE), n), int(length), "", 1)
    for name, length, text in rows_of("linear")
]
# The second change conflicts with a transfer that takes very long, and no other does.
SOURCE = bundle(lines(" OUT 200(18)", " STZ 200", "LOOP INCA 1", " STA 100", " JMP LOOP", " END 0"), b"", b"%UNIT 18 delay 1000000000\n")
SIZES = (10, 1000, 1000000)
# What is done by `source`.
LINES = b"step\n" * 3
# A command, and another that does its work one by one, or for each change, or with room for much:
# the bounds of the first refuse it.
MISTAKES = {
    "write": [("run N", "run 1", 1000), ("step N", "step", 1000), ("back N", "back 1", 1000),
              ("forth N", "forth 1", 1000), ("show clock", "back all", 1),
              ("show values", "show last 1", 1)],
    "read": [("reload", "source lines", 300), ("where", "show analysis", 1), ("list", "reload", 1),
             ("display A", "step", 1), ("show passages LOOP of A X", "step", 1000)],
}


def talk(source, *requests):
    return framed(("initialize", {}), launch(source), DONE, *requests)


def passed(n):
    """Breakpoints at all lines, whose conditions never hold."""
    points = [{"line": k + 1, "condition": "A=1"} for k in range(n)]
    requests = ("setBreakpoints", {"breakpoints": points}), ("continue", {})
    return talk(" NOP\n" * n + " HLT\n END 0\n", *requests)


def linked(n):
    nodes = "show nodes from 0 to %d, 1 words each, links 0(0:2)" % n
    return talk(" NOP 1000\n" * n + " HLT\n END 0\n", typed(nodes))


def looping(words):
    """A view of so many steps of a loop."""
    return lambda n: talk(" JMP 0\n END 0\n", typed("run %d" % n), typed(words))


def formulas(text, last):
    """Lines that each give a name its value."""
    each = lambda n: "".join(" NOP 0 [%s]\n" % text.format(k, k + 1) for k in range(n))
    return lambda n: (each(n) + " HLT 0 [%s]\n END 0\n" % last.format(n)).encode()


INDEX, FIELD, NOP = b" LDA 5,7\n", b" LDA 5(6:6)\n", b" NOP\n"
COUNTDOWN = b" ENT1 %d\n DEC1 1\n J1P 1\n HLT\n END 0\n"
FORMULAS, PICTURE = "run --formulas N=1 -", "run --svg /dev/null -"
# The same of lists, with the words of the command; with 2 the work may grow with the square.
LISTS = [
    ("faults", lambda n: INDEX * n + b" END 0\n", 25, "check -", 2),
    ("lines before faults", lambda n: b"*\n" * n + INDEX * 100 + b" END 0\n", 200, "check -", 1),
    ("warnings", lambda n: FIELD * n + b" END 0\n", 400, "check -", 1),
    ("formulas", formulas("A{}", "1"), 100, FORMULAS, 2),
    ("formulas, the last first", formulas("A{}-A{}+1", "A{}"), 100, FORMULAS, 2),
    ("changes of a picture", lambda n: COUNTDOWN % n, 1000, PICTURE, 1),
    ("instructions of a picture", lambda n: NOP * n + b" HLT\n END 0\n", 400, PICTURE, 1),
    ("breakpoints passed", passed, 50, "dap", 2),
    ("nodes", linked, 400, "dap", 1),
    ("passages", looping("show passages 0 of A assert A > 0"), 1000, "dap", 1),
    ("changes of a map", looping("show map"), 1000, "dap", 1),
    ("displays", lambda n: b"display A\n" * n + b"step\n", 50, "debug source", 1),
]
ROWS = [*TEXTS, *LISTS]


@pytest.mark.parametrize("name, text, length, words, power", ROWS, ids=[row[0] for row in ROWS])
def test_text(runner, name, text, length, words, power):
    runner.file("source", SOURCE)
    texts = [text(length * times) for times in (1, 2, 4)]
    one, two, four = (instructions(runner, each, words.split()) for each in texts)
    assert four - two <= MOST * 2 ** (power - 1) * (two - one)


@pytest.mark.parametrize("size", [*SIZES[:2], pytest.param(SIZES[2], marks=pytest.mark.full)])
@pytest.mark.parametrize("call, marks", [("write", " -"), ("read", ">")], ids=["script", "typed"])
def test_table(runner, call, marks, size):
    """What each command takes, by callgrind and by a library that notes what is asked for, each up
    to the write of its reply; of what is typed, up to the read of the next line."""
    rows = pathlib.Path(HERE, "costs.txt").read_text().splitlines()
    costs = [row[2:] for row in rows if row[0] in marks and (row[0] != "-" or size < SIZES[-1])]
    names = [re.match(r"(.*?)  ", cost)[1] for cost in costs]
    script = [name.replace("N", str(size)).replace("M", str(size - 1)) + "\n" for name in names]
    taken, allowed, over = {}, {}, []
    for cost, name, *took in zip(costs, names, *measured(runner, call, script)):
        most, more, bytes_most, bytes_more = map(int, cost.split()[-4:])
        taken[name], allowed[name] = took, [most + more * size, bytes_most + bytes_more * size]
        if any(map(int.__gt__, took, allowed[name])):
            over.append((name, took, allowed[name]))
    assert over == []
    for name, other, times in MISTAKES[call] if size == 1000 else ():
        more = [times * some > bound for some, bound in zip(taken[other], allowed[name])]
        assert any(more), f"{name} by {other} is not seen"


def measured(runner, call, script):
    """The instructions of each line, and the bytes that it asks for."""
    text, is_typed = "".join(script).encode(), call == "read"
    words = ["debug", str(runner.place / runner.file("source", SOURCE))]
    runner.file("lines", LINES)
    with given(runner, text, is_typed) as file:
        calls, asked = asked_between(runner, file, words, call)
    with given(runner, text, is_typed) as file:
        valgrind(runner, file, words, "--callgrind-out-file=part", f"--dump-before={call}")
    parts = [(runner.place / f"part.{k + 1}").read_text() for k in range(len(calls))]
    counted = [int(re.search(r"^summary: (\d+)", part, re.M)[1]) for part in parts]
    ends = [*range(-1, len(script))]
    if is_typed:  # the reads of each line, and of the end; `source` and `reload` have others too
        for k, size in enumerate([*map(len, script), 0]):
            ends[k] = calls.index(size, ends[k - 1] + 1 if k else 0)
    pairs = [*zip(ends, ends[1:])]
    return [[sum(some[one + 1 : end + 1]) for one, end in pairs] for some in (counted, asked)]


def asked_between(runner, file, words, call):
    """What each such call gave, and the bytes that are asked for between the one before and it."""
    calls, sums = [], [0]
    for what, *size in runner.behind("ASKED_TO", file, words, called_to="log")[1]:
        if what == call:
            calls.append(int(size[0]))
            sums.append(0)
        elif not size:
            sums[-1] += int(what)
    return calls, sums
