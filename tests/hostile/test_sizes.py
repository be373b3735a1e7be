"""Calls that may answer out of memory, or be cut, each at its documented limit with memory enough:
they do neither. And large values where there is memory: each reply, and never out of memory. What
is due is worked out here, by the rules; at a large clock it is the model's."""

import pytest

from tests.adapter.frames import BODY, frame, messages, request
from tests.hostile.inputs import BUNDLES, bundle, lines
from tests.hostile.test_limits import DECK, SCRIPT, SOURCE, filled, shown_block
from tests.model import bundle as model

LOOP = b" JMP *\n END 0\n"
MANY = 1000001
USED_UP = b"loop:1: steps used up at 0000 clock %d\n" % MANY
# Step 992,375 alters a cell that the printer uses: 2 steps, 124 times 8,003, and 1.
CONFLICT = lines(" OUT 2000(18)", " ENT2 124", " ENT1 4000", " DEC1 1", " J1P *-1", " DEC2 1", " J2P *-4", " STZ 2000", " JMP *", " END 0")
STZ = b" 992375  0007  STZ 2000             2u"
FAULT = b" PRNT 5 ".ljust(10000, b"x") + b"\n"  # 104 of them are nearly as long as a source may be, and 100 are reported
NO_FIELD = b" LDA 100(6:6)\n"  # 4,000 of them, and an ORIG
REGISTERS = b"0," * 8
FULL = b"".join(b"%%UNIT %d\n" % unit + (b" ".join([b"+0102030405"] * 5) + b"\n") * 20000 for unit in range(16)) + b"%UNIT 16\n" + (b"C" * 80 + b"\n") * 1000 + \
    b"".join(b"%%UNIT %d\n" % unit + (b"L" * 70 + b"\n") * 1000 for unit in (19, 20))


def conflicts():
    """`until conflict` over a million changes, both ways."""
    run = b"ran 1000000 to 0008 clock %d: limit\n"
    script = [(b"run 1000000 until conflict", STZ + b"\nran 992375 to 0008 clock 992376: until\n"), (b"back all", b"back 992375 to 0000 clock 0\n"),
              (b"run 1000000", run % 1000001), (b"run 1000000", run % 2000001), (b"back until conflict", STZ + b"\nback 1007626 to 0007 clock 992374\n"),
              (b"back all", b"back 992374 to 0000 clock 0\n"), (b"forth until conflict", STZ + b"\nforth 992375 to 0008 clock 992376\n"), (b"forth all", b"forth 1007625 to 0008 clock 2000001\n"),
              (b"show conflicts", STZ + b"  cell 2000, unit 18 until 1000000001\n")]
    return bundle(CONFLICT, b"".join(line + b"\n" for line, _ in script), b"%UNIT 18 delay 1000000000\n"), (b"".join(reply for _, reply in script), b"", 0)


def runs():
    """Texts of the files, the words, and what is due; the file `kept` is written after it."""
    text, wanted = conflicts()
    yield {"in": text}, "", wanted
    yield {"loop": LOOP}, "run --trace --csv --steps %d loop" % MANY, \
        (b"change,line,location,instruction,A,X,I1,I2,I3,I4,I5,I6,J,overflow,comparison,clock\n" +
         b"".join(b"%d,1,0,JMP 0,%s1,off,E,%d\n" % (k, REGISTERS, k) for k in range(1, MANY + 1)), USED_UP, 3)
    yield {"loop": b" INCA 1\n DECA 1\n JMP 0\n END 0\n"}, "run --writes A --json --steps %d loop" % (2 * MANY), \
        (b"[\n" + b",\n".join(b'{"change":%d,"line":%d,"location":%d,"before":%d,"after":%d}' % (k + 1, k % 3 + 1, k % 3, k % 3, 1 - k % 3) for k in range(2 * MANY) if k % 3 < 2) + b"\n]\n",
         b"loop:2: steps used up at 0001 clock %d\n" % (2 * MANY), 3)
    yield {"loop": LOOP}, "run --counts --steps %d loop" % MANY, (b"line,location,count,time\n1,0,%d,%d\n" % (MANY, MANY), USED_UP, 3)
    yield {"f": FAULT * 104 + b" END 0\n"}, "check f", (b"".join(b"f:%d:2: error: A2 no such operation: PRNT\n" % k + FAULT + b" ^^^^\n" for k in range(1, 101)), b"", 1)
    yield {"f": FAULT * 104 + b" END 0\n"}, "check --json f", \
        (b"".join(b'{"file":"f","line":%d,"column":2,"endColumn":6,"severity":"error","code":"A2","text":"no such operation: PRNT"}\n' % k for k in range(1, 101)), b"", 1)
    warning = b"f:%d:10: warning: the operation takes no such F: the machine will refuse the step [no-field]\n" + NO_FIELD + b"         ^^^\n"
    yield {"f": (NO_FIELD * 3999 + b" ORIG 0\n") * 4 + NO_FIELD * 3999 + b" END 0\n"}, "check f", (b"".join(warning % k for k in range(1, 20000) if k % 4000), b"", 0)
    yield {"f": b"*" * 51 + b"\n" + (b"*" * 51 + b"\n") * 19998 + b" END 0\n"}, "list f", \
        (b"".join(b" " * 24 + b"%5d  " % k + b"*" * 51 + b"\n" for k in range(1, 20000)) + b"0000" + b" " * 20 + b"20000   END 0\nsymbols 0\n", b"", 0)
    yield {"loop": LOOP, "script": filled(b"", SCRIPT - 12) + b"\nshow clock\n"}, "debug loop script", (b"clock 0\n", b"", 0)
    yield {"f": b" HLT\n END 0\n", "deck": FULL, "kept": b""}, "run --devices deck --keep kept f", (b"", b"", 0)


def talk(runner, requests):
    """The bodies of the answers to some requests, of which the first is as long as a request may be; whether all follow each other in number; the other messages."""
    first, *others = requests
    bodies = [request(1, *first).ljust(BODY), *(request(seq, *each) for seq, each in enumerate(others, 2))]
    output, errors, status = runner.run(b"".join(map(frame, bodies)), ["dap"])
    every = [*messages(output)]
    answers = [message for message in every if message["type"] == "response"]
    in_turn = [message["seq"] for message in every] == [*range(1, len(every) + 1)] and [answer["request_seq"] for answer in answers] == [*range(1, len(bodies) + 1)]
    refused = [answer for answer in answers if not answer["success"]]
    return [answer.get("body") for answer in answers], (in_turn, refused, errors, status), [message for message in every if message["type"] != "response"]


def test_dialogues(runner):
    """Launches with texts at their limits, named and in the longest frame; the views after 11,000,000 changes; 70,000 requests."""
    texts = {"source": filled(b"", SOURCE - 23) + b"\n INCA 1\n JMP 0\n END 0\n", "devices": filled(b"", DECK - len(FULL) - 1, b" ") + b"\n" + FULL,
             "cards": b"".join((b"D" * 80).ljust(33553 + (k < 432)) + b"\n" for k in range(1000))}
    assert [*map(len, texts.values())] == [SOURCE, DECK, DECK]
    for name, text in texts.items():
        runner.file(name, text)
    files = ("launch", {"program": "source", "devices": "devices", "cards": "cards", "stopOnEntry": True})
    given = ("launch", {"stopOnEntry": True, **{name + "Text": text.decode() for name, text in texts.items()}})
    looks = [("configurationDone", {}), ("mix/program", {}), ("mix/units", {}), ("evaluate", {"expression": "show unit 15", "context": "repl"})]
    due = [{"rows": [{"cell": k, "instruction": True, "line": 10487 + k} for k in (0, 1)], "start": 0, "symbols": []},
           [["D" * 80] * 1000 if unit == 16 else ["L" * 70] * 1000 if unit > 16 else 1000 for unit in (*range(17), 19, 20)],
           {"line": "show unit 15", "result": "unit 15 place 0 blocks 1000 output 0\n" + shown_block(15).decode() * 1000, "variablesReference": 0}]
    views = [("mix/counts", {}), ("mix/path", {"columns": 500}), ("mix/writes", {"part": "A", "count": 1000}), ("mix/change", {"number": 10999999})]
    long = [*[("continue", {})] * 11, *views, *[("reverseContinue", {})] * 11, ("evaluate", {"expression": "show changes", "context": "repl"}), *[("threads", {})] * 70000]
    for name, begin, more in (("a frame", [given], []), ("files", [("initialize", {}), files], long)):
        found, ended, events = talk(runner, [*begin, *looks, *more, ("disconnect", {})])
        assert ended == (True, [], b"", 0), name
        program, units, shown, *rest = found[len(begin) + 1:]
        units = [unit.get("unread", unit["blocks"]) for unit in units["units"]]
        assert [program, units, shown] == due, name
    counts, path, writes, change = rest[11:15]
    each = [{"cell": k, "count": "5500000", "time": "5500000"} for k in (0, 1)]
    assert counts == {"cells": each, "count": "11000000", "time": "11000000"}
    assert path == ({"columns": [{"cells": [{"cell": k, "count": 11000} for k in (0, 1)]}] * 500, "from": 0, "until": 11000000})
    told = [(one["number"], one["before"]["number"], one["after"]["number"]) for one in writes["writes"]]
    assert told == [(2 * k + 1, str(k), str(k + 1)) for k in range(5499999, 5498999, -1)]
    done = {"operation": "INCA", "address": "1", "field": 0, "index": 0}
    assert change == ({"number": 10999999, "location": 0, "locationAfter": 1, "kind": "step", "text": "INCA 1", "instruction": done, "time": "1",
                                    "items": [{"part": "A", "before": "+ 00 20 62 49 31", "after": "+ 00 20 62 49 32"}]})
    assert rest[26]["result"] == "changes 0\n"
    assert [event["body"]["text"] for event in events[2:]] == ["paused after 1000000 changes"] * 22


def test_runs(runner):
    for files, words, wanted in runs():
        for name, text in files.items():
            runner.file(name, text)
        assert runner.run(files.get("in", b""), words.split()) == wanted, words
    assert (runner.place / "kept").read_bytes() == FULL


TYPED, _, REPLIES, _ = BUNDLES["ample"]["every reply at a clock that two transfers have set"]
STEPS = 300000


def clocks():
    """Each reply at a clock of so many u, and one u before it."""
    for power in (6, 12, 18):
        for clock in (10 ** power - 1, 10 ** power):
            text = bundle(TYPED, REPLIES, b"%%UNIT 19 delay %d\n" % (clock - 2))
            wanted = model.run(text)
            assert wanted[0].startswith(b"ran 2 to 0002 clock %d: limit\n" % clock), wanted[0]
            yield "a clock of %d" % clock, text, wanted


def jumps():
    """Many steps of one command, and each reply where 50,000,001 values are kept: three by each jump to itself."""
    for command in (b"step", b"run"):
        yield "%d steps of one command %s" % (STEPS, command.decode()), LOOP + b"%%SCRIPT\n%s %d\nback %d\nforth %d\n" % (command, STEPS, STEPS - 1, STEPS - 1), \
            (b"ran %d to 0000 clock %d: limit\nback %d to 0000 clock 1\nforth %d to 0000 clock %d\n" % (STEPS, STEPS, STEPS - 1, STEPS - 1, STEPS), b"", 0)
    name = "each reply where 50,000,001 values are kept"
    source, _, script, replies = BUNDLES["ample"][name]
    yield name, bundle(source, script), (replies, b"", 3)


def words(count):
    """A source of so many words, of which later ones take the cells of earlier ones again, and what cells 0 to 3999 then hold."""
    text, cells, at = [], {}, 0
    for k in range(count):
        if at == 4000:
            text.append(b" ORIG 0\n")
            at = 0
        text.append(b" CON %d\n" % k)
        cells[at] = k
        at += 1
    shown = b"".join(b"%04d + %02d %02d %02d %02d %02d\n" % (cell, *(cells.get(cell, 0) >> 6 * k & 63 for k in (4, 3, 2, 1, 0))) for cell in range(4000))
    return b"".join(text) + b" END 0\n%SCRIPT\nshow cells 0 3999\n", (shown, b"", 0)


def sources():
    for number in (4000, 4001, 9000, 19994):
        yield "a source of %d words" % number, *words(number)


@pytest.mark.parametrize("part", [clocks, jumps, sources])
def test_ample(runner, part):
    for name, text, wanted in part():
        assert runner.run(text) == wanted, name
