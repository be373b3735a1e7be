"""Breakpoints: on which lines they are, what the adapter says of them, and where runs stop at them.

What is wanted follows from docs/DAP.md and from the states of programs/calls.mixal in talks.walk. A
run reaches cell 12 (line 6) after 2, 5 and 8 steps, where rI1 is 3, 2, 1 and rJ is 0, 15, 15, and
cell 14 (line 8) after 4, 7 and 10 steps, where rI1 is 2, 1, 0."""

import json
import pathlib

from tests.adapter.client import AFTER, CALLS, PROGRAMS
from tests.adapter.frames import DONE, GOOD, answers, framed, launch, texts
from tests.adapter.test_exact import rows_of

CELL_12 = "0x0048"  # 6 * 12 is 72
SOURCE = pathlib.Path(CALLS).read_text()
STATE = ("mix/state", {})

# Of two lines that give a word for the same cell, a breakpoint stays on the second alone.
TWICE = " NOP\n NOP\n ORIG 0\n NOP\n END 0\n"
STAYS = [{"line": 2}, {"line": 4}]
MOVED = [
    {"instructionReference": "0x0000", "line": 4, "verified": True},
    {"instructionReference": "0x0006", "line": 2, "verified": True},
]


def breakpoints(kind, *given):
    return f"set{kind}Breakpoints", {"breakpoints": given}


def runs():
    """The rows of breakpoints.rows: requests with their arguments, and moves with why and where
    each stops, as the number of steps done."""
    for row in pathlib.Path(__file__).with_name("breakpoints.rows").read_text().splitlines():
        pieces = [piece.split(" ", 1) for piece in row.split(" | ")]
        if not row.startswith("#"):
            yield [
                (name, json.loads(more)) if more[0] == "{" else (name, *more.rsplit(" ", 1))
                for name, more in pieces
            ]


def bodies(command, source, *requests):
    """The breakpoints that come back for requests about them."""
    found, ended = texts(command, framed(launch(source), DONE, *requests))
    assert ended == GOOD
    named = {name for name, _ in requests}
    found = [it for it in map(json.loads, found) if it.get("command") in named]
    return [it["body"]["breakpoints"] for it in found]


def stops(command, source, requests):
    """Why the program stopped last, with the location and the clock, where these are asked for."""
    found, ended = texts(command, framed(launch(source), DONE, *requests))
    stopped, reason = [], ""
    for message in map(json.loads, found):
        if message.get("event") == "stopped":
            reason = message["body"]["reason"]
        elif message.get("command") == "mix/state":
            body = message["body"]
            stopped.append((reason, body["location"], int(body["clock"])))
    return stopped, ended


def test_runs(command):
    for pieces in runs():
        requests, wanted = [], []
        for name, given, *steps in pieces:
            requests += [(name, {"threadId": 1}), STATE] if steps else [(name, given)]
            wanted += [(given, *AFTER[int(steps[0])][1:])] if steps else []
        assert stops(command, SOURCE, requests) == (wanted, GOOD), f"{pieces}"


def test_long_runs(command):
    source = (PROGRAMS / "endless.mixal").read_text()
    for name, given, wanted in rows_of("long"):
        reason, steps = wanted.split()
        found = stops(command, source, [(name, given), ("continue", {"threadId": 1}), STATE])
        assert found == ([(reason, 0, int(steps))], GOOD), f"{given}"


def test_verified(command):
    """What the adapter says of a breakpoint, of a line and of an instruction."""
    instruction = {"instructionReference": CELL_12}
    for _, given, wanted in rows_of("verified"):
        found = bodies(
            command,
            SOURCE,
            breakpoints("", {"line": 6, **given}),
            breakpoints("Instruction", {**instruction, **given}),
        )
        if wanted == "verified":
            good = {**instruction, "verified": True}
            assert found == [[{**good, "line": 6}], [good]], f"{given}"
        else:
            assert found == [[{"message": wanted, "verified": False}]] * 2, f"{given}"
    nowhere = {"line": 99, "condition": "NOWHERE", "hitCondition": "0"}
    [[found]] = bodies(command, SOURCE, breakpoints("", nowhere))
    assert found["message"] == "no word from this line on", "a line without a word comes first"


def test_locations(command):
    request = ("breakpointLocations", {"line": 1, "endLine": 5})
    found, _ = texts(command, framed(request, launch(TWICE)))
    assert '"id":303' in found[0], ("no line before a launch", found)
    found = bodies(command, TWICE, request, breakpoints("", {"line": 1}, {"line": 2}))
    assert found == [STAYS, MOVED]


def test_undebugged(command):
    """A program that is not debugged runs to its end; what is asked to stop it is not verified."""
    unverified = [
        breakpoints("", {"line": 1}),
        breakpoints("Instruction", {"instructionReference": "0"}),
        breakpoints("Data", {"dataId": "cell 3"}),
        ("setExceptionBreakpoints", {"filters": ["conflict"]}),
    ]
    for _, source, wanted in rows_of("undebugged"):
        found = answers(command, [launch(source, noDebug=True), *unverified, DONE])
        for seq in range(2, 6):
            body = json.loads(found[seq][0])["body"]
            assert body == {"breakpoints": [{"message": "not debugged", "verified": False}]}, source
        events = []
        for it in map(json.loads, found[6][1:]):
            parts = (it.get("body", {}).get(name) for name in ("category", "output", "reason"))
            events.append(" ".join([it["event"], *filter(None, parts)]))
        assert events == json.loads(wanted), source
