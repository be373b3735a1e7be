"""Hostile talks: a recorded talk, cut at every byte, and mutants of it, which hypothesis draws, shrinks and keeps.

The status is that of the rules in frames.py, nothing but whole frames is written, each message
is right by the schema, each request that the rules read has its one response, in order, and the session ends in the state that tests/model/, which knows
nothing of the adapter, gives for the requests that were accepted."""
import os
import re

import pytest
from hypothesis import event, given, note
from hypothesis import strategies as st

from tests.adapter import schema
from tests.adapter.frames import frame, messages, read_requests, request, sent
from tests.adapter.test_exact import rows_of
from tests.drawing import altered, drawn_anew
from tests.model import bundle as model

HERE = os.path.dirname(os.path.abspath(__file__))
SOURCE = os.path.join(HERE, "programs", "calls.mixal")
TALK = [
    (name, {key: SOURCE if value == "$source" else value for key, value in given.items()})
    for name, given, _ in rows_of("talk")
]
PROBE = [("evaluate", {"expression": "show changes", "context": "repl"}), ("evaluate", {"expression": "show all", "context": "repl"}), ("disconnect", {})]
BODIES = [request(seq, *each) for seq, each in enumerate(TALK, 1)]
ENDING = [request(seq, *each) for seq, each in enumerate(PROBE, 9001)]
EDGES = [b"0", b"-1", b"1", b"16", b"999", b"1000", b"4000", b"1e3", b"18446744073709551616", b"null", b"true", b"{}", b"[]", b'""', b'"\\ud800"', b"\xff", b"\x00",
         b'"repl"', b'"back 1"', b'"step 3"', b'"next"', b'"stepBack"', b'"restart"', b'"continue"', b'"setVariable"']


def changed(draw, text):
    """A text with some bytes altered, or a value replaced by another."""
    values = list(re.finditer(rb'(?<=: )("[^"]*"|-?\d+|true|false)', text))
    if not values or draw.randrange(5) < 3:
        return altered(draw, text, EDGES)
    value = draw.choice(values)
    return text[: value.start()] + draw.choice(EDGES) + text[value.end() :]


def mutant(draw):
    """The recorded talk with frames left out, doubled, moved and changed, each of the right length; half of them with bytes of the whole changed too."""
    every = list(BODIES)
    for _ in range(draw.choice((1, 1, 2, 3, 5, 9))):
        at = draw.randrange(len(every))
        kind = draw.randrange(6)
        if kind == 0:
            every.insert(draw.randrange(len(every) + 1), every[at])
        elif kind == 1 and len(every) > 1:
            del every[at]
        elif kind == 2:
            every.insert(draw.randrange(len(every)), every.pop(at))
        else:
            every[at] = changed(draw, every[at])
    text = b"".join(map(frame, every))
    for _ in range(draw.choice((0, 0, 1, 2))):
        text = changed(draw, text)
    return text + b"".join(map(frame, ENDING))


class NoCommand(Exception):
    """A request that the commands of a script have no words for."""


def commands(requests, responses):
    """The commands of a script that do what the accepted requests do, where there are no breakpoints. A step over what was taken back does the same
    as a new step."""
    stops = True
    for message, response in zip(requests, responses):
        if not response["success"]:
            continue
        command, given = message["command"], message.get("arguments")
        given = given if isinstance(given, dict) else {}
        if command == "launch":
            stops = given.get("stopOnEntry") is True
        elif command == "stepIn":
            yield "step 1"
        elif command == "stepBack":
            yield "back 1"
        elif command == "reverseContinue":
            yield "back all"
        elif command in ("continue", "configurationDone", "restart"):
            if command == "restart":
                yield "back all"
            if command == "continue" or not stops:
                yield "run 1000000"
        elif command == "goto":
            yield f"set loc {int(given['targetId'])}"
        elif command == "setVariable":
            where = "" if given["variablesReference"] < 1000 else "cell "
            yield f"set {where}{given['name']} {given['value']}"
        elif command == "evaluate" and given.get("context") == "repl":
            line = response["body"].get("line")  # there is none of what only asks
            if line is None:
                continue
            if not line.split()[:1] or line.split()[0].lower() in ("forth", "goto"):
                raise NoCommand
            yield line
        elif command in ("writeMemory", "stepOut", "next"):
            raise NoCommand


def check(command, text):
    """What is wrong with what the adapter makes of a text, in words, and whether the state was compared."""
    requests, status = read_requests(text)
    output, errors, ended = sent(command, text)
    if ended != status:
        return f"status {ended}, and not {status}: {errors!r}", False
    if (errors != b"") != (status == 2) or not re.fullmatch(rb"(mixrev: T\d .*\n)?", errors):
        return f"on standard error stands {errors!r}", False
    try:
        every = [*messages(output)]
    except ValueError as problem:
        return str(problem), False
    wrong = [(fault, message) for message in every for fault in schema.faults(message)]
    if wrong:
        return f"schema: {wrong[0]}", False
    responses = [message for message in every if message["type"] == "response"]
    answered = [(message["request_seq"], message["command"]) for message in responses]
    if answered != [(message["seq"], message["command"]) for message in requests]:
        return f"the responses are to {answered}, and the requests {[(message['seq'], message['command']) for message in requests]}", False
    return state(requests, responses)


def state(requests, responses):
    """The state at the end, against that of the model."""
    ends = [response for response in responses if response["request_seq"] in (9001, 9002)]
    if len(ends) != 2 or not all(response["success"] for response in ends):
        return "", False
    try:
        script = "".join(f"{line}\n" for line in commands(requests, responses))
    except NoCommand:
        return "", False
    with open(SOURCE, "rb") as file:
        wanted = model.debug(file.read(), script.encode())[0].decode("latin-1")
    found = "".join(response["body"]["result"] for response in ends)
    return ("", True) if wanted.endswith(found) else (f"the state is {found!r}, and the model's {wanted[-len(found):]!r} after {script!r}", True)


WHOLE = b"".join(map(frame, BODIES + ENDING))


@pytest.mark.parametrize("part", range(16))
def test_cut(command, part):
    """The talk that ends at each byte, a sixteenth of them."""
    for at in range(part, len(WHOLE) + 1, 16):
        wrong, _ = check(command, WHOLE[:at])
        assert not wrong, at


def test_mutants(command, request):
    compared = []

    @drawn_anew(request, 600)
    @given(st.randoms(note_method_calls=False, use_true_random=False))
    def same(draw):
        text = mutant(draw)
        note(repr(text))
        wrong, was_compared = check(command, text)
        event("the state is compared" if was_compared else "no state")
        compared.append(was_compared)
        assert not wrong

    same()
    assert sum(compared) > len(compared) // 4
