"""The program against the model on random bundles and sources, which hypothesis draws, shrinks and keeps in out/hypothesis.

Standard output, standard error and the status have to be the same byte for byte. `-k history` takes one topic, `--examples N`
another number of inputs, `--hypothesis-seed N` draws others, and `--hypothesis-show-statistics` says which faults, operations and
commands were met. Where the two differ, the rules and the book say which is wrong."""

import collections
import random
import re

import pytest
from hypothesis import event, given, note
from hypothesis import strategies as st

from tests.drawing import drawn_anew
from tests.model import bundle, draw, draw_asm, draw_units
from tests.model.draw_limits import LIMITS, limit
from tests.model.operations import UNIT_OPERATIONS
from tests.model.words import instruction

NAMED = b"%UNIT 16 delay 3\nNAMED\n"  # a deck
FAULT = re.compile(rb"\b([AMKCT][0-9]+) [a-z]")
# What is drawn, how the program runs it, and how many are drawn.
Topic = collections.namedtuple("Topic", "draw way examples")
TOPICS = {
    "machine": Topic(draw.machine, "run", 3000),
    "commands": Topic(draw.commands, "run", 1500),
    "assembler": Topic(draw_asm.bundle, "run", 1500),
    "listing": Topic(draw_asm.text_of, "list", 300),
    "units": Topic(draw_units.bundle, "run", 1500),
    "lines": Topic(draw.lines, "run", 1500),
    "history": Topic(draw.history, "run", 1500),
    "debug": Topic(draw_units.bundle, "debug", 1500),
}


def debugged(text):
    """What `debug` executes on a bundle, which is not the bundle's own script, and the deck that is named, if one is."""
    return bundle.cut(text)[2] + b"\nshow changes\n", NAMED if len(text) % 2 else None


def of_model(text, way, watch):
    if way == "list":
        return bundle.run_list(text)
    return bundle.debug(text, *debugged(text), watch) if way == "debug" else bundle.run(text, watch)


def of_program(runner, text, way):
    if way == "list":
        return runner.run_on("/dev/null", ["list", runner.file("in", text)])
    if way == "debug":
        script, named = debugged(text)
        deck = [] if named is None else ["--devices", runner.file("deck", named)]
        return runner.run_on("/dev/null", ["debug", runner.file("in", text), runner.file("script", script), *deck])
    return runner.run(text)


def printed(text):
    """As printf of a shell takes it between apostrophes."""
    return "".join("%%" if byte == 37 else chr(byte) if 32 <= byte < 127 and byte not in b"'\\" else f"\\{byte:03o}" for byte in text)


def met(before, result, after):
    """The operation of a step, and for a unit which one; a fault is met where it is told."""
    if before.loc < 4000 and not result[1:].isdigit():
        f = instruction(before.cell(before.loc))[3]
        taken = result[0] == "J" and after.loc != before.loc + 1
        return f"{result}({f})" if result in UNIT_OPERATIONS else result + " taken" * taken
    return None


def same(runner, text, way):
    """The model's answer, if it is the program's too."""
    steps = set()
    model = of_model(text, way, lambda *step: steps.add(met(*step)))
    program = of_program(runner, text, way)
    assert [part.split(b"\n") for part in program[:2]] == [part.split(b"\n") for part in model[:2]]
    assert program[2] == model[2]
    return {f"status {model[2]}", *(fault.decode() for fault in FAULT.findall(model[0] + model[1])), *filter(None, steps)}


@pytest.mark.parametrize("name", TOPICS)
def test_random(name, runner, request):
    topic = TOPICS[name]

    @drawn_anew(request, topic.examples)
    @given(st.randoms(note_method_calls=False, use_true_random=False))
    def drawn(r):
        text = topic.draw(r)
        note(f"printf '{printed(text)}'")
        for what in sorted(same(runner, text, topic.way)):
            event(what)

    drawn()


@pytest.mark.parametrize("name, which", [(it, at) for it in LIMITS for at in range(LIMITS[it])])
def test_limits(name, which, runner):
    """At a limit of size and past it."""
    same(runner, limit(random.Random(which), name, which), "run")
