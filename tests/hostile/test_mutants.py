"""Bundles that are the examples and those of tests/runs/ with mistakes in them: bits flipped, lines doubled, cut, and spliced. The program against
the model."""

import random
import re
import signal

import pytest

from tests import TOP
from tests.drawing import altered
from tests.hostile.inputs import bundle, lines
from tests.hostile.test_cuts import DECK, GREETED, HELLO, READ, READS
from tests.model import bundle as model
from tests.runs.bundles import bundles

MODEL_SECONDS = 10  # after which a bundle is not compared: the model is slow, and a mutant may ask for a million steps
EDGES = [b"0", b"1", b"-1", b"63", b"64", b"999", b"1000", b"3999", b"4000", b"4095", b"4096", b"1000000", b"1000001", b"1073741823",
         b"1073741824", b"9999999999", b"99999999999", b"%SCRIPT", b"%DEVICES", b"%UNIT 0", b"%UNIT 16 delay 5", b"run 100000",
         b"step 1000", b"back all", b"forth 9", b"until", b"back until A", b"run 100 until cell 100",
         b"trace 9", b"show counts", b"show diff 1", b"\"", b"=", b",", b"(", b"*", b"\r", b"\t", b"\x00", b"\xff"]

PIECES = [*(bytes([one]) for one in b"\x00\n\"?\xff %*=-+/:,()0129ABFHhX\r\t"), *EDGES]


def originals():
    texts = [file.read_bytes() for file in sorted(TOP.glob("examples/*.mixal"))] + [text.encode() for _, text, _ in bundles()]
    # and every kind of unit
    units = lines(*("show unit %d" % unit for unit in (0, 8, 16, 17, 18, 19, 20)))
    writes = lines(" IN 200(16)", " OUT 200(17)", " OUT 200(18)", " IOC 0(18)", " OUT 0(9)", " IN 0(0)", " JBUS *(19)", " OUT 0(19)", " IOC -1(0)", " HLT", " END 0")
    return texts + [bundle(READS, READ, DECK), bundle(HELLO, GREETED), bundle(writes, lines("run 50", "back 3", "forth 2") + units, DECK)]


def mutant(texts, seed, k):
    """Mutant k of a seed is the same as long as the examples are."""
    draw = random.Random("%s/%d" % (seed, k))
    text = draw.choice(texts)
    for _ in range(draw.choice((1, 1, 1, 2, 2, 3, 5, 8, 20))):
        text = draw.choice(CHANGES)(draw, text, texts)
    return text


def lines_changed(draw, text, texts):
    """A line doubled, left out, moved, or many times there."""
    every = text.split(b"\n")
    at = draw.randrange(len(every))
    kind = draw.randrange(4)
    if kind == 0:
        every.insert(at, every[at])
    elif kind == 1:
        del every[at]
    elif kind == 2:
        every.insert(draw.randrange(len(every)), every.pop(at))
    else:
        every[at:at] = [every[at]] * draw.randrange(2, 60)
    return b"\n".join(every)


def spliced(draw, text, texts):
    other = draw.choice(texts)
    if draw.randrange(2):
        return text[: draw.randrange(len(text) + 1)] + other[draw.randrange(len(other)) :]
    # lines of the other one among its own
    mine, every = text.split(b"\n"), other.split(b"\n")
    first = draw.randrange(len(every))
    at = draw.randrange(len(mine) + 1)
    mine[at:at] = every[first:first + draw.randrange(1, 12)]
    return b"\n".join(mine)


def word(draw, text, texts):
    """A word in place of another, at an edge."""
    parts = text.split(b" ")
    parts[draw.randrange(len(parts))] = draw.choice(EDGES)
    return b" ".join(parts)


def number(draw, text, texts):
    digits = list(re.finditer(rb"\d+", text))
    if not digits:
        return text
    first, last = draw.choice(digits).span()
    return text[:first] + draw.choice(EDGES[:13]) + text[last:]


def bytes_altered(draw, text, texts):
    return altered(draw, text, PIECES)


CHANGES = [*[bytes_altered] * 3, lines_changed, spliced, word, number]


def ring(*_):
    raise TimeoutError


def model_of(text):
    """What the model gives, or None where it takes too long."""
    signal.signal(signal.SIGVTALRM, ring)
    signal.setitimer(signal.ITIMER_VIRTUAL, MODEL_SECONDS)
    try:
        return model.run(text)
    except (TimeoutError, MemoryError, RecursionError):
        return None
    finally:
        signal.setitimer(signal.ITIMER_VIRTUAL, 0)


@pytest.mark.parametrize("part", range(20))
def test_mutants(runner, request, part):
    option, texts, compared = request.config.getoption, originals(), 0
    number, seed = option("--examples") or (10000 if option("--full") else 500), option("hypothesis_seed") or 0
    for k in range(part, number, 20):
        text = mutant(texts, seed, k)
        found, wanted = runner.run(text), model_of(text)
        assert found[2] in (0, 1, 2, 3), f"mutant {k} of seed {seed}"
        assert wanted in (None, found), f"mutant {k} of seed {seed}"
        compared += wanted is not None
    assert compared or number < 20
