"""The engine of the page, which `--engine` names, against the program.

Bundles are drawn of each topic of the model, as many as --examples says, beside all of
examples/*.mixal, and each is tried in two ways.
- A talk: the bundle's source and deck are launched, and lines of its script are given among other
  requests, drawn at random; the same bytes go to `PROGRAM dap` and to the engine. Output, error
  output and status are the same.
- The script: each of its lines is given to the engine as a line of the console, and the replies are
  put together. Standard output, standard error and the status are those of the program on the
  bundle with the lines that the answers say were done, except for why a line is refused.
Bytes of a bundle that are no text in UTF-8 are made characters of two bytes first, since a request
is a text."""

import pathlib
import random
import struct
import subprocess

import pytest

from tests import TOP
from tests.adapter.frames import framed
from tests.model import bundle, draw, draw_asm, draw_units
from tests.model.draw_limits import LIMITS, limit
from tests.model.texts import lines_of
from tests.page import engine_talks as talks

EXAMPLES = sorted(TOP.glob("examples/*.mixal"))
TOPICS = {
    "machine": draw.machine,
    "asm": draw_asm.bundle,
    "units": draw_units.bundle,
    "commands": draw.commands,
    "sources": draw.lines,
    "history": draw.history,
}
PARTS = 4  # of each topic
TOO_LONG = b"", b"mixrev: T6 input too long\n", 2


class Engine:
    """The engine, in a process that answers."""

    def __init__(self, file):
        words = ["node", pathlib.Path(__file__).with_name("talker.mjs"), file]
        self.process = subprocess.Popen(words, stdin=subprocess.PIPE, stdout=subprocess.PIPE)

    def read(self, size):
        found = self.process.stdout.read(size)
        assert len(found) == size, "node has ended"
        return found

    def talk(self, frames):
        """What is sent, what is told, and the status."""
        self.process.stdin.write(struct.pack(">I", len(frames)) + frames)
        self.process.stdin.flush()
        status, sent, told = struct.unpack(">BII", self.read(9))
        return self.read(sent), self.read(told), status


@pytest.fixture(scope="module")
def engine(request):
    file = request.config.getoption("--engine")
    if not file:
        pytest.skip("the engine of the page, which --engine names")
    engine = Engine(file)
    yield engine
    engine.process.stdin.close()
    engine.process.wait()


def as_text(drawn):
    """The bytes themselves where they are a text."""
    try:
        drawn.decode()
        return drawn
    except UnicodeDecodeError:
        return drawn.decode("latin-1").encode()


def drawn(topic, k, seed):
    if topic == "examples":
        return EXAMPLES[k].read_bytes()
    r = random.Random(f"{seed}/{k}")
    if topic in ("units", "history") and k % 100 == 99:
        return as_text(limit(r, topic, k // 100 % LIMITS[topic]))
    return as_text(TOPICS[topic](r))


@pytest.mark.parametrize("part", range(PARTS))
@pytest.mark.parametrize("topic", ["examples", *TOPICS])
def test_as_the_program(runner, engine, request, topic, part):
    option = request.config.getoption
    seed = option("hypothesis_seed") or 0
    number = len(EXAMPLES) if topic == "examples" else option("--examples") or 40
    for k in range(part, number, PARTS):
        text = drawn(topic, k, seed)
        source, deck, script = (piece.decode() for piece in bundle.cut(text))
        lines = [line.decode() for line in lines_of(script.encode())]
        frames = talks.mixed(random.Random(f"{seed}/{topic}/{k}"), source, deck, lines)
        assert engine.talk(frames) == runner.run(frames, ["dap"]), f"{topic} {k} of seed {seed}"
        console = framed(*talks.opening(source, deck), *map(talks.repl, lines))
        sent, told, status = engine.talk(console)
        done = "".join(f"{line}\n" for line in talks.lines_done(sent, lines))
        is_whole = done == "".join(f"{line}\n" for line in lines)
        front = text[: len(text) - len(script.encode())]
        wanted = runner.run(text if is_whole else front + done.encode())
        if wanted != TOO_LONG:
            assert (told, status) == (b"", 0), f"{topic} {k} of seed {seed}"
            wanted = talks.unread(wanted[0]), *wanted[1:]
            assert talks.as_script(sent, len(lines)) == wanted, f"{topic} {k} of seed {seed}"
