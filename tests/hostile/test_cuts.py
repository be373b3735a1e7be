"""Texts that are cut at every byte, and a source whose every byte is replaced: the program against the model, and the status."""

import pytest

from tests.hostile.inputs import BUNDLES, bundle, lines
from tests.model import bundle as model

HELLO = BUNDLES["memory"]["a source with characters"].source
GREETED = lines("run 100", "show unit 19", "back all", "show changes")
READS, DECK, READ, _ = BUNDLES["cuts"]["a tape and cards are read"]
REFUSED = BUNDLES["cuts"]["commands that are refused"].script
BYTES = (0, 10, 34, 63, 255)
ENDS = {0, 1, 3}  # and T5


def texts():
    """Each text with its name: bundles, and sources for `list`."""
    for at in range(len(HELLO) + 1):
        yield "source cut at %d" % at, bundle(HELLO[:at], GREETED), HELLO[:at]
    for at in range(len(HELLO)):
        for byte in BYTES:
            text = HELLO[:at] + bytes([byte]) + HELLO[at + 1:]
            yield "byte %d of the source replaced by %d" % (at, byte), bundle(text, GREETED), text
    for at in range(len(DECK) + 1):
        yield "deck cut at %d" % at, bundle(READS, READ, DECK[:at]), None
    for at in range(len(REFUSED) + 1):
        yield "script cut at %d" % at, bundle(lines(" END 0"), REFUSED[:at]), None
    both = bundle(READS, READ, DECK)
    for at in range(len(both) + 1):
        yield "bundle cut at %d" % at, both[:at], None


def is_an_end(answer):
    output, errors, status = answer
    return status in ENDS and errors == b"" or status == 2 and output == b"" and errors.startswith(b"mixrev: T5 deck refused at line ")


@pytest.mark.parametrize("part", range(20))
def test_cut(runner, part):
    for name, text, source in [*texts()][part::20]:
        tried = [(model.run(text), runner.run(text))]
        if source is not None:
            words = ["list", runner.file("source", source)]
            tried.append((model.run_list(source), runner.run(b"", words)))
        for wanted, found in tried:
            assert found == wanted, name
            assert is_an_end(found), name


UPTO = [at + 1 for at, byte in enumerate(HELLO) if byte == 10]
LAST = HELLO[UPTO[7]:]
CUT = HELLO[:UPTO[7]] + LAST[:LAST.index(b"END") + 3]


@pytest.mark.parametrize("text, wanted", [
    (HELLO[:UPTO[7]], (b"line 9: A13 no END\n", b"", 1)),
    (CUT, (b"", b"", 0)),
    (HELLO[:UPTO[7]] + LAST[:LAST.index(b"START") + 2], (b"line 9: A7 undefined symbol\n", b"", 1)),
    (bundle(CUT, lines("back all")), (b"back 0 to 0000 clock 0\n", b"", 0)),
])
def test_known(runner, text, wanted):
    """What the first cuts of the source give, worked out by hand."""
    assert runner.run(text) == wanted


@pytest.mark.parametrize("text", [bundle(HELLO, GREETED), bundle(READS, READ, DECK)])
def test_whole(runner, text):
    assert runner.run(text)[1:] == (b"", 0)
