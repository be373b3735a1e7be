"""What a session asks memory for: each allocation and its bytes, worked out from what each needs, so that room which is not needed is seen.

What a command asks for is what a script asks for with it as the last line, beyond what the same script asks for with a remark of as many bytes there.

- A list of std has room for four entries at first, of bytes for eight, and is doubled where it is full.
- A run of changes takes 16 bytes: steps that follow each other are one run, any other change is one of its own. Of a change that is no step the number of
  values after it takes 8 bytes; room for it is made where a change begins a run, but not where plain steps do, which are done many at a time. A kept value takes one to three
  units of 4, and room is made for three: a `set`, a `break` or a `clear` keeps one value; a step makes room for the 104 that the largest step keeps, since the
  room is made before the step is done. What a step here keeps takes one unit.
- A reply is a text: it begins with 8 bytes or more and is doubled. So of N bytes it asks for fewer than four times N in all, and 8.
- In the rows of streams.rows the first change asks for room for 4 runs and 4 numbers, 64 and 32 bytes,
  the first step for 64 and 1,248: 104 values of three units.
- `back`, a refusal and what `show` writes need nothing but their reply; a blank line and a remark need nothing. So it is with `forth`
  of steps, which say by themselves where they end.
- A change that is refused needs nothing, and may have made room in the lists. What stands ahead stays until a new change is accepted.
- A text that is read whole by one read takes as many bytes as it has, at least 8."""

import pytest

from tests.hostile.inputs import lines, rows_of
from tests.hostile.test_memory import FIRST

LOOP = lines(" JMP *", " END 0")
CELLS = 4000 * 4
RUN = 16
UNIT, MOST = 4, 104 * 3  # units of a step at most


def grown(entry, first, needed):
    """What a list asks for that begins with room for so many entries and is doubled until it has what is needed."""
    rooms = [first]
    while rooms[-1] < needed:
        rooms.append(2 * rooms[-1])
    return [entry * room for room in rooms]


ROWS = [
    (name.decode(), FIRST if source is None else source, *others)
    for name, source, *others in rows_of("asks")
]
STEPS = 100000


def run(runner, text):
    """The answer of a run, and the bytes of each allocation that it asks for."""
    answer, asked = runner.behind("ASKED_TO", text)
    return answer, [int(size) for (size,) in asked]


def beyond(runner, source, before, line):
    """The reply to the last line, and what it asks for; None where what stands before it asks for
    something else than before a remark."""
    start = source + b"%SCRIPT\n" + before
    (output, _, _), asked = run(runner, start + line + b"\n")
    (less, _, _), known = run(runner, start + b"*" * len(line) + b"\n")
    return output[len(less) :], asked[len(known) :] if asked[: len(known)] == known else None


def is_for_reply(asked, reply):
    """Whether this much is what a text of such a reply asks for: at least twice as much each time, and no more than is needed."""
    if not reply:
        return asked == []
    return asked != [] and all(2 * one <= two or two == asked[-1] == len(reply) for one, two in zip(asked, asked[1:])) and \
        len(reply) <= asked[-1] and sum(asked) < 4 * len(reply) + 8


@pytest.mark.parametrize("name, source, before, line, needed, reply", ROWS, ids=[row[0] for row in ROWS])
def test_command(runner, name, source, before, line, needed, reply):
    output, asked = beyond(runner, source, before, line)
    assert asked is not None
    *other, sizes = needed.rpartition(b"or ")
    sizes = sorted(map(int, sizes.split()))
    ways = ([], sizes) if other[1] else (sizes,)
    first = [(sorted(asked[: len(some)]), asked[len(some) :]) for some in ways]
    assert any(one == some and is_for_reply(more, reply) for some, (one, more) in zip(ways, first))
    assert output == reply


def test_cells_come_last(runner):
    """A journal and a session ask for nothing: the cells are asked for last."""
    _, asked = run(runner, lines(" END 0"))
    assert asked[-1:] == [CELLS] and asked.count(CELLS) == 1


@pytest.mark.parametrize("size", [8, 100, 1000, 4000])
def test_read(runner, size):
    """What a read of so many bytes asks for, and of one more."""
    _, less = run(runner, lines(" END 0").ljust(size, b"*"))
    _, more = run(runner, lines(" END 0").ljust(size + 1, b"*"))
    assert [pair for pair in zip(less, more) if pair[0] != pair[1]] == [(size, size + 1)]
    assert len(more) == len(less)


def test_many_steps(runner):
    """Each list is doubled, nothing else is asked for, and nothing again where it was before."""
    _, asked = run(runner, LOOP + b"%%SCRIPT\nrun %d\n" % STEPS)
    after = asked[asked.index(CELLS) + 1 :]
    rest = list(after)
    for one in [4 * RUN, *grown(UNIT, MOST, (STEPS - 1) + MOST)]:
        assert one in rest, after
        rest.remove(one)
    reply = b"ran %d to 0000 clock %d: limit\n" % (STEPS, STEPS)
    assert is_for_reply(rest, reply), after
    _, asked = beyond(runner, LOOP, b"run %d\nback all\n" % STEPS, b"run %d" % STEPS)
    assert asked is not None and is_for_reply(asked, reply)
