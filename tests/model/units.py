"""The units and their transfers (1.3.1): tapes, disks, card reader, card punch, printer, typewriter and paper tape.

A unit never alters: a transfer makes a new one. Data moves at once; a unit with a delay is busy until a time, and a transfer on a
busy unit begins at that time."""

from collections import namedtuple

from tests.model.texts import Fault
from tests.model.words import ZERO, char_of, bytes_of, number

MOST = 1000  # blocks or rows of a list
UNITS = 21

# What a kind of unit can do: a medium (tapes and disks) is read and written, an input list is read,
# an output list is written.
Kind = namedtuple("Kind", "name size medium input output")
TAPE = Kind("tape", 100, True, False, False)
DISK = Kind("disk", 100, True, False, False)
READER = Kind("card reader", 16, False, True, False)
PUNCH = Kind("card punch", 16, False, False, True)
PRINTER = Kind("printer", 24, False, False, True)
TYPEWRITER = Kind("typewriter", 14, False, True, True)
PAPER_TAPE = Kind("paper tape", 14, False, True, True)
KINDS = [TAPE] * 8 + [DISK] * 8 + [READER, PUNCH, PRINTER, TYPEWRITER, PAPER_TAPE]

PAGE = "page"  # a page mark among the rows of the printer

# `blocks` is the medium or the input list, `rows` the output list; a block is a tuple of words. The
# unit is busy before the time `until`.
Unit = namedtuple("Unit", "place blocks rows delay until")
EMPTY = Unit(0, (), (), 0, 0)


def no_units():
    return (EMPTY,) * UNITS


def kind_of(f):
    if f >= UNITS:
        raise Fault("M9")
    return KINDS[f]


def check(kind, way):
    """Whether the unit does such a transfer, an input or an output, at all."""
    if not (kind.medium or getattr(kind, way)):
        raise Fault("M10")


def read(kind, unit, x):
    """The new unit, and the words read."""
    at = number(x) if kind == DISK else unit.place
    if not 0 <= at < len(unit.blocks):
        raise Fault("M11")
    return (unit if kind == DISK else unit._replace(place=at + 1)), unit.blocks[at]


def write(kind, unit, x, words):
    if kind.output:
        return with_row(unit, tuple(("+", magnitude) for _, magnitude in words))
    at = number(x) if kind == DISK else unit.place
    if at < 0:
        raise Fault("M11")
    if at >= MOST:
        raise Fault("M13")
    nothing = (ZERO,) * kind.size
    blocks = unit.blocks + (nothing,) * (at - len(unit.blocks))  # none where the block is there, or next
    blocks = blocks[:at] + (tuple(words),) + blocks[at + 1:]
    return unit._replace(blocks=blocks, place=unit.place if kind == DISK else at + 1)


def with_row(unit, row):
    if len(unit.rows) == MOST:
        raise Fault("M13")
    return unit._replace(rows=unit.rows + (row,))


def control(kind, unit, m):
    wrong = unit.place + m > len(unit.blocks) if kind == TAPE else m != 0
    if wrong or kind in (READER, PUNCH, TYPEWRITER):
        raise Fault("M12")
    if kind == TAPE:
        return unit._replace(place=0 if m == 0 else max(unit.place + m, 0))
    if kind == PRINTER:
        return with_row(unit, PAGE)
    if kind == PAPER_TAPE:
        return unit._replace(place=0)
    return unit


def begun(clock, unit):
    """The clock after a transfer that was asked for at this one, and the unit as it is busy then."""
    clock = max(clock, unit.until) + 1
    return clock, unit._replace(until=clock + unit.delay)


def is_busy(clock, unit):
    return clock < unit.until


def characters(words):
    return bytes(char_of(byte) for word in words for byte in bytes_of(word)).decode()


def is_empty(unit):
    return unit.place == 0 and not unit.blocks and not unit.rows and unit.delay == 0


def shown(n, unit):
    """The lines of `show unit`."""
    first = "unit %d place %d blocks %d output %d" % (n, unit.place, len(unit.blocks), len(unit.rows))
    if unit.delay:
        first += " delay %d until %d" % (unit.delay, unit.until)
    lines = [first]
    for block in unit.blocks:
        if KINDS[n].medium:
            words = [sign + "".join("%02d" % byte for byte in bytes_of((sign, magnitude))) for sign, magnitude in block]
            lines += [" ".join(words[at:at + 5]) for at in range(0, len(words), 5)]
        else:
            lines.append("< " + characters(block))
    lines += ["> %PAGE" if row == PAGE else "> " + characters(row) for row in unit.rows]
    return "".join(line + "\n" for line in lines)
