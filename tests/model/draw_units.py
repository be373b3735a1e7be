"""Random decks and transfers, towards edges and faults.

The source is END alone and every instruction is put by `set cell`, so a program without the whole
assembler can be compared too."""

import re

from tests.model.draw_machine import Scene, any_word
from tests.model.draw_text import joined, some, with_ends
from tests.model.units import KINDS, UNITS


def deck(r, wrong):
    """The lines of a deck, and the units that it fills, each of them once."""
    first, *parts = re.split(rb"(?m)^(?=%)", some(r, "unit_deck"))
    units = {int(re.search(rb"\d+", part)[0]): part for part in parts}
    lines = (first + b"".join(units.values())).split(b"\n")[:-1]
    for _ in range(r.choice((1, 1, 1, 2, 2, 3)) if wrong else 0):
        spoil(r, lines)
    return lines, list(units)


def spoil(r, lines):
    at = r.randrange(len(lines) + 1)
    headers = [place for place, line in enumerate(lines) if line.startswith(b"%")]
    if headers and r.randrange(2):
        at = min(r.choice(headers) + r.choice((0, 1, 1, 2)), len(lines))
    kind = r.randrange(12)
    if kind < 2:
        lines.insert(at, some(r, "wrong_header"))
    elif kind < 3 and headers:
        lines.insert(at, lines[r.choice(headers)])
    elif kind < 5:
        lines.insert(at, some(r, r.choice(("wrong_deck_word", "written_word"))))
    elif kind < 7 and headers:
        lines.insert(r.choice(headers) + 1, some(r, "too_long"))
    elif kind < 8:
        lines.insert(at, some(r, "wrong_place"))
    elif at < len(lines):
        line, spot = lines[at], r.randrange(len(lines[at]) + 1)
        put = line[:spot] + some(r, "no_deck_character") + line[spot + r.randrange(2) :]
        lines[at : at + 1] = [put] if kind < 10 else [] if kind < 11 else [line, line]


def block_place(r, size):
    if r.randrange(8):
        some_place = r.choice((4000 - size, r.randrange(4000 - size)))
        return r.choice((100, 100, 100, 100, 200, 150, 1000, 0, some_place))
    return r.choice((4000 - size, 4001 - size, 3999, 4000, 4095, -1, -size))


def control_of(r, unit):
    of_tape = (0, 0, 1, 1, 2, 3, -1, -1, -2, -5, 1000, 4095, -4095)
    return r.choice(of_tape if unit < 8 else (0, 0, 0, 0, 0, 0, 1, -1, 5, -4095))


def a_unit(r, units):
    if units and r.randrange(4):
        return r.choice(units)
    no_unit = r.choice((21, 21, 22, r.randrange(21, 64)))
    any_unit = r.randrange(21)
    return r.choice((0, 7, 8, 15, 16, 17, 18, 19, 20, 20, any_unit, any_unit, no_unit))


def able(unit):
    """What the unit can do, the transfers more often than the jumps."""
    kind = KINDS[unit % UNITS]
    ways = (34, 38) + (36, 36) * (kind.medium or kind.input)
    ways += (37, 37, 37) * (kind.medium or kind.output) + (35,) * (unit not in (16, 17, 19))
    return ways if unit < UNITS else (34, 35, 36, 37, 38)


def transfer(s, place, units, target=None):
    """One of the five operations, put in a cell; what to look at."""
    r, unit = s.r, a_unit(s.r, units)
    size = KINDS[unit].size if unit < UNITS else 14
    c = r.choice(able(unit) if r.randrange(8) else (34, 35, 36, 37, 38))
    if c in (34, 38):
        jumps = place, place, place + 1, 0, 100, 100, r.choice((4000, -1))
        m = r.choice(jumps) if target is None else target
    elif c == 35:
        m = control_of(r, unit)
    else:
        m = block_place(r, size)
        for _ in range(r.choice((0, 1, 2, 3)) if c == 37 else 0):
            s.cell(m + r.choice((0, 1, 2, size - 1, r.randrange(size))), any_word(r))
        if 8 <= unit < 16 and r.randrange(5):
            few = (r.choice("++++-"), r.choice((0, 0, 1, 1, 2, 3, 4)))
            many = (r.choice("+-"), r.choice((1, 1000, 4096, 1073741823)))
            s.register("X", few if r.randrange(12) else many)
    s.code(place, m, unit, c, r.choice((None, 0, 0, 0)))
    return unit, m, size


def look(s, unit, m, size):
    r = s.r
    if unit < UNITS or r.randrange(8) == 0:
        s.say("show", "unit", unit)
    beside = {at for at in (m - 1, m, m + 1, m + size - 1, m + size) if 0 <= at < 4000}
    if beside and r.randrange(2):
        s.say("show", "cells", min(beside), min(min(beside) + 2, 3999))
        s.say("show", "cells", max(max(beside) - 1, 0), max(beside))
    if r.randrange(2):
        s.say("show", r.choice(("regs", "regs", "clock")))


def one(s, units):
    r, place = s.r, s.r.choice((0, 0, 5, 2000, 3999, 150))
    s.say("set", "loc", place)
    seen = transfer(s, place, units)
    s.say("step", r.choice((1, 1, 1, 2)))
    look(s, *seen)
    again(s, seen[0])


def several(s, units):
    """A small program: transfers, waiting for a unit, other work."""
    r, seen = s.r, []
    place, count = r.choice((0, 10, 3990)), r.randrange(2, 7)
    for at in range(place, place + count):
        if r.randrange(4) == 0:
            s.code(at, r.choice((1, 2, 5)), 0, r.choice((48, 55, 49)), 0)
        else:
            seen.append(transfer(s, at, units, r.choice((at, at, place, at + 1))))
    s.say("set", "loc", place)
    for _ in range(r.randrange(1, 4)):
        s.say(r.choice(("step", "run")), r.choice((1, 2, count, count, 10, 40)))
        s.say("show", "clock")
    for unit, m, size in seen[:3]:
        look(s, unit, m, size)
    again(s, seen[0][0] if seen else 0)


def again(s, unit):
    r = s.r
    if r.randrange(2):
        back = r.choice((1, 1, 2, 3, "all"))
        s.say("back", back)
        if unit < UNITS:
            s.say("show", "unit", unit)
        if r.randrange(2):
            s.say("forth", 1 if back == "all" else back)
            s.say("show", "unit", min(unit, 20))


ODD = (0, 15, 16, 20, 21, 99, "00", "9999999999", "99999999999", "x", "-1", "+1", "")


def script(r, units):
    scene = Scene(r)
    for _ in range(r.choice((1, 1, 2, 3, 5))):
        (one if r.randrange(3) else several)(scene, units)
    if r.randrange(4) == 0:
        scene.say("show", "unit", r.choice(ODD))
    if r.randrange(3) == 0:
        scene.say("show", "all")
    if r.randrange(3) == 0:
        scene.say("back", "all")
        for unit in sorted(units)[:2]:
            scene.say("show", "unit", unit)
    return [line.encode() for line in scene.lines]


def bundle(r):
    wrong = r.randrange(3) == 0
    lines, units = deck(r, wrong)
    text = with_ends(r, joined(lines))
    if wrong and r.randrange(12) == 0:
        text = text[: r.randrange(len(text) + 1)]
    text = text + b"\n" if text and not text.endswith(b"\n") else text
    deck_part = b"%DEVICES\n" + text if text or r.randrange(2) else b""
    script_part = with_ends(r, joined(script(r, units)))
    return b" END 0\n" + deck_part + b"%SCRIPT\n" + script_part
