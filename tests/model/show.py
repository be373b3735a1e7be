"""The command `show`: the machine, values, the source beside it, and by history.py the past."""

from tests.model import history
from tests.model.command_words import cells_between, digits_of, unit_in_range, w_value_in
from tests.model.history import code_line, symbols_of
from tests.model.operations import FIRST_BYTE, NAMES
from tests.model.texts import Fault
from tests.model.units import characters, is_empty, shown
from tests.model.words import ZERO, number_text, written


def show(session, words):
    world = session.world
    match words:
        case [b"REGS"]:
            return registers(world)
        case [b"CLOCK"]:
            return "clock %d\n" % world.clock
        case [b"CHANGES"]:
            return "changes %d\n" % len(session.changes)
        case [b"CELLS" | b"CODE" | b"VALUES" as what, first, last]:
            line = {b"CELLS": cell_line, b"CODE": code_line, b"VALUES": value_line}[what]
            return "".join(line(session, place) for place in cells_between(session, first, last))
        case [b"UNIT", word]:
            n = unit_in_range(digits_of(word))
            return shown(n, world.units[n])
        case [b"BREAKS"]:
            return breakpoints(world)
        case [b"ALL"]:
            return everything(session)
        case [b"SYMBOLS"]:
            return symbols_of(session.program)
        case [b"VALUES"]:
            rows = ((name, world.registers[name], FIRST_BYTE[name]) for name in NAMES)
            return "".join("%-2s %s" % (name, value_text(*value)) for name, *value in rows)
        case [b"VALUE", word]:
            return value_text(w_value_in(session, word))
        case [b"CODE"]:
            if world.loc > 3999:
                raise Fault("C3")
            return code_line(session, world.loc)
        case [b"COUNTS"]:
            return history.counts(session)
        case [b"CONFLICTS"]:
            return history.clashing(session)
        case [b"LAST", word]:
            return history.last(session, digits_of(word))
        case [b"WRITES", *condition]:
            return history.writes(session, condition)
        case [b"DIFF", word]:
            return history.diff(session, digits_of(word))
    raise Fault("C2")


def registers(world):
    lines = ["%-2s %s\n" % (name, written(world.registers[name], FIRST_BYTE[name])) for name in NAMES]
    flags = history.on_off(world.over), world.cmp, world.loc, world.clock
    return "".join(lines) + "over %s cmp %s loc %04d clock %d\n" % flags


def cell_line(session, place):
    return "%04d %s\n" % (place, written(session.world.cell(place)))


def value_line(session, place):
    return "%04d %s" % (place, value_text(session.world.cell(place)))


def breakpoints(world):
    return "breaks" + "".join(" %04d" % place for place in sorted(world.breaks)) + "\n"


def everything(session):
    world = session.world
    cells = (cell_line(session, place) for place in range(4000) if world.cell(place) != ZERO)
    units = (shown(n, unit) for n, unit in enumerate(world.units) if not is_empty(unit))
    return "".join([registers(world), *cells, breakpoints(world), *units])


def value_text(word, first=1):
    last = characters([word])[first - 1 :]
    return '%-16s %11s  "%s"\n' % (written(word, first), number_text(word), last)
