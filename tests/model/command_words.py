"""The words of a command: numbers, expressions, W-values, places, lines, conditions.

All of them are read before any is tested for its range."""

from tests.model.expressions import expression, w_value
from tests.model.operations import NAMES
from tests.model.texts import Fault
from tests.model.transfers import Conflicts
from tests.model.units import UNITS
from tests.model.words import number

MOST = 8  # conditions of one command
OPERANDS = (b"CELL", b"LOC", b"UNIT")  # are followed by a word, whichever it is


def digits_of(word):
    if not word.isdigit() or len(word) > 10:
        raise Fault("C2")
    return int(word)


def expression_in(session, word):
    try:
        value, at = expression(word, 0, session.names, session.here())
    except Fault:
        raise Fault("C2")
    if at < len(word):
        raise Fault("C2")
    return value


def w_value_in(session, word):
    try:
        return w_value(word, session.names, session.here())
    except Fault:
        raise Fault("C2")


def place_in_range(word):
    place = number(word)
    if not 0 <= place <= 3999:
        raise Fault("C3")
    return place


def unit_in_range(n):
    if n >= UNITS:
        raise Fault("C3")
    return n


def line_place(session, word):
    """The cell of the first line from a number on that assembles a word."""
    n = digits_of(word)
    later = [entry for entry in session.program.entries if entry.line >= n]
    if n == 0 or not later:
        raise Fault("C3")
    return min(later, key=lambda entry: entry.line).place


def cells_between(session, first, last):
    first, last = expression_in(session, first), expression_in(session, last)
    first, last = place_in_range(first), place_in_range(last)
    if first > last:
        raise Fault("C3")
    return range(first, last + 1)


def condition(session, words):
    """The words behind `until`, conditions with OR between them: all read before one is tested for
    its range."""
    conditions = []
    while True:
        size = 2 if words[:1] and words[0] in OPERANDS else 1
        conditions.append(one_condition(session, words[:size]))
        match words[size:]:
            case []:
                return conditions
            case [b"OR", *words] if len(conditions) < MOST:
                pass
            case _:
                raise Fault("C2")


def one_condition(session, words):
    match [word.decode("latin-1") for word in words]:
        case [register] if register in NAMES:
            return ("register", register)
        case ["OVER" | "CMP" as part]:
            return (part.lower(), None)
        case ["CONFLICT"]:
            return ("conflict", lambda: Conflicts(session))
        case ["CELL" | "LOC" as part, _]:
            word = expression_in(session, words[1])
            return (part.lower(), lambda: place_in_range(word))
        case ["UNIT", _]:
            n = digits_of(words[1])
            return ("unit", lambda: unit_in_range(n))
    raise Fault("C2")


def conditions_in_range(cond):
    return [(kind, which() if callable(which) else which) for kind, which in cond]
