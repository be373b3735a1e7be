"""A line of a source: LOC, OP and ADDRESS, and the characters of ALF (1.3.2); and the line that assembles to a word."""

import re
from collections import namedtuple

from tests.model.expressions import address, expression, is_local, is_symbol, w_value
from tests.model.operations import FLOATING, NEEDS_FIELD, NEEDS_NO_ADDRESS, TABLE
from tests.model.texts import Fault
from tests.model.units import UNITS
from tests.model.words import FIELDS, code_of, instruction, joined, number_text

# LOC is None, ("name", symbol) or ("local", d). OP is ("machine", C, normal F), ("equ",),
# ("orig",), ("con",), ("end",) or ("alf", word), which has no ADDRESS.
Line = namedtuple("Line", "loc op address")

BLANKS, WORD = re.compile(rb"[ \t]*"), re.compile(rb"[^ \t]*")
LETTERS = b"ABCDEFGHIJKLMNOPQRSTUVWXYZabcdefghijklmnopqrstuvwxyz"
MAY_HAVE_A_REMARK_ALONE = (b"HLT", b"NUM", b"CHAR")
PSEUDO = {b"EQU": ("equ",), b"ORIG": ("orig",), b"CON": ("con",), b"END": ("end",)}

# Of the operations that have any F; of the others it is the field (0:5).
NORMAL_F = {0: 0, 7: 1, 32: 2, 34: 0, 35: 0, 36: 0, 37: 0, 38: 0}


def _table():
    """Each name with its C and normal F: the F that names the operation, if one does."""
    named = {}
    for (c, f), op in TABLE.items():
        named.setdefault(op.name.encode(), []).append((c, f))
    return {name: ("machine",) + (pairs[0] if len(pairs) == 1 else (pairs[0][0], NORMAL_F.get(pairs[0][0], 5)))
            for name, pairs in named.items()}


OPERATIONS = {**_table(), **PSEUDO}


def word_at(line, at):
    """What stands from there to the next blank, and where it ends."""
    word = WORD.match(line, at)
    return word[0], word.end()


def after_blanks(line, at):
    return BLANKS.match(line, at).end()


def check_characters(text):
    if any(code_of(byte) is None for byte in text):
        raise Fault("A1")


def read_line(line):
    """None for a comment or a blank line; else LOC, OP and ADDRESS, or the first fault. The line has no line end any more."""
    if line.startswith(b"*") or after_blanks(line, 0) == len(line):
        return None
    loc, at = word_at(line, 0)
    label = label_of(loc) if loc else None
    op, at = word_at(line, after_blanks(line, at))
    op = op.upper()
    check_characters(op)
    if op == b"ALF":
        return Line(label, ("alf", characters(line[at:])), b"")
    if op not in OPERATIONS:
        raise Fault("A2")
    address, _ = word_at(line, after_blanks(line, at))
    if op in MAY_HAVE_A_REMARK_ALONE and address[:1] and address[:1] in LETTERS:
        address = b""
    check_characters(address)
    return Line(label, OPERATIONS[op], address)


def label_of(loc):
    check_characters(loc)
    loc = loc.upper()
    if is_local(loc, (b"H",)):
        return ("local", int(loc[:1]))
    if not (loc.isalnum() and is_symbol(loc)):
        raise Fault("A3")
    return ("name", loc)


def characters(rest):
    """The word of an ALF, from what stands behind it."""
    begin = after_blanks(rest, 0)
    if rest[begin:begin + 1] == b'"':
        text, quote, _ = rest[begin + 1:].partition(b'"')
        if not quote or len(text) > 5:
            raise Fault("A12")
    elif begin == 1:
        text = rest[1:6]
    else:
        text = rest[2:7]
    text = text.replace(b"\t", b" ")
    check_characters(text)
    return joined("+", [code_of(byte) for byte in text.ljust(5)])


def text_of(word):
    """A line of source that assembles to the word."""
    sign, aa, index, f, c = instruction(word)
    name, part = name_and_part(c, f)
    if name is None or index > 6:
        return "CON " + number_text(word)
    rest = number_text((sign, aa)) + (",%d" % index if index else "") + part
    return name if rest == "0" and name in NEEDS_NO_ADDRESS else name + " " + rest


def name_and_part(c, f):
    """The name of the operation and its F-part; no name where the machine would refuse the pair."""
    if (c, f) in FLOATING or (c, f) not in TABLE or c in NEEDS_FIELD and f not in FIELDS or 34 <= c <= 38 and f >= UNITS:
        return None, ""
    name = TABLE[c, f].name
    if c in (5, 6) or 39 <= c <= 55 or f == NORMAL_F.get(c, 5):
        return name, ""
    return name, "(%d:%d)" % divmod(f, 8) if c in NEEDS_FIELD else "(%d)" % f


def shown(value):
    """What is of a kind: a word, a symbol, a digit, or the bytes of a literal."""
    kind, what = value
    if kind in ("value", "alf"):
        return f"{kind}:{number_text(what)}"
    if kind == "literal":
        return f"{kind}:{what.hex() or '-'}"
    return f"{kind}:{what.decode() if isinstance(what, bytes) else what}"


def of_line(line):
    if line is None:
        return "remark"
    loc = shown(line.loc) if line.loc else "-"
    kind, *more = line.op
    op = "machine:%d:%d" % tuple(more) if kind == "machine" else shown(line.op) if more else kind
    return f"code {loc} {op} {line.address.hex() or '-'}"


def answer(kind, text, names, here, normal_f):
    """Of a kind L, E, W or A, by names with a word each and a word for `*`; an A has a normal F."""
    try:
        if kind == "L":
            return of_line(read_line(text))
        if kind == "E":
            word, used = expression(text, 0, names, here)
            return "%s %d" % (number_text(word), used)
        if kind == "W":
            return number_text(w_value(text, names, here))
        a, index, f = address(text, normal_f, names, here)
        return "%s %d %d" % (shown(a), index, f)
    except Fault as fault:
        return fault.number
