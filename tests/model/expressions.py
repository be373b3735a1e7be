"""Atoms, expressions, W-values, and the ADDRESS of an instruction (1.3.2).

What reads a part begins at a place of the text and gives what it read, with the place where that ends. All is read from the
left, so the first fault met is the first fault of the text. `names` has the word of each symbol, in capitals, and of each dB
that is defined; `here` is the word for `*`."""

import re
from collections import namedtuple

from tests.model.texts import Fault
from tests.model.words import FIELDS, FULL, ZERO, add, div, mul, negated, number, put_field, sub

RUN = re.compile(rb"[A-Za-z0-9]*")
DIGITS = 10
SYMBOL = 10  # characters of the longest
WHOLE = 5  # the field (0:5)
EIGHT = ("+", 8)

# The A-part is ("value", word), a name to come as ("name", symbol) or ("ahead", d), or ("literal",
# what stands between the `=`).
Operand = namedtuple("Operand", "a index f")


def run_at(text, at):
    """The letters and digits from there on, as capitals."""
    return RUN.match(text, at).group().upper()


def is_local(run, letters):
    return len(run) == 2 and run[:1].isdigit() and run[1:] in letters


def is_symbol(run):
    """At least one letter, at most ten characters, and none of dH, dB and dF."""
    return 0 < len(run) <= SYMBOL and not run.isdigit() and not is_local(run, (b"H", b"B", b"F"))


def atom(text, at, names, here):
    if text[at:at + 1] == b"*":
        return here, at + 1
    run = run_at(text, at)
    if run == b"":
        raise Fault("A5")
    if run.isdigit():
        return number_of(run), at + len(run)
    if len(run) > SYMBOL or is_local(run, (b"H",)):
        raise Fault("A3")
    if run not in names:
        raise Fault("A14" if is_local(run, (b"B",)) else "A7")
    return names[run], at + len(run)


def number_of(run):
    if len(run) > DIGITS or int(run) >= FULL:
        raise Fault("A6")
    return ("+", int(run))


def operator_at(text, at):
    if text[at:at + 2] == b"//":
        return b"//"
    one = text[at:at + 1]
    return one if one in (b"+", b"-", b"*", b"/", b":") else None


def operate(operator, a, b):
    if operator in (b"/", b"//"):
        result = div((a[0], 0), a, b) if operator == b"/" else div(a, ZERO, b)
        if result is None:
            raise Fault("A8")
        return result[0]
    if operator == b"*":
        return mul(a, b)[1]
    if operator == b":":
        result, overflow = add(mul(a, EIGHT)[1], b)
    else:
        result, overflow = (add if operator == b"+" else sub)(a, b)
    if overflow:
        raise Fault("A8")
    return result


def expression(text, at, names, here):
    """Perhaps a sign, an atom, and then operator and atom again and again, each done as soon as it is read."""
    sign = text[at:at + 1]
    value, at = atom(text, at + 1 if sign in (b"+", b"-") else at, names, here)
    if sign == b"-":
        value = negated(value)
    while True:
        operator = operator_at(text, at)
        if operator is None:
            return value, at
        other, at = atom(text, at + len(operator), names, here)
        value = operate(operator, value, other)


def in_brackets(text, at, names, here):
    """The expression of `(expression)`."""
    value, at = expression(text, at + 1, names, here)
    if text[at:at + 1] != b")":
        raise Fault("A5")
    return value, at + 1


def at_end(text, at):
    if at < len(text):
        raise Fault("A5")


def w_value(text, names, here):
    word, at = ZERO, -1
    while at < 0 or text[at:at + 1] == b",":
        value, at = expression(text, at + 1, names, here)
        code = WHOLE
        if text[at:at + 1] == b"(":
            field, at = in_brackets(text, at, names, here)
            code = number(field)
            if code not in FIELDS:
                raise Fault("A10")
        word = put_field(word, code, value)
    at_end(text, at)
    return word


def a_part(text, names, here):
    """The part, and where it ends."""
    if text[:1] == b"=":
        end = text.find(b"=", 1)
        if end < 0:
            raise Fault("A5")
        return ("literal", text[1:end]), end + 1
    if text[:1] in (b"", b",", b"("):
        return ("value", ZERO), 0
    run = run_at(text, 0)
    if operator_at(text, len(run)) is None:  # it stands alone
        if is_local(run, (b"F",)):
            return ("ahead", int(run[:1])), 2
        if is_symbol(run) and run not in names:
            return ("name", run), len(run)
    value, at = expression(text, 0, names, here)
    return ("value", value), at


def in_range(value, top):
    if not 0 <= number(value) <= top:
        raise Fault("A10")
    return number(value)


def address(text, normal_f, names, here):
    """A-part, index and F, each where it is given."""
    a, at = a_part(text, names, here)
    index, f = 0, normal_f
    if text[at:at + 1] == b",":
        value, at = expression(text, at + 1, names, here)
        index = in_range(value, 6)
    if text[at:at + 1] == b"(":
        value, at = in_brackets(text, at, names, here)
        f = in_range(value, 63)
    at_end(text, at)
    return Operand(a, index, f)
