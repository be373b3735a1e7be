"""The deck: what the units hold, and how long they take, before the program begins."""

import re

from tests.model.texts import Fault, is_blank, lines_of, words_of
from tests.model.units import EMPTY, KINDS, MOST, no_units
from tests.model.words import code_of, joined

DECK_BYTES = 33554432
HEADER = re.compile(rb"%UNIT[ \t]+([0-9]{1,2})(?:[ \t]+DELAY[ \t]+([0-9]{1,18}))?[ \t]*", re.IGNORECASE)
WORD = re.compile(rb"[+-][0-9]{10}")


class Part:
    """What stands below one header."""

    def __init__(self, unit, delay, silent):
        self.unit, self.delay = unit, delay
        self.silent = silent  # a unit that takes no input and was named for its delay
        self.words, self.blocks = [], []

    def line(self, line):
        kind = KINDS[self.unit]
        if self.silent:
            if not is_blank(line):
                raise Fault("K7")
        elif kind.medium:
            words = words_of(line)
            if len(self.words) + len(words) > MOST * kind.size:
                raise Fault("K8")
            self.words += [word_in(word) for word in words]
        else:
            if len(self.blocks) == MOST:
                raise Fault("K8")
            self.blocks.append(block_in(line, 5 * kind.size))

    def close(self):
        """At the next line that begins with `%`, and after the last line."""
        size = KINDS[self.unit].size
        if len(self.words) % size:
            raise Fault("K6")
        self.blocks += [tuple(self.words[at:at + size]) for at in range(0, len(self.words), size)]
        self.words = []


def word_in(word):
    if not WORD.fullmatch(word):
        raise Fault("K5")
    five = [int(word[at:at + 2]) for at in range(1, 11, 2)]
    if max(five) > 63:
        raise Fault("K5")
    return joined(word[:1].decode(), five)


def block_in(line, width):
    """A card or a line: its characters, blanks up to the full width, five in each word."""
    text = line.replace(b"\t", b" ").rstrip(b" ")
    if len(text) > width:
        raise Fault("K3")
    if any(code_of(byte) is None for byte in text):
        raise Fault("K4")
    codes = [code_of(byte) for byte in text.ljust(width)]
    return tuple(joined("+", codes[at:at + 5]) for at in range(0, width, 5))


def header(line, before):
    found = HEADER.fullmatch(line)
    if not found or int(found[1]) > 20:
        raise Fault("K1")
    unit = int(found[1])
    if unit in before:
        raise Fault("K2")
    kind = KINDS[unit]
    takes_none = not (kind.medium or kind.input)
    if takes_none and found[2] is None:
        raise Fault("K7")
    return Part(unit, int(found[2] or 0), takes_none)


def read_deck(deck):
    """The units, or the first fault with its line."""
    if len(deck) > DECK_BYTES:
        raise Fault("K9", 1)
    parts, part = {}, None
    lines = lines_of(deck)
    at = 0
    try:
        for at, line in enumerate(lines, 1):
            if line.startswith(b"%"):
                if part:
                    part.close()
                part = header(line, parts)
                parts[part.unit] = part
            elif part:
                part.line(line)
            elif not is_blank(line):
                raise Fault("K1")
        at = len(lines) + 1
        if part:
            part.close()
    except Fault as fault:
        fault.line = at
        raise
    units = list(no_units())
    for part in parts.values():
        units[part.unit] = EMPTY._replace(blocks=tuple(part.blocks), delay=part.delay)
    return tuple(units)
