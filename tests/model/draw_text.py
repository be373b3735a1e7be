"""Texts that are drawn by the rules of draws.txt: lines of sources, decks and scripts, right ones
and wrong ones."""

import pathlib
import re

from tests.model.draw_machine import any_word, short, text
from tests.model.lines import OPERATIONS
from tests.model.words import CHARACTERS, FULL, bytes_of as bytes_in
from tests.rows.faces import bytes_of

TOP, HALF = FULL - 1, FULL // 2
EDGES = [0, 0, 1, 1, 2, 3, 5, 6, 7, 8, 9, 63, 64, 65, 100, 4095, 4096, 262143, 262144]
EDGES += [HALF - 1, HALF, HALF + 1, TOP // 8, TOP // 8 + 1, TOP - 1, TOP, TOP]
REMARKABLE = b' \t\t""?=,()+-*/:.$\'~[#0129AXxzZHBFhbf@`{'
REFERENCE = re.compile(r"(\d+)-(\d+)|(\w+?)(?:\*(\d+)-(\d+))?(?:!(\w+))?")


def rules():
    """Each rule: its alternatives, each a text and a reference in turn."""
    told = pathlib.Path(__file__).with_name("draws.txt").read_text()
    for name, form, body in re.findall(r"(?m)^(\w+) ([=:]) ?(.*(?:\n(?:\||    ).*)*)", told):
        found = []
        for one in body.split() if form == ":" else body.replace("\n", "").split("|"):
            weight, one = re.fullmatch(r"(?:\{(\d+)\})?(.*)", one).groups()
            texts = [bytes_of(part) for part in re.split("<.*?>", one)]
            named = [REFERENCE.fullmatch(part).groups() for part in re.findall("<(.*?)>", one)]
            parts = [part for pair in zip(texts, [*named, b""]) for part in pair]
            found += [parts] * int(weight or 1)
        yield name, found


def some(r, name, own=None):
    """A text of this name, by a method of what keeps the names of a source, or by a rule."""
    if method := getattr(own, name, None) or name in DRAWN and (lambda: DRAWN[name](r)):
        return method()
    return chosen(r, r.choice(RULES[name]), own)


def chosen(r, parts, own=None):
    return b"".join(it if isinstance(it, bytes) else referred(r, own, *it) for it in parts)


def referred(r, own, first, last, name, least, most, function):
    if first:
        return b"%d" % r.randint(int(first), int(last))
    number = r.randint(int(least), int(most)) if least else 1
    if number > 9 and len(RULES[name]) == len(RULES[name][0]) - 1 == 1:  # one text, many times
        return RULES[name][0][0] * number
    found = b"".join(some(r, name, own) for _ in range(number))
    return FUNCTIONS[function](r, found) if function else found


def folded(r, text):
    return r.choice((text, text, text, text.lower(), text.title(), text.swapcase()))


def spoiled(r, text):
    """The text with a strange byte put in, a byte left out or replaced, a piece doubled, or its end
    cut off."""
    at = r.randrange(len(text) + 1)
    strange = some(r, r.choice(("no_character", "strange", "remarkable_byte")))
    again, end = (text[at : at + 3], at), (b"", len(text))
    put, left = r.choice(((strange, at), (b"", at + 1), again, (strange, at + 1), end))
    return text[:at] + put + text[left:]


def dressed(r, line):
    """In another case, with other blanks, or spoiled."""
    blanks = line.replace(b" ", r.choice((b"\t", b"  ", b" \t")))
    around = r.choice((b" ", b"\t", b"  ")) + line + r.choice((b"", b" ", b"\t"))
    ways = line, line, line, line.upper(), line.title(), blanks, around, spoiled(r, line)
    return r.choice(ways)


def edge_expression(r):
    """Two or three atoms about an edge of a sum, a product or a quotient."""
    numbers = [r.choice(EDGES) for _ in range(3)]
    if r.randrange(3) == 0:
        first = r.randrange(1, r.choice((9, TOP)))
        beside = FULL - first, TOP - first, first, first + 1, first - 1
        numbers = [first, r.choice(beside), r.choice((0, 1, TOP))]
    found = b"%s%d%s%d" % (some(r, "known_sign"), numbers[0], some(r, "operator"), numbers[1])
    last = (b"%d" % numbers[2], b"Q", b"2F", b"", b"2H", b"*", b"12345678901")
    return found + some(r, "operator") + r.choice(last) if r.randrange(2) else found


def written_word(r):
    """A word as a deck has it."""
    word = any_word(r)
    return word[0].encode() + b"".join(b"%02d" % byte for byte in bytes_in(word))


MACHINE = [[name] for name, op in OPERATIONS.items() if op[0] == "machine"]
RULES = {**dict(rules()), "operation": [[it] for it in OPERATIONS], "machine_operation": MACHINE}
FUNCTIONS = {
    "folded": folded,
    "dressed": dressed,
    "packed": lambda r, text: text.replace(b" ", b"") or b"0",
}
# What no rule draws.
DRAWN = {
    "edge_expression": edge_expression,
    "written_word": written_word,
    "word": lambda r: text(r, any_word(r)).encode(),
    "index_word": lambda r: text(r, short(r)).encode(),
    "remarkable_byte": lambda r: bytes([r.choice(REMARKABLE)]),
    "character": lambda r: bytes([r.choice(CHARACTERS)]),
    "any_byte": lambda r: bytes([r.choice((r.choice(CHARACTERS), r.randrange(256)))]),
}


def with_ends(r, text, *more):
    """The lines of a text with one line end, or with several."""
    ends = [b"\n"] * 12 + [b"\r\n"] * 3 + [*more]
    return text if r.randrange(5) else re.sub(b"\n", lambda _: r.choice(ends), text)


def joined(lines):
    return b"".join(line + b"\n" for line in lines)
