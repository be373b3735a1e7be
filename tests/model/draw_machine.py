"""Scenes of a script that try an instruction or a few: a state towards its edges, a step, and a look at the result."""

from tests.model.operations import NAMES, REGISTERS as OF_CODE
from tests.model.words import FIELDS, FULL, joined

TOP = FULL - 1
EDGES = [0, 0, 1, 2, 63, 64, 65, 4095, 4096, 4097, 262143, 262144, 2**29, TOP // 2, TOP // 2 + 1, TOP - 1, TOP]
CELLS = [0, 1, 2, 99, 100, 100, 101, 102, 1000, 2000, 3998, 3999]
ADDRESSES = [0, 0, 1, 2, 100, 3998, 3999, 3999, 4000, 4000, 4001, 4094, 4095, 4096, 4096, 4097, -1, -1, -2, -100, -3999,
             -4000, -4095, -4096, -4096]


BYTES = (0, 0, 1, 9, 10, 19, 20, 29, 30, 39, 40, 62, 63)


def signed(r, magnitude):
    return (r.choice("+-"), magnitude)


def any_word(r):
    """A word: an edge, a small one, one of digits, one of telling bytes, or any."""
    some = r.choice((BYTES, BYTES, range(30, 40)))
    five = joined(r.choice("+-"), [r.choice(some) for _ in range(5)])
    edge, small = signed(r, r.choice(EDGES)), signed(r, r.randrange(200))
    words = edge, edge, edge, small, small, five, five, five, signed(r, r.randrange(FULL))
    return r.choice(words)


def near(r, word):
    """The word, or it with another sign, another byte, or one more or less."""
    sign, magnitude = word
    others = max(magnitude - 1, 0), min(magnitude + 1, TOP), (magnitude + 64 ** r.randrange(5)) % FULL
    return r.choice([word, (r.choice("+-"), magnitude), *((sign, other) for other in others)])


def text(r, word):
    """A word as a command takes it, with a plus sign or without, and perhaps with zeros before it."""
    sign = "" if word[0] == "+" and r.randrange(3) else word[0]
    return sign + ("%010d" if r.randrange(12) == 0 else "%d") % word[1]


def short(r):
    """What an index register may hold; now and then too much."""
    return signed(r, r.choice((0, 0, 1, 2, 5, 100, 2000, 3999, 4000, 4094, 4095, 4095, 4096, r.randrange(4096))))


def field(r):
    return r.choice((5, 5, 5, 5, 5, 0, 1, 13, 36, 45, 44, 2, 6, r.choice(list(FIELDS)), r.randrange(64)))


class Scene:
    """The commands so far, and what they have put where, as far as the draws look at it."""

    def __init__(self, r):
        self.r, self.lines, self.loc = r, [], 0
        self.words = {register: ("+", 0) for register in NAMES}

    def say(self, *words):
        self.lines.append(" ".join(str(word) for word in words))

    def register(self, name, word):
        if name in ("A", "X") or word[1] < 4096 and (name != "J" or word[0] == "+"):
            self.words[name] = word
        self.say("set", name, text(self.r, word))

    def cell(self, place, word):
        if 0 <= place < 4000:
            self.say("set", "cell", place, text(self.r, word))

    def number(self, name):
        sign, magnitude = self.words[name]
        return magnitude if sign == "+" else -magnitude

    def code(self, place, m, f, c, index=None):
        """An instruction whose M is to be m, if its index register is drawn so that it can be."""
        r = self.r
        if index is None:
            some = r.randrange(1, 7)
            index = some if abs(m) > 4095 else r.choice([0] * 8 + [some] * 3 + [r.randrange(64)])
        aa = m
        if 1 <= index <= 6:
            if r.randrange(3) or abs(m) > 4095:
                self.register("I%d" % index, r.choice((short(r), ("-" if m < 0 else "+", min(abs(m), 4095)))))
            aa = m - self.number("I%d" % index)
            if abs(aa) > 4095:
                aa = m
        sign = "-" if aa < 0 else "+" if aa > 0 else r.choice("++-")
        self.cell(place, joined(sign, [abs(aa) // 64 % 64, abs(aa) % 64, index, f, c]))

    def look(self, *places):
        r = self.r
        if r.randrange(8):
            self.say("show", "regs")
        for place in places:
            if 0 <= place < 4000:
                self.say("show", "cells", max(place - r.randrange(2), 0), min(place + r.randrange(2), 3999))


def an_address(r):
    return r.choice(CELLS) if r.randrange(4) else r.choice(ADDRESSES)


def state(s):
    """Some of the registers, the toggle and the indicator."""
    r = s.r
    for name in ("A", "X"):
        if r.randrange(2):
            s.register(name, any_word(r))
    if r.randrange(3) == 0:
        s.register(r.choice(NAMES[2:]), short(r))
    if r.randrange(4) == 0:
        s.say("set", "over", r.choice(("on", "off")))
    if r.randrange(5) == 0:
        s.say("set", "cmp", r.choice("LEG"))


def on_memory(s, c):
    """Loads, stores, arithmetic and comparisons: operand and register belong together."""
    r, place, f = s.r, an_address(s.r), field(s.r)
    name = "A" if c < 8 else OF_CODE[c % 8]
    operand = any_word(r)
    if name not in ("A", "X") and r.randrange(4):  # for an index register, or beside its edge
        operand = signed(r, r.choice((0, 1, 100, 4095, 4096)) if r.randrange(2) else r.randrange(4096))
    if r.randrange(3):
        if c in (1, 2):  # sums beside zero and beside the width of a word
            f = r.choice((5, 5, f))
            beside = signed(r, FULL - operand[1] if operand[1] and r.randrange(2) else operand[1])
            s.register(name, beside if r.randrange(2) else near(r, beside))
        elif c == 4:
            s.register("A", r.choice((near(r, operand), signed(r, r.randrange(operand[1] + 1)), signed(r, 0))))
        elif c == 3:
            s.register("A", any_word(r))
        else:
            s.register(name, near(r, operand))
    s.cell(place, operand)
    s.code(s.loc, place, f, c)
    return [place]


def on_rows(s, c):
    """The operations whose F is their name, and NOP: F is often one that names something, the state fits the test."""
    r, place = s.r, an_address(s.r)
    f = r.randrange({5: 9, 6: 7, 39: 11}.get(c, 7 if c < 48 else 5)) if r.randrange(8) else r.randrange(64)
    if c == 5 and r.randrange(3):
        f = r.choice((0, 0, 1))
        spelt = r.choice((FULL - 1, FULL, FULL + 1, 9999999999, r.randrange(10**10)))
        codes = [int(digit) + r.choice((0, 10, 30, 30, 50)) for digit in "%010d" % spelt]
        s.register("A", joined(r.choice("+-"), codes[:5]) if r.randrange(2) else any_word(r))
        s.register("X", joined(r.choice("+-"), codes[5:]) if r.randrange(4) else any_word(r))
    if c == 39 and r.randrange(2):
        s.say("set", "over", r.choice(("on", "off")))
        s.say("set", "cmp", r.choice("LEG"))
    if c == 6:
        place = r.choice((0, 1, 1, 2, 3, 4, 5, 6, 8, 9, 10, 11, 19, 63, 64, 501, 4095, -1, r.randrange(4096)))
    elif 40 <= c < 48:
        s.register(OF_CODE[c % 8], signed(r, r.choice((0, 0, 0, 1, 4095, r.randrange(4096)))))
    elif c >= 48:
        place = r.choice((0, 0, 1, 2, 4094, 4095, -1, -4095, r.randrange(-4095, 4096)))
        name = OF_CODE[c % 8]
        if name in ("A", "X"):
            edge = r.choice((TOP, TOP - 1, FULL - abs(place) if place else 0, abs(place), abs(place), abs(place) + 1))
            s.register(name, signed(r, edge) if r.randrange(4) else any_word(r))
        else:
            beside = r.choice((0, abs(place), 4095, 4095 - abs(place), min(4095, 4096 - abs(place))))
            s.register(name, signed(r, beside))
    s.code(s.loc, place, f, c)
    return []


def on_move(s):
    """From and to that overlap, lie far apart, end at the last cell or pass it."""
    r = s.r
    f = r.choice((0, 1, 1, 2, 3, 5, 63, r.randrange(64)))
    end = 4000 - f
    first = r.choice((0, 100, 100, 1000, end, end, end + 1, 3999, 4000, -1))
    target = r.choice((first, first + 1, first + 1, first - 1, first + 2, 200, 0, s.loc, end, end, end + 1, 4095, -1))
    for k in range(r.randrange(4)):
        s.cell(first + k, any_word(r))
    s.code(s.loc, first, f, 7, r.choice((0, 0, 0, 0, 0, 1, 2, r.randrange(64))))
    if r.randrange(8):
        s.register("I1", (r.choice("+++-") if target == 0 else "-" if target < 0 else "+", min(abs(target), 4095)))
    if 0 <= target < 4000:
        return [first, target, target + f - 1, target + f]
    return [first]


def on_pair(s, pair):
    place, (c, f) = an_address(s.r), pair
    s.cell(place, any_word(s.r))
    s.code(s.loc, place, f, c)
    return [place]


MEMORY = list(range(1, 5)) * 3 + list(range(8, 34)) + list(range(56, 64))
ROWS = [0, 5, 5, 5, 6, 6, 6] + [39] * 6 + list(range(40, 56))


def one(s, pair=None):
    """One instruction, a step, and the state after it. A pair of C and F that is given is tried, whatever it names."""
    r = s.r
    s.loc = r.choice((0, 0, 0, 0, 1, 5, 2000, 3998, 3999, 3999, r.randrange(4000)))
    s.say("set", "loc", s.loc)
    state(s)
    kind = r.randrange(20)
    if pair or kind == 0:
        places = on_pair(s, pair or (r.randrange(64), r.randrange(64)))
    elif kind < 3:
        places = on_move(s)
    else:
        places = on_memory(s, r.choice(MEMORY)) if kind < 11 else on_rows(s, r.choice(ROWS))
    s.say("step", *[] if r.randrange(5) else [r.choice((1, 1, 2, 3))])
    s.look(*places)


def several(s):
    """A few instructions in a row, on a few cells among which they stand."""
    r, count = s.r, s.r.randrange(2, 7)
    s.loc = r.choice((0, 0, 10, 3990, 3996))
    state(s)
    for k in range(count):
        c = r.choice(MEMORY + ROWS + [7, 7, 0])
        f = r.choice((0, 1, 2, 3, 4, 5)) if c in ROWS else r.choice((5, 5, 5, 13, 0, 36, 3))
        s.code(s.loc + k, s.loc + r.randrange(10) if r.randrange(8) else an_address(r), f, c,
               r.choice((0, 0, 0, 0, 0, 1, 6)))
    s.say("set", "loc", s.loc)
    for _ in range(r.randrange(1, 4)):
        s.say("step", r.choice((1, 2, count, count, 10)))
        s.look(s.loc + r.randrange(10))
    s.say("show", "cells", s.loc, s.loc + 9)
