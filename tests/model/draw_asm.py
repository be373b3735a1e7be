"""Random sources for the whole assembler, towards its edges and faults."""

from tests.model import draw_text as texts
from tests.model.draw_text import folded, some, with_ends

NAMES = b"X Y Z START LOOP A1 2X LONGSYMBOL B2 HF".split()
WINDOWS = [(0, 40), (95, 130), (995, 1020), (3980, 3999)]


class Draft:
    """A source as it is drawn: its lines, and the names that they define and use. The rules of
    draws.txt call the methods."""

    def __init__(self, r):
        self.r, self.lines = r, []
        self.defined, self.used, self.back, self.ahead = [], [], [], []
        self.own = []  # the dH of the line that is drawn, which is none of its dB

    def add(self, rule, label=b""):
        self.back, self.own = self.back + self.own, []
        self.lines.append(label + some(self.r, rule, self))

    def waiting(self):
        return [name for name in self.used if name not in self.defined]

    def free(self):
        return [name for name in NAMES if name not in self.defined]

    def defining(self, names):
        if not names:
            return b""
        self.defined.append(self.r.choice(names))
        return folded(self.r, self.defined[-1])

    def fresh_name(self):
        return self.defining(self.free())

    def waited_name(self):
        return self.defining(self.waiting() or self.free())

    def local_label(self, digit=None):
        if digit is None:
            digit = self.r.choice((2, 2, 2, 9, 0, 1))
            digit = self.r.choice(self.ahead) if self.ahead and self.r.randrange(2) else digit
        self.own.append(digit)
        self.ahead = [one for one in self.ahead if one != digit]
        return b"%d%s" % (digit, self.r.choice((b"H", b"H", b"H", b"h")))

    def ahead_label(self):
        return self.local_label(self.r.choice(self.ahead) if self.ahead else None)

    def known_name(self):
        r = self.r
        return folded(r, r.choice(self.defined)) if self.defined else some(r, "small")

    def known_local(self):
        back = self.back + self.own[: self.r.randrange(12) == 0]
        return b"%dB" % self.r.choice(back) if back else some(self.r, "small")

    def any_name(self):
        """What a literal names may be defined later."""
        return folded(self.r, self.r.choice(NAMES))

    def ahead_name(self):
        r = self.r
        if r.randrange(2):
            self.ahead.append(r.choice((2, 2, 2, 9, 0)))
            return b"%d%s" % (self.ahead[-1], r.choice((b"F", b"F", b"F", b"f")))
        self.used.append(r.choice(self.free() or [b"0"]))
        return folded(r, self.used[-1])

    def wrong(self):
        """A line with a fault, mostly."""
        r, kind = self.r, self.r.randrange(12)
        if kind < 2 and self.defined:  # a name twice, and perhaps another fault
            address = r.choice((b"5", b"Q", b"4096", b"4001", b"5+", b"5?", b"0,7"))
            op = r.choice(b"EQU NOP ORIG CON ALF LDA ADDD".split())
            return b" ".join((folded(r, r.choice(self.defined)), op, address))
        waiting = self.waiting() + [b"%dH" % digit for digit in self.ahead]
        if kind < 6 and waiting:  # an address that doesn't fit, or just does
            return r.choice(waiting) + b" EQU " + some(r, "beside_two_bytes")
        return some(r, "wrong_line") if kind < 9 else some(r, "line").replace(b"\n", b"")


def source(r):
    """The lines of a source, accepted ones and those with some faults in about equal parts."""
    draft, bold = Draft(r), r.randrange(2)
    lines = draft.lines
    for _ in range(r.choice((0, 1, 2, 3, 5, 5, 8, 12, 20))):
        draft.add("asm_line")
    for _ in range(r.randrange(1, 5) if bold and r.randrange(3) == 0 else 0):
        draft.add("at_the_end")
    if not (bold and r.randrange(4) == 0):
        # dF that no dH meets: mostly mended before END
        for digit in sorted(set(draft.ahead)) if r.randrange(12) else ():
            draft.add("mending", draft.local_label(digit))
        draft.add("asm_end")
    elif r.randrange(6):
        lines.append(some(r, "wrong_end"))
    for _ in range(r.choice((1, 1, 2, 3)) if bold and r.randrange(2) else 0):
        at = r.choice((r.randrange(len(lines) + 1), max(len(lines) - 1, 0)))
        lines.insert(at, draft.wrong())
    if bold and r.randrange(6) == 0:
        at = r.randrange(len(lines) or 1)
        lines[at : at + 1] = [texts.spoiled(r, it).replace(b"\n", b"") for it in lines[at : at + 1]]
    return lines + ([some(r, "after_asm_end")] if r.randrange(5) == 0 else [])


def text_of(r):
    """A source, seldom cut off somewhere."""
    text = with_ends(r, texts.joined(source(r)))
    text = text if r.randrange(20) else text.rstrip(b"\r\n")
    return text if r.randrange(40) else text[: r.randrange(len(text) + 1)]


def shown(text, everything):
    """A source in a bundle, whose script shows the cells and where the program begins."""
    windows = [*WINDOWS, *[(0, 3999)] * everything]
    shows = [b"show regs", *(b"show cells %d %d" % window for window in windows)]
    return text.removesuffix(b"\n") + b"\n%SCRIPT\n" + texts.joined(shows)


def bundle(r):
    return shown(text_of(r), r.randrange(100) == 0)
