"""What the exercises of the course are made of: the numbers of a student, a case, and the files of grade/ that say it."""
import hashlib
import typing


class Draw:
    """Numbers that some words settle, the same on every computer: the lesson, the student, the case, and a word that the teacher keeps."""

    def __init__(self, *words):
        self.words, self.drawn = "\n".join(words), 0

    def number(self, low, high):
        """A number from low to high."""
        self.drawn += 1
        digest = hashlib.sha256(f"{self.words}\n{self.drawn}".encode()).digest()
        return low + int.from_bytes(digest, "big") % (high - low + 1)

    def numbers(self, count, low, high):
        return [self.number(low, high) for _ in range(count)]

    def one_of(self, values):
        return values[self.number(0, len(values) - 1)]

    def shuffled(self, values):
        values = list(values)
        for at in range(len(values) - 1, 0, -1):
            other = self.number(0, at)
            values[at], values[other] = values[other], values[at]
        return values

    def distinct(self, count, low, high):
        """Numbers that differ, in no order."""
        found = set()
        while len(found) < count:
            found.add(self.number(low, high))
        return self.shuffled(sorted(found))


class Case(typing.NamedTuple):
    """What a program is given, and what it must leave: numbers in the cells that are named, or rows on a unit, the printer if no other is named.

    `given` has a number for a symbol that EQU defines, a string for a cell that CON fills, and a list for the lines of a block of data. `always` has
    limits that every run keeps, such as how often a subroutine is called; one more case asks for `limits` too. With `strict` one more allows no
    step that uses cells of a transfer under way. If it has cells and `rows`, these are compared then."""

    given: dict
    wanted: list
    cells: tuple = ()
    limits: tuple = ()
    always: tuple = ()
    rows: tuple = ()
    cards: list = None
    deck: list = None
    told: str = ""
    unit: str = "18"
    steps: int = 20000
    strict: bool = False

    def lines(self):
        """The lines that take the place of those in a source."""
        for name, value in self.given.items():
            if isinstance(value, list):
                yield from (f"* {name}", *(line if isinstance(line, str) else f"        CON  {line}" for line in value), f"* end of {name}")
            else:
                yield f"{name:<7} {'EQU ' if isinstance(value, int) else 'CON '} {value}"

    def files(self, put, kind, weight):
        """The files of the case, as grade/README.md describes them."""
        found = {"data": self.lines() if put and self.given else (), "deck": self.deck, "cards": self.cards, "steps": (self.steps,), "weight": (weight,)}
        if self.cells and not (kind == "strict" and self.rows):
            more = {"limits": self.limits, "strict": ("conflicts = 0",), "": ()}[kind]
            found.update(wanted=self.wanted, cells=self.cells, limits=(*self.always, *more))
        else:
            found.update(wanted=self.rows or self.wanted, unit=(self.unit,), strict=("a program waits for its units",) if kind == "strict" else ())
        return {name: "".join(f"{line}\n" for line in lines) for name, lines in found.items() if lines or name == "wanted"}
