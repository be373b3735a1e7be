"""What the documents say: the tables that a program reads too, and the faults, each with a number and a text (docs/FAULTS.md)."""

import pathlib
import re

DOCS = pathlib.Path(__file__).resolve().parents[2] / "docs"


def document(name):
    return (DOCS / name).read_text()


def rows(name):
    """The rows of a table below its head, each a list of its cells."""
    return [line.split("\t") for line in document(name).splitlines()[1:]]


# A text up to what stands for a name, a line or another fault.
ROW = re.compile(r"^\| ([AMKCT]\d+) \| (.*?)(?:: NAME.*?|(?<=: )Mn text|N: Kn text|) \|", re.M)
TEXTS = dict(reversed(ROW.findall(document("FAULTS.md"))))  # the first row of each has its text


class Fault(Exception):
    """A refusal by number; `line` where it stands in a source or a deck, `more` what follows the text."""

    def __init__(self, number, line=None, more=""):
        super().__init__(number)
        self.number, self.line, self.more = number, line, more

    def text(self):
        """Both, with a blank between."""
        return self.number + " " + TEXTS[self.number] + self.more


def lines_of(text):
    """Pieces between line feeds; an empty last one doesn't count; one carriage return at the end of each is dropped."""
    pieces = text.split(b"\n")
    if pieces[-1] == b"":
        pieces.pop()
    return [piece[:-1] if piece.endswith(b"\r") else piece for piece in pieces]


def words_of(line):
    """What stands between blanks. A tab is a blank, and nothing else is."""
    return [word for word in line.replace(b"\t", b" ").split(b" ") if word]


def is_blank(line):
    return not words_of(line)
