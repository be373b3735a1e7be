"""Asks the debug adapter about the run of a program, reads symbols and expressions as the model
does, and writes words, rows and changes as the program does, for tests alone."""

from running import asked
from tests.model import words
from tests.model.assembler import assemble
from tests.model.expressions import expression

STATE = ("mix/state", {"cells": [], "nonzero": True})


def line(text):
    """The request for a line of the console."""
    return "evaluate", {"expression": text, "context": "repl"}


def total_of(program, bundle):
    """How many changes a run to the halt makes."""
    ran, state = asked(program, bundle, [line("run 1000000"), STATE])
    if not reply_of(ran).endswith(": halt\n"):
        raise ValueError(f"no halt: {reply_of(ran)}")
    return Machine(state).done


def reply_of(response):
    """What a line of the console says, or how it is refused."""
    return response["body"]["result"] if response["success"] else f"? {response['message']}"


class Machine:
    """The machine of a moment; its words are those of the model."""

    def __init__(self, response):
        body = response["body"]
        self.done, self.location = body["done"], body["location"]
        self.cells = {cell["cell"]: word_of(cell["word"]) for cell in body["cells"]}
        self.registers = {each["name"]: word_of(each["word"]) for each in body["registers"]}

    def word(self, at):
        return self.cells.get(at, words.ZERO)


def word_of(text):
    sign, *five = text.split()
    return words.joined(sign, map(int, five))


def written(n, size=5):
    """A number from 0 on as a word is written, or as a register of fewer bytes."""
    return words.written(("+", n), 6 - size)


def row(text, width=120):
    """A row of the printer, or of another unit that writes characters."""
    return "> " + text.ljust(width)


def change(n, place, text, time, *items):
    """The line of a change."""
    return "".join(["%7d  %04d  %-17s  %3du" % (n, place, text, time)] + ["  " + item for item in items])


def value_of(text, symbols):
    return words.number(expression(text.encode(), 0, symbols, words.ZERO)[0])


def symbols_of(source):
    """The symbols of a source, each with its word."""
    return dict(assemble("".join(f"{line}\n" for line in source).encode()).symbols())
