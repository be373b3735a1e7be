"""Compares the nodes of linked memory that `show nodes` reads off the cells with another reading of the same cells

The remark `* nodes: ..` in the script of a lesson says how its nodes are drawn. At each of the first 400 moments of its run, and at each tenth after
that, what `show nodes` answers is compared with a search in breadth from the heads, over the cells that `mix/state` has at that moment.
A terminal and a script are asked too."""
import re

import pytest

from running import Bundle, at_a_terminal, replies_of
from tests import TOP
from tests.asking import STATE, Machine, asked, line, symbols_of, reply_of, total_of, value_of
from tests.model import words

REMARK = "* nodes: "
FEWEST = 10  # lessons that have the remark


class Shape:
    """What follows `show nodes`, for nodes as lessons have them."""

    def __init__(self, text, symbols):
        at = lambda text: value_of(text, symbols)
        first, last, size, more = re.fullmatch(r"from (\S+) to (\S+), (\d+) words each(.*)", text, re.I).groups()
        self.first, self.last, self.size, self.lists = at(first), at(last), int(size), {"base": ["0"], "label": [], "links": [], "heads": []}
        for part in re.split(", +", more)[1:]:
            name, *words = part.split()
            self.lists[name.lower()] = words
        (base,) = self.lists["base"]
        self.base = at(base)
        fields = lambda name: [self.field(word, at) for word in self.lists[name]]
        self.label, self.links = fields("label"), fields("links")
        # a head is the name of a register, a number or a field
        self.heads = [(word, word if re.fullmatch("I[1-6]", word) else at(word.strip("=")) if word[0] == "=" else self.field(word, at)) for word in self.lists["heads"]]

    @staticmethod
    def field(word, at):
        place, left, right = re.fullmatch(r"(.*?)(?:\((\d):(\d)\))?", word).groups()
        return at(place), 8 * int(left or 0) + int(right or 5)


def read(shape, machine):
    """The lines of `show nodes`: the nodes in breadth from those of row 0."""
    nodes = range(shape.first, shape.last - shape.size + 2, shape.size)
    at = lambda place, field: words.field_value(machine.word(place + field[0]), field[1])

    def leads(number, row=None):
        """What is said of a link; with the row of its node, whether it leads back."""
        goal = shape.base + number
        if number and goal in nodes and row is not None and rows[goal] <= row:
            return f"back:{goal:04}"
        if number and goal in range(shape.first, shape.first + len(nodes) * shape.size):
            return f"{goal:04}" if goal in nodes else f"inside:{goal:04}"
        return f"out:{number}" if number else "nil"

    registers = {name: words.number(word) for name, word in machine.registers.items() if name[0] == "I"}
    heads = [(word, registers.get(head, head) if isinstance(head, (str, int)) else words.number(at(0, head))) for word, head in shape.heads]
    pointers = [(name, shape.base + number) for name, number in registers.items() if number and shape.base + number in nodes]
    row = {shape.base + number for _, number in heads if number} & set(nodes) if heads else set(nodes)
    rows, links = {}, {node: [words.number(at(node, field)) for field in shape.links] for node in nodes}
    while row:
        rows |= dict.fromkeys(row, max(rows.values(), default=-1) + 1)
        row = {shape.base + number for node in row for number in links[node] if number} & set(nodes) - set(rows)
    yield from (f"head {word} {leads(number)}" for word, number in heads)
    yield from (f"pointer {name} {node:04}" for name, node in pointers)
    for node in sorted(rows):
        label = ["label", *(words.number_text(at(node, field)) for field in shape.label)] if shape.label else []
        yield " ".join([f"node {node:04} row {rows[node]}", *label, "links", *(leads(number, rows[node]) for number in links[node])])
    if len(rows) < len(nodes):
        yield f"unreached {len(nodes) - len(rows)}"


LESSONS = [path for path in sorted(TOP.glob("course/*/lesson.mixal")) if f"\n{REMARK}" in path.read_text()]


def test_lessons():
    """At least so many lessons say how their nodes are drawn."""
    assert len(LESSONS) >= FEWEST


@pytest.mark.parametrize("path", LESSONS, ids=lambda path: path.parent.name)
def test_lesson(program, path):
    """Whether the nodes are as they are read, at each moment; the first that differs is shown."""
    bundle = Bundle(path.read_text())
    (text,) = [line.removeprefix(REMARK) for line in bundle.script if line.startswith(REMARK)]
    shape = Shape(text, symbols_of(bundle.source))
    total = total_of(program, bundle)
    moments = [moment for moment in range(total + 1) if moment <= 400 or moment % 10 == 0 or moment == total]
    responses = asked(program, bundle, [line("run 1000000"), *(each for moment in moments for each in (line(f"goto {moment}"), line(f"show nodes {text}"), STATE))])[1:]
    for moment, _, said, state in zip(moments, responses[::3], responses[1::3], responses[2::3]):
        machine = Machine(state)
        wanted = "".join(f"{each}\n" for each in read(shape, machine))
        assert (machine.done, reply_of(said)) == (moment, wanted), f"{path.parent.name}, after {moment} changes"


def test_faces(program):
    """At a terminal and by the adapter a person gets the same answers; a script has no such lines."""
    bundle = Bundle(" NOP\n HLT\n ORIG 100\n CON 101\n CON 0\n END 0")
    answers = {
        "show nodes from 100 to 101, 1 words each, links 0, heads =100=": ["head =100= 0100", "node 0100 row 0 links 0101", "node 0101 row 1 links nil"],
        "SHOW Passages 0 of 100 assert 100+0 > 100": ["  state          100  100+0 > 100", "      0          101  true"],
        "show analysis": ["names", "time 0 = 0 = 0", "lines 0 ok, 0 no, 0 ?"],
    }
    terminal = at_a_terminal(program, [bundle.source], answers)[1:]
    adapter = [reply_of(each).splitlines() for each in asked(program, bundle, [*map(line, answers)])]
    bundle.script = list(answers)
    for (text, wanted), *said in zip(answers.items(), terminal, adapter, replies_of(program, bundle)):
        assert said == [wanted, wanted, ["? C2 bad argument"]], text
