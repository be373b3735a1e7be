"""What a lesson's facts are made of; and the times in square brackets in the remarks of a program, against what `show counts` says."""
import ast
import operator

from machine import TIMES

OPERATORS = {ast.Add: operator.add, ast.Sub: operator.sub, ast.Mult: operator.mul, ast.FloorDiv: operator.floordiv}
TRANSFERS = ("IN", "OUT", "IOC")


def time_of(name, address="", quantities=None):
    """The time of an operation in u, that of a transfer without waiting."""
    time = TIMES[name]
    return 1 + 2 * value_of(address.partition("(")[2].rstrip(")") or "1", quantities or {}) if name == "MOVE" else time


def value_of(text, quantities):
    """The value of an expression of numbers, names, brackets and + - * //."""

    def value(node):
        if isinstance(node, ast.BinOp):
            return OPERATORS[type(node.op)](value(node.left), value(node.right))
        if isinstance(node, ast.UnaryOp) and isinstance(node.op, ast.USub):
            return -value(node.operand)
        return quantities[node.id] if isinstance(node, ast.Name) else ast.literal_eval(node)

    return value(ast.parse(text, mode="eval").body)


def times_of(line):
    """The expression in a line's square brackets, if it has them."""
    return line.partition("[")[2].partition("]")[0] if line[:1] != "*" and "[" in line else None


def instruction_of(line):
    """The operation and the address of a line of the source."""
    words = line.split() if line[:1].isspace() else line.split()[1:]
    return words[0], words[1] if len(words) > 1 else ""


def count_at(outcome, instruction):
    """How often the one line with this operation and address is done."""
    found = [number for number, line in enumerate(outcome.source, 1) if line[:1] not in ("", "*") and " ".join(instruction_of(line)) == instruction]
    (number,) = found
    return outcome.counts()[number][0]


def measured(outcome, letters):
    """The counts of the lines whose times are such a letter alone: from a few of them all others follow (Kirchhoff's law)."""
    counts = outcome.counts()
    return {letter: next(counts[number][0] for number, line in enumerate(outcome.source, 1) if times_of(line) == letter) for letter in letters}


def times(outcome, waiting=False, overwritten=(), **quantities):
    """Compares the end of the run with a halt, each count with the column "times", each time with the count, and their sums with the last line.

    `waiting` is for programs whose transfers wait: then the time of IN, OUT and IOC is not compared; nor is that of the operations `overwritten`, whose
    lines the program replaces by others."""
    yield "how the run ends", outcome.end, "halt"
    steps = time = 0
    for number, (count, took) in outcome.counts().items():
        line = outcome.source[number - 1]
        name, address = instruction_of(line)
        told = times_of(line)
        wanted = value_of(told, quantities) if told is not None else "no times in its line"
        yield f"how often line {number} is done, {' '.join(line.split())}", count, wanted
        if not (waiting and name in TRANSFERS or name in overwritten):
            yield f"time of line {number}, {name}", took, count * time_of(name, address, quantities)
            time += count * time_of(name, address, quantities)
        else:
            time += took
        steps += count
    total = outcome.lines("show counts")[-1].split()
    yield "the total", total, [str(steps), str(time), "total"]


RUN = ["run 1000000", "show counts"]
