"""Compares the passages of a line that `show passages` tells with the machine at each moment of the run

Each line of LINES, of a program of the course, is named by its label and by its number. Its passages are the moments at whose location its cell is,
found by going to each of them; they are the changes of `show writes loc` too. The values are those of `mix/state` at that moment, and the assertion is
Python's comparison."""
import operator
import re

import pytest

from running import Bundle
from tests import REGISTERS, TOP
from tests.asking import STATE, Machine, asked, line, symbols_of, reply_of, total_of, value_of
from tests.model.words import number_text

MOST = 200  # passages that are reply_of
COMPARED = {"<": operator.lt, "<=": operator.le, "=": operator.eq, "<>": operator.ne, ">=": operator.ge, ">": operator.gt}
LINES = [
    ("17_cycles_counted", "WALK", "rA A I2 HERE A+1..A+N", "HERE <> 4"),
    ("30_queue", "NEXT", "I1 I2 I3 QUEUE+1..QUEUE+M", "I1 <= 2"),
    ("32_topological_sort", "NEXT", "I5 I6 ROW+1..ROW+N", "I6 < 5"),
    ("33_polynomials", "TERM", "A I1 I2 I3 I6", "I6 <> 1218"),
    ("34_double_links", "NEXT", "I5 I6 AVAIL HEAD+1", "AVAIL > 1002"),
    ("40_tree_stack", "VISIT", "I1 I2 ORDER+1..ORDER+N", "I2 >= 1"),
    ("41_tree_threads", "LEFT", "A X I1 I2 J", "I1 = I2"),
    ("42_marking", "DOWN", "I1 I2 I3 I4 NODE+1..NODE+N", "I1 < I2"),
    ("56_list_merge", "NEXT", "I5 I6 LINK..LINK+N", "LINK >= I5"),
    ("57_list_merge_sort", "LOAD", "I1 I2 I3 I4 LINK..LINK+N+1", "LINK+N+1 > +2"),
    ("62_search_tree", "NEXT", "A I1 I4 KEY+1", "I4 <= I1"),
    ("63_tree_deletion", "DELETE", "I1 I5 ROOT LEFT+1..LEFT+N", "ROOT = 1"),
    ("64_balanced_tree", "NEXT", "I1 I4 BAL+1..BAL+N", "BAL+1 >= -0"),
    ("66_chaining", "LOOK", "A X I2 I3 I5 KEY+2", "A <> X"),
    ("66_chaining", "OVERFLOW", "A", "A = 0"),
]


def columns(words, symbols):
    """The columns of words: each its name, and what says its value in a machine."""
    for word in words:
        first, _, last = word.partition("..")
        if last:
            for at in range(value_of(first, symbols), value_of(last, symbols) + 1):
                yield f"{at:04}", lambda machine, at=at: number_text(machine.word(at))
        elif re.fullmatch(r"[-+]?\d+", word):
            yield word, lambda machine, word=word: word
        elif word.removeprefix("r") in REGISTERS and word.encode() not in symbols:
            yield word, lambda machine, name=word.removeprefix("r"): number_text(machine.registers[name])
        else:
            yield word, lambda machine, at=value_of(word, symbols): number_text(machine.word(at))


def read(machines, items, compared, symbols):
    """The lines of `show passages` for the machines at the passages."""
    named = list(columns(items.split(), symbols))
    (_, left), (_, right) = columns(compared.split()[::2], symbols)
    yield f"  state{''.join(f'  {name:>11}' for name, _ in named)}  {compared}"
    for machine in machines[-MOST:]:
        holds = COMPARED[compared.split()[1]](int(left(machine)), int(right(machine)))
        yield f"{machine.done:7}{''.join(f'  {value(machine):>{max(11, len(name))}}' for name, value in named)}  {str(holds).lower()}"
    if len(machines) > MOST:
        yield f".. and {len(machines) - MOST} before"


@pytest.mark.parametrize("name, label, items, compared", LINES)
def test_line(program, name, label, items, compared):
    bundle = Bundle((TOP / "course" / name / "lesson.mixal").read_text())
    symbols = symbols_of(bundle.source)
    number = next(number for number, text in enumerate(bundle.source, 1) if text.split()[:1] == [label])
    lines = [f"show passages {place} of {items} assert {compared}" for place in (label, f"line {number}")]
    moments = [each for moment in range(total_of(program, bundle) + 1) for each in (line(f"goto {moment}"), STATE)]
    _, by_label, by_number, writes, *states = asked(program, bundle, [line("run 1000000"), *map(line, lines), line(f"show writes loc {label}"), *moments])
    there = [machine for machine in map(Machine, states[1::2]) if machine.location == value_of(label, symbols)]
    wanted = "".join(f"{each}\n" for each in read(there, items, compared, symbols))
    changes = [int(each[:7]) for each in reply_of(writes).splitlines()]
    assert changes == [machine.done for machine in there if machine.done], f"{name}, {label}: the changes that lead there"
    for said, asked_for in ((by_label, lines[0]), (by_number, lines[1])):
        assert reply_of(said) == wanted, f"{name}: {asked_for}"
