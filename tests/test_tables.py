"""docs/operations.tsv and docs/characters.tsv against the program, and what is made of them.

- The program assembles each name to its code and its normal field, and takes its time for it.
- Words with every code and every field are shown as these operations, and as no other one.
- It prints each byte as its character.
- The table of MACHINE.md and the grammars of the editors are those that are made here; with --write
  they are made again."""

import itertools
import re

import pytest

from machine import CHARACTERS, FORMS, OPERATIONS, codes, rows
from running import Bundle, replies_of
from tests import TOP

VIM = 'syntax match mixalOperation "\\%('
VSCODE = '"operation": {\n      "match": "^(?i)([^ \\\\t]*)[ \\\\t]+('


def of_machine():
    """The operations by their codes."""
    yield from (("C", "Names", "Normal F", "Time"), ("---",) * 4)
    for _, group in itertools.groupby(FORMS, lambda form: form.code):
        group = list(group)
        field = f"by F: 0 to {group[-1].field}" if len(group) > 1 else str(group[0].field)
        time, names = str(group[0].time).replace("+", " + "), ", ".join(it.name for it in group)
        yield codes(group[0]).replace("-", " to "), names, field, time


def of_characters():
    """The characters in rows of ten; those that stand for others of the book with these."""
    of_book = {character: other for _, character, other in rows("characters.tsv")}
    yield from (("", *map(str, range(10))), ("---",) * 11)
    for first in range(0, len(CHARACTERS), 10):
        row = CHARACTERS[first : first + 10]
        cells = [f"`{it}`" + (f" for {of_book[it]}" if it != of_book[it] else "") for it in row]
        cells[0] = cells[0] if first else "blank"
        yield f"{first} +", *cells, *[""] * (10 - len(cells))


def made():
    """Each file, what stands before the part that is made, what stands after it, and that part."""
    others = ("HLT", "NUM", "CHAR")
    names = [form.name.replace("r", "[A1-6X]") for form in FORMS if form.name not in others]
    for table, cells in (("operations", of_machine()), ("characters", of_characters())):
        text = "".join(f"| {' | '.join(row)} |\n" for row in cells)
        yield "docs/MACHINE.md", f"<!-- of {table}.tsv -->\n", "<!-- so far -->\n", text
    yield "editors/vim/syntax/mixal.vim", VIM, "\\)\\%([ \\t]", "\\|".join(names)
    grammar = "editors/vscode/syntaxes/mixal.tmLanguage.json"
    yield grammar, VSCODE, ")(?=[ \\\\t]|$)", "|".join(names)


@pytest.mark.parametrize("name, begin, end, text", made())
def test_made(request, name, begin, end, text):
    file = TOP / name
    head, _, after = file.read_text().partition(begin)
    found, _, tail = after.partition(end)
    if request.config.getoption("--write"):
        file.write_text(head + begin + text + end + tail)
    else:
        assert found == text


def test_assembled(program):
    """F and C of each assembled instruction, and its time."""
    lines = (f" {it.name} {0 if it.name == 'IOC' else 1000}" for it in OPERATIONS)
    bundle = Bundle("\n".join([*lines, " END 0"]))
    bundle.deck = ["%UNIT 0", *["+0000000000"] * 100]
    steps = (line for at in range(len(OPERATIONS)) for line in (f"set loc {at}", "step"))
    bundle.script = [f"show code 0 {len(OPERATIONS) - 1}", *steps]
    shown, *told = replies_of(program, bundle)
    clocks = [0, *(int(re.search(r"clock (\d+)", ran)[1]) for (ran,) in told[1::2])]
    times = [now - before for before, now in itertools.pairwise(clocks)]
    found = [[*map(int, line.split()[5:7]), time] for line, time in zip(shown, times, strict=True)]
    of_move = next(1 + 2 * it.field for it in OPERATIONS if it.name == "MOVE")
    times = [of_move if it.name == "MOVE" else it.time for it in OPERATIONS]
    assert found == [[it.field, it.code, time] for it, time in zip(OPERATIONS, times)]


@pytest.mark.parametrize("c", range(64))
def test_shown(program, c):
    """The names that the words of a code have, with all fields; where several have the code, the
    field names the operation."""
    lines = (f" CON {f}(4:4),{c}(5:5)" for f in range(64))
    bundle = Bundle("\n".join([*lines, " END 0"]))
    bundle.script = ["show code 0 63"]
    names = [line.split()[7] for line in replies_of(program, bundle)[0]]
    found = {f: name for f, name in enumerate(names) if name != "CON"}
    wanted = {it.field: it.name for it in OPERATIONS if it.code == c}
    assert len(names) == 64
    assert found == wanted if len(wanted) > 1 else set(found.values()) == set(wanted.values())


def test_printed(program):
    """The characters of the bytes, four in a word."""
    bundle = Bundle(" END 0")
    for code in range(0, 64, 4):
        parts = (f"{code + at}({at + 1}:{at + 1})" for at in range(4))
        bundle.script.append("show value " + ",".join(parts))
    found = "".join(line[-6:-2] for (line,) in replies_of(program, bundle))
    assert found == f"{CHARACTERS:?<64}"
