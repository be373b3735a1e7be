"""The model against values that are known beforehand: the rows of known.rows and the talks of talks.txt, worked by hand or from the book.

A row is `KIND |INPUT|..|WANTED`, with the escapes of tests/rows, and `{20 text}` for a text 20 times. In a talk stand source and deck,
then the lines of the script with `$`, each with its reply; `..` stands for lines left out, and ` {*20}` ends a line that stands 20 times."""

import pathlib
import re

import pytest

from tests import rowfiles
from tests.model import words as w
from tests.model.assembler import Program, assemble, first_pass
from tests.model.bundle import debug, run, run_list
from tests.model.commands import Session
from tests.model.deck import read_deck
from tests.model.lines import OPERATIONS, answer, text_of
from tests.model.transfers import conflicts, undo_values_of
from tests.model.units import EMPTY, no_units
from tests.model.world import World, do
from tests.rows.faces import bytes_of

HERE = pathlib.Path(__file__).parent
# The symbols of the rows of single texts.
KNOWN = {"L": {}, "E": {b"X": "+5", b"9B": "-4"}, "W": {b"2B": "-3"}, "A": {b"2B": "+0", b"X": "-7"}}


def word(text):
    """A word from its sign and five bytes, or from a signed number."""
    if len(text.split()) == 6:
        return w.joined(text.split()[0], [int(byte) for byte in text.split()[1:]])
    return (text[0], int(text[1:]))


def unfolded(field):
    """The bytes of a field."""
    while "{" in field:
        field = re.sub(r"\{(\d+) ([^{}]*)\}", lambda found: found[2] * int(found[1]), field)
    return bytes_of(field)


def text(field):
    return unfolded(field).decode("latin-1")


def refused(status=1, before=b"line ", *parts):
    """A run of a bundle that is refused: the refusal without its beginning."""
    output, errors, ended = run(b"".join(parts))
    told = errors if status == 2 else output
    assert (ended, output + errors, told[:len(before)]) == (status, told, before)
    return told[len(before):-1].decode()


def status_of(replies):
    """The status of a script with such replies."""
    return 3 if any(line.startswith("? ") or ": fault " in line for line in replies) else 0


def reply(script, wanted):
    """The last lines that a script writes, as many as are wanted."""
    wanted = text(wanted).split("\n") if wanted else []
    output, errors, status = run(b" END 0\n%SCRIPT\n" + unfolded(script))
    assert (errors, status) == (b"", status_of(wanted))
    lines = output.decode("latin-1").splitlines()
    return lines[len(lines) - len(wanted):], wanted


def of_text(kind):
    def answered(field, wanted):
        names = {name: word(value) for name, value in KNOWN[kind].items()}
        return answer(kind, unfolded(field), names, word("+7"), 5), wanted
    return answered


def value(field):
    """A number, a word, how a sum ends, or another text."""
    return int(field) if field.isdigit() else word(field) if field[0] in "+-" else {"overflow": True, "fits": False}.get(field, field)


def call(name, *fields):
    """A function of words.py."""
    *given, wanted = fields
    wanted = None if wanted == "none" else tuple(map(value, wanted.split(", ")))
    return getattr(w, name)(*map(value, given)), wanted[0] if wanted and len(wanted) == 1 else wanted


def kept(source, deck, script, wanted):
    """The overwritten values that are kept after a script."""
    program = assemble(unfolded(source))
    session = Session(World(program.words, program.start, read_deck(unfolded(deck))), program.names)
    for line in unfolded(script).splitlines():
        session.command(line)
    return undo_values_of(session.loaded, session.changes, do), int(wanted)


def conflict(_, deck, source, changes, wanted):
    """Of the last of some changes."""
    program = assemble(unfolded(source))
    number, what, *more = changes.split()
    every = [("step",)] * int(number) if what == "steps" else [("step",), (what, *map(value, more))]
    found = conflicts(World(program.words, program.start, read_deck(unfolded(deck))), every)[-1]
    return "{} {} {}".format(*found) if found else "none", wanted


def ran(bundle, named, output, status):
    return debug(unfolded(bundle), b"step\n", None if named == "-" else unfolded(named)), (unfolded(output), b"", int(status))


KINDS = {
    "line": of_text("L"), "expression": of_text("E"), "w-value": of_text("W"), "address": of_text("A"), "call": call, "kept": kept, "conflict": conflict, "reply": reply, "debug": ran,
    "refused": lambda source, wanted: (refused(1, b"line ", unfolded(source), b"%SCRIPT\nshow regs\n"), wanted),
    "deck refused": lambda deck, wanted: (refused(2, b"mixrev: T5 deck refused at line ", b" END 0\n%DEVICES\n", unfolded(deck), b"%SCRIPT\n"), wanted),
    "words": lambda source, wanted: ([*assemble(unfolded(source)).words], [(int(it.split(" ", 1)[0]), word(it.split(" ", 1)[1])) for it in wanted.split(", ") if it]),
    "listing": lambda source, wanted: (run_list(unfolded(source)), (unfolded(wanted) + b"\n", b"", 0)),
    "last word": lambda source, wanted: ("{} {}{:d}".format(assemble(unfolded(source)).words[-1][0], *assemble(unfolded(source)).words[-1][1]), wanted),
    "text of": lambda field, wanted: (text_of(word(field)), wanted),
    "start": lambda source, wanted: (assemble(unfolded(source)).start, int(wanted)),
    "ahead": lambda source, wanted: (len(assemble(unfolded(source)).ahead), int(wanted)),
}


def rows():
    for number, kind, fields, wanted in rowfiles.rows_of(HERE / "known.rows"):
        yield pytest.param(kind, [*fields, wanted], id=f"line {number} {kind}")


@pytest.mark.parametrize("kind, fields", rows())
def test_row(kind, fields):
    found, wanted = KINDS[kind](*fields)
    assert found == wanted


def talks():
    for name, talk in rowfiles.parts(HERE / "talks.txt"):
        yield pytest.param(talk.rstrip("\n").split("\n"), id=name)


@pytest.mark.parametrize("lines", talks())
def test_talk(lines):
    first = [line.startswith("$ ") for line in lines].index(True)
    script = "".join(f"{line[2:]}\n" for line in lines if line.startswith("$ "))
    wanted = [line for line in lines[first:] if not line.startswith("$ ")]
    output, errors, status = run("".join(f"{line}\n" for line in (*lines[:first], "%SCRIPT")).encode() + script.encode())
    found = output.decode("latin-1").splitlines()
    if ".." in wanted:  # what stands there is not told
        at = wanted.index("..")
        found = found[:at] + [".."] + found[len(found) - (len(wanted) - at - 1):]
    assert (found, errors, status) == (wanted, b"", status_of(wanted))


CARD = (word("+ 00 01 02 00 30"), *[word("+0")] * 13)
WORDS = b" ".join([b"+0000000007"] * 60)


@pytest.mark.parametrize("deck, units", [
    (b"", {}), (b"\n\t\n", {}), (b"%UNIT 20 \n\tab\t0\n", {20: EMPTY._replace(blocks=(CARD,))}), (b"%uNiT\t20\n\n", {20: EMPTY._replace(blocks=((word("+0"),) * 14,))}),
    (b"%%UNIT 15\n\n %s\n%s\n \n" % (WORDS, (WORDS + b" ").replace(b" ", b"\t") * 2 + WORDS[:239]), {15: EMPTY._replace(blocks=((word("+7"),) * 100,) * 2)}),
    (b"%UNIT 00 delay 000000000000000005\n", {0: EMPTY._replace(delay=5)}), (b"%UNIT 0\n%UNIT 16\n", {}),
    (b"%UNIT 18\tDelay  999999999999999999 \n\n", {18: EMPTY._replace(delay=10**18 - 1)})])
def test_deck(deck, units):
    assert read_deck(deck) == tuple(units.get(n, unit) for n, unit in enumerate(no_units()))


def test_tables():
    assert [w.FIELDS.get(code) for code in (5, 13, 45, 6, 40, 46, 63)] == [(0, 5), (1, 5), (5, 5), None, None, None, None]
    assert [w.code_of(w.char_of(code)) for code in range(64)] == [*range(56), *[None] * 8]
    assert len(OPERATIONS) == 144 + 4
    assert sum(not text_of(w.joined("+", [0, 0, 0, f, c])).startswith("CON") for c in range(64) for f in range(64)) == 1130


@pytest.mark.parametrize("index", (0, 6, 7))
def test_texts_assemble(index):
    pairs = [w.joined("-", [63, 0, index, f, c]) for c in range(64) for f in range(64) if (c + f) % 3 == 0]
    source = "".join(f" {text_of(one)}\n" for one in pairs) + " END 0\n"
    assert [one for _, one in assemble(source.encode()).words] == pairs


@pytest.mark.parametrize("found, wanted", [
    ((run, b" END 0"), (b"", b"", 0)), ((run_list, b""), (b"line 1: A13 no END\n", b"", 1)),
    ((run_list, b"X END 7\r"), (b"0007" + b" " * 18 + b"      1  X END 7\nsymbols 1\nX           + 00 00 00 00 00\n", b"", 0)),
    *(((debug, b" END 0\n%DEVICES\nX\n", b"step\n", named), (b"", b"mixrev: T5 deck refused at line %d: K1 bad header\n" % at, 2)) for named, at in ((None, 1), (b"\nX\n", 2))),
    *(((run, b" END 0\n%SCRIPT\n" + b"*" * size + b"\n"), (b"", b"mixrev: T6 input too long\n", 2)) for size in (1048576, 41943040)),
    ((debug, b" END 0\n%SCRIPT\n" + b"*" * 41943024 + b"\n", b"show clock\n"), (b"clock 0\n", b"", 0)),
    ((debug, b" END 0\n%SCRIPT\n" + b"*" * 41943025 + b"\n", b"show clock\n"), (b"line 1: A16 source too long\n", b"", 1))])
def test_run(found, wanted):
    called, *given = found
    assert called(*given) == wanted


def test_waiting():
    """The future references that wait after each line."""
    program, waiting = Program(), []
    for number, line in enumerate([b" JMP 2F", b" JMP 2F", b"2H JMP 2F", b"2H HLT"], 1):
        first_pass(program, number, line)
        waiting.append(len(program.waiting()))
    assert waiting == [1, 2, 1, 0]


HELLO = b"""TERM    EQU    19          the console
        ORIG   1000
START   OUT    MSG(TERM)   output
        HLT                halt execution
MSG     ALF    "MIXAL"
        ALF    " HELL"
        ALF    "O WOR"
        ALF    "LD   "
        END    START
"""


def test_back_all():
    """`back all` gives the loaded machine."""
    first, last = (run(HELLO + b"%SCRIPT\n" + script + b"show all\n")[0] for script in (b"", b"run 100\nbreak START\nset I1 5\nback all\n"))
    assert last.endswith(first) and first


def test_spoilt():
    """A source cut at every byte, and with every byte replaced: it is accepted, or refused by one line."""
    spoilt = [HELLO[:at] for at in range(len(HELLO) + 1)]
    spoilt += [HELLO[:at] + bytes([byte]) + HELLO[at + 1:] for at in range(len(HELLO)) for byte in (0, 10, 34, 63, 255)]
    for one in spoilt:
        output, *ended = run(one)
        assert run(one + b"\n%SCRIPT\nshow clock\n") == (b"clock 0\n", b"", 0) or output.startswith(b"line ") and output.count(b"\n") == 1 and ended == [b"", 1]
