"""Inputs at each limit and one past it, and inputs that never end. Each answer is worked out here, from the rules alone."""

import os
import pathlib
import subprocess

import pytest

from tests.hostile.inputs import bundle, lines, repeated, rows_of
from tests.model.program import SECONDS

SOURCE, SCRIPT, DECK, BUNDLE = 1048576, 1048576, 33554432, 41943040
END = b" END 0\n"
T6 = (b"", b"mixrev: T6 input too long\n", 2)


def refused_deck(line, fault):
    return b"", b"mixrev: T5 deck refused at line %d: %s\n" % (line, fault), 2


def filled(text, size, by=b"*"):
    """A text of so many bytes: lines of asterisks, or what is given, after it."""
    rest = size - len(text)
    return text + (by * 99 + b"\n") * (rest // 100) + by * (rest % 100)


def fed(command, *words):
    """The answer of a run that reads what a command of the shell writes."""
    feeder = subprocess.Popen(["/bin/sh", "-c", command], stdout=subprocess.PIPE, stderr=subprocess.DEVNULL)
    answer = subprocess.run(words, stdin=feeder.stdout, capture_output=True, timeout=SECONDS)
    feeder.stdout.close()
    feeder.wait(SECONDS)
    return answer.stdout, answer.stderr, answer.returncode


@pytest.mark.parametrize("command", [
    "exec cat /dev/zero", "exec yes", "exec yes ''", "printf ' END 0\\n%%SCRIPT\\n'; exec yes step"])
def test_endless(program, command):
    """Readers that never end: the program stops at its limit, and says so."""
    assert fed(command, program) == T6


def test_endless_file(runner):
    assert runner.run_on("/dev/zero") == T6
    with open(runner.place / "long", "w+b") as file:
        file.truncate(10 * BUNDLE)
        assert runner.run(file.fileno()) == T6
        assert os.lseek(file.fileno(), 0, os.SEEK_CUR) == BUNDLE + 1


@pytest.mark.parametrize("words, wanted", [
    ("list /dev/stdin", (b"line 1: A16 source too long\n", b"", 1)), ("debug source /dev/stdin", T6),
    ("run source --cards /dev/stdin", refused_deck(1, b"K9 deck too long")),
    ("run source --typewriter /dev/stdin", refused_deck(1, b"K9 deck too long"))])
def test_endless_files(program, place, monkeypatch, words, wanted):
    """Files that never end, of blank lines: a source, a script, cards, lines for the typewriter."""
    monkeypatch.chdir(place)
    pathlib.Path("source").write_bytes(b" END 0")
    assert fed("exec yes ''", program, *words.split()) == wanted


def sizes():
    """Texts at their limit and one byte over it: name, bundle, what is wanted."""
    clock = (b"clock 0\n", b"", 0)
    for over in (0, 1):
        name = ["at the limit", "one byte over it"][over]
        for what, source in [("source", filled(END, SOURCE + over)), ("source of one line", b"*" * (SOURCE + over - 8) + b"\n" + END)]:
            wanted = (b"line 1: A16 source too long\n", b"", 1) if over else clock
            yield what + " " + name, whole_source(source) + b"%SCRIPT\nshow clock", wanted
        last = b"\nshow clock\n"
        yield "script " + name, bundle(END, filled(b"", SCRIPT + over - len(last)) + last), T6 if over else clock
        for by in (b"\n", b" "):
            deck = filled(b"", DECK + over - 1, by) + b"\n"
            yield "deck %s, of %r" % (name, by), END + b"%DEVICES\n" + deck + b"%SCRIPT\nshow clock", \
                refused_deck(1, b"K9 deck too long") if over else clock
        yield "bundle " + name, filled(END, BUNDLE + over), T6 if over else (b"line 1: A16 source too long\n", b"", 1)
        parts = filled(END, SOURCE - 1) + b"\n%DEVICES\n" + filled(b"", DECK - 1, b" ") + b"\n%SCRIPT\n" + filled(b"", SCRIPT + over)
        yield "all parts at their limits, the script " + name, parts, T6 if over else (b"", b"", 0)


def whole_source(source):
    """The line feed before a marker is of the source: its last byte is made one."""
    return source[:-1] + b"\n"


def counts():
    """Lines, instructions, steps and the clock."""
    for name, text, output, status in rows_of("limit"):
        yield name.decode(), repeated(text), (output, b"", int(status))
    yield "1,000,000 steps told", b" JMP *\n" + END + b"%SCRIPT\ntrace 1000000\n", \
        (b"      1  0000  JMP 0                1u  J + 00 00 -> + 00 01\n" + b"".join(b"%7d  0000  JMP 0                1u\n" % k for k in range(2, 1000001)) +
         b"ran 1000000 to 0000 clock 1000000: limit\n", b"", 0)


WORDS = b" ".join([b"+0102030405"] * 100) + b"\n"


def block(unit):
    return WORDS if unit < 16 else b"CARD\n"


def input_units():
    return [*range(17), 19, 20]


def full_units():
    """1,000 blocks on every unit that takes them, and one more on each."""
    units = input_units()
    deck = b"".join(b"%%UNIT %d\n" % unit + block(unit) * 1000 for unit in units)
    # each is there: its first line, and as many lines as it shows
    yield "1,000 blocks on every unit", bundle(END, b"".join(b"show unit %d\n" % unit for unit in units), deck), \
        (b"".join(b"unit %d place 0 blocks 1000 output 0\n" % unit + shown_block(unit) * 1000 for unit in units), b"", 0)
    for unit in units:
        yield "1,001 blocks on unit %d" % unit, bundle(END, b"", b"%%UNIT %d\n" % unit + block(unit) * 1001), \
            refused_deck(1002, b"K8 too many blocks")
    # the last block that is there is read, and no other
    reads = lines(" IN 100(0)", " IN 100(16)", " IN 100(19)", " IN 100(20)", " LDX =999=", " IN 100(8)", " DEC1 1", " J1P 0", " INCX 1", " IN 100(8)", " END 0")
    yield "every block is read", bundle(reads, b"set I1 1000\nrun 1000000\nshow changes\n", deck), \
        (b"ok\nran 8001 to 0009 clock 9001: fault M11 no block\nchanges 8002\n", b"", 3)
    for unit in units:
        if unit < 8 or unit > 15:
            yield "the 1,001st block of unit %d" % unit, bundle(lines(" IN 100(%d)" % unit, " DEC1 1", " J1P 0", " IN 100(%d)" % unit, " END 0"),
                b"set I1 1000\nrun 1000000\n", b"%%UNIT %d\n" % unit + block(unit) * 1000), \
                (b"ok\nran 3000 to 0003 clock 3000: fault M11 no block\n", b"", 3)


def shown_block(unit):
    if unit < 16:
        return (b" ".join([b"+0102030405"] * 5) + b"\n") * 20
    return b"< CARD".ljust(2 + (80 if unit == 16 else 70)) + b"\n"


def written_units():
    """1,000 blocks or rows are written to every unit that takes them, and not one more."""
    for unit in [*range(8), 17, 18, 19, 20]:
        source = lines(" OUT 100(%d)" % unit, " JMP 0", " END 0")
        yield "1,000 written to unit %d" % unit, bundle(source, b"run 1000000\nback 2000\nforth 2000\nstep\nback all\nshow unit %d\n" % unit), \
            (b"ran 2000 to 0000 clock 2000: fault M13 unit full\nback 2000 to 0000 clock 0\nforth 2000 to 0000 clock 2000\n"
             b"ran 0 to 0000 clock 2000: fault M13 unit full\nback 2000 to 0000 clock 0\nunit %d place 0 blocks 0 output 0\n" % unit, b"", 3)
    for unit in range(8, 16):
        source = lines(" OUT 100(%d)" % unit, " INCX 1", " JMP 0", " END 0")
        yield "1,000 written to unit %d" % unit, bundle(source, b"run 1000000\nset X 999\nstep\nset X 1000\nstep\nback all\nset X 999\nstep\n"), \
            (b"ran 3000 to 0000 clock 3000: fault M13 unit full\nok\nran 1 to 0001 clock 3001: limit\nok\nran 1 to 0002 clock 3002: limit\n"
             b"back 3004 to 0000 clock 0\nok\nran 1 to 0001 clock 1: limit\n", b"", 3)
    source = lines(" IOC 0(18)", " JMP 0", " END 0")
    yield "1,000 page marks", bundle(source, b"run 1000000\nshow unit 18\n"), \
        (b"ran 2000 to 0000 clock 2000: fault M13 unit full\nunit 18 place 0 blocks 0 output 1000\n" + b"> %PAGE\n" * 1000, b"", 3)


def refused_decks():
    """Each fault of a deck, at a line of its own."""
    for line, fault, deck in rows_of("deck"):
        deck = repeated(deck.replace(b"WIDE", b"*".rjust(81)))
        yield fault.decode(), bundle(END, b"", deck), refused_deck(int(line), fault)


def by_files(runner):
    """The same of files that the command line names: words, what is wanted. A part at its limit is
    read, and one byte over it is refused."""
    texts = (("source", END), ("script", b"show clock\n"), ("deck", b"\n"))
    source, script, deck = (runner.file(*text) for text in texts)
    long_source = (b"line 1: A16 source too long\n", b"", 1)
    clock = (b"clock 0\n", b"", 0)
    yield ["list", "/dev/zero"], long_source
    yield ["debug", "/dev/zero", script], long_source
    yield ["debug", source, "/dev/zero"], T6
    yield ["debug", source, script, "--devices", "/dev/zero"], refused_deck(1, b"K9 deck too long")
    yield ["debug", source, script, "--devices", deck], clock
    for over in (0, 1):
        for part, text, wanted in [
                (0, filled(END, SOURCE + over), long_source), (1, filled(b"show clock\n", SCRIPT + over), T6),
                (2, filled(b"", DECK + over, b" "), refused_deck(1, b"K9 deck too long"))]:
            files = [source, script, deck]
            files[part] = runner.file("long", text)
            yield ["debug", *files[:2], "--devices", files[2]], wanted if over else clock


def test_files(runner):
    for words, wanted in by_files(runner):
        assert runner.run(b"", words) == wanted, words


@pytest.mark.parametrize("part", [sizes, counts, refused_decks, full_units, written_units])
def test_limits(runner, part):
    for name, text, wanted in part():
        assert runner.run(text) == wanted, name
