"""Each read and each write of a run fails in turn, and streams give and take a few bytes a call.

A small library in front of the C library's lets one call fail, and few bytes through. After a failed read nothing is written, and T2 is told; after a
failed write a beginning of what is due stands there, and T3 is told; either way no read and no write is called after it. What is due does not depend
on how many bytes a call gives or takes. Each answer is worked out here, from the rules alone."""

import itertools

import pytest

from tests.hostile.inputs import BUNDLES, bundle, lines, rows_of
from tests.hostile.test_streams import T2, T3
from tests.model.program import Runner

FAILED = ["write", "-1"]
ALL = 1 << 20  # more bytes than any of these runs reads or writes
SIZES = (1, 7, ALL)

LISTED = [(source, int(status), listing) for source, status, listing in rows_of("listed")]
FAILED_LISTS = [(*LISTED[int(row)][::2], *map(int, numbers)) for row, *numbers in rows_of("failed")]
PRINTED, REFUSED = ([(*row[:3], row[3].decode().split(), *row[4:]) for row in rows_of(kind)] for kind in ("printed", "refused"))
COPIED, INSERTED = PRINTED[3], LISTED[1][0]
# The reads of INSERTED, of a byte each, that fail: one for each byte, and one that finds the end.
FAILED_READS = (1, 2, 20, 24, 25)
# A source, a deck and a script.
PARTS = [b" HLT\n END\n", b"\n\n", b"step\n"]
HALTED = lines("ran 1 to 0001 clock 10: halt")


class Turns(Runner):
    """Runs of a program behind the library."""

    def called(self, text, words=(), **bounds):
        """The answer, and each call with what it gave."""
        return self.behind("CALLED_TO", text, words, **bounds)

    def read_fails(self, name, text, words, call, file=None):
        """This read fails, of the input or of a file, which is told: nothing is written, and nothing is called after it."""
        answer, calls = self.called(text, words, read_most=1, read_fails=call)
        told = T2.replace(b"\n", b": %s\n" % file.encode()) if file else T2
        assert (answer, len(calls), calls[-1:]) == ((b"", told, 2), call, [["read", "-1"]]), (name, call)

    def each_read_fails(self, name, words, parts):
        """Each read of some files fails in its turn; they are read one after the other."""
        files = [file for file, part in parts for _ in range(len(part) + 1)]
        for k, file in enumerate(files):
            self.read_fails(name, b"", words, k + 1, file)
        return len(files)

    def write_fails(self, name, text, words, wanted, size, call):
        """This write fails, if there are so many; whether it does."""
        (output, errors, status), calls = self.called(text, words, write_most=size, write_fails=call)
        failed = FAILED in calls
        if not failed:
            assert (output, errors, status) == wanted, (name, call - 1, size)
            return False
        written = sum(int(size) for call_of, size in calls[:-1] if call_of == "write")
        assert (output, errors, status) == (wanted[0][:written], T3, 2), (name, call, size)
        assert (calls.count(FAILED), calls[-1]) == (1, FAILED), (name, call, size)
        return True

    def each_write_fails(self, name, text, words, wanted, sizes):
        for size in sizes:
            for call in itertools.count(1):
                if not self.write_fails(name, text, words, wanted, size, call):
                    assert call > -(-len(wanted[0]) // size) or size == ALL, (name, size, call)
                    break


@pytest.fixture(scope="module")
def turns(program, place):
    return Turns(program, place)


def test_bundles(turns):
    for name, (source, deck, script, output) in BUNDLES["turns"].items():
        text, status = bundle(source, script, deck), 3 if b"? " in output else 0
        # a read for each byte, and one that finds the end
        for call in range(1, len(text) + 2):
            turns.read_fails(name, text, (), call)
        turns.each_write_fails(name, text, (), (output, b"", status), (1, 5, ALL))
        assert turns.called(text, read_most=7)[0] == (output, b"", status), name


def test_sessions(turns):
    """The parts of a session, read one after the other, and none after a part that is refused."""
    source, deck, script = (turns.file(name, part) for name, part in zip(("source", "deck", "script"), PARTS))
    words = ["debug", source, script, "--devices", deck]
    reads = turns.each_read_fails("a session", words, zip((source, deck, script), PARTS))
    answer, calls = turns.called(b"", words, read_most=1)
    assert (answer, len(calls)) == ((HALTED, b"", 0), reads + 1)
    for name, refused, units, wanted in [("source", b" JMP 0", b"", (b"line 2: A13 no END\n", b"", 1)),
                                         ("deck", b" END 0", b"\nX", (b"", b"mixrev: T5 deck refused at line 2: K1 bad header\n", 2))]:
        words = ["debug", turns.file("refused", refused), script, "--devices", turns.file("units", units)]
        answer, calls = turns.called(b"", words, read_most=1)
        reads = len(refused) + 1 + (len(units) + 1 if name == "deck" else 0)
        assert (answer, sum(name == "read" for name, _ in calls)) == (wanted, reads), name


def test_listings(turns):
    for k, (source, status, output) in enumerate(LISTED):
        words = ["list", turns.file("listed", source)]
        for size in SIZES:
            assert turns.called(b"", words, read_most=size, write_most=size)[0] == (output, b"", status), (k, size)
    for source, whole, size, call, written in FAILED_LISTS:
        answer, calls = turns.called(b"", ["list", turns.file("listed", source)], write_most=size, write_fails=call)
        assert (answer, calls.count(FAILED), calls[-1]) == ((whole[:written], T3, 2), 1, FAILED), (call, size)
    for call in FAILED_READS:
        listed = turns.file("listed", INSERTED)
        turns.read_fails("a listing", b"", ["list", listed], call, listed)


def test_printed(turns):
    """Runs that print: what is printed, and what is told at the end, by so many bytes a call."""
    def words(row):
        cards = [] if row[2] is None else ["--cards", turns.file("cards", row[2])]
        return ["run", turns.file("a.mixal", row[0]), *row[3], "--devices", turns.file("deck", row[1]), *cards]

    for k, row in enumerate(PRINTED):
        told = b"a.mixal:" + row[5] if row[5] else b""
        for size in SIZES:
            assert turns.called(b"", words(row), read_most=size, write_most=size)[0] == (row[4], told, 3 if told else 0), (k, size)
    for k, (*row, told, status) in enumerate(REFUSED):
        assert turns.called(b"", words(row))[0] == (b"", told, int(status)), k
    copied = (COPIED[0], b"%UNIT 16\nONE\n", b"TWO\n", ["--steps", "100"])
    turns.each_read_fails("a run", words(copied), zip(("a.mixal", "deck", "cards"), copied[:3]))
    assert turns.called(b"", words(copied), read_most=1)[0] == (b"TWO\n", b"a.mixal:1: M11 no block at 0000 clock 3\n", 3)
    for row in (PRINTED[0], COPIED):
        told = b"a.mixal:" + row[5] if row[5] else b""
        turns.each_write_fails("a run", b"", words(row), (row[4], told, 3 if told else 0), (1, 3, ALL))
