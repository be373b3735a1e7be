"""What a person does with files in a talk: files.walk, and what a disk has then."""

import pathlib
import re
import shlex
import subprocess

import pytest

from tests import walks
from tests.terminal.talking import SECONDS, SOURCE

DECK = "%UNIT 16\nCARD\n"
# As long as a file that is sourced may be, and a byte longer.
TEXTS = {"long": "s\n" * 524288 + "s", "most": "*" * 1048575 + "\n"}


class Person:
    """Who talks with the program, and has a folder."""

    def __init__(self, talk, aside, ran, folder):
        self.begin, self.begin_aside, self.ran, self.folder = talk, aside, ran, folder

    def talk(self, *words):
        self.terminal = self.begin(*words)

    def aside(self, *words):
        """A talk whose standard output goes into a file."""
        self.terminal, self.output = self.begin_aside(*words)

    def said(self, line):
        return self.terminal.said(str(line))

    def types(self, *lines):
        for line in lines:
            self.said(line)

    def times(self, line, text):
        """How often a text is said after a line."""
        return self.said(line).count(text)

    def end(self, line):
        return self.terminal.end(f"{line}\n")

    def ends(self, line):
        return self.end(line), self.output()

    def scripted(self, lines):
        """The status and the output of a script."""
        done = self.ran("debug", "a.mixal", given=lines)
        return done.status, done.output

    def shown_of(self, bundle):
        """What `show all` and `show changes` write after a bundle, whose last command says ok."""
        done = self.ran(given=f"{bundle}show all\nshow changes\n")
        shown = done.output[done.output.rindex("ok\n") + 3 :]
        assert done.status == 0 and len(shown) > 100
        return shown

    def write(self, name, text):
        (self.folder / name).write_bytes(text.encode())

    def read(self, name):
        return (self.folder / name).read_text()

    def remove(self, name):
        (self.folder / name).unlink()

    def exists(self, name):
        return (self.folder / name).exists()

    find = staticmethod(re.findall)


@pytest.mark.parametrize("walk", walks.params(pathlib.Path(__file__).parent))
def test_walk(talk, aside, ran, folder, walk):
    walk.go(Person(talk, aside, ran, folder), **TEXTS)


def saying(terminal, *rows):
    for line, reply in rows:
        assert terminal.said(line) == reply


def test_replaced(talk, program, folder):
    """A file that can't be saved is as it was, and no other is left beside it; one that can keeps its permissions, and a link its end."""
    here = folder / "kept"
    here.mkdir()
    (here / "old").write_text("OLD\n")
    (here / "old").chmod(0o640)
    (here / "link").symlink_to("old")
    terminal = talk()
    saying(terminal, ("save kept/link", "T8 not replaced: kept/link: it holds something else; replace it with save! kept/link\n"))
    assert (here / "old").read_text() == "OLD\n"
    saying(terminal, ("save! kept/link", "saved: kept/link\n"))
    assert terminal.end() == 0 and (here / "old").read_text() == SOURCE
    assert (here / "link").is_symlink() and (here / "old").stat().st_mode & 0o777 == 0o640
    (here / "old").write_text(DECK)
    (folder / "cards.deck").write_text(DECK)
    limited = f"trap '' XFSZ; ulimit -f 0; exec {shlex.quote(program)} run a.mixal --keep kept/old --devices cards.deck"
    run = subprocess.run(["bash", "-c", limited], cwd=folder, stdin=subprocess.DEVNULL, capture_output=True, text=True, timeout=SECONDS)
    assert (run.returncode, run.stderr, (here / "old").read_text()) == (2, "mixrev: T3 write failed: kept/old\n", DECK)
    assert sorted(file.name for file in here.iterdir()) == ["link", "old"]
