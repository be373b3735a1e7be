"""Runs of the built program, its standard input a file, also behind the library of refuse.c."""

import functools
import os
import pathlib
import shutil
import subprocess
import unittest

REFUSE = pathlib.Path(__file__).resolve().parents[1] / "hostile" / "refuse.c"
SECONDS = 300  # a slow machine takes more than a minute to write a million steps


class Runner:
    """Runs a program again and again, in one folder."""

    def __init__(self, program, place):
        self.program, self.place = os.path.abspath(program), pathlib.Path(place)

    def file(self, name, text):
        """Gives a file of the folder this text. Returns its name."""
        (self.place / name).write_bytes(text)
        return name

    def run(self, text=b"", words=(), **environment):
        """Standard output, standard error and the status of a run with this as its input: a text,
        or what is open already."""
        # (a file, since what fills a pipe may be late, and a read would give less)
        name = text if isinstance(text, int) else self.place / self.file("input", text)
        return self.run_on(name, words, **environment)

    def run_on(self, name, words=(), **environment):
        """The same of a run whose standard input is this file."""
        how = {"cwd": self.place, "timeout": SECONDS, "env": {**os.environ, **environment}}
        with open(name, "rb", closefd=not isinstance(name, int)) as file:
            ran = subprocess.run([self.program, *words], stdin=file, capture_output=True, **how)
        return ran.stdout, ran.stderr, ran.returncode

    @functools.cached_property
    def library(self):
        """The library in front of the C library's."""
        if not shutil.which("cc"):
            raise unittest.SkipTest("what needs a C compiler, which is not there")
        name = str(self.place / "refuse.so")
        subprocess.run(["cc", "-shared", "-fPIC", "-O1", "-o", name, REFUSE, "-ldl"], check=True)
        return name

    def behind(self, log, text=b"", words=(), **given):
        """The answer of a run behind the library, whose settings are given, and the words of each
        line of its log of this kind, such as CALLED_TO."""
        path = self.place / "log"
        path.unlink(missing_ok=True)
        settings = {name.upper(): str(value) for name, value in given.items()}
        answer = self.run(text, words, LD_PRELOAD=self.library, **{log: str(path)}, **settings)
        lines = path.read_text().splitlines() if path.exists() else []
        return answer, [line.split(" ") for line in lines]
