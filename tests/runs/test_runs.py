"""Runs the program as a person does at a shell, and compares what it writes with what stands below
each command.

The files *.t beside this one, or those of the folder RUNS, are in the form of cram, which is
Debian's python3-cram: a line that begins with two blanks and `$ ` is a command of bash, and lines
that begin with `  > ` go on with it. Below it, set in, stand what it writes and, in brackets, its
status if that is not 0.

`mixrev` is the program; each line of its error output stands after `stderr: `, below what it
writes. The commands of a file are done in turn, in a folder that is empty at first. What differs is
shown as lines that are missing (-) and too many (+)."""

import os
import pathlib

import pytest

FILES = sorted(pathlib.Path(os.environ.get("RUNS", pathlib.Path(__file__).parent)).glob("*.t"))
MIXREV = """#!/bin/sh
"{room}/program/mixrev" "$@" 2>"{room}/stderr"
status=$?
[ ! -s "{room}/stderr" ] || sed 's/^/stderr: /' "{room}/stderr"
exit $status
"""


@pytest.fixture(scope="module")
def environment(program, tmp_path_factory):
    """The environment in which `mixrev` is the program."""
    room = tmp_path_factory.mktemp("runs")
    for folder in ("bin", "program"):
        (room / folder).mkdir()
    (room / "program/mixrev").symlink_to(os.path.abspath(program))
    (room / "bin/mixrev").write_text(MIXREV.format(room=room))
    (room / "bin/mixrev").chmod(0o755)
    return dict(os.environ, PATH=f"{room}/bin:{os.environ['PATH']}")


@pytest.mark.parametrize("file", FILES, ids=lambda file: file.name)
def test_runs(file, environment, tmp_path, monkeypatch):
    cram = pytest.importorskip("cram")
    monkeypatch.chdir(tmp_path)
    _, written, differs = cram.testfile(os.fsencode(file), shell="/bin/bash", env=environment)
    assert written is not None and not b"".join(differs).decode(errors="replace")
