"""Talks with the adapter over debugpy's message channel: talks.walk, and what takes more than that.
And Emacs dap-mode drives the adapter, as emacs.el says."""

import glob
import os
import shutil
import socket
import subprocess

import pytest

from tests import walks
from tests.adapter.client import AFTER, CALLS, PROGRAMS
from tests.adapter.frames import framed

HERE = PROGRAMS.parent
ELPA = "/usr/share/emacs/site-lisp/elpa"
IS_THERE = shutil.which("emacs") and glob.glob(f"{ELPA}/dap-mode-*")


@pytest.mark.parametrize("walk", walks.params(HERE))
def test_walk(talk, walk):
    walk.go(talk, calls=CALLS, programs=str(PROGRAMS))


def test_prints(talk):
    """What a unit writes is told while the program still runs; a run that reaches no stop pauses; a
    step back tells what was taken back."""
    talk.starts("prints.mixal", devices=str(PROGRAMS / "cards.deck"))
    talk.body("continue", threadId=1)
    body, row = talk.wait("output", talk.seen)
    assert body["output"].rstrip() == "HELLO", "the row"
    assert talk.stop()["reason"] == "pause", "it pauses"
    assert row < talk.seen - 1, ("the row is told before", (row, talk.seen))
    # IN and OUT take 1 u each, and each JMP to itself 1 u: it is at the jump to itself
    assert talk.state() == (4, 2, 1000000), "after a million changes, of 1 u each"
    assert talk.repl("show changes") == "changes 1000000", "the changes"
    talk.repl("goto 2")
    assert talk.state() == (4, 2, 2), "at the second change"
    told = talk.outputs("console") + talk.outputs("important")
    assert talk.goes("stepBack") == ("step", (3, 1, 1)), "stepBack over the row"
    more = talk.outputs("console") + talk.outputs("important")
    assert len(more) > len(told), "what was taken back is told"
    unit = talk.repl("show unit 19").split("\n")[0]
    assert unit == "unit 19 place 0 blocks 0 output 0", "the unit has no row"
    talk.close()


def test_named(talk, tmp_path):
    """A name with letters beyond ASCII: a length counts bytes and not characters."""
    path = str(tmp_path / "Z\u00e4hler \u4e16\u754c.mixal")
    shutil.copy(CALLS, path)
    assert talk.launch(path) == "entry"
    assert talk.frame()["source"]["path"] == path
    assert (talk.move("next"), talk.state()) == ("step", AFTER[1])
    talk.close()


def test_over_sockets(command):
    """The streams are the two ends of a socket pair, as VS Code gives them, where no name of a
    stream can be opened anew."""
    ours, theirs = socket.socketpair()
    ours.settimeout(10)
    with subprocess.Popen(command, stdin=theirs, stdout=theirs, stderr=subprocess.PIPE) as process:
        theirs.close()
        ours.sendall(framed(("initialize", {"adapterID": "mixrev"})))
        try:
            assert b'"success":true' in ours.recv(65536).replace(b" ", b"")
            ours.shutdown(socket.SHUT_WR)
            assert process.wait(10) == 0
        finally:
            process.kill()


@pytest.mark.skipif(not IS_THERE, reason="Emacs dap-mode: emacs-nox or elpa-dap-mode is not there")
def test_dap_mode(command):
    path = f'(let ((default-directory "{ELPA}")) (normal-top-level-add-subdirs-to-load-path))'
    words = ["emacs", "-Q", "--batch", "--eval", path, "-l", HERE / "emacs.el"]
    given = {**os.environ, "ADAPTER": " ".join(command), "PROGRAMS": str(PROGRAMS)}
    ran = subprocess.run(words, env=given, capture_output=True, text=True, timeout=600)
    passed = ran.returncode == 0 and ran.stdout.rstrip().endswith(" passed, 0 failed")
    assert passed, ran.stdout + ran.stderr
