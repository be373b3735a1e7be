"""Talks with the program at a terminal and over a pipe. Each test has a folder, in which there is a source a.mixal."""
import subprocess
import types

import pytest

from tests import TOP
from tests.terminal.talking import GREETING, SECONDS, SOURCE, Terminal


@pytest.fixture
def folder(tmp_path):
    (tmp_path / "a.mixal").write_text(SOURCE)
    return tmp_path


@pytest.fixture
def talk(program, folder):
    """Begins a talk: the words after `debug`; to a prompt, which is after the greeting."""

    def begun(*words, greeting=GREETING):
        terminal = Terminal(program, "debug", *(words or ["a.mixal"]), folder=folder)
        assert terminal.seen() == greeting
        return terminal

    return begun


@pytest.fixture
def aside(program, folder):
    """Begins a talk whose standard output goes into a file; the second value reads it."""

    def begun(*words):
        terminal = Terminal("/bin/sh", "-c", 'exec "$0" debug "$@" >output', program, *(words or ["a.mixal"]), folder=folder)
        terminal.seen()
        return terminal, lambda: (folder / "output").read_text()

    return begun


@pytest.fixture
def ran(program, folder):
    """Runs the program over pipes: its words, and what it is given."""

    def run(*words, given=""):
        done = subprocess.run([program, *words], cwd=folder, input=given, capture_output=True, text=True, timeout=SECONDS)
        return types.SimpleNamespace(output=done.stdout, errors=done.stderr, status=done.returncode)

    return run


@pytest.fixture
def strace():
    """The tool that sees a program's calls to the system, where it is there and may trace."""
    subprocess.run([TOP / "tests" / "install", "strace"], check=True)
    try:
        subprocess.run(["strace", "-o", "/dev/null", "true"], check=True, stderr=subprocess.DEVNULL)
    except (OSError, subprocess.CalledProcessError):
        pytest.skip("the calls of the program, since strace is not there or may not trace")
    return "strace", "-f", "-o"
