"""What a person types at a terminal, and sees there: the talks of talks.txt and typed.txt."""

import doctest
import pathlib
import re

import pexpect
import pytest

from tests.rowfiles import parts
from tests.terminal.talking import GREETING, Terminal

HERE = pathlib.Path(__file__).parent


def is_as(wanted, found):
    """Whether a text is as it is wanted, where `...` is any text."""
    return doctest.OutputChecker().check_output(wanted, found, doctest.ELLIPSIS)


TALKS = parts(HERE / "talks.txt")


@pytest.mark.parametrize("name, text", TALKS, ids=[name.partition(":")[0] for name, _ in TALKS])
def test_talk(talk, aside, folder, name, text):
    source, *turns = re.split(r"(?m)^\(mixrev\) ?", text.rstrip("\n") + "\n")
    (folder / "t.mixal").write_text(source or (folder / "a.mixal").read_text())
    terminal, output = aside("t.mixal") if name.endswith(" [aside]") else (talk("t.mixal"), None)
    for turn in turns[:-1]:
        line, _, reply = turn.partition("\n")
        found = terminal.said(line)
        assert is_as(reply, found), (line, found)
    line, _, ended = turns[-1].partition("\n")
    typed_last = "\x04" if line == "^D" else f"{line}\n"
    found = f"[{terminal.end(typed_last)}]\n{output() if output else ''}"
    assert ended in (found, "".join(found.splitlines(True)[:1])), found
    assert line != "^D" or terminal.before == "\r\n"


def typed(name):
    """The rows of typed.txt with this name."""
    rows = dict(parts(HERE / "typed.txt"))[name].splitlines()
    return [row.replace("\\t", "\t").replace("\\n", "\n").split("|") for row in rows]


def test_person(aside, ran):
    """What a person types, and the line of a script that it stands for: each writes the same on standard output."""
    lines = typed("person")
    terminal, output = aside()
    for line, _ in lines:
        terminal.said(line.replace("\t", " "))
    scripted = ran("debug", "a.mixal", given="".join(f"{line}\n" for _, line in lines))
    assert (terminal.end("q\n"), output()) == (scripted.status, scripted.output)


SUBROUTINE = "X CON 7\nGO ENTA 5\n JMP PUT\n HLT\nPUT STJ EXIT\n STA X\nEXIT JMP *\n END GO\n"


def test_points(aside, ran, folder):
    """A person's breakpoints are no changes: runs wait for them, `back` takes none away, and setting one drops nothing that stands ahead."""
    (folder / "points.mixal").write_text(SUBROUTINE)
    lines = typed("points")
    terminal, output = aside("points.mixal")
    most = "no more than eight are watched or are breakpoints; delete forgets those, clear all these\n"
    told = {"b 16": most, "watch A": most, "u A": f"run takes a number, 1 to 1000000, until COND, both or nothing\n{most}", "finish 1": "finish takes nothing; run until loc E stops at E\n", "break exit": "ok\n", "Clear All": "ok\n"}
    for line, _ in lines:
        seen = terminal.said(line)
        assert seen == told.get(line, seen)
    scripted = ran("debug", "points.mixal", given="".join(f"{line}\n" for _, line in lines if line))
    assert (terminal.end("q\n"), output()) == (scripted.status, scripted.output)


def test_closed_terminal(talk):
    """A terminal that goes away ends the talk."""
    terminal = talk()
    terminal.ptyproc.fileobj.close()
    assert terminal.wait() is not None or terminal.signalstatus is not None


def test_without_words(program, folder):
    """A person who types the name alone sees the help, which is a mistake all the same; nothing is waited for."""
    for words, usage, status in (((), "<COMMAND>", 2), (("run",), "run [OPTIONS] <SOURCE>", 2), (("--help",), "<COMMAND>", 0)):
        terminal = Terminal(program, *words, folder=folder)
        assert f"\nUsage: mixrev {usage}\n" in terminal.seen(pexpect.EOF) and terminal.wait() == status


def test_source_typed(program, folder):
    """The name - is the terminal: a source that is typed up to the end of the input."""
    terminal = Terminal(program, "list", "-", folder=folder)
    assert terminal.end(" END 0\n\x04") == 0 and "                        1   END 0\r\nsymbols 0\r\n" in terminal.before


def test_warned_source(talk, ran, folder):
    """The warnings of a source: before the greeting, where a person talks, and before the first step of a run; a program is told none."""
    (folder / "typo.mixal").write_text(" JMP LOPP\n END 0\n")
    warning = "typo.mixal:1:6: warning: LOPP is defined nowhere: END makes a cell of 0 for it [undefined-symbol]\n JMP LOPP\n     ^^^^\n"
    assert talk("typo.mixal", greeting=warning + GREETING).end("q\n") == 0
    run, quiet = ran("run", "typo.mixal", "--steps", "1"), ran("debug", "typo.mixal")
    assert (run.output, run.errors, run.status) == ("", f"{warning}typo.mixal: steps used up at 0001 clock 1\n", 3)
    assert (quiet.output, quiet.errors, quiet.status) == ("", "", 0)


def test_refused_source(program, folder):
    """The line and a mark, as editors read them, and the line of a script."""
    (folder / "a.mixal").write_text(" ENTA 5\nX JUMP 3 what\n END\n")
    terminal = Terminal(program, "debug", "a.mixal", folder=folder)
    assert terminal.seen(pexpect.EOF) == "a.mixal:2:3: error: A2 no such operation: JUMP\nX JUMP 3 what\n  ^^^^\nhelp: perhaps JMP is meant\nline 2: A2 no such operation\n"
    assert terminal.wait() == 1


@pytest.mark.parametrize("line, answer", typed("first"))
def test_first_line(talk, line, answer):
    """What a person of another debugger types first does what is meant, or the answer says what a
    command takes. Words that are none here are in tests/runs/help.t."""
    terminal = talk()
    terminal.said("step 3")
    if answer == "ends":
        assert terminal.end(f"{line}\n") == 0
    else:
        seen = terminal.said(line)
        assert seen == answer[1:] if answer[:1] == "=" else answer in seen
        assert terminal.end() is not None
