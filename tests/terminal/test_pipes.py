"""Talks over a pipe, and the line editor."""
import re
import shutil
import subprocess
import time

import pexpect
import pexpect.fdpexpect
import pytest
from tests import TOP
from tests.terminal.talking import GREETING, PROMPT, SECONDS, Terminal


def test_byte_by_byte(program, folder):
    """Each reply comes when its line is whole, and not before; no prompt and no help where there is no terminal."""
    process = subprocess.Popen([program, "debug", "a.mixal"], cwd=folder, stdin=subprocess.PIPE, stdout=subprocess.PIPE, stderr=subprocess.PIPE, bufsize=0)
    output = pexpect.fdpexpect.fdspawn(process.stdout, timeout=SECONDS)
    for line, reply in ((b"step 2", b"ran 2 to 0002 clock 2: limit\n"), (b"help", b"? C1 no such command\n"), (b"back 1", b"back 1 to 0001 clock 1\n")):
        for byte in line:
            process.stdin.write(bytes([byte]))
            time.sleep(0.002)
        assert output.expect([pexpect.TIMEOUT, b"."], timeout=0.05) == 0
        process.stdin.write(b"\n")
        output.expect_exact(reply)
        assert output.before == b""
    process.stdin.write(b"show clock")
    process.stdin.close()
    output.expect(pexpect.EOF)
    assert (output.before, process.stderr.read(), process.wait()) == (b"clock 1\n", b"", 3)


def test_as_a_script(ran, folder):
    """A talk over a pipe and a script of the same lines write the same."""
    script = "step 3\n* a comment\n\n  show regs\r\nback all\nforth 2\nset A 7\nshow all"
    (folder / "script").write_bytes(script.encode())
    assert ran("debug", "a.mixal", given=script) == ran("debug", "a.mixal", "script")


def test_long_lines(ran):
    """A line of a million bytes is a command; one over its limit ends the talk, after the replies before it."""
    most = " " * (1_048_576 - 4)
    for given, output, errors, status in (
            (" " * 999_995 + "step\nstep\n", "ran 1 to 0001 clock 1: limit\nran 1 to 0002 clock 2: limit\n", "", 0),
            (most + "step\n", "ran 1 to 0001 clock 1: limit\n", "", 0),
            ("step\n" + most + " " * 8192 + "step\n", "ran 1 to 0001 clock 1: limit\n", "mixrev: T6 input too long\n", 2)):
        done = ran("debug", "a.mixal", given=given)
        assert (done.output, done.errors, done.status) == (output, errors, status)


def installed(program, folder):
    """The command mixrev, in a folder as it is installed in."""
    (folder / "bin").mkdir()
    (folder / "libexec/mixrev").mkdir(parents=True)
    for name in ("mixrev", "package/mixrev-debug"):
        shutil.copy(TOP / name, folder / "bin")
    (folder / "libexec/mixrev/mixrev").symlink_to(program)
    return str(folder / "bin/mixrev")


def test_stopped(program, folder):
    """Of a run that Ctrl-C stops a person is told how it says where it is."""
    (folder / "loop.mixal").write_text(" JMP *\n END 0\n")
    terminal = Terminal(installed(program, folder), "run", "loop.mixal", folder=folder)
    time.sleep(0.5)
    terminal.send("\x03")
    terminal.expect("mixrev: stopped: with --steps 1000000 a run ends by itself, and says where\r\n")
    terminal.expect(pexpect.EOF)
    assert terminal.wait() == 130


def test_line_editor(program, folder):
    """`mixrev debug` as it is installed: Tab completes commands and symbols, Up brings a line back,
    Ctrl-C drops one, and the history is kept."""
    subprocess.run([TOP / "tests" / "install", "rlwrap"], check=True)
    if not shutil.which("rlwrap"):
        pytest.skip("the line editor, since rlwrap is not there")
    home = folder / "home"
    home.mkdir()
    (home / "a.mixal").write_text(" ENTA 5\nTABLE STA TABLE+7\n HLT\n END 0\n")
    terminal = Terminal(installed(program, folder), "debug", "a.mixal", folder=home)
    value = f'+ 00 00 00 00 02 {2:11}  "    B"\n'
    for line, reply in (("", GREETING + PROMPT), ("st\t 2\n", "ran 2 to 0002 clock 3: limit\n"), ("sh\t val\t tab\t+1\n", value), ("goto\x03", ""), ("\x1b[A\n", value),
                        ("ba\t al\t\n", "back 2 to 0000 clock 0\n"), ("q\t\n", "quit\n")):
        terminal.send(line)
        time.sleep(0 if reply else 0.5)
        moves = r"(?:\x1b\[[?0-9]*[a-zA-Z]|\r)*"  # what moves the cursor
        terminal.expect(moves.join(map(re.escape, reply)))
    terminal.expect(pexpect.EOF)
    assert terminal.wait() == 0 and (home / ".mixrev_history").read_text().splitlines() == ["step 2", "show value TABLE+1", "back all", "quit"]
