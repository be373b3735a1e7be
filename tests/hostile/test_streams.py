"""Streams that fail: closed pipes, a full disk, a folder as input, an input that vanishes. The status is 2, T2 or T3 is reported, but nothing where
the reader of a pipe has gone, and what was written is a beginning of what is due."""

import os
import pathlib
import pty
import shlex
import subprocess
import threading

import pytest

from tests.hostile.inputs import bundle, lines, rows_of
from tests.hostile.test_cuts import GREETED, HELLO
from tests.model.program import SECONDS

TEXT = bundle(HELLO, GREETED)
LONG = bundle(lines(" END 0"), lines(*["show cells 0 3999"] * 20))
T2 = b"mixrev: T2 read failed\n"
T3 = b"mixrev: T3 write failed\n"


def shell(command, program, name, more=()):
    """A command of the shell, in which $0 is the program and $1 a bundle: what it wrote, what was reported, its status."""
    answer = subprocess.run(["/bin/bash", "-c", "set -o pipefail; " + command, program, name, *more], capture_output=True,
                            timeout=SECONDS, stdin=subprocess.DEVNULL)
    return answer.stdout, answer.stderr, answer.returncode


def due(program, name):
    answer = subprocess.run([program], stdin=open(name, "rb"), capture_output=True, timeout=SECONDS)
    return answer.stdout


def vanishing_terminal(program, text):
    """Standard input is a terminal that goes away after some lines: its reads fail then."""
    ours, theirs = pty.openpty()
    child = subprocess.Popen([program, "list", "-"], stdin=theirs, stdout=subprocess.PIPE, stderr=subprocess.PIPE)
    os.close(theirs)
    os.write(ours, text)
    threading.Event().wait(0.2)  # it reads what was written, and waits for more
    os.close(ours)
    output, errors = child.communicate(timeout=SECONDS)
    return output, errors, child.returncode


def vanishing_writer(program, text, at):
    """Standard input is a pipe whose writer ends early: the bundle ends there."""
    child = subprocess.Popen([program], stdin=subprocess.PIPE, stdout=subprocess.PIPE, stderr=subprocess.PIPE)
    output, errors = child.communicate(text[:at], timeout=SECONDS)
    return output, errors, child.returncode


def closed_pipe(program, name, taken):
    """Standard output is a pipe whose reader takes some bytes and goes away."""
    with open(name, "rb") as text:
        child = subprocess.Popen([program], stdin=text, stdout=subprocess.PIPE, stderr=subprocess.PIPE)
        begun = child.stdout.read(taken) if taken else b""
        child.stdout.close()
        errors = child.stderr.read()
        return begun, errors, child.wait(SECONDS)


def test_calls(runner):
    """How often a read and a write are called, by a library in front of the C library's."""
    # nothing is there to be read yet, and the writer is still there: it is no end, and to try again
    # would be to wait
    ours, theirs = os.pipe2(os.O_NONBLOCK)
    assert runner.behind("CALLED_TO", ours) == ((b"", T2, 2), [["read", "-1"]])
    os.write(theirs, TEXT)
    calls = [["read", str(len(TEXT))], ["read", "-1"]]
    assert runner.behind("CALLED_TO", ours) == ((b"", T2, 2), calls)
    os.close(ours)
    os.close(theirs)
    # 22 bytes a cell, 1,200,036 bytes a full tape
    tape = (b" ".join([b"+0102030405"] * 100) + b"\n") * 1000
    text = bundle(b" END 0\n", lines("show cells 0 2978", "show unit 0", "show all"), b"".join(b"%%UNIT %d\n" % unit + tape for unit in range(4)))
    (output, _, status), called = runner.behind("CALLED_TO", text)
    sizes = [2979 * 22, 1200036, len(output) - 2979 * 22 - 1200036]
    # replies of 64 KiB, of 1 MB and of over 4 MiB are each written by one call
    assert [int(size) for call, size in called if call == "write"] == sizes
    assert status == 0 and sizes[2] > 4 << 20


def test_files(program, place):
    """Files that cannot be opened or read, and outputs that fail, of a program that reads a command line."""
    source, script = os.path.join(place, "source"), os.path.join(place, "script")
    for name, text in [(source, HELLO), (script, GREETED)]:
        pathlib.Path(name).write_bytes(text)
    names = {b"$1": source, b"$3": os.path.join(place, "gone"), b"$4": "/proc/self/mem"}
    for command, told in rows_of("file"):
        for name, path in names.items():
            told = told.replace(name, path.encode())
        found = shell(f'"$0" {command.decode()}', program, source, [script, *[*names.values()][1:]])
        assert found == (b"", told, 2), command


def test_full_disk(program, place):
    """A deck and a map on a disk that is full, and on one with room for a part of them: each is told, what was there stays, and nothing is left beside it."""
    small = os.path.join(place, "small")
    os.mkdir(small)
    mounted = 'mount -t tmpfs -o size=16k none "$1" && cd "$1" || exit 9; printf "%%%%UNIT 16\\nOLD\\n" >old; printf " ENTX 9\\n OUT 10(8)\\n HLT\\n END 0\\n" >f; head -c %d /dev/zero >fill; '
    run = '"$0" run f --keep old --svg new </dev/null; echo $?; ls -A; tail -n 1 old'
    for filled, refused, there in ((8192, (b"old", b"new"), [b"f", b"fill", b"old"]), (4096, (b"old",), [b"f", b"fill", b"new", b"old"])):
        command = mounted % filled + run
        ran = subprocess.run(["unshare", "--mount", "--map-root-user", "/bin/bash", "-c", command, program, small], capture_output=True, timeout=SECONDS)
        if ran.returncode == 9 or b"unshare" in ran.stderr:
            pytest.skip("a full disk, since none can be mounted here")
        told = b"".join(b"mixrev: T3 write failed: %s: No space left on device\n" % name for name in refused)
        assert (ran.stderr, ran.stdout.splitlines()) == (told, [b"2", *there, b"OLD"]), filled


READS = b" IN 100(16)\n END 0\n"
STEPS = b" HLT\n END 0\n%SCRIPT\nstep\n"
# The files of the plans below; the folder is one that a system opens, but that cannot be read.
FILES = {"read.mixal": READS, "refused.mixal": b"", "step.txt": b"step\n", "card.deck": b"%UNIT 16\nA CARD\n"}


@pytest.mark.parametrize("words, text, status, output, told", rows_of("plan"))
def test_plan(program, tmp_path, words, text, status, output, told):
    """What a plan comes to, and the same where what is told cannot be written."""
    (tmp_path / "folder").mkdir()
    for name, contents in FILES.items():
        (tmp_path / name).write_bytes(contents)
    for errors, more in ((subprocess.PIPE, told and b"mixrev: %s\n" % told), (open("/dev/full", "wb"), None)):
        ran = subprocess.run([program, *shlex.split(words.decode())], input=text, stdout=subprocess.PIPE, stderr=errors, cwd=tmp_path, timeout=SECONDS)
        assert (ran.returncode, ran.stdout, ran.stderr) == (int(status), output, more)


def test_name(program):
    """The program's own name is no subcommand."""
    ran = subprocess.run(["list"], executable=program, input=STEPS, capture_output=True, timeout=SECONDS)
    assert (ran.stdout, ran.stderr, ran.returncode) == (b"ran 1 to 0001 clock 10: halt\n", b"", 0)


@pytest.fixture
def named(place):
    """The name of a file with the bundle, or with one whose replies are long."""
    def written(text=TEXT):
        path = pathlib.Path(place, "bundle")
        path.write_bytes(text)
        return str(path)

    return written


@pytest.mark.parametrize("command, output, errors, status", rows_of("shell"))
def test_command(program, named, command, output, errors, status):
    name = named()
    whole = due(program, name)
    assert whole.startswith(b"ran 2 to 1002 clock 11: halt\n")
    wanted = whole if output == b"due" else output, errors, int(status)
    assert shell(command.decode(), program, name) == wanted


@pytest.mark.parametrize("taken", [0, 5, 4096, 70000])
def test_reader_that_goes(program, named, taken):
    name = named(LONG)
    much = due(program, name)
    assert closed_pipe(program, name, taken) == (much[:taken], b"", 2)
    assert shell('"$0" <"$1" | head -c 5', program, name) == (much[:5], b"", 2)


@pytest.mark.skipif(not os.path.exists("/dev/ptmx"), reason="a terminal that goes away, since there is none")
@pytest.mark.parametrize("text", [b" END 0\n", TEXT])
def test_vanishing_terminal(program, text):
    assert vanishing_terminal(program, text) == (b"", T2.replace(b"\n", b": -\n"), 2)


def test_vanishing_writer(program, named):
    """Standard input is a pipe whose writer ends at once, in the source, or in the script."""
    assert vanishing_writer(program, TEXT, 0) == (b"line 1: A13 no END\n", b"", 1)
    _, errors, status = vanishing_writer(program, TEXT, len(HELLO) - 6)
    assert status in (0, 1) and errors == b""
    first = due(program, named()).split(b"\n")[0] + b"\n"
    assert vanishing_writer(program, TEXT, TEXT.index(b"show unit")) == (first, b"", 0)
