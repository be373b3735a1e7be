"""What a terminal is given: of a stranger's bytes, and of a halt, which no other stream is told."""
import itertools
import os
import pty
import re
import subprocess
import tempfile
import termios

import pytest
from tests.terminal import test_talk
from tests.terminal.talking import GREETING, PROMPT

# a colour and a title of xterm; a sequence that begins with the byte 9B, alone and as a
# character; letters of other alphabets; the signs that turn the direction of a text, and their
# neighbours; a tab
REMARK = b"\xe2\x80\xae \xe2\x81\xa6 \xe2\x80\xa9\xe2\x81\xaa \x1b[31m \x1b]0;owned\x07 \x9b1m \xc2\x9b2m \xc3\x9f \xce\x94 \xe2\x82\xac \xf0\x9f\x9a\xb2\t|\x7f"
SHOWN = "??? ??? \u2029\u206a ?[31m ?]0;owned? ?1m ??2m \xdf \u0394 \u20ac \U0001f6b2\t|?"

# Bytes that are no character of UTF-8: overlong forms (the first is the escape for lax readers),
# first bytes of none, surrogates, what is beyond U+10FFFF, and characters that are cut off.
NONE = "C09B C1BF E09B9B E09FBF F08FBFBF F5808080 F89B FE FF EDA080 EDBFBF F4908080 C3 E282 F09F9A 80"
NONE = [bytes.fromhex(code) for code in (*NONE.split(), "BF")]
# The first and the last character of each length that is shown, and the neighbours of the
# surrogates.
EDGES = "\u00a0\u07ff\u0800\ud7ff\ue000\uffff\U00010000\U0010ffff"
STREAMS = ("stdin", "stdout", "stderr")


def streams_of(program, folder, *words, typed=b"", terminals=STREAMS):
    """What a terminal is given as some of the streams, and what each file is given that is another one."""
    terminal, line = pty.openpty()
    mode = termios.tcgetattr(line)
    mode[3] &= ~termios.ECHO
    termios.tcsetattr(line, termios.TCSANOW, mode)
    streams = {name: line if name in terminals else tempfile.TemporaryFile() for name in STREAMS}
    if "stdin" not in terminals:
        streams["stdin"].write(typed)
        streams["stdin"].seek(0)
    process = subprocess.Popen([program, *words], cwd=folder, **streams)
    os.close(line)
    if "stdin" in terminals:
        os.write(terminal, typed)
    seen = b""
    while True:
        try:
            part = os.read(terminal, 4096)
        except OSError:
            break
        seen += part
    process.wait()
    os.close(terminal)
    files = {name: streams[name].seek(0) or streams[name].read() for name in STREAMS[1:] if name not in terminals}
    return seen.replace(b"\r\n", b"\n"), files


def bytes_of(*words, **given):
    """All that a terminal is given."""
    return streams_of(*words, **given)[0]


CODE = f"0000  + 00 05 00 02 48  {'ENTA 5':17}  {1:5}   ENTA 5 \x1b[m\n0001  + 00 00 00 02 05  {'HLT':17}  {2:5}   HLT 0 \x07\n"
LISTED = f"0000  + 00 05 00 02 48{1:7}   ENTA 5 \x1b[m\n0001  + 00 00 00 02 05{2:7}   HLT 0 \x07\n0000{3:25}   END 0\nsymbols 0\n"
# What follows a step at a prompt: the change, and what comes next.
CHANGE = f"      1  0000  {'ENTA 5':17}    1u  A + 00 00 00 00 00 -> + 00 00 00 00 05\n{CODE.splitlines()[1]}\n"
SCRIPT = [("stdout", "ran 1 to 0001 clock 1: limit\n"), ("stdout", CODE), ("stdout", "clock 1\n"), ("stdout", "? C1 no such command\n")]
TYPED = [("stderr", GREETING + PROMPT), SCRIPT[0], ("stderr", CHANGE + PROMPT), SCRIPT[1], ("stderr", PROMPT), SCRIPT[2], ("stderr", PROMPT)]


@pytest.mark.parametrize("terminals", [part for many in range(4) for part in itertools.combinations(STREAMS, many)])
def test_each_stream_is_a_terminal_or_not(program, folder, terminals):
    """Standard output has the replies alone, as they are in a file; standard error has what only a person is told, who types at a terminal."""
    (folder / "a.mixal").write_text(" ENTA 5 \x1b[m\n HLT 0 \x07\n END 0\n")
    talk = (("debug", "a.mixal"), b"step\nshow code 0 1\nshow clock\nquit\n", TYPED if "stdin" in terminals else SCRIPT)
    for words, typed, told in (talk, (("list", "a.mixal"), b"", [("stdout", LISTED)]),
                               (("run", "a.mixal", "--steps", "1"), b"", [("stderr", "a.mixal:2: steps used up at 0001 clock 1\n")])):
        texts = [(name, text if name == "stdout" and name not in terminals else re.sub("[\x1b\x07]", "?", text)) for name, text in told]
        wanted = {name: "".join(text for one, text in texts if one == name).encode() for name in STREAMS[1:] if name not in terminals}
        shown = "".join(text for name, text in texts if name in terminals).encode()
        assert streams_of(program, folder, *words, typed=typed, terminals=terminals) == (shown, wanted)


def test_masked(program, folder):
    """Control characters and lone bytes are question marks at a terminal, whatever writes them; into a pipe all is as it is."""
    (folder / "a.mixal").write_bytes(b" NOP 0 " + REMARK + b"\n HLT\n END 0\n")
    for words, typed in ((("list", "a.mixal"), b""), (("debug", "a.mixal"), b"list\nshow code\nstep\nback\nquit\n")):
        seen = bytes_of(program, folder, *words, typed=typed)
        assert SHOWN.encode() in seen and not {*b"\x1b\x07\x7f"} & {*seen}, (words, seen)
    assert REMARK in subprocess.run([program, "list", "a.mixal"], cwd=folder, capture_output=True).stdout


@pytest.mark.parametrize("bad", [*NONE, EDGES.encode()])
def test_characters(program, folder, bad):
    """Each byte of no character is a question mark; a letter behind one is itself, as are the first and the last characters of each length."""
    (folder / "a.mixal").write_bytes(b" NOP 0 <" + bad + b"A" + bad + b">\n END 0\n")
    shown = bad if bad == EDGES.encode() else b"?" * len(bad)
    assert b"<" + shown + b"A" + shown + b">" in bytes_of(program, folder, "list", "a.mixal")


def test_names(program, folder):
    """What is told on standard error has no control character, also in the name of a file, and also into a pipe."""
    for words in (("run", "no\x1b[31m"), ("debug", "no\x1b[31m"), ("check", "no\x1b[31m")):
        told = subprocess.run([program, *words], cwd=folder, capture_output=True, stdin=subprocess.DEVNULL).stderr
        assert b"no?[31m" in told and b"\x1b" not in told
    (folder / "bad\x1b[1m.mixal").write_text(" FOO\n END 0\n")
    told = subprocess.run([program, "run", "bad\x1b[1m.mixal"], cwd=folder, capture_output=True, stdin=subprocess.DEVNULL).stderr
    assert told.startswith(b"bad?[1m.mixal:1:2: error: A2")


@pytest.mark.parametrize("source, words, said", test_talk.typed("halt"))
def test_halt(program, folder, source, words, said):
    (folder / "p.mixal").write_text(source)
    line = said and f"p.mixal:{said}\n"
    words = ("run", "p.mixal", *words.split())
    shown, piped = streams_of(program, folder, *words, typed=b"", terminals=("stderr",))
    assert (shown.decode(), set(piped)) == (line, {"stdout"})
    shown, piped = streams_of(program, folder, *words, typed=b"", terminals=("stdin", "stdout"))
    assert piped["stderr"].decode() == (line if said[:1] == "1" else "")


def test_halt_before_conflicts(program, folder):
    """It stands before the steps that conflict with a transfer."""
    (folder / "p.mixal").write_text(
        " OUT 9(18)\n STZ 9\n HLT\n END 0\n%DEVICES\n%UNIT 18 delay 10\n"
    )
    shown, _ = streams_of(program, folder, "run", "p.mixal", typed=b"", terminals=("stderr",))
    first, *others = shown.decode().splitlines()
    assert first.startswith("p.mixal: halted at 0003 after ") and others
