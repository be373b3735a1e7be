"""Each allocation of a run refused in turn: T1 and nothing else, and a beginning of what is due.

A small library in front of the C library's refuses the allocation of one number, and tells that it did. A run in which one was refused has to end
with status 2, to report T1 alone, and to have written a beginning of its output; the first run that asks for fewer has to end as ever. Then the same
with all allocations refused from that number on.

On a program of the repository's own (tests/hostile/again) the call that was refused is made once more, and everything has to go on as if nothing had been
refused."""

import itertools
import json
import re
from pathlib import Path

import pytest

from tests.adapter.frames import DONE, frame, framed, launch
from tests.hostile.inputs import BUNDLES, bundle, lines
from tests.model.program import Runner

T1 = b"mixrev: T1 out of memory\n"
OWN = 9  # the status of tests/hostile/again where its own needs were refused
MOST = 100000

EACH = BUNDLES["memory"]
FIRST = EACH["the first example"].source
QUICK = ("the first example", "a source with characters")


def refused_at(runner, n, text, words=(), more=1):
    """The answer with allocation n refused, and as many after it as are wanted, and whether it was
    asked for."""
    numbers = {"refused_allocation": n, "refused_count": more}
    answer, _ = runner.behind("REFUSED_TO", text, words, **numbers)
    return answer, (runner.place / "log").exists()


def in_turn(runner, text, words=(), counts=(1,)):
    """Each number, the answer where so many allocations from it on are refused, and whether it was
    asked for; one that was not ends them."""
    for n, more in itertools.product(range(1, MOST), counts):
        answer, refused = refused_at(runner, n, text, words, more)
        yield n, answer, refused
        if not refused:
            return


@pytest.mark.parametrize("how", ["bundle", "list", "debug"])
@pytest.mark.parametrize("name", [*QUICK, *(pytest.param(name, marks=pytest.mark.full) for name in EACH if name not in QUICK)])
def test_refused(runner, name, how):
    """The answer is T1 and a beginning of what is due, as long as an allocation is refused."""
    source, deck, script, _ = EACH[name]
    text, words = bundle(source, script, deck), ()
    if how != "bundle":
        parts = {"source": source, "script": script, "deck": deck or b""}
        files = [runner.file(*part) for part in parts.items()]
        words = ("debug", *files[:2], "--devices", files[2]) if how == "debug" else ("list", files[0])
        text = b""
    check_refused(runner, text, words)


def check_refused(runner, text, words, goes_on=False):
    """The same of a run, which makes no file then, and which may go on as ever."""
    files = [runner.place / name for name in ("kept", "drawn")]
    made = lambda: [file.unlink() for file in files if file.exists()]
    whole, _ = runner.run(text, words), made()
    for n, answer, refused in in_turn(runner, text, words, (1, MOST)):
        left = made()
        if not refused or goes_on and answer == whole:
            assert answer == whole, n
        else:
            assert answer[1:] == (T1, 2) and whole[0].startswith(answer[0]) and not left, n
        if not refused:
            return
    raise AssertionError("no end")


SUM = lines(" ENT1 2 [1]", "LOOP DEC1 1 [N]", " J1P LOOP [M]", " OUT 0(18)", " HLT 0 [N*]", " END")
FAULTY = lines("A EQU 1,", " LAD X", " LDA 5,7", " ALF ABCDEF", "2 HLT", " END 0")
ASKED = Path(__file__).with_name("asked.txt").read_text().splitlines()
ASKED = [row.split(" ", 2) for row in ASKED if row[0] != "#"]
TALK = [("initialize", {}), launch(SUM.decode()), DONE,
        *((name, json.loads(given)) for who, name, given in ASKED if who == "dap")]
MESSAGES = [{"id": k, "method": name, "params": json.loads(given)}
            for k, (who, name, given) in enumerate(ASKED) if who == "lsp"]
# The words of a plan, and its standard input.
PLANS = {
    "run --counts --csv -": SUM, "run --formulas N=2 --latex -": SUM, "run --trace --json -": SUM,
    "run --svg drawn -": SUM, "run --keep kept -": SUM, "check -": FAULTY, "check --json -": FAULTY,
    "run --writes I1 --csv -": SUM, "list --latex -": SUM, "dap": framed(*TALK),
    "lsp": b"".join(frame(json.dumps(message).encode()) for message in MESSAGES),
}


@pytest.mark.parametrize("words", PLANS)
def test_plan_refused(runner, words):
    """The same of each plan. A run goes on where the report of its source is refused memory."""
    check_refused(runner, PLANS[words], words.split(), words.startswith("run"))


# ---- The same call made again


def input_of(how, source, deck, script):
    return b"\0".join([how, source, deck or b"", script])


def again_cases():
    for name, (source, deck, script, _) in EACH.items():
        if not name.startswith(("a refused", "a source without", "a script")):
            yield pytest.param(b"again", source, deck, script, id=name)
    for name, steps in [("the first example", 4), ("a move", 2), ("a tape is read", 1), ("a disk is written past its end", 2), ("each unit is written", 11),
                        ("four units with delays", 9)]:
        yield pytest.param(b"journal", *EACH[name][:2], b"\n" * steps, id=f"{name}, its journal")


@pytest.fixture
def again(request, place):
    """The program of tests/hostile/again, whose allocations are refused."""
    program = request.config.getoption("--again")
    if not program:
        pytest.skip("the program that asks again, which --again names")
    return Runner(program, place)


@pytest.mark.parametrize("how, source, deck, script", again_cases())
def test_made_again(again, how, source, deck, script):
    """A program that makes the call again replies as ever, and one refusal left what is promised."""
    text = input_of(how, source, deck, script)
    whole = again.run(text)
    assert whole[1:] == (b"", 0)
    for n, answer, refused in in_turn(again, text):
        if not refused:
            assert answer == whole, n
            return
        if answer != (b"", b"", OWN):
            assert (answer[0], answer[2]) == (whole[0], 0) and is_unchanged(answer[1], script), n
    raise AssertionError("no end")


TOLD = re.compile(rb"(?:assemble|units|load|open)\n|(?:step|forth) (\d+) (\d+) \d+ \d+ (\d+) (\d+)\n|command (\d+) (\d+) (\d+) \d+ \d+\n")


def is_unchanged(told, script):
    """One refusal was told, and of the changes, and in a journal of what is kept, it left what is promised."""
    match = TOLD.fullmatch(told)
    if not match:
        return False
    if match[1]:  # a step of a journal: nothing has changed
        return match[1] == match[2] and match[3] == match[4]
    if match[5]:
        words = script.split(b"\n")[int(match[5])].split()
        return may_leave(words, int(match[6]), int(match[7]) - int(match[6]))
    return True


def may_leave(words, before, more):
    """Whether a command that was refused memory, with so many changes before it, may leave so many more."""
    count = int(words[1]) if len(words) > 1 and words[1].isdigit() else 1
    if words[0] == b"goto":
        return 0 <= more <= count - before if before < count else more in (0, count - before)
    if words[0] in (b"step", b"run", b"trace"):
        return 0 <= more <= count
    if words[0] == b"forth":
        return 0 <= more and (more <= count or words[1] in (b"all", b"until"))
    if words[0] in (b"set", b"break", b"clear"):
        return 0 <= more <= 1
    if words[0] == b"back" and words[1] in (b"break", b"until"):
        return -before <= more <= 0
    if words[0] == b"back":
        return more in (0, -before if words[1] == b"all" else -count)
    return more == 0


def test_stages(again):
    """What stands after a refusal in `step 4` and in `back 2` of the first example, and what the next lines then reply."""
    line = "changes %d kept %d loc %d clock %d\n"
    rows = [(0, 0, 0, 0), (1, 3, 1, 1), (2, 7, 2, 2), (3, 10, 3, 4), (4, 12, 4, 14)]
    kept = "".join(line % rows[k] for k in (1, 2, 3, 4, 3, 2, 1, 0, 1, 2, 3, 4)).encode()
    assert again.run(input_of(b"journal", FIRST, b"", b"\n" * 4)) == (kept, b"", 0)
    met = set()
    for n, answer, _ in in_turn(again, input_of(b"on", FIRST, b"", b"step 4\nshow clock\n")):
        match = re.fullmatch(rb"command 0 0 (\d+) (\d+) (\d+)\n", answer[1])
        if not match:
            continue
        k, *place_and_clock = map(int, match.groups())
        met.add(k)
        assert tuple(place_and_clock) == rows[k][2:], (k, n)
        if k < 4:
            # the same allocation is refused where the script has as many bytes
            answer, _ = refused_at(again, n, input_of(b"on", FIRST, b"", b"step 4\nstep %d\n**" % (4 - k)))
            assert answer[0] == b"ran %d to 0004 clock 14: halt\n" % (4 - k), n
    assert 0 in met  # before its first step
    whole = b"ran 4 to 0004 clock 14: halt\n"
    for n, answer, _ in in_turn(again, input_of(b"on", FIRST, b"", b"step 4\nback 2\nshow clock\n")):
        match = re.fullmatch(rb"command 1 4 (\d+) (\d+) (\d+)\n", answer[1])
        if match:
            assert (match.groups(), answer[0]) == ((b"2", b"2", b"2"), whole + b"clock 2\n"), n
