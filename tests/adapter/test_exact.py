"""The adapter to the byte

What a client sends as bytes, the messages that come back as they stand there, and where each request leads. Every value that is wanted is worked out by
hand from docs/DAP.md and docs/MACHINE.md."""
import json
import pathlib
import re
import subprocess

from tests.adapter.frames import DONE, GOOD, answers, frame, framed, launch, sent, states, texts
from tests.runs.bundles import bundles

SOURCE = " ENTA 5\n INCA 7\n STA 100\n HLT\n END 0\n"
DISCONNECT = b'Content-Length: 51\r\n\r\n{"seq":1,"type":"request","command":"disconnect"}  '
CUT = b"mixrev: T7 input cut\n"

UNCLEAR = '{"body":{"category":"important","output":"%s"},"event":"output","seq":%d,"type":"event"}'

# What is told of the last four steps: a refusal, a reply, and the name of a part to be watched.
TOLD = ['"message":"C5 refused by the machine: M7 index overflow"', '"result":"changes 2\\n"', '"dataId":"A"']

# How many changes are ahead after each command of the longest bundle of back_and_forth.t.
AHEAD = [0, 3, 1, 1, 1, 1, 0, 1, 0, 0, 4, 0, 0, 299999, 0, 300001, 0, 0, 0, 0, 1]
FORTH = next(text for _, text, _ in bundles() if "forth 299999" in text)

VIEWED = "A EQU 100\n ENTA 5\n INCA 7\n STA A\n HLT\n END 0\n"
CARDS = "FIRST\n SECOND\n"
LINE_3 = {"breakpoints": [{"line": 3}]}
# An offset of 6 as JSON may write it, and one of 0, or none.
WHOLE_NUMBERS = [b"6", b"6.0", b"6e0", b"0.6e1", b"60E-1", b"600.00e-2"]
ABSENT = [b"0", b"0.0", b"-0", b"-0.0", b"null"]
FIRST_CELL, SECOND_CELL = '"address":"0x0000"', '"address":"0x0006"'

# A line that is altered while it is printed, until 0 + 1 + 10: by changes 2 and 3, not by change
# 11.
LINE = ' OUT 9(18)\n STZ 9\n STZ 10\n JBUS *(18)\n STZ 9\n HLT\n ORIG 9\n ALF "HULLO"\n END 0\n'
DELAY = "%UNIT 18 delay 10\n"
FILTER = '"exceptionBreakpointFilters":[{"default":false,"description":"A run stops at a step that uses a cell which a transfer under way forbids.",' \
    '"filter":"conflict","label":"Conflicts with a transfer under way"}]'

# A program that types a row; after its launch and the stop at its entry these are asked for, and of
# what comes back these messages, each with its number.
HI = " OUT 3(19)\n HLT\n ORIG 3\n ALF HI\n END 0\n"
ASKED = [(name, {"threadId": 1, "name": "x"}) for name in ("next", "fly", "disconnect")]
SENT = ['{"command":"next","request_seq":7,"seq":%d,"success":true,"type":"response"}',
        '{"body":{"error":{"format":"Q1 no such request","id":301,"showUser":true}},"command":"fly","message":"Q1 no such request","request_seq":8,'
        '"seq":%d,"success":false,"type":"response"}',
        '{"body":{"category":"stdout","output":"HI\\n"},"event":"output","seq":%d,"type":"event"}']

# What lines of the console are tried on, with a symbol that has a register's name.
TYPED = " ENTA 5\nX STA 100\n HLT\n END 0\n"

# A reply with a letter of two bytes, which the length of its frame counts.
LETTER = " NOP 0 \u00e9!\n END 0\n"
REPLIED = '{"body":{"line":"show counts","result":"         0           0  0000      1   NOP 0 \u00e9!\\n         0           0  total\\n",' \
    '"variablesReference":0},"command":"evaluate","request_seq":3,"seq":%d,"success":true,"type":"response"}'


def rows_of(part):
    """The rows of a part of exact.rows: a request by its name and its arguments, and what is wanted."""
    text = pathlib.Path(__file__).with_name("exact.rows").read_text().partition(f"\n[{part}]\n")[2].partition("\n[")[0]
    for row in re.finditer(r"^([\w/]+) (.*) => (.*)$", text, re.M):
        yield row[1], json.loads(row[2]), row[3]


def sends(part):
    """The rows of a part with bytes that a client sends."""
    return [(text.encode("latin-1"), wanted) for _, text, wanted in rows_of(part)]


def test_ends(command):
    for text, wanted in sends("ends"):
        output, errors, status = sent(command, text)
        assert f"{status} {errors.decode().strip()}" == wanted, text
        assert output == b"" or output.startswith(b"Content-Length: "), (text, output)


def test_frames(command):
    for whole, rest in sends("whole"):
        found, ended = texts(command, whole + DISCONNECT)
        commands = [json.loads(text).get("command") for text in found]
        assert (commands, ended) == ([None, "disconnect"], GOOD), f"{whole}, and a request"
        ended = texts(command, whole + rest.encode())[1]
        assert ended == ([CUT, 2] if rest else GOOD), f"{whole}, and {rest}"
    assert sent(command, b"") == (b"", *GOOD)
    for partial, _ in sends("partial"):
        assert sent(command, partial) == (b"", CUT, 2), partial
    unread = sends("unread")
    for given, text in unread:
        assert texts(command, given) == ([UNCLEAR % (text, 1)], GOOD), f"{given} is no request"
    # the numbers go on, before a launch and after it
    requests = [framed(("initialize", {})), framed(launch(HI)), framed(DONE, ("next", {}))]
    every = b"".join(given + each for (given, _), each in zip(unread, requests))
    found, ended = texts(command, every)
    numbers = [json.loads(text)["seq"] for text in found]
    assert (numbers, ended) == (list(range(1, len(found) + 1)), GOOD), "numbers of messages"
    wanted = [UNCLEAR % (text, number) for (_, text), number in zip(unread, (1, 3, 6))]
    assert [text for text in found if "important" in text] == wanted, found


def test_messages(command):
    found, ended = texts(command, framed(launch(HI), DONE) + framed(*ASKED, first=7))
    assert ended == GOOD, "a talk ends"
    for wanted in SENT:
        assert any(text == wanted % number for number, text in enumerate(found, 1)), (wanted, found)
    asked = framed(launch(LETTER), DONE, ("evaluate", {"expression": "show counts", "context": "repl"}))
    frames = [frame((REPLIED % number).encode()) for number in range(1, 9)]
    output = sent(command, asked)[0]
    assert output.endswith(tuple(frames)), ("a length in bytes", output)


def test_responses(command):
    """Whole responses to the byte, but for the two numbers of each."""
    before, after = ([*rows_of(part)] for part in ("before", "after"))
    asked = [*(row[:2] for row in before), launch(SOURCE), DONE, *(row[:2] for row in after)]
    found = [re.sub(r'"request_seq":\d+,"seq":\d+,', "", text) for text in texts(command, framed(*asked))[0] if '"request_seq":' in text]
    assert found[:len(before)] + found[len(before) + 2:] == [row[2] for row in [*before, *after]], "responses"


def test_leads(command):
    """Where each request leads, once the run that it may begin has stopped."""
    rows = [*rows_of("leads")]
    found = states(command, [launch(SOURCE)], [row[:2] for row in rows])
    assert len(found) == len(rows), "states"
    for (name, given, wanted), state in zip(rows, found):
        assert f"{state['location']} {state['done']}" == wanted, f"{name} {given}"


def test_steps(command):
    rows = [*rows_of("steps")]
    found = states(command, [launch(SOURCE), DONE], [row[:2] for row in rows])
    assert len(found) == len(rows), "states of steps"
    for (name, given, wanted), state in zip(rows, found):
        registers = {register["name"]: register["number"] for register in state["registers"]}
        assert f"{state['location']} {registers['A']} {state['done']} {state['ahead']}" == wanted, f"{name} {given}"
    found, _ = texts(command, framed(launch(SOURCE), DONE, *[row[:2] for row in rows[6:]], ("dataBreakpointInfo", {"variablesReference": 1, "name": "A"})))
    for text in TOLD:
        assert any(text in message for message in found), (f"{text} is told", found)


def test_ahead(command):
    source, script = FORTH.split("%SCRIPT\n")
    found = states(command, [launch(source), DONE], [("evaluate", {"expression": line, "context": "repl"}) for line in script.splitlines()])
    assert [state["ahead"] for state in found] == AHEAD, "what stands ahead"


def test_views(command):
    """What a page is told: each part is in an answer to its request."""
    rows = [*rows_of("views")]
    found = answers(command, [launch(VIEWED, cardsText=CARDS), *[row[:2] for row in rows]])
    for seq, (name, given, part) in enumerate(rows, 2):
        assert any(part in message for message in found.get(seq, [])), (f"{name} {given}", found.get(seq))


def test_launches(command):
    """What a launch gives to the units, and what refuses it."""
    for name, given, part in rows_of("launches"):
        found, _ = texts(command, framed((name, {"stopOnEntry": True, **given}), ("mix/units", {}), ("mix/state", {})))
        assert any(part in message for message in found), (f"{name} {given}", found)


def test_wrong(command):
    """A request with an argument that is not what it has to be is refused by the name of it, and changes nothing."""
    stands = [("setBreakpoints", LINE_3), ("setDataBreakpoints", {"breakpoints": [{"dataId": "cell 100"}]})]
    runs = [("continue", {}), ("continue", {}), ("evaluate", {"expression": "show changes", "context": "repl"})]
    for name, given, argument in rows_of("wrong"):
        found = [json.loads(text) for text in texts(command, framed(launch(SOURCE), DONE, *stands, (name, given), *runs))[0]]
        answer = next((message for message in found if message.get("request_seq") == 5), {})
        error = answer.get("body", {}).get("error", {})
        assert (answer.get("message"), error.get("id"), error.get("variables")) == ("Q2 bad argument", 302, {"argument": argument}), f"{name} {given}"
        reasons = [message["body"]["reason"] for message in found if message.get("event") == "stopped"]
        assert reasons == ["entry", "breakpoint", "data breakpoint"], f"{name} {given}: what stands"
    for texts_of, cell in ((WHOLE_NUMBERS, SECOND_CELL), (ABSENT, FIRST_CELL)):
        for number in texts_of:
            body = b'{"seq":2,"type":"request","command":"readMemory","arguments":{"memoryReference":"0","count":6.0,"offset":%s}}' % number
            found = texts(command, framed(launch(SOURCE)) + frame(body))[0]
            assert any(cell in text for text in found), (f"an offset {number}", found)


def where(command, part, opening):
    """The rows of a part, each after those before it: what each is told, and where it leads."""
    rows = [*rows_of(part)]
    requests = [row[:2] for row in rows]
    found = answers(command, [*opening, DONE, *requests])
    left = states(command, [*opening, DONE], requests)
    for seq, ((name, given, wanted), state) in enumerate(zip(rows, left, strict=True), len(opening) + 2):
        loc, done, told_part = wanted.split(" ", 2)
        assert any(told_part in message for message in found.get(seq, [])), (f"{seq} {name} {given}", found.get(seq))
        assert f"{state['location']} {state['done']}" == f"{loc} {done}", f"{seq} {name} {given}: where"
    return found


def test_conflicts(command):
    """Runs that stop at a step that conflicts, both ways, where that is asked for."""
    found = where(command, "conflicts", [("initialize", {}), launch(LINE, devicesText=DELAY)])
    assert FILTER in found[1][0], (FILTER, found[1])


def test_console(command):
    where(command, "console", [launch(TYPED)])


def test_reports(command, tmp_path):
    """A launch tells the report that `mixrev check` writes, after its answer and before all else, and nothing of a source without a fault or a warning."""
    for _, source, _ in rows_of("checked"):
        (tmp_path / "a.mixal").write_text(source, encoding="utf-8")
        ran = subprocess.run([command[0], "check", "a.mixal"], cwd=tmp_path, capture_output=True, text=True)
        wanted = [("launch", ran.returncode == 0)] + [("stderr", ran.stdout)] * (ran.stdout != "") + [("initialized",)] * (ran.returncode == 0)
        found = [json.loads(text) for text in texts(command, framed(("launch", {"program": "a.mixal", "sourceText": source})))[0]]
        same = [(it["command"], it["success"]) if it["type"] == "response" else
                (it["body"]["category"], it["body"]["output"]) if it["event"] == "output" else (it["event"],) for it in found]
        assert same == wanted, f"{source!r} is launched"


def test_checks(command):
    """What there is to say of a text is what `mixrev check --json` says of it, with its help as the
    remedy, whether a program is launched or not."""
    for _, source, _ in rows_of("checked"):
        lines = subprocess.run([command[0], "check", "--json", "-"], input=source.encode(), capture_output=True).stdout.splitlines()
        wanted = [json.loads(line.replace(b'"help":', b'"remedy":')) for line in lines]
        for diagnostic in wanted:
            del diagnostic["file"]
        for opening in ([], [launch(SOURCE), DONE]):
            found, ended = texts(command, framed(*opening, ("mix/check", {"source": source})))
            told_of = [message["body"]["diagnostics"] for message in map(json.loads, found) if message.get("command") == "mix/check"]
            same = [[it for it in all_of if it["code"] != "no-halt"] for all_of in told_of]
            assert (same, ended) == ([wanted], GOOD), f"{source!r} is checked, {'launched' if opening else 'not launched'}"
