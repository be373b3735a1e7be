"""Talks with the debug adapter, for the comparisons: frames, requests drawn at random among the commands of a script, and what a talk made of a script."""
import re

from tests.adapter.frames import frame, framed, messages
from tests.asking import line as repl

REFUSED = re.compile(rb"^\? C\d .*$", re.M)
FAULT = re.compile(r"^ran .*: fault M\d+ ", re.M)  # a reply that tells of a step at fault, which no other line of a reply looks like


def opening(source, deck):
    return [
        ("initialize", {"adapterID": "mixrev", "linesStartAt1": True}),
        ("launch", {"sourceText": source, "devicesText": deck, "stopOnEntry": True}),
        ("configurationDone", {}),
    ]


def told(message):
    """The number and the text of a refusal."""
    error = message["body"]["error"]
    return error["id"], error["format"]


def lines_done(sent, lines):
    """The lines of a script that were done for these lines of a console: others for a person's words, and none for what only asks."""
    answers = {message["request_seq"]: message for message in messages(sent) if message["type"] == "response"}
    found = [answer["body"].get("line") if answer.get("success") else line for line, answer in ((line, answers.get(seq, {})) for seq, line in enumerate(lines, 4))]
    return [line for line in found if line is not None]


def unread(output):
    """An output in which no refusal says why: a console refuses a person's words."""
    return REFUSED.sub(b"?", output)


def as_script(sent, lines):
    """Output, standard error and status of a script of so many lines, by the answers of a talk that gave each of them, but for why a line is refused."""
    answers = {message["request_seq"]: message for message in messages(sent) if message["type"] == "response"}
    launched = answers[2]
    if not launched["success"]:
        number, text = told(launched)
        if 100 < number < 200:
            return text.encode() + b"\n", b"", 1
        return b"", b"mixrev: " + text.encode() + b"\n", 2
    output, status = [], 0
    for seq in range(4, 4 + lines):
        if answers[seq]["success"] and "line" not in answers[seq]["body"]:
            continue
        if answers[seq]["success"]:
            output.append(answers[seq]["body"]["result"])
            status = 3 if FAULT.search(output[-1]) else status
        else:
            number, text = told(answers[seq])
            if not 200 < number < 300:
                raise ValueError(text)
            output.append("?\n")
            status = 3
    return "".join(output).encode(), b"", status


VIEWS = ["mix/program", "mix/counts", "mix/state", "mix/units"]
MOVES = ["next", "stepIn", "stepOut", "stepBack", "continue", "reverseContinue", "restart", "pause"]
LOOKS = ["threads", "stackTrace", "scopes", "exceptionInfo", "gotoTargets", "terminate", "cancel", "nonsense", "launch", "setExceptionBreakpoints"]
NAMES = ["A", "X", "I1", "I6", "J", "over", "cmp", "loc", "100", "3999", "4000", "clock", "Q", ""]
VALUES = ["0", "-1", "5(0:2)", "1073741823", "1073741824", "on", "off", "less", "*+1", "-0", "63(5:5)", "nothing"]
LINES = [" LDA X\n", "X EQU 1\n", "ENTA 5\n", " JUMP\n", "\tALF\tTOO LONG\n", " END 0\n", "* \u00c4\n", " LDA 1, 2\n", "Y NOP \n"]
DATA = ["A", "X", "J", "cell 100", "cell 0", "unit 18", "over", "cmp", "cell 4000", "", "loc"]


def drawn(r):
    """A request of any kind."""
    kind = r.randrange(12)
    cell = r.choice((0, 1, 2, 3, 100, 3000, 3999, 4000, r.randrange(4100)))
    line = r.choice((0, 1, 2, 3, 5, 10, r.randrange(40)))
    if kind < 4:
        return r.choice(MOVES), {"threadId": 1}
    if kind == 4:
        return r.choice(LOOKS), {"source": {"name": "program.mixal"}, "line": line, "threadId": 1}
    if kind == 5:
        return r.choice(VIEWS + ["mix/change", "mix/check"]), {"cells": [[cell, min(cell + r.randrange(9), 3999)]], "nonzero": r.random() < 0.5,
                                                               "number": r.randrange(12), "source": "".join(r.choices(LINES, k=r.randrange(9)))}
    if kind == 6:
        return "variables", {"variablesReference": r.choice((1, 2, 3, 4, 5, 1000, 1000 + r.randrange(45), 0)), "start": 0, "count": 100}
    if kind == 7:
        return "setVariable", {"variablesReference": r.choice((1, 1, 2, 1000, 1001)), "name": r.choice(NAMES), "value": r.choice(VALUES)}
    if kind == 8:
        return r.choice((
            ("readMemory", {"memoryReference": "0x%x" % (6 * cell), "offset": r.randrange(-7, 7), "count": r.choice((0, 1, 6, 60, 24000))}),
            ("writeMemory", {"memoryReference": str(6 * cell), "data": r.choice(("AAECAwQF", "AQAAAAAF", "QA==", "!", "AAAAAAAAAQABAgMEAQE="))}),
            ("disassemble", {"memoryReference": "0x%x" % (6 * cell), "instructionCount": r.randrange(5), "instructionOffset": r.randrange(-3, 3)})))
    if kind == 9:
        return r.choice((
            ("setBreakpoints", {"source": {"path": "program.mixal"}, "breakpoints": [{"line": line}, {"line": line + 2}][:r.randrange(3)]}),
            ("setInstructionBreakpoints", {"breakpoints": [{"instructionReference": "0x%x" % (6 * cell)}]}),
            ("setDataBreakpoints", {"breakpoints": [{"dataId": r.choice(DATA)}]}),
            ("dataBreakpointInfo", {"name": r.choice(NAMES), "variablesReference": 1})))
    if kind == 10:
        return "goto", {"targetId": cell, "threadId": 1}
    return "evaluate", {"expression": r.choice(NAMES + VALUES + ["back 1", "goto 0", "run 9"]), "context": r.choice(("repl", "watch", "hover"))}


def mixed(r, source, deck, lines):
    """A talk that gives some of the lines, with other requests between them; now and then cut, or with bytes that are no request."""
    requests = opening(source, deck)
    if r.randrange(4) == 0:
        requests[r.randrange(3):0] = [drawn(r)]
    if r.randrange(4) == 0:
        requests[1][1]["stopOnEntry"] = False
    if r.randrange(4) == 0 and len(requests) == 3:
        requests[1][1]["cardsText"] = r.choice(("", "HELLO\nWORLD\n", "%", "x"))
    for line in lines[:40]:
        requests.append(repl(line))
        requests += [drawn(r) for _ in range(r.choice((0, 0, 1, 2)))]
    requests += [drawn(r) for _ in range(r.randrange(8))]
    if r.randrange(3):
        requests.append(("disconnect", {}))
    sent = framed(*requests)
    kind = r.randrange(20)
    if kind == 0:
        return sent[:r.randrange(len(sent) + 1)]
    if kind == 1:
        at = r.randrange(len(sent) + 1)
        return sent[:at] + r.choice((b"{", b"\xff", b"\r\n\r\n", b"Content-Length: 5\r\n\r\n", b"\0")) + sent[at:]
    if kind == 2:
        return sent + frame(r.choice((b"{}", b"[" * 200, b"\xff\xfe", b"null", b"\"x\"", b'{"type":"request"}')))
    return sent
