"""Kinds of rows of the machine: steps, changes and conflicts. The values before a step are set by commands, and what differs after it is
what `show diff` says."""
import pathlib
import re

from machine import CHARACTERS
from tests import REGISTERS
from tests.rows.faces import number, written

HERE = pathlib.Path(__file__).resolve().parent
LAST_CLOCK = 10 ** 18
WAITING = 1  # the tape whose transfers let the clock go on


def answers(program, source, script, deck=""):
    """The lines that each command of a script writes."""
    marked = "".join(f"*{at}*\n{line}\n" for at, line in enumerate(script))
    lines = program.replies(source.encode(), marked.encode(), deck.encode("latin-1"), "--echo")
    told, at = [], -1
    for line in lines:
        if line == f"*{at + 1}*":
            at += 1
            told.append([])
        elif at >= 0:
            told[at].append(line)
    return [part[1:] for part in told] if told else [lines]


def marked(words, mark, other):
    """The number after a mark among some words."""
    return next((int(word[1:]) for word in words.split() if word[0] == mark), other)


def source_of(codes):
    start = marked(codes, "@", 0)
    words = [word for word in codes.split() if word[0] in "+-"]
    return f" ORIG {start}\n" + "".join(f" CON {number(word)}\n" for word in words) + f" END {start}\n"


def deck_of(before):
    """The blocks of each unit that is marked."""
    deck = ""
    for word in before.split():
        if word.startswith("%"):
            unit, filled = word[1:].split("=")
            blocks, _, delay = filled.partition(",")
            deck += f"%UNIT {unit}" + (f" delay {delay}" if delay else "") + "\n"
            for at in range(int(blocks)):
                deck += "".join(f"+{at % 63 + 1:02d}0000{j // 10:02d}{j % 10:02d}\n" for j in range(100)) if int(unit) < 16 else chr(ord("A") + at % 9) + "\n"
        elif word.startswith("left="):
            deck += f"%UNIT {WAITING} delay {LAST_CLOCK - 2 - int(word[5:])}\n"
    return deck


def command(value):
    """The command that puts a value where it belongs."""
    key, text = value.split("=")
    if key in ("break", "clear"):
        return f"{key} {text}"
    if key == "over":
        return f"set over {text}"
    if key == "cmp":
        return f"set cmp {text[0]}"
    if key == "at":
        return f"set loc {text}"
    return f"set {'' if key in REGISTERS else 'cell '}{key} {number(text)}"


def commands(codes, before):
    """The commands that make the machine before a step."""
    script = []
    for word in before.split():
        if word.startswith("left="):
            # twice IOC 0 of the tape: the second waits until the first is over
            script += [f"set cell 3999 {WAITING * 64 + 35}", *["set loc 3999", "step"] * 2, "set cell 3999 0", f"set loc {marked(codes, '@', 0)}"]
        elif not word.startswith("%"):
            script.append(command(word))
    return script


class Unit:
    """What `show unit` says."""

    def __init__(self, lines):
        head = lines[0].split()
        self.said = dict(zip(head[2::2], head[3::2]))
        self.blocks = [line[2:] for line in lines[1:] if line.startswith("< ")]
        self.rows = [line[2:] for line in lines[1:] if line.startswith("> ")]
        words = " ".join(line for line in lines[1:] if line[0] in "+-").split()
        self.tape = [words[at:at + 100] for at in range(0, len(words), 100)]

    def is_held(self, part, text, until):
        if part in ("place", "blocks"):
            return self.said[part] == text
        if part == "rows":
            return self.said["output"] == text == str(len(self.rows))
        if part == "delay":
            return self.said.get("delay", "0") == text
        if part == "until":
            return until == text and self.said.get("until", text) == text
        if part == "page":
            return self.rows[int(text)] == "%PAGE"
        entry, at = part.split(".")
        at, word = int(at), written(number(text)).split()
        if entry.startswith("row") or not self.tape:
            lines, at_line = self.rows if entry.startswith("row") else self.blocks, int(entry.removeprefix("row"))
            line = lines[at_line] if at_line < len(lines) else ""
            return line[5 * at:5 * at + 5] == "".join(CHARACTERS[int(byte)] for byte in word[1:])
        return self.tape[int(entry)][at] == "".join(word)


def differs(lines):
    """The parts that `show diff` says to differ, by their keys in a row, with what each is after."""
    found = {}
    for line in lines:
        key, *rest = line.split(" ", 1)
        before, _, now = rest[0].partition(" -> ")
        if key == "unit":
            unit, rest = rest[0].split(" ", 1)
            for name, after in re.findall(r"(block|place|blocks|output|until) (\d+(?: -> \d+)?)", rest):
                found[f"{unit}:{'rows' if name == 'output' else name}"] = after.split()[-1]
        elif key == "break":
            found[f"break {int(rest[0].split()[0])}"] = now
        elif re.fullmatch(r"\d{4}", key):
            found[str(int(key))] = now
        else:
            found["at" if key == "loc" else key] = now
    return found


def is_so(value, state, found):
    """Whether a value is where a row says."""
    key, text = value.split("=")
    unit, _, part = key.partition(":")
    if part:
        return Unit(state[f"show unit {unit}"]).is_held(part, text, found.get(f"{unit}:until", "0"))
    regs = state["show regs"]
    said = dict(zip(*[iter(regs[9].split())] * 2))
    if key in ("break", "clear"):
        return (f"{int(text):04d}" in state["show breaks"][0].split()[1:]) == (key == "break")
    if key in ("over", "cmp", "at", "clock"):
        return said["loc" if key == "at" else key] == {"cmp": text[0].upper(), "at": f"{int(text):04d}" if key == "at" else ""}.get(key, text)
    word = written(number(text))
    if key in REGISTERS:
        return regs[REGISTERS.index(key)][3:] == (word if key in "AX" else f"{word[0]}{word[10:]}" if word[1:10] == " 00 00 00" else None)
    return state[f"show cells {key} {key}"][0][5:] == word


def looks(values):
    """The commands that show where these values are."""
    keys = [value.split("=")[0] for value in values]
    units = {f"show unit {key.split(':')[0]}" for key in keys if ":" in key}
    return ["show regs", "show breaks", *sorted(units), *(f"show cells {key} {key}" for key in keys if key.isdigit())]


def step(program, fields, wanted):
    """How many values are kept is not shown; the contract of `kept_len` counts them by the definition KeptCount."""
    _, codes, before = fields
    outcome, *values = wanted.split()
    is_whole = ".." not in values
    values = [value for value in values if value != ".." and not value.startswith("kept=")]
    steps, back = marked(codes, "*", 1), marked(codes, "<", 0)
    set_up, after = commands(codes, before), looks(values)
    script = [*set_up, "show changes", *["step"] * steps, *["back 1"] * back]
    at = len(set_up)
    source, deck = source_of(codes), deck_of(before)
    first = int(answers(program, source, [*set_up, "show changes"], deck)[-1][0].split()[1])
    script += [f"show diff {first}", *after, f"goto {first}", f"show diff {first}"]
    told = answers(program, source, script, deck)
    ran = told[at + steps][0]
    fault = re.search(r"fault (M\d+) ", ran)
    if (fault[1] if fault else "ok") != outcome:
        return ran
    found = differs(told[at + steps + back + 1][1:])
    state = dict(zip(after, told[at + steps + back + 2:]))
    wrong = [value for value in values if not is_so(value, state, found)]
    keys = {"break " + value[6:] if value.startswith(("break=", "clear=")) else value.split("=")[0] for value in values}
    more = sorted(found.keys() - keys) if is_whole else []
    left = told[-1][1:]
    return wanted if not wrong and not more and not left else f"not so: {wrong}; not listed: {more}; not taken back: {left}"


def wrong(program, fields, wanted):
    """A row that is wrong, which a run shows."""
    return wanted if step(program, fields, wanted) != wanted else "taken as right"


def change(program, fields, wanted):
    value = fields[1].strip()
    looked = looks([value])
    told = answers(program, " HLT\n END 0\n", [command(value), "show diff 0", *looked, "back all", "show diff 0"])
    refused = re.search(r"C5 refused by the machine: (M\d+) ", told[0][0])
    is_done = told[0] == ["ok"] and is_so(value, dict(zip(looked, told[2:])), {})
    is_back = told[-1][1:] == [] and (not refused or len(told[1]) == 1)
    return refused[1] if refused and is_back else "ok" if is_done and is_back else f"{told}"


def alike(program, fields, wanted):
    def unit(codes, before):
        script = [*commands(codes, before), *["step"] * marked(codes, "*", 1), f"show unit {fields[0].strip()}"]
        return answers(program, source_of(codes), script, deck_of(before))[-1]
    return "same" if unit(*fields[1:3]) == unit(*fields[3:5]) else wanted if wanted != "same" else "another"


def conflicts(program, fields, wanted):
    """Each change that conflicts has a line with its number."""
    codes, before = fields
    acts = [act.split("/") for act in wanted.split()]
    script = [*commands(codes, before), *(text if text == "step" else command(text) for text, _ in acts), "show changes", "show conflicts"]
    *_, (changes,), lines = answers(program, source_of(codes), script, deck_of(before))
    found = {}
    for line in lines:
        at, cell, unit, until = re.fullmatch(r" *(\d+)  .*  cell (\d+), unit (\d+) until (\d+)", line).groups()
        found[int(at)] = f"{int(cell)},{unit},{until}"
    first = int(changes.split()[1]) - len(acts)
    return " ".join(f"{text}/{found.pop(first + at, '-')}" for at, (text, _) in enumerate(acts, 1)) + "".join(f" and {more}" for more in found.values())


def rows_of(kind):
    """The rows of a kind: their fields, the last of which is what is wanted."""
    lines = (HERE / "machine.rows").read_text().split("\n")
    return [line.split("|")[1:] for line in lines if line.startswith(kind + " |")]


def fault(program, fields, wanted):
    """The text that the first step says which has this fault."""
    _, codes, before, _ = next(row for row in rows_of("machine step") if row[-1].split()[0] == f"M{fields[1]}")
    script = [*commands(codes, before), *["step"] * marked(codes, "*", 1)]
    text = answers(program, source_of(codes), script, deck_of(before))[-1][0].split(": fault ")[1]
    return text if text == f"M{fields[1]} {fields[2]}" else f"{text}, and not {fields[2]}"


def units(program, fields, _):
    told = answers(program, " END 0\n", [f"show unit {at}" for at in range(int(fields[0]) + 1)])
    return " ".join(str(at) for at, lines in enumerate(told) if lines[0].startswith(f"unit {at} "))


KINDS = {"machine step": step, "machine wrong": wrong, "machine change": change, "machine alike": alike, "machine conflicts": conflicts, "machine fault": fault,
         "machine units": units}
