"""Kinds of rows of the program as a whole: sessions, runs that print, and the files of each plan."""
import re

from tests.adapter.frames import framed, messages
from tests.rows.faces import bytes_of

STEPS = 9


def escaped(text):
    """A text in quotes, as rows have it."""
    names = {"\n": "\\n", "\r": "\\r", "\t": "\\t", '"': '\\"', "\\": "\\\\"}
    return '"' + "".join(names.get(one) or (one if " " <= one else f"\\u{{{ord(one):x}}}") for one in text) + '"'


def session(program, source, script):
    """The replies of a script, and where the machine is then, what rA holds, and how many changes are done and ahead."""
    lines = program.replies(source, [*script, "show changes", "show values", "show regs", "forth all"])
    at = next(at for at, line in enumerate(lines) if line.startswith("changes "))
    done, a, ahead = lines[at].split()[1], re.search(r'(-?\d+)  "', lines[at + 1])[1], lines[-1].split()[1]
    return lines[:at], f"at {int(lines[-2].split()[5])}, A {a}, {done} done, {ahead} ahead"


def setting(program, fields, _):
    replies, end = session(program, bytes_of(fields[0]), [f"set {field}" for field in fields[1:]])
    return ", ".join(["done" if reply == "ok" else reply.removeprefix("? ") for reply in replies] + [end])


def waiting(program, fields, _):
    """Up to eight conditions; more than that no line can have."""
    conditions = " or ".join(fields[1:9])
    (*_, reply), end = session(program, bytes_of(fields[0]), [f"run {STEPS}" + (f" until {conditions}" if conditions else "")])
    ran = re.match(r"ran (\d+) ", reply)
    return f"ran {ran[1]}, {end}" if ran else f"{reply.removeprefix('? ')}, {end}"


def completing(program, fields, _):
    """What an editor offers in the console of a program that was not begun."""
    source, line = fields
    asked = [("initialize", {}), ("launch", {"sourceText": bytes_of(source).decode(), "stopOnEntry": True}), ("configurationDone", {}),
             ("completions", {"text": line, "column": len(line) + 1}), ("disconnect", {})]
    output, _, _ = program.run(framed(*asked), ["dap"])
    return " ".join(target["label"] for message in messages(output) if message.get("command") == "completions" for target in message["body"]["targets"])


# Runs that print

UNITS = {"all": [], "printer": ["--unit", "18"]}


def printed(program, fields, _):
    """The same by one byte a call, by seven, and by all. A run that prints no unit is one that counts. Where a run halts is seen by its steps: the sum of
    their times, and the cell after the last."""
    source, deck, steps, units, *texts = fields
    count, *asked = steps.split(" ")
    words = ["run", program.file("s", bytes_of(source)), "--devices", program.file("d", bytes_of(deck)), "--steps", count]
    cards, typewriter = (*texts, None, None)[:2]
    if cards not in (None, "-") or typewriter is None and cards is not None:
        words += ["--cards", program.file("c", bytes_of(cards))]
    if typewriter is not None:
        words += ["--typewriter", program.file("t", bytes_of(typewriter))]
    words += [word for name, word in (("trace", "--trace"), ("strict", "--strict")) if name in asked]
    if "keep" in asked:
        words += ["--keep", "k"]
    shown = words + (UNITS[units] if units != "none" else ["--unit", "20"] if "(20)" not in source else ["--counts"])
    whole, *others = (
        program.behind("CALLED_TO", b"", shown, read_most=size, write_most=size)[0][:2]
        for size in (1 << 20, 1, 7)
    )
    if others != [whole, whole]:
        return "another by few bytes a call"
    output, errors = (text.decode() for text in whole)
    text = "" if "--counts" in shown else output
    errors = errors.split("\n")[:-1]
    told = [escaped((program.place / "k").read_text())] if "keep" in asked else []
    if errors and errors[0].startswith("mixrev: "):
        return f"{escaped(text)}, failed: {errors[0].removeprefix('mixrev: ')}"
    end, first = ended(errors)
    if not end:
        words = [*(word for word in words if word != "--trace"), "--trace", "--unit", "20"]
        traced = program.run(b"", words)[0].decode()
        rows = re.findall(r"(?m)^ *\d+  (\d{4})  .{17} +(\d+)u", traced)
        end = f"halted at {int(rows[-1][0]) + 1}, clock {sum(int(time) for _, time in rows)}" if rows else "halted at 0, clock 0"
    if ", line" not in end and "no line" not in end:
        end += line_at(program, bytes_of(source), end)
    return ", ".join([*told, escaped(text), end, *first])


def line_at(program, source, end):
    """The line of the source that put a word into the cell where a run ended."""
    place = int(re.search(r" at (\d+), clock", end)[1])
    if place > 3999:
        return ", no line"
    line, = program.replies(source, [f"show code {place} {place}"])
    return ", " + line_or_none(line[43:48].strip())


def line_or_none(number):
    return f"line {number}" if number else "no line"


CONFLICT = re.compile(r"s:(?:(\d+):)? (warning|error): at (\d+) clock (\d+) cell (\d+) is (?:used|altered) while unit (\d+) (\w+) .*until (\d+)")


def ended(errors):
    """The end of a run that is reported, and the first conflict."""
    end, first = None, []
    for line in errors:
        if found := CONFLICT.match(line):
            source_line, kind, loc, clock, cell, unit, verb, until = found.groups()
            told = f"{'IN' if verb == 'reads' else 'OUT'} {int(cell)} of unit {unit} until {until} at {int(loc)}, clock {clock}, {line_or_none(source_line)}"
            if kind == "error":
                end = f"conflicting {told}"
            else:
                first = [told]
        elif found := re.match(r"s: warning: (\d+) steps? conflicts? with", line):
            first = [f"conflicts {found[1]}: {first[0]}"]
        elif found := re.match(r"s:(?:(\d+):)? (steps used up|M\d+ .*) at (\d+) clock (\d+)$", line):
            why = "used up" if found[2] == "steps used up" else f"faulted {found[2]}"
            end = f"{why} at {int(found[3])}, clock {found[4]}, {line_or_none(found[1])}"
    return end, first


def words_of(line):
    """The words of the command line that a plan is, where `-` is a file that is not named."""
    kind, *words = line.split(" ")
    named = [None if word == "-" else word for word in words] + [None] * 8
    if kind == "list":
        return ["list", words[0]]
    if kind == "check":
        return ["check", *(["--json"] if words[0] == "json" else []), *words[1:]]
    if kind == "debug":
        return ["debug", words[0], *(words[1:2] if named[1] else []), *option("--devices", named[2]), *(["--echo"] if named[3] else [])]
    if kind == "run":
        return ["run", "--steps", words[0], words[1], *option("--devices", named[2]), *option("--cards", named[3]), *option("--typewriter", named[4]),
                *(["--trace"] if named[5] else []), *option("--keep", named[6]), *option("--svg", named[7])]
    return []


def option(word, name):
    return [word, name] if name else []


def planned(program, fields, wanted):
    """The names of the files that are opened, in their order, and of those that are created."""
    line, given, *files = fields
    for path in program.place.glob("?"):
        path.unlink()
    for file in reversed(files):  # the first of a name is the one that is there
        name, text = file.split("=", 1)
        program.file(name, bytes_of(text))
    answer, calls = program.behind("OPENED_TO", bytes_of(given), words_of(line))
    output, errors, status = answer
    asked = [name for way, name, _ in calls if way == "read" and "/" not in name]
    # a file is written beside its place under another name, and then gets its own
    created = []
    for way, name, to in calls:
        if way == "renamed" and created:
            created[-1] = to
        elif way == "written" and "/" not in name:
            created.append(name)
    told = " ".join(["asked", *asked]) + "".join(f", created {name}" for name in created)
    return f"{status}, {escaped(output.decode())}, {escaped(errors.decode())}, {told}"


KINDS = {"session setting": setting, "session waiting": waiting, "session completing": completing, "run printed": printed, "tool plan": planned}
