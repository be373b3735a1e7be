"""Kinds of rows of sources, their words, symbols and faults; and of decks, cards and lines for the
typewriter: what they fill, and their first faults."""
import re

from running import session
from tests.rows.faces import bytes_of, shown
from tests.rows.steps import answers, is_so, looks, rows_of


def of_each(item):
    """A kind of rows with a source, and what is asked of it one by one."""
    def answer(program, fields, _):
        return " ".join(item(program, bytes_of(fields[0]), asked) for asked in fields[1].split(" "))
    return answer


def shown_code(program, source, place):
    """The word of a cell; the number and the text of the line that put it there, or that text alone if END inserted it."""
    line, = program.replies(source, [f"show code {place} {place}"])
    return line[6:22], line[43:48].strip(), line[50:] if len(line) > 41 else None


def lines(program, source, place):
    _, number, text = shown_code(program, source, place)
    if text is None:
        return "none,"
    if number:
        return f"{number} {shown(text.encode('latin-1'))},"
    return f"literal [{text[1:-1]}]," if text.startswith("=") else f"symbol [{text}],"


def instructions(program, source, place):
    """A cell that is not executed is counted if its line is an instruction."""
    counted = [line[24:28] for line in program.replies(source, ["show counts"])[:-1]]
    return "none," if shown_code(program, source, place)[2] is None else "yes," if f"{int(place):04d}" in counted else "no,"


def words(program, source, place):
    word, _, text = shown_code(program, source, place)
    return "none," if text is None else word + ","


def cells(program, source, line):
    reply, *more = program.replies(source, [f"break line {line}", "show breaks"])
    return str(int(more[0].split()[1])) if reply == "ok" else "none"


def definitions(program, source, symbol):
    """At a terminal `list` shows the lines around a definition, the last of them the fourth after
    it."""
    words = [program.program, "debug", program.file("s", source + b"\n*" * 9)]
    _, listed = session(words, [f"list {symbol}"], program.place)
    numbers = re.findall(r"(?m)^ {0,4}(\d+)[> ] ", "\n".join(listed))
    return str(int(numbers[-1]) - 4) if numbers else "none"


def symbols(program, fields, _):
    listed = [line.split(maxsplit=1) for line in program.replies(bytes_of(fields[0]), ["show symbols"])[1:]]
    return " ".join(f"[{name}] {word}," for name, word in listed)


def values(program, source, symbol):
    found = program.value(symbol, source)
    return (found[0] if found else "none") + ","


def full(program, fields, wanted):
    """How many words and future references there are is not shown: the contract of `assemble` counts them by its definition."""
    source = "".join((" ORIG 0\n" if at % 3999 == 0 else "") + " JMP X\n" for at in range(int(fields[0]))).encode() + b" END 0\n"
    told = []
    for place in fields[1].split(" "):
        line = shown_code(program, source, place)[1]
        told.append(f"{place} line {line} from {cells(program, source, line)}")
    return ", ".join([*wanted.split(", ")[:2], *told])


def program_of(program, fields, wanted):
    """The words of a listing, each after its location, and the start at its END. How many future references there are no listing says: the contract of
    `assemble` counts them by its definition."""
    listed = program.listing(bytes_of(fields[0])).split("\n")
    told = [f"{int(line[:4])} {line[6:22]}" for line in listed if re.match(r"\d{4}  [+-]", line)]
    start = next(int(line[:4]) for line in listed if re.match(r"\d{4} {18}", line))
    return ", ".join([*told, f"start {start}", wanted.split(", ")[-1]])


def fault(program, source):
    line = program.listing(source).strip()
    found = re.fullmatch(r"line \d+: (A(\d+) (.*))", line)
    return f"{line}; {found[1]}; {found[2]}; {found[3]}" if found else "no fault"


def long_source(fields):
    return bytes_of(fields[0]) * int(fields[1]) + bytes_of(fields[2])


def faults(program, source):
    """A source whose first lines are too many or too long has no other fault."""
    return [f"{it['line']} {it['code']}," for it in program.found(source) if it["severity"] == "error"]


def many_faults(program, fields, _):
    found = faults(program, long_source(fields))
    return f"{len(found)} {found[-1]}"


def diagnoses(program, fields, _):
    """The symbol of a warning begins its text."""
    def about(it):
        return "" if it["severity"] == "error" else f" [{it['text'].split()[0] if it['code'] == 'undefined-symbol' else ''}]"
    return " ".join(f"{it['line']} {it['code']}{about(it)}," for it in program.found(bytes_of(fields[0])))


def text_of(field):
    """The bytes of a deck, where `/` ends a line and `{3 AB}` is AB three times."""
    field = re.sub(r"\{(\d+) (.*?)\}", lambda found: found[2] * int(found[1]), field)
    return bytes_of(field.replace("/", "\\n")) if len(field) < 1000 else bytes_of(field.replace("/", "\n"))


def refusal(line):
    return line.removeprefix("mixrev: T5 deck refused at ")


def refused(program, fields, _):
    return refusal(program.replies(b" END 0\n", b"", text_of(fields[0]))[0])


def filled(program, deck, wanted):
    """Whether the units of a deck have the values."""
    values = wanted.split()
    looked = [look for look in looks(values) if "unit" in look]
    state = dict(zip(looked, answers(program, " END 0\n", looked, deck.decode("latin-1"))))
    wrong = [value for value in values if not is_so(value, state, {})]
    return wanted if not wrong else f"not so: {wrong}"


def given(program, fields, wanted, option):
    """The units as they are when a run has ended that reads nothing: what `--keep` writes."""
    deck, text = program.file("d", text_of(fields[0])), program.file("c", text_of(fields[1]))
    words = ["run", program.file("s", b" HLT\n END 0\n"), "--devices", deck, option, text, "--keep", "kept"]
    program.file("kept", b"")
    _, errors, status = program.run(words=words)
    if status:
        return refusal(errors.decode().strip())
    return filled(program, (program.place / "kept").read_bytes(), wanted)


def deck_fault(program, fields, wanted):
    """The same of a deck, below blank lines, so that it is at line 101; one that is too long is so at its first line, and a word past a thousand blocks
    can be at any."""
    name = wanted.split(": ")[1]
    deck, line = next(row for row in rows_of("deck refused") if row[1].endswith(name))
    text, at = (b"%UNIT 0\n" + b"+0000000007 " * 100001, 2) if name.startswith("K8") else (text_of(deck), int(re.search(r"line (\d+)", line)[1]))
    told = refusal(program.replies(b" END 0\n", b"", b"\n" * (101 - at) + text if not name.startswith("K9") else text)[0])
    return told if not name.startswith("K9") else told.replace("line 1:", "line 101:")


KINDS = {"assembler lines": of_each(lines), "assembler instructions": of_each(instructions), "assembler words": of_each(words), "assembler cells": of_each(cells),
         "assembler definitions": of_each(definitions), "assembler values": of_each(values), "assembler symbols": symbols,
         "assembler backs": of_each(lambda program, source, digit: values(program, source, digit + "B")), "assembler full": full,
         "assembler program": program_of, "assembler fault": lambda program, fields, _: fault(program, bytes_of(fields[0])),
         "assembler long": lambda program, fields, _: fault(program, long_source(fields)),
         "assembler faults": lambda program, fields, _: " ".join(faults(program, bytes_of(fields[0]))), "assembler many faults": many_faults,
         "assembler diagnoses": diagnoses,
         "deck refused": refused, "deck filled": lambda program, fields, wanted: filled(program, text_of(fields[0]), wanted), "deck fault": deck_fault,
         "deck cards": lambda program, fields, wanted: given(program, fields, wanted, "--cards"),
         "deck typewriter": lambda program, fields, wanted: given(program, fields, wanted, "--typewriter")}
