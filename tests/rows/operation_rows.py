"""Kinds of rows of operations and registers, and how an instruction is read that the program shows."""
import re

import machine

OPERATION = {each.name: each for each in machine.OPERATIONS}
END = b" END 0\n"


def name_of(code, field=None):
    """The name of an operation with a code, and maybe with a normal field."""
    return next(each.name for each in machine.OPERATIONS if each.code == int(code) and field in (None, each.field))


def field_of(text):
    """The number of F as it is shown: `(0:3)` or `(19)`."""
    left, _, right = text.strip("()").rpartition(":")
    return 8 * int(left or 0) + int(right)


def parts_of(line):
    """Sign, address, index, F and C of an instruction as it is shown."""
    name, sign, address, index, field = re.fullmatch(r"(\w+)(?: (-?)(\d+)(?:,(\d+))?(\(.*\))?)?", line).groups()
    f = field_of(field) if field else OPERATION[name].field
    return sign or "+", int(address or 0), int(index or 0), f, OPERATION[name].code


def fault_of(reply):
    """The fault of a step, as M5, or nothing."""
    found = re.search(r"fault (M\d+) ", reply)
    return found and found[1]


def faults(program, *words):
    """The fault of each word as an instruction of its own, with the first cells as they are."""
    source = "".join(f" CON {word}\n" for word in words).encode() + END
    script = [line for at in range(len(words)) for line in (f"set loc {at}", "step", "back all")]
    return [fault_of(reply) for reply in program.replies(source, script)[1::3]]


def uses(program, c, f):
    """What an operation uses of its instruction, by what the machine refuses: a field, a unit, an address below 0 or past the last cell."""
    def instruction(address=0, field=f):
        return f"{'-' if address < 0 else ''}{abs(address) * 262144 + field * 64 + c}"
    other, below, card, printer, punch = faults(program, instruction(0, 63), instruction(-1), *(instruction(4000, unit) for unit in (16, 18, 17)))
    if other == "M9":
        return "reads" if printer == "M10" else "writes" if card == "M10" else "controls" if punch == "M12" else "looks"
    if below == "M8":
        return "count"
    if other == "M6":
        return "operand"
    if c == 7 and below == "M5":
        return "cells"
    if faults(program, 7 * 4096 + f * 64 + c) == ["M3"]:
        return "address"
    return "F" if other == "M1" else "nothing"


def named(program, fields, wanted):
    name = fields[0]
    source = f" {name} 0\n".encode() + END
    if program.found(source):
        return "none"
    _, code, f, *_ = wanted.split()
    word, *_ = program.replies(source, ["show cells 0 0"])
    f, c = map(int, word.split()[-2:])
    looks = faults(program, 7 * 4096 + f * 64 + c)[0] == "M3"
    return f"{name} {c} {f} {time(program, [name, f])} {uses(program, c, f)}{' M' if looks else ''}"


def time(program, fields, *_):
    """The time of a step, where a card, a block and a row of each unit are there."""
    line = program.replies(f" {fields[0]} 0({fields[1]})\n END 0\n".encode(), ["trace"], b"%UNIT 0\n" + b"+0000000000\n" * 100)[0]
    return re.search(r" (\d+)u(?:  |$)", line)[1]


def names(program, c):
    """What a code is with each F: a name, `floating` or `unknown`. A word that no line of MIXAL gives has the name that its code has."""
    words = [f * 64 + c for f in range(64)]
    lines, _ = program.codes(*words)
    told = {"M1": "unknown", "M2": "floating"}
    return [told.get(fault) or (line.split()[0] if not line.startswith("CON") else name_of(c)) for line, fault in zip(lines, faults(program, *words))]


def decoded(program, fields, _):
    return names(program, int(fields[0]))[int(fields[1])]


def decoded_with_each(program, fields, _):
    found = names(program, int(fields[0]))
    return " ".join(f"{f} {name}" for f, name in enumerate(found) if f == 0 or found[f - 1] != name)


def register_of(program, fields, _):
    line = program.replies(f" {fields[0]} 1\n CON 5\n END 0\n".encode(), ["trace"])[0]
    return re.search(r"u  (\w+) ", line)[1]


def registers(program):
    return [line[:2].strip() for line in program.replies(END, ["show regs"])[:9]]


def register(program, fields, _):
    """The registers are shown in the order of their numbers."""
    reply, *more = program.replies(END, [f"set {fields[0]} 5", "show last 1"])
    if reply != "ok":
        return "none"
    name = re.search(r"set (\w+) ", more[0])[1]
    return f"{registers(program).index(name)} {name} {re.search(r'u  (.*?) [+-]', more[0])[1]}"


def register_number(program, fields, _):
    return registers(program)[int(fields[0])]


def line(program, fields, _):
    word = fields[0].split()
    value = 0
    for byte in word[1:]:
        value = value * 64 + int(byte)
    return program.codes(word[0] + str(value))[0][0]


KINDS = {"operation " + name: function for name, function in {
    "named": named, "time": time, "decoded": decoded, "decoded with each F": decoded_with_each, "register of": register_of, "register": register,
    "register number": register_number, "line": line}.items()}
