"""Kinds of rows of lines of MIXAL, of expressions, W-values, addresses and symbols, and of
which bytes of them are at fault."""
import re

from tests.rows.faces import bytes_of, number
from tests.rows.operation_rows import name_of

END = b"\r\n END 0\n"
# Where X is 5, 2B is 9, and the location is 7.
KNOWN = b"X EQU 5\n2H EQU 9\n ORIG 7\n"
# The faults of what an ADDRESS means.
OF_ADDRESS = ("A1", "A3", "A5", "A6", "A7", "A8", "A10", "A14")
MILLION = 1000000


def first_fault(program, source, line=1):
    """The first fault of a line, or nothing."""
    return next((it for it in program.found(source) if it["line"] == line and it["severity"] == "error"), None)


def fault_or(program, source, line, otherwise):
    found = first_fault(program, source, line)
    return found["code"] if found else otherwise()


def column(text):
    """The column after some bytes of a line, from 1: a byte that goes on with a character has none."""
    return sum(not 0x80 <= byte < 0xc0 for byte in text) + 1


def is_marked(text, found, begin, end):
    """Whether a fault is marked from a byte of a line to another."""
    return end <= len(text) and (column(text[:begin]), column(text[:end])) == (found["column"], found["endColumn"])


def of_line(found):
    """Whether a fault is one of a line by itself, and not of what its ADDRESS means."""
    return found["code"] in ("A1", "A2", "A12") or found["code"] == "A3" and found["column"] == 1


def line(program, fields, wanted):
    """A line is the same as one of LOC, operation and ADDRESS alone, with one blank between two of them."""
    text = bytes_of(fields[0])
    if not re.fullmatch(rb"[^*]*[^* \t].*", text, re.S):
        return fault_or(program, text + END, 1, lambda: "remark")
    found = first_fault(program, text + END)
    if found and of_line(found) and not re.match(r"\[|\dH", wanted):
        return found["code"]
    parts = re.fullmatch(r"(\[\S*\]|\dH) (?:(\d+)\((\d+)\)|(\w+)(?: ([+-](?: \d\d){5}))?) \[(.*)\]", wanted)
    if not parts:
        return "accepted"
    loc, c, f, name, word, address = parts.groups()
    op = f"CON {number(word)}" if word else f"{name or name_of(c, int(f))} {address}"
    return wanted if outcome(program, text) == outcome(program, f"{loc.strip('[]')} {op}".encode()) else "another line"


def outcome(program, line):
    """All that is found in a line and in one after it, but the columns; and what both give."""
    source = line + b"\r\n HLT" + END
    found = [(it["line"], it["code"], it["severity"]) for it in program.found(source) if it["code"] not in ("alf-cut", "alf-short", "blank-in-address")]
    return found, program.replies(source, ["show cells 0 4", "show symbols", "show regs"])


def repeated(fields):
    beginning, piece = map(bytes_of, fields)
    return beginning + piece * (MILLION // len(piece))


def long_line(program, fields, _):
    """What the ADDRESS means is another matter: one of 500,001 is past two bytes."""
    found = first_fault(program, repeated(fields) + END)
    return found["code"] if found and of_line(found) else "ok"


def with_each_byte(program, fields, _):
    """A line feed ends the line, and so is no byte of it: it is taken as the one after it is."""
    beginning, end = map(bytes_of, fields)
    found = {}
    for first in (0, 128):
        faults = program.found(*(beginning + bytes([byte]) + end + END for byte in range(first, first + 128)))
        for it in reversed([it for it in faults if it["line"] == 1 and of_line(it)]):
            found[first + int(it["file"])] = it["code"]
    codes = [found.get(byte + (byte == 10), "A0") for byte in range(256)]
    return " ".join(f"{byte} {code}" for byte, code in enumerate(codes) if byte == 0 or codes[byte - 1] != code)


def alf_of_each(program, fields, _):
    characters = bytes_of(fields[0])
    source = b"".join(b" ALF %c\n" % character for character in characters) + END
    return " ".join(str(int(reply.split()[2])) for reply in program.replies(source, [f"show cells 0 {len(characters) - 1}"]))


def marks(text, found, wanted, begin=0):
    """What is wanted, if it is marked; a byte that is no character has no column of its own."""
    if wanted != "none" and is_marked(text, found, *(begin + int(at) for at in wanted.split())):
        return wanted
    return f"columns {found['column']} to {found['endColumn']}"


def fault_span(program, fields, wanted):
    text = bytes_of(fields[0])
    found = first_fault(program, text + END)
    return marks(text, found, wanted) if found and of_line(found) else "none"


def parts(program, fields, wanted):
    """LOC is marked where it is defined twice, OP where its word has no cell, and ADDRESS of an ORIG there. A part that no fault of the line is about
    `part_span` has by its clause alone."""
    text = bytes_of(fields[0])
    label, op, address, _ = ([int(at) for at in part.split()] for part in wanted.split(", "))
    twice = [it for it in program.found(text + b"\n" + text + END) if it["code"] == "A4"]
    beyond = [it for it in program.found(b" ORIG 4000\n" + text + END) if it["code"] == "A11" and it["line"] == 2]
    is_so = all(is_marked(text, it, *label) for it in twice) and all(is_marked(text, it, *(address if b"ORIG" in text else op)) for it in beyond)
    return wanted if is_so else f"{twice} {beyond}"


def part_fault_span(program, op, fields, wanted):
    text = b" %s %s" % (op, bytes_of(fields[0]))
    found = first_fault(program, KNOWN + text + END, 4)
    return marks(text, found, wanted, len(op) + 2) if found and found["code"] in OF_ADDRESS else "none"


def known(program, text):
    """The value of a text that is one expression, and so the place of a cell or out of range as one, or nothing."""
    script = b"set loc 7\nshow value %s\nshow cells %s %s\n" % (text, text, text)
    _, value, cells = program.replies(b"X EQU 5\n2H EQU 9\n END 0\n", script)
    found = re.match(r"([+-])[ \d]{15} +-?(\d+)  ", value)
    return f"{found[1]}{found[2]}" if found and cells != "? C2 bad argument" else None


def refusal(program, text, op=b"EQU"):
    """The fault of a text as ADDRESS, or nothing."""
    return first_fault(program, KNOWN + b"ZZ %s %s" % (op, text) + END, 4)


def whole(program, fields, wanted):
    """Where the text is a W-value of more parts, or has a blank, it is no expression: that alone is seen of it."""
    text = bytes_of(fields[0])
    value = known(program, text) if text == text.strip() else None
    if value:
        return value
    found = refusal(program, text)
    return "A5" if not found or found["code"] == "A1" else found["code"]


def first(program, fields, wanted):
    """The expression that begins a text is the part before the byte that it can't go on with."""
    text = bytes_of(fields[0])
    used = re.match(r"[+-]\d+ (\d+)$", wanted)
    if not used:
        found = refusal(program, text)
        return found["code"] if found and found["code"] != "A1" else "A5"
    at = int(used[1])
    value = known(program, text[:at]) if at <= len(text) else None
    longer = [known(program, text[:end]) for end in range(at + 1, len(text) + 1) if not re.search(rb"[ \t]", text[at:end])]
    return f"{value} {at}" if value and not any(longer) else f"{value}, and longer {longer}"


def w_value(program, fields, _):
    text = bytes_of(fields[0])
    return fault_or(program, KNOWN + b" CON " + text + END, 4, lambda: program.replies(KNOWN + b" CON " + text + END, ["show cells 7 7"])[0][5:])


def address(program, fields, wanted):
    """The A-part is what it gives: its value, the cell that END inserts for a literal or a name, or that of a local symbol ahead."""
    text = bytes_of(fields[0])
    ahead = re.match(r"(\d)F ", wanted)
    source = KNOWN + b" LDA " + text + (b"\n%sH NOP" % ahead[1].encode() if ahead else b"") + END
    found = first_fault(program, source, 4)
    if found and found["code"] != "A9":
        return "A5" if text == b'"' else found["code"]
    if any(it["severity"] == "error" and it["code"] != "A9" for it in program.found(source)):
        return wanted if wanted.startswith("=[") else "refused at END"
    if found:
        return wanted if abs(int(wanted.split()[0])) > 4095 else "A9"
    word = program.replies(source, ["show cells 7 7"])[0].split()[1:]
    cell, index, f = 64 * int(word[1]) + int(word[2]), int(word[3]), int(word[4])
    inserted = program.listing(source).split("\r\n")[-1].split("\n")
    names = [line[31:] for line in inserted if line.startswith("0008") and line[24:29] == "     "]
    if names and cell == 8:
        a = f"=[{names[0][1:-1]}]=" if names[0].startswith("=") else f"[{names[0]}]"
    elif ahead and cell == 8:
        a = f"{ahead[1]}F"
    else:
        a = f"{word[0]}{cell}"
    return f"{a} {index} {f}"


def normal_f(program, fields, _):
    return str(int(program.replies(f" {name_of(fields[0], int(fields[1]))} 1\n END 0\n".encode(), ["show cells 0 0"])[0].split()[5]))


def long(program, fields, wanted):
    """As an ADDRESS a value past two bytes is A9 of its line, which is no fault of the ADDRESS itself."""
    text = repeated(fields)
    answers = []
    for op, fine in ((b"EQU", ()), (b"CON", ()), (b"LDA", ("A9",))):
        found = refusal(program, text, op)
        answers.append("ok" if not found or found["code"] in fine else found["code"])
    label = first_fault(program, text + b" NOP" + END)
    expression = "ok" if wanted.startswith("ok") and answers[0] in ("ok", "A5") else answers[0]
    return f"{expression} {answers[1]} {answers[2]} {'none' if text[:1] == b'*' or label and of_line(label) else 'a symbol'}"


def symbol(program, fields, wanted):
    """A text with a blank is two: no face asks whether it is a symbol."""
    text = bytes_of(fields[0])
    source = text + b" EQU 5" + END
    if re.search(rb"[ \t]", text) or first_fault(program, source):
        return "none"
    names = [line.split()[0] for line in program.replies(source, ["show symbols"])[1:]]
    return f"[{names[0]}][{names[0]}]" if names else "none"


def symbols(program, fields, _):
    source = f"{fields[0]} EQU 5\n{fields[1]} EQU 6\n END 0\n".encode()
    return "equal" if first_fault(program, source, 2) else "not equal"


TEXTS = {"BadByte": b" ?", "NoSuchOperation": b" FOO", "BadSymbol": b"5 NOP", "BadExpression": b" NOP +", "NumberTooLarge": b" NOP 1073741824",
         "UndefinedSymbol": b" NOP Y+1", "ExpressionOverflow": b" NOP 1/0", "PartOutOfRange": b" NOP 0,7", "BadAlf": b' ALF "', "NoSuchLocalSymbol": b" NOP 3B"}


def fault_text(program, fields, _):
    return program.listing(TEXTS[fields[0]] + END).removeprefix("line 1: ").strip()


KINDS = {"mixal line": line, "mixal long line": long_line, "mixal line with each byte": with_each_byte, "mixal ALF of each": alf_of_each, "span fault": fault_span,
         "span parts": parts, "span address": lambda program, fields, wanted: part_fault_span(program, b"LDA", fields, wanted),
         "span w-value": lambda program, fields, wanted: part_fault_span(program, b"CON", fields, wanted),
         "expression first": first, "expression whole": whole, "expression w-value": w_value, "expression address": address, "expression normal F": normal_f,
         "expression long": long, "expression symbol": symbol, "expression symbols": symbols, "expression fault": fault_text}
