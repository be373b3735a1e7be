"""Kinds of rows of words, of the lines of a text and their words, and of numbers in digits. Arithmetic
is in the rows of steps."""
import re

from tests.rows.faces import bytes_of, number, shown
from tests.rows.operation_rows import name_of, parts_of

END = b"\n END 0\n"


def cells(program, first, last):
    return program.replies(END, [f"show cells {first} {last}"])[0]


def natural(program, fields, _):
    """The number of a cell; one past the last is refused as a negative one is."""
    line = cells(program, number(fields[0]), number(fields[0]))
    return str(int(line[:4])) if line != "? C3 number out of range" else "refused"


def of_bytes(program, fields, _):
    sign, (first, *others) = fields[0], fields[1].split()
    return program.value(f"{sign}{first}(0:1)" + "".join(f",{byte}({at}:{at})" for at, byte in enumerate(others, 2)))[0]


def equal(program, fields, _):
    one, other = map(number, fields)
    line = program.replies(END, [f"set A {one}", f"set A {other}", "show last 1"])[-1]
    return "not equal" if "->" in line else "equal"


def parts(program, fields, _):
    word = number(fields[0])
    (line,), _ = program.codes(word)
    sign, address, index, f, c = parts_of(line)
    return f"{sign} {address} {index} {f} {c} = {abs(program.value(word)[1])}"


def of_parts(program, fields, _):
    sign, address, index, f, c = fields
    return program.replies(f" {name_of(c)} {sign}{address},{index}({f})\n END 0\n".encode(), ["show cells 0 0"])[0][5:]


def ends(program, f):
    """The ends of a field as the instruction STJ shows them, whose normal F is another."""
    (line,), _ = program.codes(int(f) * 64 + 32)
    found = re.search(r"\((\d):(\d)\)", line)
    return f"{found[1]} {found[2]}" if found else "none"


def assembled(program, line):
    """The word of a line, or the fault that refuses it."""
    source = line.encode() + END
    found = [it for it in program.found(source) if it["severity"] == "error"]
    return found[0]["code"] if found else program.replies(source, ["show cells 0 0"])[0][5:]


def field_code(program, fields, _):
    word = assembled(program, f" LDA 0({fields[0]}:{fields[1]})")
    f = word.split()[4] if word != "A10" else 63
    return str(int(f)) if ends(program, f) == " ".join(fields) else "none"


def place(program, fields, _):
    line = cells(program, fields[0], fields[0])
    return line[:4] if line[0] != "?" else "none"


def code_of(program, byte):
    """The code of a character, in the middle of an ALF. A tab is a blank there by the rules for lines, and no character; a line feed ends the line."""
    source = b" ALF .%c." % byte + END
    return "none" if byte in b"\t\n" or program.found(source) else str(int(program.replies(source, ["show cells 0 0"])[0].split()[3]))


def characters(program, fields, _):
    first, last = map(int, fields)
    return "[" + "".join(program.value(str(code))[2][4] for code in range(first, last + 1)) + "]"


def echoed(program, text):
    """The lines of a script, each with its reply, or nothing."""
    lines = program.replies(END, text, b"", "--echo")
    return [(line, lines[at + 1:at + 2] == ["? C1 no such command"]) for at, line in enumerate(lines) if line != "? C1 no such command"]


def lines(program, fields, _):
    text, answer = bytes_of(fields[0]), []
    for line, _ in echoed(program, text):
        line = line.encode("latin-1")
        end = re.match(rb"\r?\n|\r?\Z", text[len(line):])
        answer.append(shown(line) + shown(line + end[0]))
        text = text[len(line) + len(end[0]):]
    return " ".join(answer)


def comment(program, fields, _):
    """Neither an empty line nor a comment has a reply."""
    lines = echoed(program, bytes_of(fields[0]))
    return "a comment" if lines and lines[0][0] and not lines[0][1] else "no comment"


def blanks(program, *_):
    """A line feed ends a line of its own."""
    others = [byte for byte in range(256) if byte != 10]
    lines = program.replies(END, b"".join(b"show%cclock\n" % byte for byte in others))
    return " ".join(str(byte) for byte, line in zip(others, lines, strict=True) if line == "clock 0")


def run_of(program, fields, _):
    """A run of more than a million steps, or of none, is refused; which number that is the delay of a unit shows."""
    reply = " ".join(program.replies(b" JMP *" + END, [f"run {fields[0]}"]))
    ran = re.fullmatch(r"ran (\d+) to 0000 clock \1: limit", reply)
    return ran[1] if ran else "none" if "C2" in reply else delay(program, fields[0])


def delay(program, text):
    lines = program.replies(END, ["show unit 18"], f"%UNIT 18 delay {text}\n".encode())
    found = re.search(r"(?:delay (\d+) until|output 0$)", lines[0])
    return (found[1] or "0") if found else None


def digits(program, fields, _):
    """A constant is digits alone: one of many is a number too large, and with a letter after it a symbol too long."""
    text = fields[0]
    codes = [[it["code"] for it in program.found(f"X EQU {text}{letter}".encode() + END)] for letter in ("", "A")]
    return "digits" if codes == [["A6"], ["A3"]] or text == text.strip() and delay(program, text) else "no digits"


def words(program, fields, wanted):
    """A line is answered as the line of its words, with a blank between two of them."""
    line, words = bytes_of(fields[0]), wanted.removesuffix("end").strip()[1:-1].split("][")
    plain = b" ".join(bytes_of(word) for word in words)
    return wanted if program.replies(END, line + b"\nshow regs\n") == program.replies(END, plain + b"\nshow regs\n") else "another reply"


KINDS = {
    "lines lines": lines, "lines comment": comment, "lines blanks": blanks, "lines number": run_of, "lines digits": digits, "lines words": words,
    "lines words in turn": words,
    "lines text": lambda program, fields, _: "".join(shown(line.encode("latin-1")) for line, _ in echoed(program, bytes_of(fields[0]))) or "[]",
    "lines long number": lambda program, fields, _: delay(program, f"{fields[0]}x" if fields[0] != fields[0].strip() else fields[0]) or "none",
    "word written": lambda program, fields, _: program.value(number(fields[0]))[0],
    "word bytes": lambda program, fields, _: " ".join(str(int(byte)) for byte in program.value(number(fields[0]))[0].split()[1:]),
    "word number": lambda program, fields, _: str(program.value(number(fields[0]))[1]),
    "word natural": natural,
    "word of number": lambda program, fields, _: program.value(fields[0])[0],
    "word of bytes": of_bytes,
    "word sign": lambda program, fields, _: program.value(number(fields[0]))[0][0],
    "word opposite": lambda program, fields, _: program.replies(f" ENNA {fields[0]}1\n END 0\n".encode(), ["step", "show regs"])[1][3],
    "word zero": lambda program, *_: program.replies(END, ["show regs"])[1][3:],
    "word equal": equal,
    "word parts": parts,
    "word of parts": of_parts,
    "word field": lambda program, fields, _: ends(program, fields[0]),
    "word whole field": lambda program, *_: ends(program, int(assembled(program, " LDA 0").split()[4])),
    "word field code": field_code,
    "word place": place,
    "word places": lambda program, fields, _: "not less" if cells(program, *fields)[0] == "?" else "less",
    "word codes": lambda program, fields, _: " ".join(code_of(program, byte) for byte in bytes_of(fields[0])),
    "word codes of all": lambda program, *_: str(sum(code_of(program, byte) != "none" for byte in range(256))),
    "word characters": characters,
}
