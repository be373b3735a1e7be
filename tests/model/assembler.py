"""The assembler, in two passes (1.3.2). The first judges each line by what the lines before it give, and finds each name's word and
each word's place; the second makes the words, all names being known."""

from bisect import bisect_right
from collections import namedtuple

from tests.model.expressions import address, w_value
from tests.model.lines import read_line
from tests.model.texts import Fault, lines_of
from tests.model.words import ZERO, joined, number

SOURCE_BYTES = 1048576
SOURCE_LINES = 20000
CELLS = 4000
TWO_BYTES = 4096

# One word of the program. `made` is ("word", word), or ("instruction", operand, C) where the second
# pass makes it. `line` is 0 for a word put in before END, whose text is `text`.
Entry = namedtuple("Entry", "line place made text")
# A future reference: the line where it stands, and the symbol, or the digit of a dF.
Reference = namedtuple("Reference", "line key")
# A dH that a line defines.
Local = namedtuple("Local", "line word")


class Program:
    def __init__(self):
        self.here = 0  # the `*` of the next line
        self.names = {}  # each symbol with its word, and beside them each dB with the word of the last dH
        self.locals = {digit: [] for digit in range(10)}  # each dH in order of lines
        self.ahead = []  # the future references in order of use
        self.literals = []  # what stands between the two `=`, in order of use
        self.entries = []
        self.equals = {}  # the word of each EQU line
        self.start = None
        self.lines = []  # up to END, for the listing
        self.words = []  # (place, word) in order of lines

    def symbols(self):
        """Ordinary symbols with their words, in order of definition."""
        return [(name, word) for name, word in self.names.items() if not is_back(name)]

    def waiting(self):
        """The future references that no line has defined yet."""
        return [one for one in self.ahead if self.word_ahead(one) is None]

    def word_ahead(self, reference):
        """The word of the symbol, or of the first dH on a later line; None where there is none yet."""
        if not isinstance(reference.key, int):
            return self.names.get(reference.key)
        later = self.locals[reference.key]
        at = bisect_right(later, reference.line, key=lambda one: one.line)
        return later[at].word if at < len(later) else None


def is_back(name):
    return len(name) == 2 and name[:1].isdigit() and name[1:] == b"B"


def assemble(source):
    """The program, or the first fault with its line."""
    if len(source) > SOURCE_BYTES:
        raise Fault("A16", 1)
    lines = lines_of(source)
    program = Program()
    for at, text in enumerate(lines, 1):
        if at > SOURCE_LINES:
            raise Fault("A16", at)
        if first_pass(program, at, text):
            second_pass(program)
            return program
    raise Fault("A13", len(lines) + 1)


def first_pass(program, at, text):
    """Takes one line in; whether it is END."""
    program.lines.append(text)
    try:
        line = read_line(text)
        if line is None:
            return False
        if line.loc and line.loc[0] == "name" and line.loc[1] in program.names:
            raise Fault("A4")
        if line.op[0] == "end":
            end(program, at, line)
            return True
        if line.op[0] == "equ":
            equ(program, at, line)
            return False
        here = program.here
        if line.loc and line.loc[0] == "name":
            define(program, at, line.loc, place_word(here))
        if line.op[0] == "orig":
            orig(program, line)
        elif line.op[0] == "machine":
            instruction(program, at, line)
        else:
            word = line.op[1] if line.op[0] == "alf" else w_value(line.address, program.names, place_word(here))
            emit(program, at, ("word", word))
        if line.loc and line.loc[0] == "local":  # the line's own dH is none of its dB and dF
            define(program, at, line.loc, place_word(here))
        return False
    except Fault as fault:
        fault.line = at
        raise


def place_word(place):
    return ("+", place)


def define(program, at, label, word):
    kind, which = label
    if kind == "name":
        program.names[which] = word
    else:
        program.locals[which].append(Local(at, word))
        program.names[b"%dB" % which] = word


def equ(program, at, line):
    word = w_value(line.address, program.names, place_word(program.here))
    if line.loc:
        if word[1] >= TWO_BYTES and any(one.key == line.loc[1] for one in program.waiting()):
            raise Fault("A9")
        define(program, at, line.loc, word)
    program.equals[at] = word


def orig(program, line):
    place = number(w_value(line.address, program.names, place_word(program.here)))
    if not 0 <= place <= CELLS:
        raise Fault("A11")
    program.here = place


def emit(program, line, made, text=b""):
    if program.here == CELLS:
        raise Fault("A11")
    program.entries.append(Entry(line, program.here, made, text))
    program.here += 1


def instruction(program, at, line):
    _, code, normal_f = line.op
    operand = address(line.address, normal_f, program.names, place_word(program.here))
    kind, what = operand.a
    if kind == "value" and what[1] >= TWO_BYTES:
        raise Fault("A9")
    if kind == "literal":
        operand = operand._replace(a=("literal", len(program.literals)))
    emit(program, at, ("instruction", operand, code))
    if kind == "literal":
        program.literals.append(what)
    elif kind != "value":
        program.ahead.append(Reference(at, what))


def end(program, at, line):
    """The literals, the names that no LOC defines, and then END itself."""
    for text in program.literals:
        word = w_value(text, program.names, place_word(program.here))
        emit(program, 0, ("word", word), b"=" + text + b"=")
    undefined = {}
    for key in dict.fromkeys(one.key for one in program.waiting()):
        if not isinstance(key, int) and line.loc != ("name", key):
            undefined[key] = place_word(program.here)
            emit(program, 0, ("word", ZERO), key)
    program.names.update(undefined)
    here = place_word(program.here)
    if any(isinstance(one.key, int) and line.loc != ("local", one.key) for one in program.waiting()):
        raise Fault("A14")
    if line.loc and line.loc[0] == "name":
        define(program, at, line.loc, here)
    word = w_value(line.address, program.names, here) if line.address else ZERO
    program.start = word[1] % 4096  # the field (4:5)
    if program.start >= CELLS:
        raise Fault("A15")
    if line.loc and line.loc[0] == "local":
        define(program, at, line.loc, here)


def second_pass(program):
    entries = program.entries
    places = [entry.place for entry in entries if entry.text[:1] == b"="]
    program.words = [(entry.place, finished(program, entry, places)) for entry in entries]


def finished(program, entry, places):
    """The word of an entry; `places` are those of the literals."""
    if entry.made[0] == "word":
        return entry.made[1]
    _, operand, code = entry.made
    kind, what = operand.a
    if kind == "value":
        sign, magnitude = what
    elif kind == "literal":
        sign, magnitude = place_word(places[what])
    else:
        sign, magnitude = program.word_ahead(Reference(entry.line, what))
    return joined(sign, [magnitude // 64, magnitude % 64, operand.index, operand.f, code])
