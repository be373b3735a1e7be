"""The commands and their replies. The state is the loaded machine, the list of changes done, and
those that `back` took away."""

from tests.model import history
from tests.model.command_words import (
    condition, conditions_in_range, digits_of, expression_in, line_place, place_in_range, w_value_in,
)
from tests.model.operations import NAMES
from tests.model.world import do, replay
from tests.model.show import show
from tests.model.texts import Fault, words_of

STEPS = 1000000  # the most that one command does


class Session:
    def __init__(self, loaded, names, watch=None, program=None):
        self.loaded = self.world = loaded
        self.names = names  # of the program, with their words
        self.changes = []
        self.ahead = []  # what was taken back and may be done again, the next one first
        self.watch = watch  # gets the machine before each step, and the operation done or the fault
        self.faulted = False
        self.program = program  # for the sources and the symbols

    def command(self, line):
        """The reply, and whether the command is accepted."""
        words = [word.upper() for word in words_of(line)]
        if not words or line.startswith(b"*"):
            return b"", True
        self.faulted = False
        try:
            reply = reply_of(self, words)
        except Fault as fault:
            return b"? " + fault.text().encode() + b"\n", False
        return reply.encode("latin-1"), not self.faulted

    def change(self, change):
        self.world, name = do(self.world, change)
        self.changes.append(change)
        self.ahead = []
        return name

    def change_or_refuse(self, change):
        try:
            self.change(change)
        except Fault as fault:
            raise Fault("C5", more=fault.text())
        return "ok\n"

    def take_back(self, count):
        left = len(self.changes) - count
        self.changes, self.ahead = self.changes[:left], self.changes[left:] + self.ahead
        self.world = replay(self.loaded, self.changes)

    def place_and_clock(self):
        return "%04d clock %d" % (self.world.loc, self.world.clock)

    def here(self):
        return ("+", self.world.loc)


def reply_of(session, words):
    """All words of a command are read before any is tested for its range."""
    match words:
        case [b"STEP" | b"TRACE" as word]:
            return ran(session, 1, False, traces=word == b"TRACE")
        case [b"STEP" | b"TRACE" as word, number]:
            return ran(session, digits_of(number), False, traces=word == b"TRACE")
        case [b"RUN", number]:
            return ran(session, digits_of(number), True)
        case [b"RUN", number, b"UNTIL", *words]:
            return ran(session, digits_of(number), True, condition(session, words))
        case [b"BACK" | b"FORTH" as word, b"UNTIL", *words]:
            until = history.back_until if word == b"BACK" else history.forth_until
            line, number = until(session, words)
            return line + gone(session, word, number)
        case [b"BACK" | b"FORTH" as word, b"ALL"]:
            return gone(session, word, len(moves_of(session, word)))
        case [b"BACK", b"BREAK"]:
            return gone(session, b"BACK", to_a_break(session))
        case [b"BACK" | b"FORTH" as word, number]:
            return gone(session, word, asked(number, moves_of(session, word)))
        case [b"GOTO", number]:
            more = digits_of(number) - len(session.changes)
            if more > len(session.ahead):
                raise Fault("C4")
            return gone(session, b"BACK" if more < 0 else b"FORTH", abs(more))
        case [b"BREAK" | b"CLEAR" as word, *place]:
            change = (word.decode().lower(), place_of_break(session, place))
            return session.change_or_refuse(change)
        case [b"SET", *words]:
            return session.change_or_refuse(setting(session, words))
        case [b"SHOW", *words]:
            return show(session, words)
    raise Fault("C2" if words[0] in COMMANDS else "C1")


def moves_of(session, word):
    return session.changes if word == b"BACK" else session.ahead


def ran(session, limit, stops, cond=None, traces=False):
    """Steps up to a limit, a halt, a fault, or a breakpoint where the command stops at one."""
    if not 1 <= limit <= STEPS:
        raise Fault("C3")
    cond = cond and conditions_in_range(cond)
    done, end = 0, None
    lines = []
    while end is None:
        before = session.world
        try:
            name = session.change(("step",))
            done += 1
            move = len(session.changes), ("step",), before, session.world
            if name == "HLT":
                end = "halt"
            elif cond and history.reached(cond, *move[2:], move[0]):
                end = "until"
            elif stops and session.world.loc in session.world.breaks:
                end = "break"
            elif done == limit:
                end = "limit"
            if traces or end == "until":
                lines.append(history.change_line(*move))
        except Fault as fault:
            name = fault.number
            end = "fault " + fault.text()
            session.faulted = True
        if session.watch:
            session.watch(before, name, session.world)
    return "".join(lines) + "ran %d to %s: %s\n" % (done, session.place_and_clock(), end)


def asked(word, changes):
    """How many of these changes a word asks for, one at least."""
    number = digits_of(word)
    if number < 1:
        raise Fault("C3")
    if number > len(changes):
        raise Fault("C4")
    return number


def gone(session, word, number):
    """Takes changes back, or does them again."""
    again, left = session.ahead[:number], session.ahead[number:]
    if word == b"BACK":
        session.take_back(number)
    else:
        for change in again:
            session.change(change)
        session.ahead = left
    return "%s %d to %s\n" % (word.decode().lower(), number, session.place_and_clock())


def to_a_break(session):
    """How many changes to take back, one at least, until the location has a breakpoint of the
    machine as it is then; or all."""
    world, left = session.loaded, 0
    for done, change in enumerate(session.changes):
        if world.loc in world.breaks:
            left = done
        world, _ = do(world, change)
    return len(session.changes) - left


def place_of_break(session, words):
    """The cell of a line, or one that is given."""
    match words:
        case [b"LINE", word]:
            return line_place(session, word)
        case [word]:
            return place_in_range(expression_in(session, word))
    raise Fault("C2")


def setting(session, words):
    """The change that a `set` asks for."""
    match words:
        case [b"CELL", place, word]:
            place, word = expression_in(session, place), w_value_in(session, word)
            return ("cell", place_in_range(place), word)
        case [b"LOC", place]:
            return ("loc", place_in_range(expression_in(session, place)))
        case [b"OVER", b"ON" | b"OFF" as flag]:
            return ("over", flag == b"ON")
        case [b"CMP", b"L" | b"E" | b"G" as sign]:
            return ("cmp", sign.decode())
        case [name, word] if name.decode("latin-1") in NAMES:
            return ("register", name.decode(), w_value_in(session, word))
    raise Fault("C2")


COMMANDS = b"STEP TRACE RUN BACK FORTH GOTO BREAK CLEAR SET SHOW".split()
