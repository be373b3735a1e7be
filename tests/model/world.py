"""The machine and one change of it (1.3.1). Every change makes a new machine, so a fault leaves the old one."""

from tests.model.operations import NAMES, NEEDS_FIELD, NEEDS_NO_ADDRESS, operation
from tests.model.texts import Fault
from tests.model.units import begun, check, control, is_busy, kind_of, no_units, read, write
from tests.model.words import (
    FIELDS, ZERO, add, compare, div, field_value, instruction, mul, negated, num, number, put_field,
    shift, sub, to_char, word_of,
)

CELLS = 4000
CLOCK_LIMIT = 10**18


class World:
    def __init__(self, words, start, units=None):
        """Loaded: all +0, then the program's words in order, so that a later one wins; the units of the deck."""
        self.registers = {register: ZERO for register in NAMES}
        self.cells = {}  # the cells that were written; the others hold +0
        for place, word in words:
            self.cells[place] = word
        self.over = False
        self.cmp = "E"
        self.loc = start
        self.clock = 0
        self.units = units or no_units()
        self.breaks = frozenset()

    def copy(self):
        other = object.__new__(World)
        other.__dict__.update(self.__dict__)
        other.registers = dict(self.registers)
        other.cells = dict(self.cells)
        return other

    def cell(self, place):
        return self.cells.get(place, ZERO)

    def set_register(self, register, word):
        """An index register has a sign and two bytes, rJ has two bytes and the sign +."""
        if register not in ("A", "X") and word[1] >= 4096 or register == "J" and word[0] == "-":
            raise Fault("M7")
        self.registers[register] = word


def do(world, change):
    """The new world, and for a step the name of its operation."""
    if change[0] == "step":
        return step(world)
    new = world.copy()
    if change[0] == "register":
        new.set_register(change[1], change[2])
    elif change[0] == "cell":
        new.cells[change[1]] = change[2]
    elif change[0] == "break":
        new.breaks |= {change[1]}
    elif change[0] == "clear":
        new.breaks -= {change[1]}
    else:
        setattr(new, change[0], change[1])  # loc, over, cmp
    return new, None


def replay(world, changes):
    for change in changes:
        world, _ = do(world, change)
    return world


def step(world):
    if world.loc == CELLS:
        raise Fault("M15")
    new = world.copy()
    sign, aa, index, f, c = instruction(world.cell(world.loc))
    op = operation(c, f)
    new.loc += 1
    new.clock += op.time
    m = None
    if op.name not in NEEDS_NO_ADDRESS:
        if index > 6:
            raise Fault("M3")
        m = aa if sign == "+" else -aa
        if index > 0:
            m += number(world.registers["I%d" % index])
        if abs(m) >= 4096:
            raise Fault("M4")
    if c in NEEDS_FIELD and f not in FIELDS:
        raise Fault("M6")
    operate(new, op, f, m, sign)
    if new.clock > CLOCK_LIMIT:
        raise Fault("M14")
    return new, op.name


def place_of(m):
    if not 0 <= m < CELLS:
        raise Fault("M5")
    return m


def operate(w, op, f, m, sign):
    """What an operation does to the world, whose location is the next one already."""
    registers, kind = w.registers, op.kind
    match kind:
        case "NOP" | "HLT":
            pass
        case "LD" | "LDN" | "ADD" | "SUB" | "MUL" | "DIV" | "CMP":
            with_operand(w, op, f, w.cell(place_of(m)))
        case "ST" | "STZ":
            value = ZERO if kind == "STZ" else registers[op.register]
            w.cells[place_of(m)] = put_field(w.cell(m), f, value)
        case "NUM":
            registers["A"], overflow = num(registers["A"], registers["X"])
            w.over = w.over or overflow
        case "CHAR":
            registers["A"], registers["X"] = to_char(registers["A"], registers["X"])
        case "MOVE":
            move(w, f, m)
        case "INC" | "DEC":
            increase(w, op.register, m if kind == "INC" else -m)
        case "ENT" | "ENN":
            value = word_of(m, sign)
            w.set_register(op.register, negated(value) if kind == "ENN" else value)
        case "IN" | "OUT" | "IOC":
            transfer(w, kind, f, m)
        case _ if kind[0] == "J":
            if is_taken(w, op, f):
                if kind != "JSJ":
                    registers["J"] = ("+", w.loc)
                w.loc = place_of(m)
        case _:
            if m < 0:
                raise Fault("M8")
            registers["A"], registers["X"] = shift(kind, registers["A"], registers["X"], m)


def with_operand(w, op, f, cell):
    """Loads, arithmetic and comparisons, with a field of a cell."""
    a, x, value = w.registers["A"], w.registers["X"], field_value(cell, f)
    match op.kind:
        case "LD" | "LDN":
            w.set_register(op.register, negated(value) if op.kind == "LDN" else value)
        case "CMP":
            w.cmp = compare(w.registers[op.register], cell, f)
        case "MUL":
            w.registers["A"], w.registers["X"] = mul(a, value)
        case "DIV":
            result = div(a, x, value)
            w.over = w.over or result is None
            w.registers["A"], w.registers["X"] = result or (a, x)
        case kind:
            w.registers["A"], overflow = (add if kind == "ADD" else sub)(a, value)
            w.over = w.over or overflow


def move(w, f, m):
    """F words, one at a time, the lowest first: if they overlap, a moved word is moved again."""
    if f == 0:
        return
    target = number(w.registers["I1"])
    for first in (m, target):
        place_of(first)
        place_of(first + f - 1)
    for k in range(f):
        w.cells[target + k] = w.cell(m + k)
    w.set_register("I1", word_of(target + f))


def increase(w, register, by):
    old = w.registers[register]
    if register in ("A", "X"):
        w.registers[register], overflow = add(old, word_of(by))
        w.over = w.over or overflow
    else:
        w.set_register(register, word_of(number(old) + by, old[0]))


def transfer(w, kind_of_transfer, f, m):
    """IN, OUT and IOC. The clock was one lower before this step."""
    kind, unit = kind_of(f), w.units[f]
    if kind_of_transfer == "IOC":
        unit = control(kind, unit, m)
    else:
        check(kind, "input" if kind_of_transfer == "IN" else "output")
        place_of(m)
        place_of(m + kind.size - 1)
        cells = range(m, m + kind.size)
        if kind_of_transfer == "IN":
            unit, words = read(kind, unit, w.registers["X"])
            w.cells.update(zip(cells, words))
        else:
            unit = write(kind, unit, w.registers["X"], [w.cell(place) for place in cells])
    w.clock, unit = begun(w.clock - 1, unit)
    w.units = w.units[:f] + (unit,) + w.units[f + 1 :]


def is_taken(w, op, f):
    """Whether a jump leads to M. JOV and JNOV turn the toggle off."""
    match op.kind:
        case "JMP" | "JSJ":
            return True
        case "JBUS" | "JRED":
            kind_of(f)
            return is_busy(w.clock - 1, w.units[f]) == (op.kind == "JBUS")
        case "JOV" | "JNOV":
            was_on, w.over = w.over, False
            return was_on == (op.kind == "JOV")
    n = number(w.registers[op.register]) if op.register else {"L": -1, "E": 0, "G": 1}[w.cmp]
    return {
        "N": n < 0, "L": n < 0, "Z": n == 0, "E": n == 0, "P": n > 0, "G": n > 0,
        "NN": n >= 0, "GE": n >= 0, "NZ": n != 0, "NE": n != 0, "NP": n <= 0, "LE": n <= 0,
    }[op.kind[1:].strip()]
