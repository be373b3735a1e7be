"""Which changes conflict with a transfer under way, told from the list of changes; and how many
overwritten values a change keeps, so that it can be taken back: a place and a value for each.

A transfer is an IN or OUT that was done. It is under way for a later change that begins before the transfer ends, while no later IN, OUT or
IOC on its unit was done. Which cells a change reads and writes is not worked out here: the machine is watched while it does the change."""

from tests.model.world import World, do
from tests.model.operations import operation
from tests.model.units import DISK, KINDS, TAPE, kind_of
from tests.model.words import instruction, number


class Cells(dict):
    """Cells that note which of them are read and written."""

    def __init__(self, cells):
        super().__init__(cells)
        self.read, self.wrote = set(), set()

    def get(self, place, other=None):
        self.read.add(place)
        return super().get(place, other)

    def __setitem__(self, place, word):
        self.wrote.add(place)
        super().__setitem__(place, word)

    def update(self, pairs):
        for place, word in pairs:
            self[place] = word


class Watched(World):
    """A machine of which every copy has the same notes."""

    def copy(self):
        other = object.__new__(Watched)
        other.__dict__.update(self.__dict__)
        other.registers = dict(self.registers)
        return other  # the cells are those of this machine, which is done with


def used(world, change):
    """The cell of the instruction, the cells read, and the cells written."""
    watched = object.__new__(Watched)
    watched.__dict__.update(world.__dict__)
    watched.registers, watched.cells = dict(world.registers), Cells(world.cells)
    do(watched, change)
    fetched = {world.loc} if change[0] == "step" else set()
    return fetched, watched.cells.read, watched.cells.wrote


def unit_of(world, change):
    """The operation and the unit of a step of IN, OUT or IOC; none of any other change."""
    if change[0] == "step":
        _, _, _, f, c = instruction(world.cell(world.loc))
        name = operation(c, f).name
        if name in ("IN", "OUT", "IOC"):
            return name, f
    return None, None


def conflict(worlds, changes, at):
    """The cell, the unit and the end of the transfer with which change number `at` conflicts; `worlds` are those before each change, and
    after the last one."""
    world, change = worlds[at], changes[at]
    name, f = unit_of(world, change)
    begins = world.clock if name is None else max(world.clock, world.units[f].until)
    fetched, read, wrote = used(world, change)
    latest = {unit_of(worlds[i], changes[i])[1]: i for i in range(at)}
    for unit, kind in enumerate(KINDS):
        last = latest.get(unit)
        if last is None:
            continue
        name, _ = unit_of(worlds[last], changes[last])
        until = worlds[last + 1].units[unit].until
        if name == "IOC":
            continue
        _, sent, filled = used(worlds[last], changes[last])
        cells = filled if name == "IN" else block_of(worlds[last], kind, sent)
        # (what waits for its unit was fetched before it waits)
        for uses, clock in [(fetched, world.clock), (read, begins), (wrote, begins)] if name == "IN" else [(wrote, begins)]:
            if uses & cells and clock < until:
                return min(uses & cells), unit, until
    return None


def block_of(world, kind, sent):
    """The block of an OUT: the cells that it reads, but its own instruction where that is not of the block."""
    others = sent - {world.loc}
    return sent if len(others) < kind.size else others


def conflicts(loaded, changes):
    """The conflict of each change, or none."""
    worlds = [loaded]
    for change in changes:
        worlds.append(do(worlds[-1], change)[0])
    return [conflict(worlds, changes, at) for at in range(len(changes))]


class Conflicts:
    """Which changes of a session conflict with a transfer under way, asked by their numbers."""

    def __init__(self, session):
        self.session, self.worlds = session, [session.loaded]

    def at(self, n):
        every = self.session.changes + self.session.ahead
        while len(self.worlds) < n:
            self.worlds.append(do(self.worlds[-1], every[len(self.worlds) - 1])[0])
        return conflict(self.worlds, every, n - 1) is not None


# Beside the location and the clock, which each step keeps.
BESIDE = {
    "NOP": 0, "HLT": 0, "JSJ": 0, "STZ": 1, "LD": 1, "LDN": 1, "ST": 1, "CMP": 1, "SLA": 1, "SRA": 1, "ENT": 1, "ENN": 1,
    "ADD": 2, "SUB": 2, "NUM": 2, "MUL": 2, "CHAR": 2, "SLAX": 2, "SRAX": 2, "SLC": 2, "SRC": 2, "DIV": 3, "JOV": 2, "JNOV": 2,
}


def undo_values(world, change):
    """For a change that the machine accepts."""
    if change[0] != "step":
        return 1
    sign, aa, index, f, c = instruction(world.cell(world.loc))
    op = operation(c, f)
    if op.kind in ("INC", "DEC"):
        return 2 + (2 if op.register in ("A", "X") else 1)
    if op.kind == "MOVE":
        return 2 + (f + 1 if f else 0)
    if op.kind in ("IN", "OUT", "IOC"):
        return 3 + of_transfer(world, op.kind, kind_of(f), world.units[f])  # the time `until` beside the two
    return 2 + BESIDE.get(op.kind, 1)  # the jumps keep rJ


def of_transfer(world, name, kind, unit):
    if name == "IOC":
        return 0 if kind == DISK else 1
    if name == "IN":
        return kind.size + (0 if kind == DISK else 1)
    if kind.output:
        return 1
    at = number(world.registers["X"]) if kind == DISK else unit.place
    values = kind.size if at < len(unit.blocks) else 1
    return values + (1 if kind == TAPE else 0)


def undo_values_of(world, changes, do):
    """By all changes of a list, each in the machine in which it is done."""
    total = 0
    for change in changes:
        total += undo_values(world, change)
        world, _ = do(world, change)
    return total
