"""The source beside the machine, and what was altered, when and by what: watches in both
directions, traces and counts.

All of it is told from worlds made again from the loaded machine, and from what two of them differ in."""

from tests.model.assembler import assemble
from tests.model.command_words import condition, conditions_in_range, one_condition
from tests.model.lines import text_of
from tests.model.world import do, replay
from tests.model.operations import FIRST_BYTE, NAMES
from tests.model.texts import Fault
from tests.model.transfers import conflicts
from tests.model.words import written


def on_off(flag):
    return "on" if flag else "off"


def differences(v, w):
    """An item for each part that differs, with the part's kind, in the order of `show all`."""
    def item(kind, name, before, after):
        if before != after:
            yield kind, f"{name} {before} -> {after}"

    for name in NAMES:
        pair = (written(world.registers[name], FIRST_BYTE[name]) for world in (v, w))
        yield from item("register", name, *pair)
    yield from item("over", "over", on_off(v.over), on_off(w.over))
    yield from item("cmp", "cmp", v.cmp, w.cmp)
    yield from item("loc", "loc", "%04d" % v.loc, "%04d" % w.loc)
    yield from item("clock", "clock", v.clock, w.clock)
    for place in sorted(set(v.cells) | set(w.cells)):
        pair = written(v.cell(place)), written(w.cell(place))
        yield from item("cell", "%04d" % place, *pair)
    for place in sorted(v.breaks ^ w.breaks):
        pair = on_off(place in v.breaks), on_off(place in w.breaks)
        yield from item("break", "break %04d" % place, *pair)
    for n, units in enumerate(zip(v.units, w.units)):
        if units[0] != units[1]:
            yield "unit", unit_item(n, *units)


def unit_item(n, v, w):
    item = "unit %d" % n
    for at, (before, after) in enumerate(zip(v.blocks, w.blocks)):
        if before != after:
            item += " block %d" % at
    names = ("place", "blocks", "output", "until")
    values = ((one.place, len(one.blocks), len(one.rows), one.until) for one in (v, w))
    pairs = ((name, pair) for name, *pair in zip(names, *values) if pair[0] != pair[1])
    return item + "".join(" %s %d -> %d" % (name, *pair) for name, pair in pairs)


def change_text(change, before):
    match change:
        case ["step"]:
            return text_of(before.cell(before.loc))
        case ["register", name, _]:
            return "set " + name
        case ["cell", place, _]:
            return "set cell %04d" % place
        case ["break" | "clear" as kind, place]:
            return "%s %04d" % (kind, place)
    return "set " + change[0]


def change_line(n, change, before, after):
    left_out = ("loc", "clock") if change[0] == "step" else ()
    items = [item for item in differences(before, after) if item[0] not in left_out]
    cells = [text for kind, text in items if kind == "cell"]
    texts = []
    for kind, text in items:
        if kind != "cell" or len(cells) == 1:
            texts.append(text)
        elif text == cells[0]:
            texts.append("%d cells %s to %s" % (len(cells), cells[0][:4], cells[-1][:4]))
    line = "%7d  %04d  %-17s  %3du" % (n, before.loc, change_text(change, before), after.clock - before.clock)
    return "".join([line] + ["  " + text for text in texts]) + "\n"


def moves(world, changes):
    """Each change with its number and the worlds before and after it."""
    for n, change in enumerate(changes, 1):
        after, _ = do(world, change)
        yield n, change, world, after
        world = after


def reached(cond, v, w, n):
    """Of a move from one world to another, either way, by the change of a number: whether one of the conditions is."""
    return any(reaches(kind, which, v, w, n) for kind, which in cond)


def reaches(kind, which, v, w, n):
    if kind == "conflict":
        return which.at(n)
    if kind == "loc":
        return w.loc == which
    if kind == "register":
        return v.registers[which] != w.registers[which]
    if kind == "cell":
        return v.cell(which) != w.cell(which)
    if kind == "unit":
        return v.units[which] != w.units[which]
    return getattr(v, kind) != getattr(w, kind)


def back_until(session, words):
    """The line of the change, and how many are to be taken back."""
    cond = conditions_in_range(condition(session, words))
    found = None
    for n, change, before, after in moves(session.loaded, session.changes):
        if reached(cond, after, before, n):
            found = n, change_line(n, change, before, after)
    if found is None:
        raise Fault("C6")
    return found[1], len(session.changes) - found[0] + 1


def forth_until(session, words):
    cond = conditions_in_range(condition(session, words))
    for k, change, before, after in moves(session.world, session.ahead):
        if reached(cond, before, after, len(session.changes) + k):
            return change_line(len(session.changes) + k, change, before, after), k
    raise Fault("C6")


def counts(session):
    """How often each instruction was executed, and the time spent there."""
    numbers, times = {}, {}
    for entry in session.program.entries:
        if source_of(session, entry.place)[0].made[0] == "instruction":
            numbers[entry.place], times[entry.place] = 0, 0
    for n, change, before, after in moves(session.loaded, session.changes):
        if change[0] == "step":
            numbers[before.loc] = numbers.get(before.loc, 0) + 1
            times[before.loc] = times.get(before.loc, 0) + after.clock - before.clock
    lines = ""
    for place in sorted(numbers):
        found = source_of(session, place)
        text = "  " + source_text(session, place, found) if found else ""
        lines += "%10d  %10d  %04d%s\n" % (numbers[place], times[place], place, text)
    return lines + "%10d  %10d  total\n" % (sum(numbers.values()), sum(times.values()))


def last(session, number):
    if number < 1:
        raise Fault("C3")
    first = len(session.changes) - number
    return "".join(change_line(*move) for move in moves(session.loaded, session.changes) if move[0] > first)


def writes(session, words):
    cond = conditions_in_range([one_condition(session, words)])
    if cond[0][0] == "conflict":
        return clashing(session)
    past = moves(session.loaded, session.changes)
    return "".join(change_line(n, *move) for n, *move in past if reached(cond, *move[1:], n))


def clashing(session):
    """The lines of the changes that conflict with a transfer under way, each with the cell and the transfer."""
    past = session.loaded, session.changes
    pairs = ((change_line(*move)[:-1], found) for move, found in zip(moves(*past), conflicts(*past)) if found)
    return "".join("%s  cell %04d, unit %d until %d\n" % (text, *found) for text, found in pairs)


def diff(session, n):
    every = session.changes + session.ahead
    if n > len(every):
        raise Fault("C4")
    items = differences(replay(session.loaded, every[:n]), session.world)
    return "diff %d to %d\n" % (n, len(session.changes)) + "".join(text + "\n" for _, text in items)


def listing(source):
    """What is written for a source, and the status."""
    try:
        program = assemble(source)
    except Fault as fault:
        return ("line %d: %s\n" % (fault.line, fault.text())).encode(), 1
    done = {}  # the left part of each line that has one
    for at, word in program.equals.items():
        done[at] = " " * 6 + written(word)
    put_in = []
    for entry, (place, word) in zip(program.entries, program.words):
        left = "%04d  %s" % (place, written(word))
        if entry.line:
            done[entry.line] = left
        else:
            put_in.append(left.encode() + b" " * 9 + entry.text + b"\n")
    lines = [b"%-22s  %5d  %s\n" % (done.get(at, "").encode(), at, text) for at, text in enumerate(program.lines[:-1], 1)]
    last = b"%-22s  %5d  %s\n" % (b"%04d" % program.start, len(program.lines), program.lines[-1])
    return b"".join(lines + put_in + [last, symbols_of(program).encode()]), 0


def symbols_of(program):
    """The table of symbols."""
    pairs = program.symbols()
    return "".join(["symbols %d\n" % len(pairs)] + ["%-10s  %s\n" % (name.decode(), written(word)) for name, word in pairs])


def source_of(session, place):
    """The last entry of the program at a place, with the word it made."""
    found = None
    for entry, (_, word) in zip(session.program.entries, session.program.words):
        if entry.place == place:
            found = entry, word
    return found


def source_text(session, place, found):
    entry, word = found
    mark = "*" if session.world.cell(place) != word else " "
    text = session.program.lines[entry.line - 1] if entry.line else entry.text
    return "%5s%s %s" % (entry.line or "", mark, text.decode("latin-1"))


def code_line(session, place):
    word, found = session.world.cell(place), source_of(session, place)
    line = "%04d  %s  " % (place, written(word))
    if found is None:
        return line + text_of(word) + "\n"
    return line + "%-17s  %s\n" % (text_of(word), source_text(session, place, found))
