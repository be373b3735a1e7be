"""A bundle: source, deck and script in one input; what the program writes for it, and its status."""

from tests.model.assembler import assemble
from tests.model.commands import Session
from tests.model.deck import read_deck
from tests.model.history import listing
from tests.model.world import World
from tests.model.texts import Fault, lines_of

BUNDLE_BYTES = 41943040
SCRIPT_BYTES = 1048576


def cut(text):
    """Source, deck and script. The marker lines are of no part; a part that is missing is empty."""
    parts = {b"source": [], b"%DEVICES": [], b"%SCRIPT": []}
    part, begin = b"source", 0
    for piece in text.split(b"\n"):
        end = begin + len(piece)
        line = piece[:-1] if piece.endswith(b"\r") else piece
        if line == b"%SCRIPT" and part != b"%SCRIPT" or line == b"%DEVICES" and part == b"source":
            part = line
        else:
            parts[part].append(text[begin:end + 1])  # with the line feed, where there is one
        begin = end + 1
    return b"".join(parts[b"source"]), b"".join(parts[b"%DEVICES"]), b"".join(parts[b"%SCRIPT"])


def run(text, watch=None):
    """Standard output, standard error and the status of a bundle."""
    if len(text) > BUNDLE_BYTES:
        return tool_fault(Fault("T6"))
    return execute(*cut(text), watch)


def run_list(source):
    """The same of `list`."""
    output, status = listing(source)
    return output, b"", status


def debug(text, script, named=None, watch=None):
    """The same of `debug`, of a source or a bundle: its deck is taken where none is named, and its script is left out."""
    source, deck, _ = cut(text) if len(text) <= BUNDLE_BYTES else (text, b"", b"")
    return execute(source, deck if named is None else named, script, watch)


def execute(source, deck, script, watch=None):
    try:
        program = assemble(source)
    except Fault as fault:
        return ("line %d: %s\n" % (fault.line, fault.text())).encode(), b"", 1
    try:
        units = read_deck(deck)
    except Fault as fault:
        return tool_fault(Fault("T5", more="%d: %s" % (fault.line, fault.text())))
    if len(script) > SCRIPT_BYTES:
        return tool_fault(Fault("T6"))
    world = World(program.words, program.start, units)
    session = Session(world, program.names, watch, program)
    told = [session.command(line) for line in lines_of(script)]
    status = 0 if all(accepted for _, accepted in told) else 3
    return b"".join(reply for reply, _ in told), b"", status


def tool_fault(fault):
    return b"", ("mixrev: %s\n" % fault.text()).encode(), 2
