"""Random bundles, small ones, towards edges and faults, by the rules of draws.txt."""

import re

from tests.model import draw_asm, draw_units
from tests.model.draw_machine import Scene, one, several
from tests.model.draw_text import joined, some, spoiled, with_ends


def scenes(r, draws):
    """The lines of scenes, with changes taken back in between."""
    scene = Scene(r)
    for draw in draws:
        draw(scene)
        if r.randrange(3) == 0:
            scene.say("back", r.choice((1, 1, 1, 2, 3, "all")))
            scene.look()
    return joined(line.encode() for line in scene.lines)


def machine(r):
    """Every operation but those of the units; each fourth bundle tries a pair of C and F."""
    pair = divmod(r.randrange(4096), 64) if r.randrange(4) == 0 else None
    draws = [lambda scene: one(scene, pair)] * bool(pair)
    for _ in range(r.choice((0, 1, 2) if pair else (1, 1, 2, 3))):
        draws.append(one if r.randrange(6) else several)
    if pair or r.randrange(10) < 7:
        script = scenes(r, draws) + some(r, "machine_end")
    else:
        script = some(r, "machine_script")
    source = some(r, "simple_source" if pair or r.randrange(4) else "some_source")
    source = source if pair or r.randrange(24) else spoiled(r, source)
    everything = b"show cells 0 3999\n" * (r.randrange(600) == 0)
    deck, line = some(r, "machine_deck"), some(r, "script_line")
    text = with_ends(r, source + deck, b"\r\r\n") + line
    text += with_ends(r, script + everything, b"\r\r\n")
    # cut off somewhere, in the middle of a line too; without its end; with a strange one
    ends = text[: r.randrange(len(text) + 1)], text.rstrip(b"\r\n"), text + some(r, "odd_end")
    return r.choice(ends) if r.randrange(20) == 0 else text


def whole(r, source, deck, script):
    """A bundle of texts; its end may be missing. A million steps take time."""
    script = re.sub(rb"(?mi)^(step|run)([ \t]+)(1000000|9999999)\b", rb"\1\g<2>3", script)
    script = with_ends(r, script) if r.randrange(20) else script.rstrip(b"\r\n")
    source = with_ends(r, source).rstrip(b"\r\n") + b"\n"
    return source + (b"%DEVICES\n" + with_ends(r, deck) if deck else b"") + b"%SCRIPT\n" + script


def source_of(r):
    kind = r.randrange(10)
    if kind < 8:
        return some(r, "orig") + some(r, "program")
    return b" END 0\n" if kind < 9 else joined(draw_asm.source(r))


def commands(r):
    """A program, perhaps a deck, and a script of every command, with names and expressions."""
    script = some(r, "commands_script")
    if r.randrange(8) == 0:  # tries of single instructions among them
        script = scenes(r, [r.choice((one, several))]) + some(r, "after_scene") + script
    deck = some(r, "deck") if r.randrange(8) else joined(draw_units.deck(r, False)[0])
    return whole(r, source_of(r), deck, script)


def lines(r, rule="source_script", last=b""):
    """The same with the commands that report lines of the source, values and moments."""
    source = some(r, "program_with_lines") if r.randrange(2) else source_of(r)
    deck = some(r, r.choice(("source_deck", "deck")))
    return whole(r, source, deck, some(r, rule) + last)


def history(r):
    """The same with the commands that look into the past."""
    return lines(r, "history_script", some(r, "last_history"))
