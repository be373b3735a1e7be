"""What no rule of draws.txt says of bundles at a limit of size: lines with numbers in their order,
and a unit that is named again and again."""

from tests.model.draw_text import DRAWN, RULES, chosen, joined


def numbered(form, numbers):
    return lambda r: b"".join(form % ((at,) * form.count(b"%d")) for at in numbers)


def with_deck(r, unit, lines):
    deck = r.choice((b"", b"%%UNIT %d delay 5\n" % unit))
    first = b"set cell 0 %d" % ((100 * 4096 + unit) * 64 + 37)  # OUT 100(unit)
    return b" END 0\n%DEVICES\n" + deck + b"%SCRIPT\n" + joined([first, *lines])


def full_rows(r):
    """A thousand rows by OUT, and one more."""
    unit = r.choice((17, 18, 18, 19, 20, r.randrange(8), r.randrange(8)))
    lines = [b"set cell 1 39", b"set cell 100 %d" % r.randrange(2**30)]
    lines += [b"step %d" % r.choice((1998, 1999)), b"show regs", b"step 3"]
    if unit == 18 and r.randrange(2):
        lines += [b"set cell 2 %d" % (unit * 64 + 35), b"set loc 2", b"step", b"back 2"]
    if unit > 16 or r.randrange(3) == 0:
        lines += [b"show unit %d" % unit, b"back 1999", b"show unit %d" % unit]
    return with_deck(r, unit, lines)


def full_disk(r):
    """The last block of a disk, and the one after it."""
    unit = r.randrange(8, 16)
    first = b"set X %d" % r.choice((999, 1000)), b"set cell 100 7", b"step", b"show regs"
    again = b"set X 998", b"set loc 0", b"step", b"back 4", b"show unit %d" % unit
    return with_deck(r, unit, [*first, *again])


DRAWN.update(
    full_rows=full_rows,
    full_disk=full_disk,
    many_equ=lambda r: b"".join(b"N%d EQU %d\n" % (at, at % 5000 - 500) for at in range(6000)),
    many_lda=numbered(b" LDA N%d\n", range(1500)),
    many_con=numbered(b"N%d CON %d\n", range(0, 1500, 2)),
    many_breaks=numbered(b"break %d\n", range(0, 4000, 7)),
)
# Each topic, with how many bundles it has.
LIMITS = {name[6:]: len(found) for name, found in RULES.items() if name.startswith("limit_")}
LIMITS.pop("script")


def limit(r, topic, which):
    return chosen(r, RULES[f"limit_{topic}"][which])
