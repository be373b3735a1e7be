"""Facts of the lessons on list merge sort and on tapes: Python's sort, what ends first by the last keys of two parts, the waiting of each transfer in closed
form, and runs by lists that are sorted for each key."""
import random

from counting import RUN, measured, times
from machine import CHARACTERS
from sorting import along_links


def merges_of(keys):
    """The letters of list merge sort: each pass merges neighbouring parts, and what ends first follows from the last keys of both."""
    parts, found = [[key] for key in keys], dict.fromkeys("ABCEFGH", 0)
    while len(parts) > 1:
        found["A"] += 1
        for one, other in zip(parts[::2], parts[1::2]):
            first = one[-1] <= other[-1]
            before = sum(key < one[-1] for key in other) if first else sum(key <= other[-1] for key in one)
            found["B"] += 1
            found["C"] += before + (len(one) if first else len(other))
            found["E"] += before if first else len(other)
            found["F"] += first
            found["G" if first else "H"] += len(other if first else one) - before
        parts = [sorted(sum(parts[at : at + 2], [])) for at in range(0, len(parts), 2)]
    return found


def list_merge_sort(run):
    draw = random.Random(5242)
    tables = [[50, 20, 70, 10, 40, 30, 80, 60], [3, 2, 1], [5, 5, 5, 5, 5], list(range(16)), list(range(11, 0, -1))]
    tables += [[draw.randrange(1, 50) for _ in range(n)] for n in (4, 7, 9, 20, 33, 64)]
    for table in tables:
        n = len(table)
        ran = run(N=n, data=table, script=[*RUN, "show values LINK LINK+N"])
        order = along_links(ran, n)
        yield f"the order of {table}, equal keys as they were", order, sorted(range(1, n + 1), key=lambda k: table[k - 1])
        yield from times(ran, N=n, **merges_of(table))


NINES = "99999"


def key_of(card):
    """The first word of a card as MIX compares it."""
    return [CHARACTERS.index(one) for one in f"{card:<5.5}"]


def drawn_cards(draw, size):
    """Cards with different keys, below that of 9s, and some text after them."""
    keys = {"".join(draw.choices(CHARACTERS[1:39], k=5)) for _ in range(size)}
    return [f"{key} NO. {at}" for at, key in enumerate(sorted(keys, key=lambda key: draw.random()))]


def deck_of(cards, delay=0):
    return [*(f"%UNIT {tape} delay {delay}" for tape in range(4)), "%UNIT 16", *cards]


def tapes(run):
    draw = random.Random(54)
    for first, second, delay in ((3, 4, 40), (0, 3, 7), (2, 0, 1), (0, 0, 5), (6, 6, 10), (1, 9, 3)):
        cards = drawn_cards(draw, first + second)
        one, two = sorted(cards[:first], key=key_of), sorted(cards[first:], key=key_of)
        ran = run(deck=deck_of([*one, NINES, *two, NINES], delay), script=[*RUN, "show unit 18"])
        yield f"{first} and {second} records, merged", ran.rows(18), sorted(cards, key=key_of)
        yield from times(ran, waiting=True, R=len(cards), I=len(one), D=delay)


def runs_of(keys, places, turning=False):
    """The runs of replacement selection, and how many keys had to wait for one. Turning runs descend in turn."""
    pool, coming, later, runs = list(keys[:places]), list(keys[places:]), [], []
    late = len(pool)
    while pool:
        sign = -1 if turning and len(runs) % 2 else 1
        runs.append([])
        while pool:
            pool.sort(key=lambda key: sign * key)
            runs[-1].append(pool.pop(0))
            for key in coming[:1]:
                (later if sign * key < sign * runs[-1][-1] else pool).append(coming.pop(0))
                late += later[-1:] == [key]
        pool, later = later, []
    return runs, late


def beginnings(runs):
    """The numbers of the keys with which the runs begin."""
    return [1 + sum(map(len, runs[:at])) for at in range(len(runs))]


def replacement_selection(run):
    draw = random.Random(541)
    cases = [(4, [50, 20, 70, 10, 40, 30, 90, 60, 15, 80, 25, 5, 85, 45, 35, 65]), (2, [7]), (8, [3, 1, 2]), (4, list(range(1, 21))), (4, list(range(20, 0, -1)))]
    cases += [(places, draw.sample(range(1, 64**4), n)) for places, n in ((8, 480), (16, 100), (3, 40), (5, 60))]
    for places, keys in cases:
        for name, turning in (("lesson.mixal", False), ("answer.mixal", True)):
            runs, late = runs_of(keys, places, turning)
            shows = ["show values OUTPUT+1 OUTPUT+N", f"show values BEGIN+1 BEGIN+{len(runs) + 1}"]
            ran = run(name, N=len(keys), P=places, data=keys, script=[*RUN, *shows])
            yield f"{name}: the runs of {keys} with {places} places", ran.numbers(shows[0]), sum(runs, [])
            yield "where they begin", ran.numbers(shows[1]), [*beginnings(runs), 0]
            if not turning:
                found = measured(ran, "LX")
                yield from times(ran, N=len(keys), P=places, R=len(runs), E=late, **found)
                if places in (2, 4, 8, 16):
                    yield "matches on the way up", found["L"], (len(keys) + places) * (places.bit_length() - 1)
            if len(keys) == 480 and not turning:
                yield "runs of about 2P keys, as the text says", (len(runs), len(keys) // len(runs)), (32, 15)
