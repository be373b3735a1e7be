"""The exercises of chapters 5 and 6: what their programs must leave, by Python's sort, pairs of keys, and places in a list."""
import functools

from deleting import columns_of, deleted, grown, inserted, lazily, subtree
from exercise import Case
from machine import CHARACTERS
from searching import doubly_hashed, probes
from sorting import inversions, passes, rightmost
from trees import height, inserted as balanced, lean


def stable_words(draw, n):
    """An insertion takes 9u to 11u for each word that is moved, and some 12u for each word."""
    words = [(at % 63 + 1, draw.number(1, 6) * 10) for at in range(n)]
    return Case({"N": n, "data": [f"        CON  {letter}(1:1),{key}(4:5)" for letter, key in words]},
                [letter * 64**4 + key for letter, key in sorted(words, key=lambda word: word[1])], ("KEY+1 KEY+N",),
                (f"clock <= {11 * inversions([key for _, key in words]) + 14 * n + 20}",))


def three_increments(draw, n):
    """The clock by the times in square brackets: each pass moves a key once for each larger one before it in its part."""
    keys = draw.distinct(n, 10, 999)
    found = passes(keys, (7, 3, 1))
    return Case({"N": n, "data": keys}, sorted(keys), ("KEY+1 KEY+N",), always=(f"clock = {32 + 14 * (3 * n - 11) + 10 * found['B'] - 3 * found['A']}",))


def keys_in_order(draw, n):
    """Parts of n, n-1, .. 2 keys, of each of which the right part has one key less, and the left part none."""
    n += draw.number(0, 8)
    keys = draw.distinct(n, 1, 999)
    return Case({"N": n, "data": sorted(keys)}, sorted(keys), ("KEY+1 KEY+N",), (f"clock = {18 + 49 * (n - 1) + 2 * (n * n + n - 2)}", "3H = 0"),
                told=f"Your N is {n}. Your keys are {', '.join(map(str, keys))}, in another order.")


def sift(keys, at, size):
    """Lets a key of the first ones go down to where its children are smaller."""
    while (child := 2 * at + 1) < size:
        child += child + 1 < size and keys[child + 1] > keys[child]
        if keys[child] < keys[at]:
            break
        keys[at], keys[child] = keys[child], keys[at]
        at = child


def three_largest(draw, n):
    """No key goes down further than the levels below it; 20u are the most for a level. The other keys are left as a heap."""
    keys, levels = draw.distinct(n, 1, 999), sum(20 * (n.bit_length() - k.bit_length()) + 18 for k in range(1, n // 2 + 1))
    table = list(keys)
    for at in range(n // 2 - 1, -1, -1):
        sift(table, at, n)
    for last in (n - 1, n - 2, n - 3):
        table[0], table[last] = table[last], table[0]
        sift(table, 0, last)
    return Case({"N": n, "data": keys}, table, ("KEY+1 KEY+N",), (f"clock <= {levels + 3 * (20 * n.bit_length() + 25) + 20}",))


def selected(draw, n):
    """A comparison takes 5u, and 3u more if it finds a larger key; each of the other N-1 rounds takes some 13u. The exchanges alone alter the table."""
    keys = draw.distinct(n, 1, 999)
    larger = sum(one > max(others) for last in range(n, 1, -1) for others, one in rightmost(keys, last))
    table, moves = list(keys), [0] * n
    for last in range(n - 1, 0, -1):
        at = table.index(max(table[: last + 1]))
        table[at], table[last] = table[last], table[at]
        for one in (at, last):
            moves[one] += at < last
    writes = tuple(f"writes KEY+{k} = {count}" for k, count in enumerate(moves, 1))
    return Case({"N": n, "data": keys}, sorted(keys), ("KEY+1 KEY+N",), (f"clock <= {5 * n * (n - 1) // 2 + 3 * larger + 16 * n + 20}",), writes)


def keys_of_two_words(draw, n):
    high, low = [draw.number(1, 1 + n // 3) for _ in range(n)], draw.distinct(n, 1, 999)
    order = sorted(range(n), key=lambda at: (high[at], low[at]))
    return Case({"N": n, "high": high, "low": low}, [at + 1 for at in order], ("ORDER+1 ORDER+N",), (f"clock <= {35 * n * n.bit_length()}",), steps=400000)


def keys_in_table(draw, n):
    """A key takes at most 14u each time that its list is merged, and 35u besides; if it is inserted into one list, it passes a quarter of the others."""
    keys = draw.distinct(n, 1, 999)
    order = [0, *sorted(range(1, n + 1), key=lambda k: keys[k - 1]), 0]
    links = dict(zip(order, order[1:]))
    return Case({"N": n, "data": keys}, [links[0], *keys, *(links[k] for k in range(1, n + 1)), *sorted(keys)],
                ("LINK", "KEY+1 KEY+N", "LINK+1 LINK+N", "TABLE+1 TABLE+N"), (f"clock <= {14 * n * (n - 1).bit_length() + 35 * n + 20}",))


def last_two_digits(draw, n):
    keys = [tuple(draw.numbers(3, 0, 9)) for _ in range(n)]
    order = sorted(range(1, n + 1), key=lambda k: keys[k - 1][1:])
    links = dict(zip([0, *order], [*order, 0]))
    return Case({"N": n, "data": ["        CON  %d(3:3),%d(4:4),%d(5:5)" % key for key in keys]}, [links[k] for k in range(n + 1)], ("LINK LINK+N",),
                (f"clock <= {50 * n + 800}",))


def two_at_once(draw, n):
    keys = draw.distinct(n, 1, 999)
    wanted = 1000 if n in (2, 40) else draw.one_of(keys)
    place = keys.index(wanted) + 1 if wanted in keys else 0
    return Case({"N": n, "WANTED": wanted, "data": keys}, [place], ("I1",), (f"clock <= {18 + (7 * (n + 1 - place) + 1) // 2}",))


def by_halves(draw, n):
    keys = sorted(draw.distinct(n, 1, 999))
    absent = next(key for key in range(keys[n // 2], 1000) if key not in keys)
    wanted = {7: keys[2 % n], 16: keys[-1], 17: keys[0], 30: absent}.get(n, draw.one_of([*keys, draw.number(1, 999)]))
    halves = [(n + 2 ** (j - 1)) // 2**j for j in range(1, n.bit_length() + 3)]
    place = keys.index(wanted) + 1 if wanted in keys else 0
    return Case({"N": n, "WANTED": wanted, "data": keys, "halves": halves[: halves.index(0) + 1]}, [place], ("I1",),
                (f"clock <= {14 + 10 * (n.bit_length() + 1)}",))


def middle_first(keys):
    """Each key after the one in the middle of those around it."""
    if not keys:
        return []
    middle = len(keys) // 2
    return [keys[middle], *middle_first(keys[:middle]), *middle_first(keys[middle + 1 :])]


def fewest_comparisons(draw, size):
    """The clock of a full tree by the column of times: half of the comparisons go to the right, and half of the new nodes."""
    levels = draw.number(2, 5)
    n = 2**levels - 1
    keys = sorted(draw.distinct(n, 1, 999))
    compared = sum(level * 2**level for level in range(levels))
    clock = 6 + 10 + 4 * n + 3 * (n - 1) + 4 * compared + 5 * compared - 2 * (n - 1) + 3 * (n - 1) + (n - 1) // 2 + 3 * (n - 1)
    return Case({"N": n, "data": middle_first(keys)}, [n], ("I4",), (f"clock = {clock}",), told=f"Your N is {n}. Your keys are {', '.join(map(str, keys))}.")


def opposite_order(draw, n):
    n, m = n + draw.number(0, 4), 2 * n + 1 + draw.number(0, 6)
    keys = []
    while not keys or inserted(keys[::-1], m) in (inserted(row, m) for row in (keys, sorted(keys), sorted(keys)[::-1])) or keys[-1] % m != keys[-2] % m:
        keys = draw.distinct(n, m, 999)
    looked, rounds = probes(sorted(keys), m)
    return Case({"N": n, "M": m, "data": keys[::-1]}, inserted(keys[::-1], m), ("TABLE TABLE+M-1",), (f"clock = {12 + 24 * n + 8 * looked + 2 * rounds}",),
                told=f"Your M is {m}, your N is {n}. Your keys come in this order: {', '.join(map(str, keys))}.")


def without_some(draw, n):
    """The root is deleted first. It is the key in the middle, so it has two subtrees; of nine keys the smaller ones are in ascending order."""
    keys = draw.distinct(n, 1, 998)
    middle = sorted(keys)[n // 2]
    keys.sort(key=lambda key: (key != middle, n == 9 and min(key, middle)))
    gone = [keys[0], *draw.shuffled(keys[1:])[: n // 2], 999]
    root, links = columns_of(grown(keys), keys)
    tree = grown(keys)
    for key in gone:
        tree = deleted(tree, key, mirrored=True)
    new_root, new_links = columns_of(tree, keys)
    kept = {at: new_links[key] for at, key in enumerate(keys, 1) if key in new_links}
    cells = [(f"{part}+{at}", sides[side]) for at, sides in kept.items() for side, part in enumerate(("LEFT", "RIGHT"))]
    given = {"N": n, "keys": keys, "left": [links[key][0] for key in keys], "right": [links[key][1] for key in keys], "gone": [*gone, 0], "ROOT": str(root)}
    return Case(given, [new_root, *(number for _, number in cells)], ("ROOT", *(cell for cell, _ in cells)))


def levels(draw, n):
    """A balanced tree; if it has five nodes, neither all left links nor all right links make a longest way."""
    tree = keys = []
    while not tree and n or n > 4 and height(tree) in (chain(tree, 1), chain(tree, 2)):
        keys = draw.distinct(n, 1, 999)
        tree = functools.reduce(balanced, keys, None)
    root, links = columns_of(tree, keys)
    leans = [lean(subtree(tree, key)) for key in keys]
    given = {"N": n, "left": [links[key][0] for key in keys], "right": [links[key][1] for key in keys], "leans": leans, "ROOT": str(root)}
    return Case(given, [height(tree)], ("HEIGHT",), (f"clock <= {12 * height(tree) + 25}",))


def chain(tree, side):
    return 1 + chain(tree[side], side) if tree else 0


def by_two_remainders(draw, n):
    m = next(prime for prime in (5, 7, 11, 17, 37, 61) if prime > n)
    keys = draw.numbers(n, 1, 4000)
    keys[-1] = keys[0] + m * draw.number(1, 9) if n > 1 else keys[0]
    return Case({"N": n, "M": m, "data": keys}, doubly_hashed(keys, m), ("TABLE TABLE+M-1",))


def lazy_orders(draw, n):
    """So many cells that one stays empty; no cell gets empty again, so it is empty at the end."""
    keys, m = draw.distinct(n, 1, 200), n + 2
    orders = [*keys, *(draw.one_of((1, -1)) * draw.one_of(keys) for _ in range(3 * n)), -keys[0], *keys]
    while 0 not in lazily(orders, m):
        m += 1
    return Case({"M": m, "data": [*orders, 0]}, lazily(orders, m), ("TABLE TABLE+M-1",), steps=100000)


def sorted_cards(draw, n):
    """Cards that are full of characters: 260 of them have more words than the memory has cells."""
    letters = CHARACTERS[1:39]
    keys = ["".join(draw.one_of(letters) for _ in range(3)) + letters[at // 38] + letters[at % 38] for at in range(n)]
    cards = [key + "".join(draw.one_of(letters) for _ in range(71)) + "%04d" % at for at, key in enumerate(keys)]
    deck = [*(f"%UNIT {tape} delay 20" for tape in range(4)), "%UNIT 16", *draw.shuffled(cards), "99999"]
    return Case({}, sorted(cards, key=lambda card: [CHARACTERS.index(one) for one in card[:5]]), deck=deck, steps=400000, strict=True)
