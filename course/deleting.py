"""Facts of the lessons on deletion: trees as keys with two subtrees, from which a key is taken by recursion; with linear probing keys that are found
or not, cells that are taken, and a dictionary for the lazy way."""
import random

from counting import RUN, measured, times


def grown(keys):
    """The tree of these keys in their order of insertion: a key with its left and its right subtree, or None."""
    if not keys:
        return None
    return keys[0], grown([key for key in keys if key < keys[0]]), grown([key for key in keys if key > keys[0]])


def deleted(tree, key, mirrored=False):
    """The tree without a key, which is replaced by the next one, or mirrored by the one before it."""
    if not tree:
        return None
    top, left, right = tree
    if key != top:
        return (top, deleted(left, key, mirrored), right) if key < top else (top, left, deleted(right, key, mirrored))
    inner = left if mirrored else right
    if not inner:
        return right if mirrored else left
    key, others = without_end(inner, 2 if mirrored else 1)
    return (key, others, right) if mirrored else (key, left, others)


def without_end(tree, side):
    """The last key on a side, 1 for the left one, and the tree without it."""
    if not tree[side]:
        return tree[0], tree[3 - side]
    key, others = without_end(tree[side], side)
    return key, (tree[0], others, tree[2]) if side == 1 else (tree[0], tree[1], others)


def columns_of(tree, keys):
    """The number of the root, and of the left and of the right subtree of each key that is in the tree."""
    number = {key: at for at, key in enumerate(keys, 1)}
    links = {}

    def gone_through(one):
        if not one:
            return 0
        links[one[0]] = (gone_through(one[1]), gone_through(one[2]))
        return number[one[0]]

    return gone_through(tree), links


def way_to(tree, key):
    """The keys from the root to a key, or to where it would be."""
    return [] if not tree else [tree[0], *(way_to(tree[1] if key < tree[0] else tree[2], key) if key != tree[0] else [])]


def subtree(tree, key):
    return tree if not tree or tree[0] == key else subtree(tree[1] if key < tree[0] else tree[2], key)


def deletions(tree, gone):
    """The letters of the deletions, and the tree that is left."""
    counts = dict.fromkeys("ABCFGS", 0)
    for key in gone:
        way, found = way_to(tree, key), subtree(tree, key)
        counts["C"], counts["F"] = counts["C"] + len(way), counts["F"] + bool(found)
        counts["G"] += sum(one < key for one in way)
        if found and not found[2]:
            counts["A"] += 1
        elif found and found[2][1]:
            spine = found[2][1]
            counts["B"] += 1
            while spine:
                counts["S"], spine = counts["S"] + 1, spine[1]
        tree = deleted(tree, key)
    return {**counts, "D": len(gone)}, tree


def tree_deletion(run):
    draw = random.Random(6222)
    cases = [([50, 20, 80, 10, 40, 70, 90, 30, 60], [40, 80, 50, 55]), ([5], [5, 5]), ([1, 2, 3, 4], [1, 2]), ([4, 3, 2, 1], [4, 3])]
    for n in (7, 15, 31, 60):
        keys = draw.sample(range(1, 500), n)
        cases.append((keys, [*draw.sample(keys, n // 2), 500]))
    for keys, gone in cases:
        root, links = columns_of(grown(keys), keys)
        data = {"keys": keys, "left": [links[key][0] for key in keys], "right": [links[key][1] for key in keys], "gone": [*gone, 0]}
        shows = ["show values ROOT ROOT", "show values LEFT+1 LEFT+N", "show values RIGHT+1 RIGHT+N"]
        for name, mirrored in (("lesson.mixal", False), ("answer.mixal", True)):
            tree = grown(keys)
            for key in gone:
                tree = deleted(tree, key, mirrored)
            ran = run(name, N=len(keys), data=data, script=[*RUN, *shows])
            root, links = columns_of(tree, keys)
            sides = [dict(zip(keys, ran.numbers(show))) for show in shows[1:]]
            yield f"{name}: the tree of {keys} without {gone}", (ran.numbers(shows[0]), {key: tuple(side[key] for side in sides) for key in links}), ([root], links)
            if not mirrored:
                yield from times(ran, N=len(keys), **deletions(grown(keys), gone)[0])


def way(key, m):
    """The cells that a search probes, in turn."""
    return [(key % m - step) % m for step in range(m)]


def inserted(keys, m):
    table = [0] * m
    for key in keys:
        table[next(cell for cell in way(key, m) if not table[cell])] = key
    return table


def probed(table, key, m):
    """How many cells are probed until the key or an empty cell is met, and whether it is the key."""
    for count, cell in enumerate(way(key, m), 1):
        if table[cell] in (0, key):
            return count, table[cell] == key
    raise ValueError("the table is full")


def below(table, key, m):
    """The cells below a key, up to the next empty one."""
    cells = [(table.index(key) - step) % m for step in range(1, m)]
    return cells[: next(at for at, cell in enumerate(cells) if not table[cell])]


def hash_deletion(run):
    draw = random.Random(645)
    cases = [(11, [31, 415, 926, 535, 891, 932, 385, 626], 31), (11, [31, 415, 926, 535, 891, 932, 385, 626], 999), (5, [5], 5), (7, [7, 14, 21, 6], 7)]
    for m, n in ((13, 9), (17, 15), (31, 25), (64, 50)):
        keys = draw.sample(range(1, 4000), n)
        cases += [(m, keys, draw.choice(keys)) for _ in range(4)]
    for m, keys, gone in cases:
        table = inserted(keys, m)
        count, there = probed(table, gone, m)
        cells = below(table, gone, m) if there else []
        ran = run(M=m, data={"table": table, "gone": [gone, 0]}, script=[*RUN, "show values TABLE TABLE+M-1"])
        found = ran.numbers("show values TABLE TABLE+M-1")
        yield f"the keys of {table} without {gone}", sorted(key for key in found if key), sorted({*keys} - {gone})
        yield "the keys that a search does not find", [key for key in keys if key != gone and not probed(found, key, m)[1]], []
        kept = [cell for cell in range(m) if cell not in cells and table[cell] != gone]
        yield "the cells that are not below the gap", [found[cell] for cell in kept], [table[cell] for cell in kept]
        moved = sum(found.index(key) != table.index(key) for key in keys if key != gone)
        first = table.index(gone) if there else gone % m
        rounds = {"R": int(there and first > gone % m or not there and (gone % m - count + 1) % m > gone % m), "S": int(there and first - len(cells) - 1 < 0)}
        yield from times(ran, D=1, E=1 - there, C=count, K=len(cells), V=moved, **rounds, **measured(ran, "TU"))


def lazily(orders, m):
    """The table if a deleted key leaves -1: a dictionary of the keys says which are there."""
    table, held = [0] * m, {}
    for order in orders:
        if order > 0 and order not in held:
            held[order] = next(cell for cell in way(order, m) if table[cell] < 1)
            table[held[order]] = order
        elif order < 0 and -order in held:
            table[held.pop(-order)] = -1
    return table
