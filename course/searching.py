"""Facts of the lessons of chapter 6: positions by Python's lists, path lengths by formulas, ancestors by the order of insertion, probes in other orders."""
import random

from counting import RUN, measured, times

FIBONACCI = (0, 1, 1, 2, 3, 5, 8, 13, 21, 34, 55)


def sequential_search(run):
    draw = random.Random(61)
    for n in (1, 2, 7, 8, 25):
        keys = draw.sample(range(1, 1000), n)
        for wanted in (*keys, 0, 1001):
            place = keys.index(wanted) + 1 if wanted in keys else 0
            found, looks, all_looks = int(place > 0), n + 1 - place if place else n, n + 1 - place
            rounds = (all_looks + 1) // 2
            for name in ("lesson.mixal", "sentinel.mixal", "answer.mixal"):
                ran = run(name, N=n, WANTED=wanted, data=keys, script=[*RUN, "show values"])
                yield f"{name}: the position of {wanted}", ran.register("I1"), place
                yield from times(ran, N=n, S=found, C=looks, R=rounds, H=all_looks % 2)
    yield from adapting(run, draw)


def adapting(run, draw):
    for n, m in ((8, 12), (1, 4), (2, 9), (12, 60)):
        keys = draw.sample(range(1, 100), n)
        row, table, looks, hits, moves = [draw.choice([*keys, 100]) for _ in range(m)], list(keys), 0, 0, 0
        for wanted in row:
            place = table.index(wanted) if wanted in table else -1
            looks, hits = looks + n - place, hits + (place >= 0)
            if 0 <= place < n - 1:
                table[place : place + 2] = table[place : place + 2][::-1]
                moves += 1
        ran = run("adapting.mixal", N=n, M=m, data={"data": keys, "row": row}, script=[*RUN, "show values KEY+1 KEY+N"])
        yield f"the table after {m} searches", ran.numbers("show values KEY+1 KEY+N"), table
        yield from times(ran, M=m, C=looks, F=hits, X=moves)


def binary_search(run):
    for n in (1, 2, 3, 10, 16, 31):
        keys = [10 * k for k in range(1, n + 1)]
        halves = [(n + 2 ** (j - 1)) // 2**j for j in range(1, n.bit_length() + 3)]
        halves = halves[: halves.index(0) + 1]
        looks = {}
        for wanted in range(5, 10 * n + 6, 5):
            ran = run(N=n, WANTED=wanted, data=keys, script=[*RUN, "show values"])
            place = wanted // 10 if wanted % 10 == 0 else 0
            yield f"the position of {wanted}", ran.register("I3"), place
            found = measured(ran, "CD")
            looks.setdefault(place > 0, []).append(found["C"])
            yield from times(ran, N=n, S=int(place > 0), **found)
            ran = run("answer.mixal", N=n, WANTED=wanted, data={"data": keys, "halves": halves}, script=[*RUN, "show values"])
            yield f"the position of {wanted} by halves", ran.register("I1"), place
            yield from times(ran, N=n, S=int(place > 0), **measured(ran, "CD"))
        levels = [k.bit_length() for k in range(1, n + 1)]  # the tree of the search is full but for its last level
        yield f"looks that find the keys, {n} of them", sorted(looks[True]), levels
        yield "looks for what lies between them", sum(looks[False]), sum(levels) + n


def fibonacci_moves(order, place):
    """Comparisons, moves to the left and moves to the right on the way to a place in the Fibonacci tree of an order, and whether it is there."""
    looks = left = right = 0
    while order > 1:
        looks += 1
        if place == FIBONACCI[order]:
            return looks, left, right, 1
        if place < FIBONACCI[order]:
            left, order = left + 1, order - 1
        else:
            right, place, order = right + 1, place - FIBONACCI[order], order - 2
    return looks, left, right, 0


def fibonaccian_search(run):
    for order in (4, 5, 7, 9):
        first, second, third = FIBONACCI[order], FIBONACCI[order - 1], FIBONACCI[order - 2]
        n = first + second - 1
        keys = [10 * k for k in range(1, n + 1)]
        for wanted in range(5, 10 * n + 6, 5):
            place = wanted // 10 if wanted % 10 == 0 else 0
            sizes = {"N": n, "F": first, "P": second, "Q": third, "WANTED": wanted}
            ran = run(data=keys, script=[*RUN, "show values"], **sizes)
            yield f"the position of {wanted}", ran.register("I1"), place
            looks, left, right, found = fibonacci_moves(order, place or wanted / 10)
            ends = 0 if found else int(measured(ran, "D")["D"] < left)
            yield from times(ran, N=n, S=found, C=looks, D=left - ends, U=right)


def above(keys, place):
    """The keys on the way to a key: each that came before it, with no key between the two that came before that one."""
    key = keys[place]
    return [one for at, one in enumerate(keys[:place]) if not any(min(one, key) < other < max(one, key) for other in keys[:at])]


def search_tree(run):
    draw = random.Random(622)
    tables = [[5], [3, 1, 2], list(range(1, 9)), [4, 2, 6, 1, 3, 5, 7], [2, 2, 2]]
    tables += [[draw.randrange(1, 60) for _ in range(n)] for n in (10, 40)]
    for row in tables:
        keys = list(dict.fromkeys(row))
        compared = greater = 0
        for key in row[1:]:
            way = above(keys, keys.index(key))
            compared, greater = compared + len(way), greater + sum(one < key for one in way)
        rights = sum(max(above(keys, at), key=keys.index) < key for at, key in enumerate(keys) if at)
        for name in ("lesson.mixal", "answer.mixal"):
            shows = [f"show values {part}+1 {part}+{len(keys)}" for part in ("KEY", "LEFT", "RIGHT")]
            ran = run(name, N=len(row), data=row, script=[*RUN, "show values", *shows])
            yield f"{name}: the keys, each once", ran.numbers(shows[0]), keys
            yield f"{name}: how many were there already", ran.register("I5"), len(row) - len(keys)
            parents = {}
            for part, show in zip(("LEFT", "RIGHT"), shows[1:]):
                parents.update({child: (node, part) for node, child in enumerate(ran.numbers(show), 1) if child})
            wanted = {}
            for at, key in enumerate(keys[1:], 2):
                parent = max(above(keys, at - 1), key=keys.index)  # the last that came of those on the way
                wanted[at] = (keys.index(parent) + 1, "RIGHT" if key > parent else "LEFT")
            yield f"{name}: the node above each node", parents, wanted
            yield from times(ran, N=len(row), C=compared, D=greater, F=len(row) - len(keys), I=rights)
    ran = run("answer.mixal", script=RUN)
    yield from times(ran, N=7, C=2 * 1 + 4 * 2, D=5, F=0, I=3)


def probes(keys, m):
    """How many probes these keys need in this order, and how often one goes from cell 0 to cell m - 1."""
    table, looked, rounds = [0] * m, 0, 0
    for key in keys:
        places = [(key % m - step) % m for step in range(m)]
        free = next(at for at, place in enumerate(places) if not table[place])
        looked, rounds = looked + free + 1, rounds + (free > key % m)
        table[places[free]] = key
    return looked, rounds


def hashing(run):
    draw, pi = random.Random(64), [31, 415, 926, 535, 897, 932, 384, 626]
    cases = [(11, pi), (9, pi), (3, [5]), (7, [14, 7, 21]), *((m, draw.sample(range(1, 5000), n)) for m, n in ((13, 10), (31, 30), (64, 40)))]
    for m, keys in cases:
        looked, rounds = probes(sorted(keys), m)  # the sums do not depend on the order
        for name in ("lesson.mixal", "answer.mixal"):
            ran = run(name, N=len(keys), M=m, data=keys, script=[*RUN, "show values TABLE TABLE+M-1"])
            table = ran.numbers("show values TABLE TABLE+M-1")
            yield f"{name}: the keys of the table", sorted(key for key in table if key), sorted(keys)
            free = [(key, table.index(key)) for key in keys if any(not table[(key % m - step) % m] for step in range((key % m - table.index(key)) % m))]
            yield f"{name}: keys that are not found before an empty cell", free, []
            yield from times(ran, N=len(keys), C=looked, R=rounds)
    for n, m in ((8, 8), (12, 11), (3, 3), (4, 3)):
        ran = run(N=n, M=m, data=draw.sample(range(1, 5000), n), script=["run 100000", "show values", "show values TABLE TABLE+M-1"])
        yield f"{n} keys in {m} cells: overflow", (ran.end, ran.register("I6")), ("halt", 1)
        yield "the cells that stay empty then", ran.numbers("show values TABLE TABLE+M-1").count(0), 1
    twice = run(N=5, M=7, data=[5, 12, 5, 4, 12], script=["run 10000", "show values TABLE TABLE+M-1"]).numbers("show values TABLE TABLE+M-1")
    yield "keys that come twice, each once in the table", twice, [0, 0, 0, 4, 12, 5, 0]
    both = [run(name, script=["run 10000", "show values TABLE TABLE+M-1"]).numbers("show values TABLE TABLE+M-1") for name in ("lesson.mixal", "answer.mixal")]
    yield "the cells that are taken in both orders", *([bool(key) for key in table] for table in both)


def chained(keys, m):
    """Each chain as the list of its nodes, and the letters: a key is compared with those behind its own node on its chain."""
    held, chains, last = {}, [], m + 1
    counts = dict.fromkeys("CSI", 0)
    for key in keys:
        node = key % m + 1
        if node in held:
            chain = next(one for one in chains if node in one)
            nodes = chain[chain.index(node) :]
            found = [held[at] for at in nodes]
            if key in found:
                counts["C"], counts["S"] = counts["C"] + found.index(key) + 1, counts["S"] + 1
                continue
            counts["C"], counts["I"] = counts["C"] + len(nodes), counts["I"] + 1
            node = last = max(at for at in range(1, last) if at not in held)
            chain.append(node)
        else:
            chains.append([node])
        held[node] = key
    return held, chains, {**counts, "D": m + 1 - last}


def doubly_hashed(keys, m):
    """The table of double hashing: each key in the first cell of its own row of cells that is empty."""
    table = [0] * m
    for key in keys:
        row = [(key % m - at * (1 + key % (m - 2))) % m for at in range(m)]
        if key not in table:
            table[next(cell for cell in row if not table[cell])] = key
    return table


def chaining(run):
    draw = random.Random(643)
    cases = [(11, [31, 415, 926, 535, 891, 932, 385, 626]), (3, [5, 8, 11]), (7, [14, 7, 21, 7, 3]), (5, [1])]
    cases += [(m, draw.sample(range(1, 5000), n)) for m, n in ((13, 12), (31, 30), (53, 40))]
    for m, keys in cases:
        held, chains, counts = chained(keys, m)
        links = {one: other for chain in chains for one, other in zip(chain, chain[1:])}
        ran = run(N=len(keys), M=m, data=keys, script=[*RUN, "show values KEY+1 KEY+M", "show values LINK+1 LINK+M"])
        yield "the nodes of the keys", ran.numbers("show values KEY+1 KEY+M"), [held.get(node, 0) for node in range(1, m + 1)]
        yield "the links of the chains", ran.numbers("show values LINK+1 LINK+M"), [links.get(node, 0) for node in range(1, m + 1)]
        yield from times(ran, N=len(keys), **counts)
    ran = run(N=4, M=3, data=[1, 2, 3, 4], script=["run 10000", "show values"])
    yield "no free node", (ran.end, ran.register("I6")), ("halt", 1)
