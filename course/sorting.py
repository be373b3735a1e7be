"""Facts of the lessons of chapter 5: orders by Python's sort, inversions and minima by pairs, averages by recurrences over all permutations."""
import itertools
import random
from fractions import Fraction
from math import factorial

from counting import RUN, count_at, measured, times

SHOW = "show values KEY+1 KEY+N"


def inversions(keys):
    return sum(one > other for one, other in itertools.combinations(keys, 2))


def left_minima(keys):
    """How many keys are smaller than all before them, not counting the first."""
    return sum(all(key < other for other in keys[:at]) for at, key in enumerate(keys) if at)


def right_maxima(keys):
    """How many keys are larger than all after them, not counting the last."""
    return sum(all(key > other for other in keys[at + 1 :]) for at, key in enumerate(keys[:-1]))


def drawn_tables(seed, sizes):
    draw = random.Random(seed)
    return [draw.sample(range(1, 1000), n) for n in sizes] + [[draw.randrange(1, 9) for _ in range(n)] for n in sizes]


def insertion(run):
    tables = [list(range(1, 9)), list(range(8, 0, -1)), *drawn_tables(521, (2, 7, 16, 40))]
    for table in tables:
        ran = run(N=len(table), data=table, script=[*RUN, SHOW])
        yield "the keys in order", ran.numbers(SHOW), sorted(table)
        yield from times(ran, N=len(table), A=right_maxima(table), B=inversions(table))
    moves = sum(measured(run(N=4, data=table, script=RUN), "B")["B"] for table in itertools.permutations(range(1, 5)))
    yield "B in all orders of four: half of the pairs of positions", moves, factorial(4) * 6 // 2
    own = [50, 20, 70, 10, 40, 30, 90, 60, 100, 80]
    yield "inversions and maxima of the lesson's keys, as its text says", (inversions(own), right_maxima(own)), (13, 1)


def passes(table, increments):
    """Left minima and inversions of the parts in all passes; each pass sorts each part."""
    minima = found = 0
    table = list(table)
    for h in increments:
        for first in range(h):
            minima, found = minima + left_minima(table[first::h]), found + inversions(table[first::h])
            table[first::h] = sorted(table[first::h])
    return {"T": len(increments), "S": sum(increments), "A": minima, "B": found}


def shell(run):
    own = [46, 9, 33, 58, 15, 3, 61, 27, 40, 52, 8, 21, 64, 36, 12, 5]
    cases = [(own, [8, 4, 2, 1]), (own, [7, 3, 1]), (own, [1]), *((table, [5, 2, 1]) for table in drawn_tables(522, (8, 30)))]
    yield "inversions of the lesson's keys, as its text says", inversions(own), 66
    for table, increments in cases:
        for name in ("lesson.mixal", "answer.mixal"):
            ran = run(name, N=len(table), T=len(increments), data={"data": table, "increments": increments}, script=[*RUN, SHOW])
            yield f"{name}: the keys in order", ran.numbers(SHOW), sorted(table)
            yield from times(ran, N=len(table), **passes(table, increments))


def quicksort_averages(n):
    """Partitions, exchanges and comparisons, on an average of all orders of n keys: a subfile of n makes two of k and n-1-k."""
    averages = [(Fraction(0),) * 3] * 2
    for m in range(2, n + 1):
        own = (Fraction(1), Fraction(m - 2, 6), Fraction(m + 1))
        averages.append(tuple(one + Fraction(2, m) * sum(part[at] for part in averages) for at, one in enumerate(own)))
    return averages[n]


def most_waiting(n):
    """How many subfiles wait at most: the larger one of each two waits, and the smaller one has less than half of the keys."""
    return 0 if n < 2 else 1 + most_waiting((n - 1) // 2)


def quicksort(run):
    tables = [[50, 20, 70, 10, 40, 30, 90, 60, 100, 80], [7], [2, 1], list(range(1, 11)), list(range(30, 0, -1)), *drawn_tables(523, (20, 60))]
    for table in tables:
        waiting = f"show values LOW+1 LOW+{most_waiting(len(table)) + 1}"
        ran = run(N=len(table), data=table, script=[*RUN, SHOW, waiting])
        yield "the keys in order", ran.numbers(SHOW), sorted(table)
        yield "the stack beyond the most that can wait", ran.numbers(waiting)[-1], 0
        yield from times(ran, N=len(table), **measured(ran, "ABCDL"))
    for n in (3, 4, 5):
        sums = dict.fromkeys("ABCD", 0)
        for table in itertools.permutations(range(1, n + 1)):
            for letter, count in measured(run(N=n, data=table, script=RUN), "ABCD").items():
                sums[letter] += count
        yield f"A, B and C+D in all orders of {n}", (sums["A"], sums["B"], sums["C"] + sums["D"]), tuple(factorial(n) * one for one in quicksort_averages(n))
    ran = run("answer.mixal", script=[*RUN, SHOW])
    found = measured(ran, "ABCD")
    yield "keys in order: a subfile of each size from 10 to 2", (found["A"], found["B"], found["C"] + found["D"]), (9, 0, sum(range(3, 12)))


def heapsort(run):
    tables = [[50, 20, 70, 10, 40, 30, 90, 60, 100, 80], [2, 1], [1, 2], list(range(1, 18)), *drawn_tables(524, (9, 16, 50))]
    for table in tables:
        n = len(table)
        ran = run(N=n, data=table, script=["run 100000 until loc HEAP", SHOW])
        heap = ran.numbers(SHOW)
        yield "positions whose key is larger than its parent", [k for k in range(2, n + 1) if heap[k // 2 - 1] < heap[k - 1]], []
        ran = run(N=n, data=table, script=[*RUN, SHOW])
        yield "the keys in order", ran.numbers(SHOW), sorted(table)
        found, sifts = measured(ran, "BI"), n // 2 + n - 1
        one_or_two = count_at(ran, "JE 2F")
        yield from times(ran, N=n, **found, S=sifts, G=sifts + found["B"] - one_or_two, E=one_or_two - count_at(ran, "CMPX KEY+1,3"))
    heaps = [tuple(run(N=5, data=table, script=["run 10000 until loc HEAP", SHOW]).numbers(SHOW)) for table in itertools.permutations(range(1, 6))]
    yield "each heap of five keys comes from as many orders: 5! over 5 times 3", {heaps.count(heap) for heap in set(heaps)}, {15}
    yield "heaps of five keys", len(set(heaps)), 120 // 15


def merges(table):
    """Comparisons, keys taken from the first list by one, and merges in which it ends first, by the largest keys of both lists."""
    waiting, compared, first, ended = [[key] for key in table], 0, 0, 0
    while len(waiting) > 1:
        one, other = waiting.pop(0), waiting.pop(0)
        of_one, of_other = sum(key <= max(other) for key in one), sum(key < max(one) for key in other)
        compared, first, ended = compared + of_one + of_other, first + of_one, ended + (max(one) <= max(other))
        waiting.append(sorted(one + other))
    return {"C": compared, "D": first, "F": ended}


def along_links(outcome, size):
    """The numbers of the keys in the order of the links, of which a negative one leads on too."""
    links, order = outcome.numbers("show values LINK LINK+N"), []
    while (at := abs(links[order[-1] if order else 0])) and len(order) <= size:
        order.append(at)
    return order


def list_merge(run):
    for table in [[50, 20, 70, 10, 40, 30, 80, 60], [2, 1], *drawn_tables(525, (3, 7, 16, 40))]:
        ran = run(N=len(table), data=table, script=[*RUN, "show values LINK LINK+N"])
        order = along_links(ran, len(table))
        yield "each key once, in order", ([table[k - 1] for k in order], sorted(order)), (sorted(table), list(range(1, len(table) + 1)))
        yield from times(ran, N=len(table), **merges(table))
    for table, order in (([50, 20, 50], [2, 3, 1]), ([7, 7, 7, 7], [1, 2, 3, 4]), ([7] * 6, [5, 6, 1, 2, 3, 4])):
        ran = run(N=len(table), data=table, script=["run 100000", "show values LINK LINK+N"])
        yield f"the order of {table}, which is stable if there are 2, 4, 8 .. keys", along_links(ran, len(table)), order
    for n in (4, 5):
        compared = sum(measured(run(N=n, data=table, script=RUN), "C")["C"] for table in itertools.permutations(range(1, n + 1)))
        sizes, average = [1] * n, Fraction(0)
        while len(sizes) > 1:
            m, k = sizes.pop(0), sizes.pop(0)
            average += Fraction(m * k, m + 1) + Fraction(m * k, k + 1)
            sizes.append(m + k)
        yield f"C in all orders of {n}", compared, factorial(n) * average


def radix(run):
    draw = random.Random(526)
    tables = [["413", "072", "998", "501", "333", "120", "047", "272"], ["000"], ["100", "100", "010"]]
    tables += [["%03d" % draw.randrange(1000) for _ in range(n)] for n in (20, 60)]
    for table in tables:
        data = ["        CON  %s(3:3),%s(4:4),%s(5:5)" % tuple(key) for key in table]
        for name, digits in (("lesson.mixal", 3), ("answer.mixal", 2)):
            ran = run(name, N=len(table), data=data, script=[*RUN, "show values LINK LINK+N"])
            wanted = sorted(range(1, len(table) + 1), key=lambda k: table[k - 1][3 - digits :])
            yield f"{name}: the keys in order, equal ones in their old order", along_links(ran, len(table)), wanted
            empty = sum(10 - len({key[2 - at] for key in table}) for at in range(digits))
            yield from times(ran, N=len(table), M=10, P=digits, E=empty)


def passes_of(keys):
    """The letters of bubble sort. A key that has b larger ones before it moves to the left in b passes; Knuth's formula for the comparisons of a pass."""
    larger = [sum(other > key for other in keys[:at]) for at, key in enumerate(keys)]
    ranks = [sorted(keys).index(key) + 1 for key in keys]
    passes = 1 + max(larger)
    compared = sum(max(b + rank for b, rank in zip(larger, ranks) if b >= one - 1) - one for one in range(1, passes + 1))
    return {"A": passes, "B": sum(larger), "C": compared}


def bubble(run):
    draw = random.Random(522)
    tables = [[40, 70, 10, 50, 20, 80, 60, 30], [1, 2], [2, 1], list(range(12, 0, -1)), list(range(9)), *(draw.sample(range(1, 999), n) for n in (3, 7, 20, 31))]
    for table in tables:
        for name in ("lesson.mixal", "answer.mixal"):
            ran = run(name, N=len(table), data=table, script=[*RUN, "show values KEY+1 KEY+N"])
            yield f"{name}: {table} sorted", ran.numbers(), sorted(table)
            larger = sum(one > max(table_at) for n in range(len(table), 1, -1) for table_at, one in rightmost(table, n))
            yield from times(ran, N=len(table), L=larger, **passes_of(table))


def rightmost(table, n):
    """Of the first n keys when selection comes to them: each key with those on its right. What is behind them is in order, by exchanges with the largest."""
    keys = list(table)
    for last in range(len(keys), n, -1):
        at = keys.index(max(keys[:last]))
        keys[at], keys[last - 1] = keys[last - 1], keys[at]
    return [(keys[at + 1 : n], keys[at]) for at in range(n - 1)]
