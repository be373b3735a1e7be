"""Facts of the lesson on stacks that share their room: Python's lists, and what moves by the sizes of the stacks."""
import random
from fractions import Fraction

from counting import RUN, times

LOW = 1000


def pushed(orders, bases):
    """The stacks and their bases after these orders, and the letters. The last base is the end of the room."""
    stacks, bases = [[] for _ in bases[1:]], list(bases)
    counts = dict.fromkeys("IREOACDGHK", 0)
    for stack, number in orders:
        counts["I"] += 1
        if bases[stack] + len(stacks[stack]) == bases[stack + 1]:
            gaps = [k for k in range(len(stacks)) if bases[k] + len(stacks[k]) < bases[k + 1]]
            above, below = [k for k in gaps if k > stack], [k for k in gaps if k < stack]
            counts["R"] += 1
            counts["A"] += above[0] - stack if above else len(stacks) - stack
            if above:
                between = range(stack + 1, above[0] + 1)
                counts["C"], counts["D"] = counts["C"] + sum(len(stacks[k]) for k in between), counts["D"] + len(between)
                bases = [base + (k in between) for k, base in enumerate(bases)]
            else:
                counts["E"] += 1
                counts["G"] += stack - below[-1] if below else stack + 1
                between = range(below[-1] + 1 if below else stack + 1, stack + 1)
                counts["H"], counts["K"] = counts["H"] + sum(len(stacks[k]) for k in between), counts["K"] + len(between)
                bases = [base - (k in between) for k, base in enumerate(bases)]
                if not below:
                    counts["O"] += 1
                    break
        stacks[stack].append(number)
    return stacks, bases, counts


def shared(orders, bases):
    """The same by Algorithm G: a tenth of the free cells is shared equally, the others by what each stack has grown since the last time."""
    stacks, bases, olds = [[] for _ in bases[1:]], list(bases), list(bases)
    counts = dict.fromkeys("IRODCUH", 0)
    for stack, number in orders:
        counts["I"] += 1
        if bases[stack] + len(stacks[stack]) == bases[stack + 1]:
            sizes = [len(one) + (k == stack) for k, one in enumerate(stacks)]
            free, grown = bases[-1] - bases[0] - sum(sizes), [base + size - old for base, size, old in zip(bases, sizes, olds)]
            if free < 0:
                counts["O"] += 1
                break
            ends = [sum(Fraction(free, 10 * len(sizes)) + Fraction(9 * free * one, 10 * sum(grown)) for one in grown[:k]) for k in range(len(sizes))]
            news = [bases[0] + sum(sizes[:k]) + int(end) for k, end in enumerate(ends)]
            counts["R"] += 1
            for new, base, one in zip(news, bases, stacks):
                counts["D"], counts["C"] = counts["D"] + (new < base), counts["C"] + (new < base) * len(one)
                counts["U"], counts["H"] = counts["U"] + (new > base), counts["H"] + (new > base) * len(one)
            bases, olds = [*news, bases[-1]], [new + size for new, size in zip(news, sizes)]
        stacks[stack].append(number)
    return stacks, bases, counts


def coded(orders):
    return [*("        CON  %d(1:1),%d(4:5)" % (stack + 1, number) for stack, number in orders), 0]


def drawn_orders(draw, stacks, size):
    """Numbers for stacks, most of them for one or two."""
    favourites = [*range(stacks), *[draw.randrange(stacks) for _ in range(2)] * 3]
    return [(draw.choice(favourites), draw.randrange(1, 4000)) for _ in range(size)]


def taken(orders, stacks):
    """What is removed in turn, if the number 0 removes the top of a stack."""
    held, found = [[] for _ in range(stacks)], []
    for stack, number in orders:
        if number:
            held[stack].append(number)
        elif held[stack]:
            found.append(held[stack].pop())
    return found


def repacking(run):
    draw = random.Random(222)
    lesson = [(0, 11), (1, 21), (1, 22), (0, 12), (0, 13), (0, 14), (0, 15), (2, 31), (2, 32), (2, 33), (2, 34), (2, 35)]
    cases = [(3, 12, lesson), (1, 3, [(0, 1), (0, 2), (0, 3), (0, 4)]), (3, 3, [(0, 1), (0, 2), (0, 3), (1, 4)]), (3, 3, [(2, 1), (2, 2), (2, 3)])]
    cases += [(n, room, drawn_orders(draw, n, room)) for n, room in ((2, 10), (4, 16), (5, 40), (8, 60))]
    for n, room, orders in cases:
        bases = [LOW + k * room // n for k in range(n)] + [LOW + room]
        shows = [f"show values {LOW + 1} {LOW + room}", "show values TOP+1 TOP+N", "show values BASE+1 BASE+N+1"]
        for name, method in (("lesson.mixal", pushed), ("shares.mixal", shared)):
            stacks, ends, counts = method(orders, bases)
            ran = run(name, N=n, ROOM=room, data={"bases": bases, "data": coded(orders)}, script=[*RUN, *shows])
            cells, tops, found = (ran.numbers(show) for show in shows)
            yield f"{name}: bases and tops after {orders}", (found, tops), (ends, [base + len(stack) for base, stack in zip(ends, stacks)])
            yield "what the stacks hold", [cells[base - LOW : base - LOW + len(stack)] for base, stack in zip(ends, stacks)], stacks
            yield from times(ran, N=n, **counts)
