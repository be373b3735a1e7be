"""Facts of the lessons of 2.2: queues, orders, polynomials and waiting people by Python's lists, dictionaries and closed formulas."""
import itertools
import random

from counting import RUN, times


def queued(operations, room):
    """What is removed from a queue with room for so many; how often it overflows and underflows, and overflows where the rear goes to the first cell."""
    waiting, out, over, under, vain = [], [], 0, 0, 0
    for number in operations:
        if number and len(waiting) < room:
            waiting.append(number)
        elif number:
            over, vain = over + 1, vain + ((len(out) + len(waiting)) % (room + 1) == room)
        elif waiting:
            out.append(waiting.pop(0))
        else:
            under += 1
    return out, over, under, vain


def queue(run):
    draw = random.Random(222)
    cases = [(4, [11, 12, 0, 13, 14, 15, 0, 0, 16, 0, 0, 0]), (2, [5, 6, 0, 0, 7]), (3, [0]), (5, [])]
    cases += [(room, [draw.choice([0, 0, 0, 21 + k, 61 + k]) for k in range(40)]) for room in (2, 3, 5, 9)]
    for places, operations in cases:
        out, over, under, vain = queued(operations, places - 1)
        put, tried = sum(map(bool, operations)) - over, sum(map(bool, operations))
        show, taken = f"show values TAKEN+1 TAKEN+{len(out) + 1}", operations.count(0)
        ran = run(M=places, data=[*operations, -1], script=[*RUN, show, "show values"])
        yield f"what is removed from {places} cells", ran.numbers(show), [*out, 0]
        yield "overflows and underflows", ran.register("I6"), over + under
        yield from times(ran, I=tried, D=taken, O=over, U=under, A=put // places + vain, B=len(out) // places)


def descendants(relations, things):
    """Of each thing all that come after it, by Warshall's closure."""
    after = {thing: {k for j, k in relations if j == thing} for thing in things}
    for middle, thing in itertools.product(things, things):
        after[thing] |= after[middle] if middle in after[thing] else set()
    return after


def topological_sort(run):
    draw = random.Random(223)
    own = [(2, 9), (7, 2), (1, 4), (4, 6), (7, 4), (9, 3), (6, 3), (2, 5), (5, 8), (3, 8)]
    cases = [(9, own), (9, [(3, 9), *own[1:]]), (3, [(2, 1), (1, 2), (2, 3)]), (4, [(3, 2)])]
    for n, m in ((20, 30), (40, 150)):
        row = draw.sample(range(1, n + 1), n)
        cases.append((n, [tuple(row[at] for at in sorted(draw.sample(range(n), 2))) for _ in range(m)]))
    for n, relations in cases:
        things, after = range(1, n + 1), descendants(relations, range(1, n + 1))
        turning = {thing for thing in things if thing in after[thing]}
        left = {thing for thing in things if thing in turning or any(thing in after[one] for one in turning)}
        for name in ("lesson.mixal", "answer.mixal"):
            ran = run(name, N=n, M=len(relations), data=[f"        CON  {j}(1:2),{k}(4:5)" for j, k in relations],
                      script=[*RUN, "show values ROW+1 ROW+N", *(["show values LEFT+1 LEFT+N"] if name == "answer.mixal" else [])])
            row = [thing for thing in ran.numbers("show values ROW+1 ROW+N") if thing]
            yield f"{name}: what comes into the row", sorted(row), sorted(set(things) - left)
            place = {thing: at for at, thing in enumerate(row)}
            yield f"{name}: relations that the row does not keep", [(j, k) for j, k in relations if j in place and k in place and place[j] > place[k]], []
            if name == "answer.mixal":
                yield "what is left over", {thing for thing in ran.numbers("show values LEFT+1 LEFT+N") if thing}, left
            else:
                first = set(things) - {k for _, k in relations}
                yield from times(ran, N=n, M=len(relations), Z=len(first), L=len(row), E=sum(j in place for j, _ in relations))


def list_lines(name, terms):
    """A polynomial as a circular list: the head and then the terms, those of larger exponents first."""
    exponents = sorted(terms, reverse=True)
    lines = []
    for at, one in enumerate([None, *exponents]):
        following = f"{name}+{2 * (at + 1)}" if at < len(exponents) else name
        lines.append(f"        CON  {terms.get(one, 0)}")
        lines.append(f"        CON  {'-1(0:3)' if one is None else '%d(1:1),%d(2:2),%d(3:3)' % one},{following}(4:5)")
    return lines


def linked(words, first, last):
    """The locations of the two-word nodes from the first on, up to the link that ends the list; a list that does not end is at fault."""
    places = []
    while first != last:
        if first in places:
            raise ValueError(f"the list comes back to {first}")
        places.append(first)
        first = link_of(words, first)
    return places


def link_of(words, place):
    return words[place + 1][1][3] * 64 + words[place + 1][1][4]


def polynomial_at(words, head):
    """The terms of the list behind a head: exponents and coefficient of each."""
    numbers = {place: sign * sum(byte * 64 ** (4 - k) for k, byte in enumerate(bytes)) for place, (sign, bytes) in words.items()}
    return [(tuple(words[place + 1][1][:3]), numbers[place]) for place in linked(words, link_of(words, head), head)]


def polynomials(run):
    draw = random.Random(224)
    cases = [({(1, 0, 0): 2, (0, 1, 0): 3, (0, 0, 0): 5}, {(1, 1, 0): 1, (0, 1, 0): -1, (0, 0, 0): -5}), ({}, {(0, 0, 0): 7}), ({(5, 0, 0): 3}, {}),
             ({(1, 1, 1): 4, (0, 0, 0): -4}, {(1, 1, 1): -4, (0, 0, 0): 4})]
    for _ in range(6):
        cases.append(tuple({tuple(draw.choices(range(3), k=3)): draw.choice([-2, -1, 1, 2]) for _ in range(draw.randrange(14))} for _ in range(2)))
    for p, q in cases:
        total = {one: p.get(one, 0) + q.get(one, 0) for one in {**p, **q}}
        both = set(p) & set(q)
        gone = sum(total[one] == 0 for one in both)
        for name in ("lesson.mixal", "answer.mixal"):
            ran = run(name, K=20, data={"p": list_lines("P", p), "q": list_lines("Q", q)}, script=[*RUN, "show cells P POOL+40", "show values"])
            words = ran.words("show cells P POOL+40")
            yield f"{name}: the sum", polynomial_at(words, 1100), [(one, total[one]) for one in sorted(total, reverse=True) if total[one]]
            given = len(p) + 1 if name == "answer.mixal" else 0
            free = linked(words, ran.register("I6"), 0)
            yield f"{name}: free terms", len(free), 20 - len(set(p) - both) + gone + given
            if name == "lesson.mixal":
                yield from times(ran, K=20, A=len(both) - gone, B=gone, C=len(set(p) - both), D=len(set(q) - both))
    for name in ("lesson.mixal", "answer.mixal"):
        for room, terms in ((1, 2), (2, 2), (1, 3), (3, 3)):
            p = {(k, 0, 0): k for k in range(1, terms + 1)}
            ran = run(name, K=room, data={"p": list_lines("P", p), "q": list_lines("Q", {})}, script=[*RUN, "show values", "show values 0 1"])
            yield f"{name}: overflow with {terms} new terms and room for {room}", ran.register("I5") == 1, terms > room
            yield f"{name}: the cells of link 0 stay", ran.numbers("show values 0 1"), [0, 0]


def served(comes, needs, clerks):
    """When each is served by so many clerks."""
    free, begins = [0] * clerks, []
    for come, need in zip(comes, needs):
        free.sort()
        begins.append(max(come, free[0]))
        free[0] = begins[-1] + need
    return begins


def counter(run):
    draw = random.Random(225)
    cases = [([3, 5, 6, 20, 21], [4, 6, 1, 3, 5]), ([1], [9]), ([1, 2, 3], [5, 5, 5]), ([0, 4, 8, 12], [4, 4, 4, 1])]
    cases += [(sorted(draw.sample(range(200), 25)), [draw.randrange(1, 15) for _ in range(25)]) for _ in range(3)]
    for comes, needs in cases:
        begins = served(comes, needs, 1)
        ends, n, show = [begin + need for begin, need in zip(begins, needs)], len(comes), "show values BEGINS+1 BEGINS+N"
        ran = run(N=n, data={"comes": comes, "needs": needs}, script=[*RUN, show])
        yield "when each is served", ran.numbers(show), begins
        passed = sum(begin < come <= end for begin, end in zip(begins, ends) for come in comes)
        last = 1 + sum(all(come <= end for come in comes) for end in ends)
        yield from times(ran, N=n, S=passed, V=last, W=sum(come <= end for come, end in zip(comes[1:], ends)))


def removed(orders):
    """What is removed in turn, how often a node is compared, how many orders find none, and the row that is left, from left to right."""
    row, gone, compared, missed = [], [], 0, 0
    for order in orders:
        if order > 0:
            row.append(order)
        elif -order in row:
            compared += row.index(-order) + 1
            row.remove(-order)
            gone.append(-order)
        else:
            compared, missed = compared + len(row) + 1, missed + 1
    return gone, compared, missed, row


def moved_to_the_left(orders):
    """The row from left to right, if an order -k moves k to its left end."""
    row = []
    for order in orders:
        if order > 0:
            row.append(order)
        elif -order in row:
            row.remove(-order)
            row.insert(0, -order)
    return row


def double_links(run):
    draw = random.Random(225)
    lists = [[11, 22, 33, -22, 44, -11, 55, -99], [5, -5, 6, -6], [-1], [1, 2, 3, -3, -2, -1, 4]]
    for size in (10, 30):
        names = draw.sample(range(1, 4000), size)
        lists.append([*names[: size // 2], *(draw.choice([-draw.choice(names), -names[at]]) for at in range(size // 2)), *names[size // 2 :]])
    for orders in lists:
        gone, compared, missed, row = removed(orders)
        inserted = sum(order > 0 for order in orders)
        show = f"show values GONE GONE+{max(len(gone), 1)}"
        ran = run(M=inserted + 2, data=[*orders, 0], script=[*RUN, show])
        yield "what is removed, in its order", ran.numbers(show)[1 : len(gone) + 1], gone
        yield from times(ran, M=inserted + 2, I=inserted, D=len(orders) - inserted, E=missed, C=compared)
