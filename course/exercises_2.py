"""The exercises of chapter 2: what their programs must leave, by Python's lists, dictionaries and recursion."""
from exercise import Case
from linked_lists import list_lines, moved_to_the_left, queued, served
from stacks import coded, taken
from trees import drawn_tree, inorder, lines, reached


def full_queue(draw, n):
    """The queue gets full at once, and is empty at the end; between them all may come."""
    room = draw.number(2, 6) + n // 2
    operations = [*range(11, 12 + room), *(draw.one_of((0, 100 + k)) for k in range(n)), *[0] * (room + 1)]
    out, over, under, _ = queued(operations, room)
    circle = ("writes QUEUE = 0", *(f"writes QUEUE+{k} >= 1" for k in range(1, room + 1)), f"writes QUEUE+{room + 1} = 0")
    taken = f"TAKEN+1 TAKEN+{len(out) + 1}"
    return Case({"M": room, "data": [*operations, -1]}, [over + under, *out, 0], ("I6", taken), (f"clock <= {20 * len(operations) + 40}",), circle)


def circle_left(draw, n):
    """A row of things, each before the next; the last of them comes before a circle, which leads to others. No thing and no relation takes over 35u."""
    things = draw.shuffled(range(1, n + 1))
    row, circle, after = things[: n // 3], things[n // 3 : 2 * n // 3], things[2 * n // 3 :]
    relations = [*zip(row, row[1:]), *zip(circle, [*circle[1:], circle[0]]), *((circle[-1], one) for one in after)]
    relations += [(row[-1], draw.one_of(circle))] if row else []
    left = sorted(circle + after, reverse=True)
    lines = [f"        CON  {j}(1:2),{k}(4:5)" for j, k in draw.shuffled(relations)]
    shown, limit = ("ROW+1 ROW+N", "LEFT+1 LEFT+N"), f"clock <= {35 * n + 35 * len(relations) + 60}"
    return Case({"N": n, "M": len(relations), "data": lines}, [*row, *[0] * (n - len(row)), *left, *[0] * (n - len(left))], shown, (limit,))


def given_back(draw, n):
    """P is added to Q; then its nodes come before the free ones: the first of them, and at last its head, which leads to what was free before. To follow
    all links of P takes 5u for each."""
    p, q = ({tuple(draw.numbers(3, 0, 2)): draw.one_of((-2, -1, 1, 2)) for _ in range(size)} for size in (n, draw.number(0, n)))
    free, place = [1200 + 2 * k for k in range(15, -1, -1)], {one: 1102 + 2 * at for at, one in enumerate(sorted(q, reverse=True))}
    for one in sorted(p, reverse=True):
        if one not in q:
            place[one] = free.pop(0)
        elif p[one] + q[one] == 0:
            free.insert(0, place.pop(one))
    head = -(64**2 + (free[0] if free else 0))
    first = 1002 if p else 1000
    cells, wanted = ["I6", "P+1"], [first, head]
    for one in sorted(place):
        cells, wanted = [*cells, str(place[one])], [*wanted, p.get(one, 0) + q.get(one, 0)]
    both, deleted = len(set(p) & set(q)), sum(p[one] + q.get(one, 0) == 0 for one in p)
    clock = 146 + 20 * (both - deleted) + 25 * deleted + 23 * (len(p) - both) + 8 * (len(q) - both)
    return Case({"K": 16, "p": list_lines("P", p), "q": list_lines("Q", q)}, wanted, tuple(cells), (f"clock <= {clock}",))


def two_clerks(draw, n):
    """Whole thousands, so that a clock that goes on by 1 takes too long."""
    comes, needs = [1000 * time for time in sorted(draw.distinct(n, 0, 6 * n))], [1000 * time for time in draw.numbers(n, 1, 20)]
    return Case({"N": n, "comes": comes, "needs": needs}, served(comes, needs, 2), ("BEGINS+1 BEGINS+N",))


def tree_of(draw, n):
    tree, root = drawn_tree(draw.shuffled(range(1, n + 1)), draw.number)
    return tree, root, {"N": n, "ROOT": root, "data": lines(tree)}


def preorder(draw, n):
    tree, root, given = tree_of(draw, n)
    letters, waiting = [], [root]
    while waiting:
        left, right, letter = tree[waiting.pop()]
        letters.append(letter)
        waiting += [node for node in (right, left) if node]
    return Case(given, letters, ("ORDER+1 ORDER+N",))


def threads(draw, n):
    tree, root, given = tree_of(draw, n)
    order = inorder(tree, root)
    following = dict(zip(order, [*order[1:], 0]))
    numbers = [(1 if right else -1) * ((left * 4096 + (right or following[node])) * 64 + letter) for node, (left, right, letter) in sorted(tree.items())]
    return Case(given, numbers, ("TREE+1 TREE+N",))


def free_nodes(draw, n):
    """The nodes in the cells after NODE, each with two links, 0 for none; what the root reaches, and the list of the others."""
    nodes = {k: tuple(draw.number(1, n) if draw.number(0, 1) else 0 for _ in "ab") for k in range(1, n + 1)}
    root = draw.number(1, n)
    free = [*sorted(set(nodes) - reached(nodes, root)), 0]
    links = dict(zip(free, free[1:]))
    words = [links[k] * 64**3 if k in links else nodes[k][0] * 64**3 + nodes[k][1] * 64 for k in sorted(nodes)]
    lines = [f"        CON  {left}(1:2),{right}(3:4)" for left, right in nodes.values()]
    return Case({"N": n, "ROOT": root, "data": lines}, [free[0], *words], ("AVAIL", "NODE+1 NODE+N"))


def removed_tops(draw, n):
    """Each stack gets a number, then one of them all the room that is left: first the lowest, later the highest, and then any."""
    stacks = 3 + draw.number(0, 2)
    room, orders = 2 * stacks + n, []
    for one in (0, stacks - 1, draw.number(0, stacks - 1)):
        filled = [*draw.shuffled(range(stacks)), *[one] * (room - stacks)]
        orders += [(stack, draw.number(1, 4000)) for stack in filled] + [(stack, 0) for stack in draw.shuffled([*filled, *range(stacks)])]
    bases = [1000 + k * room // stacks for k in range(stacks)] + [1000 + room]
    gone = taken(orders, stacks)
    used = ("writes 1000 = 0", *(f"writes {cell} >= 1" for cell in range(1001, 1001 + room)), f"writes {1001 + room} = 0")
    return Case({"N": stacks, "ROOM": room, "bases": bases, "data": coded(orders)}, gone, (f"TAKEN+1 TAKEN+{len(gone)}",), always=used, steps=100000)


def rows_in_both_directions(draw, n):
    names = draw.distinct(n, 1, 999)
    orders = [*names[: n // 2 + 1], *(-draw.one_of(names) for _ in range(n // 2)), *names[n // 2 + 1 :], -names[0], -names[n // 2], -1000]
    row = moved_to_the_left(orders)
    links = tuple(f"writes NODES+{2 * k - 1} >= 2" for k in range(1, n + 1))
    return Case({"M": n + 1, "data": [*orders, 0]}, [*row, *row[::-1]], (f"ROW+1 ROW+{n}", f"BACK+1 BACK+{n}"), always=links)
