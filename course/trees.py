"""Facts of the lessons on trees: orders and what is reached by recursion, threads by the order; balance by heights measured anew; tries by beginnings of words."""
import itertools
import random

from counting import RUN, times
from deleting import columns_of, subtree, way_to
from exercise import Draw


def drawn_tree(nodes, number):
    """A tree of these nodes as a dictionary: of each node its left and its right subtree, and a letter; and its root."""
    tree = {}

    def grown(names):
        if not names:
            return 0
        left = number(0, len(names) - 1)
        tree[names[0]] = (grown(names[1 : left + 1]), grown(names[left + 1 :]), number(1, 39))
        return names[0]

    return tree, grown(nodes)


def inorder(tree, node):
    return inorder(tree, tree[node][0]) + [node] + inorder(tree, tree[node][1]) if node else []


def preorder(tree, node):
    return [node] + preorder(tree, tree[node][0]) + preorder(tree, tree[node][1]) if node else []


def lines(tree):
    return ["        CON  %d(1:2),%d(3:4),%d(5:5)" % tree[node] for node in sorted(tree)]


def threads(tree, root):
    """The thread of each node without a right subtree."""
    order = inorder(tree, root)
    return {node: following for node, following in zip(order, [*order[1:], 0]) if not tree[node][1]}


def drawn_trees():
    draw = random.Random(231)
    chain = {node: (node + 1 if node < 6 else 0, 0, node) for node in range(1, 7)}
    return [({1: (0, 0, 5)}, 1), (chain, 1)] + [drawn_tree(draw.sample(range(1, n + 1), n), draw.randint) for n in (2, 3, 9, 30, 60)]


def tree_stack(run):
    for tree, root in drawn_trees():
        for name, order in (("lesson.mixal", inorder), ("answer.mixal", preorder)):
            ran = run(name, N=len(tree), ROOT=root, data=lines(tree), script=[*RUN, "show values ORDER+1 ORDER+N"])
            yield f"{name}: the letters", ran.numbers(), [tree[node][2] for node in order(tree, root)]
            yield from times(ran, N=len(tree))


def threaded(tree, root):
    """The words of a threaded tree: sign and bytes."""
    leads = threads(tree, root)
    return [(-1 if node in leads else 1, [*divmod(tree[node][0], 64), *divmod(leads.get(node, tree[node][1]), 64), tree[node][2]]) for node in sorted(tree)]


def tree_threads(run):
    show = "show values ORDER+1 ORDER+N"
    for tree, root in drawn_trees():
        data = ["        CON  %d(0:0),%d(1:1),%d(2:2),%d(3:3),%d(4:4),%d(5:5)" % (sign, *word) for sign, word in threaded(tree, root)]
        ran = run(N=len(tree), ROOT=root, data=data, script=[*RUN, show])
        yield "the letters by the threads", ran.numbers(show), [tree[node][2] for node in inorder(tree, root)]
        yield from times(ran, N=len(tree), A=sum(left > 0 for left, _, _ in tree.values()), B=sum(right > 0 for _, right, _ in tree.values()))


def reached(nodes, root):
    """The nodes that links lead to from a root, by a set that grows."""
    found, waiting = set(), [root]
    while waiting:
        node = waiting.pop()
        if node and node not in found:
            found.add(node)
            waiting += nodes[node]
    return found


def marking(run):
    draw = random.Random(235)
    own = {1: (2, 4), 2: (3, 0), 3: (1, 5), 4: (5, 2), 5: (5, 9), 6: (7, 2), 7: (6, 0), 8: (0, 8), 9: (4, 0)}
    cases = [(own, 1), ({1: (0, 0)}, 1), ({1: (1, 1)}, 1), ({k: (k + 1 if k < 9 else 0, 0) for k in range(1, 10)}, 1)]
    for n in (2, 5, 12, 40):
        cases.append(({k: (draw.choice([0, draw.randrange(1, n + 1)]), draw.choice([0, draw.randrange(1, n + 1)])) for k in range(1, n + 1)}, draw.randrange(1, n + 1)))
    for nodes, root in cases:
        n, marked = len(nodes), reached(nodes, root)
        data = ["        CON  %d(1:2),%d(3:4)" % nodes[node] for node in sorted(nodes)]
        ran = run(N=n, ROOT=root, data=data, script=[*RUN, "show cells NODE+1 NODE+N"])
        found = list(ran.words("show cells NODE+1 NODE+N").values())
        wanted = [(1, [*divmod(nodes[node][0], 64), *divmod(nodes[node][1], 64), 2 * (node in marked)]) for node in sorted(nodes)]
        yield "the nodes that are marked, and all links", found, wanted
        yield from times(ran, R=len(marked), Z=sum(nodes[node].count(0) for node in marked))


def height(tree):
    return 1 + max(height(tree[1]), height(tree[2])) if tree else 0


def lean(tree):
    return height(tree[2]) - height(tree[1])


def parts(tree, keys):
    """The subtrees between and around these keys, from left to right."""
    return [*parts(tree[1], keys), *parts(tree[2], keys)] if tree and tree[0] in keys else [tree]


def inserted(tree, key):
    """The tree with a key. At a node whose subtrees differ by two in height the first three keys on the way become a tree of height two."""
    if not tree or key == tree[0]:
        return tree or (key, None, None)
    top, left, right = tree
    tree = (top, inserted(left, key), right) if key < top else (top, left, inserted(right, key))
    if abs(lean(tree)) < 2:
        return tree
    low, middle, high = three = sorted(way_to(tree, key)[:3])
    below = parts(tree, three)
    return middle, (low, *below[:2]), (high, *below[2:])


def insertion(tree, key, counts):
    """Counts what an insertion does, by the way to the key and by the nodes on it whose subtrees differ in height."""
    way = way_to(tree, key)
    above = [one for one in way if one != key]
    counts["C"], counts["L"] = counts["C"] + len(above), counts["L"] + sum(one > key for one in above)
    uneven = [one for one in way if lean(subtree(tree, one))]
    counts["U"] += len(set(uneven) - set(way[:1]))
    if key in way:
        counts["F"] += 1
        return
    last = [way[0], *uneven][-1]
    below, right = [*way[way.index(last) + 1 :], key], key > last
    counts["I"], counts["V"], counts["W"] = counts["I"] + 1, counts["V"] + (not right), counts["W"] + len(below) - 1
    counts["X"], counts["H"] = counts["X"] + sum(one > key for one in below), counts["H"] + (not uneven)
    if uneven and right == (lean(subtree(tree, last)) > 0):
        twice = right != (key > below[0])
        counts["B" if twice else "A"] += 1
        counts["Z"] += twice and len(below) == 2
        counts["Y"] += twice and len(below) > 2 and right == (key > below[1])


def balanced_tree(run):
    draw = random.Random(623)
    cases = [[10, 20, 30, 40, 50, 35, 60, 55, 20], [5], [2, 1, 2], *map(list, itertools.permutations(range(1, 5)))]
    cases += [draw.choices(range(1, 3 * n), k=n) for n in (7, 15, 30, 60, 90)] + [list(range(1, 64))]
    for keys in cases:
        tree, counts = (keys[0], None, None), dict.fromkeys("CLUFIVWXHABZY", 0)
        for key in keys[1:]:
            insertion(tree, key, counts)
            tree = inserted(tree, key)
        nodes = list(dict.fromkeys(keys))
        root, links = columns_of(tree, nodes)
        shows = ["show values ROOT ROOT", *(f"show values {name}+1 {name}+{len(nodes)}" for name in ("KEY", "LEFT", "RIGHT", "BAL"))]
        ran = run(N=len(keys), data=keys, script=[*RUN, *shows])
        wanted = [[root], nodes, *([links[key][side] for key in nodes] for side in (0, 1)), [100 * lean(subtree(tree, key)) for key in nodes]]
        yield f"the tree of {keys}", [ran.numbers(show) for show in shows], wanted
        yield from times(ran, N=len(keys), **counts)
        data = {"left": wanted[2], "right": wanted[3], "leans": [lean(subtree(tree, key)) for key in nodes]}
        ran = run("answer.mixal", N=len(nodes), data=data, mend=lambda bundle: bundle.change_instruction("CON 3", f"CON {root}"), script=[*RUN, "show values HEIGHT HEIGHT"])
        yield "its height", ran.numbers("show values HEIGHT HEIGHT"), [height(tree)]
        yield from times(ran, H=height(tree), L=sum(lean(one) < 0 for one in higher(tree)))


def higher(tree):
    """The nodes from the root down, on the side that is higher, or on the right one."""
    while tree:
        yield tree
        tree = tree[1 if lean(tree) < 0 else 2]


def drawn_words(draw, n):
    """Words of one to five letters from A to G, half of which begin as an earlier one, or are the same."""
    words = []
    for at in range(n):
        begin = draw.one_of(words).strip()[: draw.number(1, 5)] if at % 2 else ""
        words.append(f"{begin}{''.join(draw.one_of('ABCDEFG') for _ in range(draw.number(not begin, 5 - len(begin))))}".ljust(5))
    return words


def constants_of(words):
    return [f'        ALF  "{word}"' for word in words]


def begun(words, begin):
    """The numbers of the words that begin so."""
    return [number for number, word in enumerate(words, 1) if word.startswith(begin)]


def trie_of(words, root):
    """The entries of a trie: it has a node for each beginning of two words, in the order in which the second of them came."""
    begins = {word[:length] for word in words for length in range(1, 5)}
    nodes = ["", *sorted((begin for begin in begins if begun(words, begin)[1:]), key=lambda begin: (begun(words, begin)[1], len(begin)))]
    return [root + 8 * nodes.index(begin) if begin in nodes else -sum(begun(words, begin)) for node in nodes for begin in (node + one for one in " ABCDEFG")]


def looked_at(word, words):
    """The letters of a word up to the first with which fewer than two words begin so."""
    return next(word[:length] for length in range(1, 6) if not begun(words, word[:length])[1:])


def tries(run):
    for n in (1, 2, 8, 20, 50):
        row = drawn_words(Draw("tries", str(n)), n)
        words = list(dict.fromkeys(row[: n // 2 + 1]))
        looks = [looked_at(word, words) for word in row]
        blocks = {"words": constants_of(words), "data": constants_of(row), "trie": ["        ORIG TRIE", *trie_of(words, 2000)]}
        ran = run(N=n, data=blocks, script=[*RUN, "show values PLACE+1 PLACE+N"])
        yield f"the numbers of {row}", ran.numbers(), [sum(begun(words, word)) if word in words else 0 for word in row]
        yield from times(ran, N=n, C=len("".join(looks)), W=sum(len(begun(words, look)) for look in looks), F=sum(word in words for word in row))
        words = list(dict.fromkeys(row))
        trie = trie_of(words, 2000)
        shows = ["show values PLACE+1 PLACE+N", f"show values TRIE TRIE+{len(trie) - 1}"]
        ran = run("answer.mixal", N=n, data=constants_of(row), script=[*RUN, *shows])
        yield f"the numbers that {row} get", ran.numbers(shows[0]), [words.index(word) + 1 for word in row]
        yield "the trie that grows", ran.numbers(shows[1]), trie
        looks = [looked_at(word, list(dict.fromkeys(row[:at]))) for at, word in enumerate(row, 1)]
        yield from times(ran, N=n, C=len("".join(looks)), S=len(trie) // 8 - 1, F=n - len(words))
