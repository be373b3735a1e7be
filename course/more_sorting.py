"""Facts of the lessons on counting, list insertion, merge exchange and radix exchange: orders by Python's sort, a network by its comparisons, parts by sizes."""
import itertools

from counting import RUN, times
from sorting import SHOW, along_links, drawn_tables, inversions, right_maxima

OWN = [50, 20, 70, 10, 40, 30, 80, 60]
TABLES = [OWN, [1, 2], [2, 1], list(range(9)), list(range(12, 0, -1)), *drawn_tables(52, (3, 16, 25))]


def hundreds(keys):
    """The lists of the keys from 0 to 99, from 100 to 199 and so on: the numbers of their keys in order."""
    order = sorted(range(1, len(keys) + 1), key=lambda k: keys[k - 1])
    return [[k for k in order if keys[k - 1] // 100 == h] for h in range(10)]


def linked(lists, n):
    """The heads of lists, and the links of the n nodes in them."""
    links = {one: other for each in lists for one, other in zip(each, [*each[1:], 0])}
    return [each[0] if each else 0 for each in lists], [links[k] for k in range(1, n + 1)]


def list_insertion(run):
    for keys in TABLES:
        n = len(keys)
        ran = run(N=n, data=keys, script=[*RUN, "show values LINK LINK+N"])
        yield f"the order of {keys}", along_links(ran, n), sorted(range(1, n + 1), key=lambda k: keys[k - 1])
        yield from times(ran, N=n, A=right_maxima(keys), B=inversions(keys))


def comparison_counting(run):
    for keys in TABLES:
        n = len(keys)
        ran = run(N=n, data=keys, script=[*RUN, "show values COUNT+1 COUNT+N"])
        before = [sum((other, k) < (key, at) for k, other in enumerate(keys)) for at, key in enumerate(keys)]
        yield f"how many come before each of {keys}", ran.numbers("show values COUNT+1 COUNT+N"), before
        yield from times(ran, N=n, B=inversions(keys))


def network(n):
    """The passes of merge exchange: of each p, and the pairs that are compared, as numbers from 0."""
    top = 1
    while 2 * top < n:
        top *= 2
    p = top
    while p:
        q, r, d = top, 0, p
        while True:
            yield p, [(i, i + d) for i in range(n - d) if i & p == r]
            if q == p:
                break
            d, q, r = q - p, q // 2, p
        p //= 2


def exchanged(keys, pairs):
    """The keys after these comparisons, and how often two of them were exchanged."""
    keys, count = list(keys), 0
    for one, other in pairs:
        if keys[one] > keys[other]:
            keys[one], keys[other], count = keys[other], keys[one], count + 1
    return keys, count


def merge_exchange(run):
    for n in range(2, 11):
        pairs = [pair for _, pass_ in network(n) for pair in pass_]
        bits = itertools.product((0, 1), repeat=n)
        yield f"the network of {n} sorts all rows of zeros and ones", all(exchanged(row, pairs)[0] == sorted(row) for row in bits), True
    for keys in TABLES:
        n, show = len(keys), f"show values KEY KEY+{len(keys) - 1}"
        ran = run(N=n, data=keys, script=[*RUN, show])
        yield f"{keys} in order", ran.numbers(show), sorted(keys)
        passes = list(network(n))
        done = sum(len(pairs) for _, pairs in passes)
        exchanges = exchanged(keys, [pair for _, pairs in passes for pair in pairs])[1]
        yield from times(ran, T=(n - 1).bit_length(), W=len(passes), C=done, S=sum(len(pairs) // p for p, pairs in passes), B=exchanges)
        ran = run("answer.mixal", N=n, data=keys, script=[*RUN, SHOW])
        yield f"{keys} by transpositions", ran.numbers(SHOW), sorted(keys)
        yield from times(ran, N=n, B=inversions(keys))


def radix_parts(keys, worth):
    """Each part of two keys or more that radix exchange begins: the keys where the zeros will be, those where the ones will be, and the worth of the digit."""
    if len(keys) > 1 and worth:
        zeros = sum(not key & worth for key in keys)
        first, second = keys[:zeros], keys[zeros:]
        yield first, second, worth
        late, early = iter([key for key in second[::-1] if not key & worth]), iter([key for key in first if key & worth])
        yield from radix_parts([next(late) if key & worth else key for key in first], worth // 2)
        yield from radix_parts([key if key & worth else next(early) for key in second[::-1]][::-1], worth // 2)


def radix_letters(keys, worth):
    found = dict.fromkeys("SMAZBEFD", 0)
    for first, second, at in radix_parts(keys, worth):
        ones = [bool(key & at) for key in second]
        more = {"S": 1, "M": len(first + second), "Z": len(first), "A": len(first) + sum(ones[:1]), "B": sum(bool(key & at) for key in first),
                "E": not ones or not ones[0] and not first[-1] & at, "F": ones[:2] == [True, True], "D": at == 1}
        found = {letter: count + more[letter] for letter, count in found.items()}
    return {**found, "P": 2 * (found["S"] - found["D"]) + 1}


def radix_exchange(run):
    for first, keys in [(32, [50, 20, 44, 10, 41, 33, 61, 26, 58, 9]), *((512, keys) for keys in TABLES)]:
        n, digits = len(keys), first.bit_length()
        ran = run(N=n, FIRST=first, data=keys, script=[*RUN, SHOW])
        yield f"{keys} in order", ran.numbers(SHOW), sorted(keys)
        letters = radix_letters(keys, first)
        yield from times(ran, N=n, **letters)
        alike = (max(digits - (key ^ other).bit_length() for at, other in enumerate(keys) if at != place) for place, key in enumerate(keys))
        yield "digits inspected: those that a key has in common with another, and one more", letters["M"], sum(min(one + 1, digits) for one in alike)
