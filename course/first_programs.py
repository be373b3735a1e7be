"""Facts of the lessons of 1.1 and 1.3.1 to 1.3.2, by Python's own numbers, lists and divisions."""
import fractions
import itertools
import math
import random

from counting import RUN, measured, times
from sorting import right_maxima


def degrees(run):
    for celsius in (37, 0, 100, -40, -7, 12345):
        ran = run(script=[f"set cell CELSIUS {celsius}", *RUN, "show values CELSIUS REMAIN", "back until X", "show values"])
        quotient, remainder = divmod(abs(9 * celsius), 5)
        sign = -1 if celsius < 0 else 1
        wanted = [celsius, sign * quotient + 32, sign * remainder]
        yield f"{celsius} degrees in Fahrenheit, and the fifths left over", ran.numbers("show values CELSIUS REMAIN"), wanted
        yield f"how the run of {celsius} ends", ran.end, "halt"
        yield f"the lower half of the product of {celsius}", ran.register("X"), 9 * celsius


def fields(run):
    for day, month, year in ((24, 11, 1938), (1, 1, 1), (31, 12, 4094)):
        put = f"set cell DATE {day}(1:1),{month}(2:2),{year}(4:5)"
        ran = run(script=[put, "run 100", "show cells DATE DATE", "show values DAY YEAR"])
        moved = "- %02d 01 00 %02d %02d" % (day, *divmod(year + 1, 64))
        yield "the date moved on", ran.lines("show cells DATE DATE")[0][5:], moved
        yield "its parts before, and how the run ends", (ran.numbers("show values DAY YEAR"), ran.end), ([day, month, year], "halt")


def reversal(run):
    for n in (1, 2, 3, 7, 10, 31):
        table = [100 + 7 * k for k in range(n)]
        for name in ("lesson.mixal", "answer.mixal"):
            ran = run(name, N=n, data=table, script=[*RUN, "show values TABLE+1 TABLE+N"])
            yield f"{name}, {n} entries reversed", ran.numbers(), table[::-1]
            yield from times(ran, N=n)


def rotation(run):
    for n, k in ((7, 2), (7, 1), (7, 6), (12, 5), (2, 1)):
        table = [100 + 7 * m for m in range(n)]
        for name, by in (("lesson.mixal", k), ("answer.mixal", n - k)):
            ran = run(name, N=n, K=k, data=table, script=[*RUN, "show values TABLE+1 TABLE+N"])
            yield f"{name}, {n} entries moved by {k}", ran.numbers(), table[by:] + table[:by]
            yield from times(ran, N=n, B=k // 2 + (n - k) // 2 + n // 2)


def maximum(run):
    tables = [[31, 41, 59, 26, 53, 58, 97, 93, 23, 84], [5], [2, 1], [1, 2], [7, 7, 7], list(range(1, 31)), list(range(30, 0, -1))]
    for table in tables:
        more, less = right_maxima(table), right_maxima([-entry for entry in table])
        place = len(table) - table[::-1].index(max(table))
        ran = run(N=len(table), data=table, script=[*RUN, "show values"])
        yield "the largest entry and its position", (ran.register("A"), ran.register("I2")), (max(table), place)
        yield from times(ran, N=len(table), A=more)
        ran = run("answer.mixal", N=len(table), data=table, script=[*RUN, "show values"])
        yield "the largest and the smallest", (ran.register("A"), ran.register("X")), (max(table), min(table))
        yield from times(ran, N=len(table), A=more, B=less)
    found = 0
    for table in itertools.permutations(range(1, 5)):
        ran = run(N=4, data=table, script=RUN)
        found += measured(ran, "A")["A"]
    harmonic = sum(math.factorial(4) // k for k in range(1, 5))  # 4! times the sum of 1/k
    yield "new largest entries in all orders of four: 4! times (H(4) - 1)", found, harmonic - math.factorial(4)


def is_prime(n):
    return n > 1 and all(n % d for d in range(2, math.isqrt(n) + 1))


def factors(n):
    return [p for p in range(2, n + 1) if is_prime(p) and n % p == 0]


def sieve(run):
    for n in (100, 4, 25, 400, 3, 1000):
        root, primes = math.isqrt(n), [p for p in range(2, n + 1) if is_prime(p)]
        small = [p for p in primes if p <= root]
        struck = sum(n // p - p + 1 for p in small)
        listed, cells = f"show values PRIMES+1 PRIMES+{len(primes)}", f"show values TABLE+2 TABLE+{n}"
        ran = run(N=n, script=[*RUN, listed, cells])
        yield f"the primes up to {n}", ran.numbers(listed), primes
        last = [max([p for p in factors(k) if p * p <= k], default=0) for k in range(2, n + 1)]
        yield "who struck out last: the largest factor whose square is no larger", ran.numbers(cells), last
        yield from times(ran, N=n, R=root - 1, Q=len(small), S=struck, P=len(primes))


def eliminated(n, m):
    """The order in which the men of a circle are taken, each m-th."""
    men, order, at = list(range(1, n + 1)), [], 0
    while men:
        at = (at + m - 1) % len(men)
        order.append(men.pop(at))
    return order


def josephus(run):
    for n, m in ((10, 3), (8, 4), (24, 11), (5, 1), (2, 2), (41, 3)):
        order = eliminated(n, m)
        ran = run(N=n, M=m, script=[*RUN, "show values ORDER+1 ORDER+N"])
        yield f"the order of {n} men, each {m}-th", ran.numbers(), order
        yield from times(ran, N=n, M=m)
        ran = run("answer.mixal", N=n, M=m, script=[*RUN, "show values LAST LAST"])
        yield "the last man", ran.numbers("show values LAST LAST"), order[-1:]
        yield from times(ran, N=n)


def largest_sum(before, number):
    """The largest number that fits into a word, if each is the sum of the two before it, and its index."""
    index = 2
    while before + number < 64**5:
        before, number, index = number, before + number, index + 1
    return [number, index]


def overflow(run):
    draw = random.Random(130)
    tables = [[900000000, 400000000, 700000000, 5, 1000000000, 60000000], [7], [64**5 - 1, 1], [64**5 - 1] * 9]
    tables += [[draw.randrange(64**5) for _ in range(n)] for n in (5, 20, 62)]
    for table in tables:
        n, plain = len(table), list(range(11, 11 + len(table)))
        shows = ["show values HIGH LOW", "show values DOWN DOWN+N", "show values UP+1 UP+N+1"]
        ran = run(N=n, data={"sums": table, "down": plain, "up": plain}, script=[*RUN, *shows])
        yield "the sum in two words", ran.numbers(shows[0]), list(divmod(sum(table), 64**5))
        yield "the table moved down", ran.numbers(shows[1]), [*plain, plain[-1]]
        yield "the table moved up", ran.numbers(shows[2]), [plain[0]] * (n + 1)
        yield from times(ran, N=n, C=sum(table) // 64**5)


def quotients(m, n):
    """The quotients of m and n in turn: those of the continued fraction of m over n."""
    left, found = fractions.Fraction(m, n), []
    while True:
        found.append(math.floor(left))
        if left == found[-1]:
            return found
        left = 1 / (left - found[-1])


def euclid(run):
    draw = random.Random(11)
    pairs = [(1071, 462), (462, 1071), (34, 21), (21, 34), (7, 7), (1, 9), (9, 1), (64**5 - 1, 64**4)]
    pairs += [(draw.randrange(1, 5000), draw.randrange(1, 5000)) for _ in range(6)]
    for m, n in pairs:
        put = [f"set cell M {m}", f"set cell N {n}"]
        ran = run(script=[*put, *RUN, "show values GCD GCD"])
        divisors = [d for d in range(1, min(m, n, 5000) + 1) if m % d == n % d == 0]
        yield f"the divisor of {m} and {n}", ran.numbers("show values GCD GCD"), divisors[-1:]
        yield from times(ran, T=len(quotients(m, n)))


def farey(run):
    for n in (2, 3, 7, 12, 20, 40):
        series = sorted({fractions.Fraction(x, y) for y in range(1, n + 1) for x in range(y + 1)})
        coprime = sum(math.gcd(x, y) == 1 for y in range(1, n + 1) for x in range(1, y + 1))
        shows = ["show values LAST LAST", f"show values X X+{coprime}", f"show values Y Y+{coprime}"]
        ran = run(N=n, script=[*RUN, *shows])
        yield f"the number of the last fraction of order {n}", ran.numbers(shows[0]), [coprime]
        yield f"the fractions of order {n}", [fractions.Fraction(*one) for one in zip(*(ran.numbers(show) for show in shows[1:]))], series
        yield f"in lowest terms, for {n}", ran.numbers(shows[2]), [one.denominator for one in series]
        yield from times(ran, F=coprime)


def first_hour(run):
    for dinner, tip in ((100, 15), (0, 0), (1000, -1), (3, 4)):
        put = [f"set cell DINNER {dinner}", f"set cell TIP {tip}"]
        ran = run(script=[*put, "run 100", "show values TOTAL TOTAL"])
        yield f"a dinner of {dinner} with a tip of {tip}", ran.numbers("show values TOTAL TOTAL"), [dinner + tip - 10]
    for n in (1, 2, 9, 10, 44):
        for name in ("sum.mixal", "mended.mixal", "printed.mixal", "answer.mixal"):
            after = "halt" if name != "sum.mixal" else f"fault {'M15 no cell at the location' if n < 44 else 'M6 no such field'}"
            wanted = sum(range(n, 0, -2 if name == "answer.mixal" else -1))
            ran = run(name, N=n, script=["run 10000", "show values SUM SUM", "show unit 18"])
            yield f"{name}: how the run ends for {n}", ran.end, after
            yield f"{name}: the sum for {n}", ran.numbers("show values SUM SUM"), [wanted]
            yield f"{name}: what is printed for {n}", ran.rows(18), ["%05d" % wanted] * (name == "printed.mixal")
    yield "the steps without a HLT: those to the sum, and a cell after the other", run("sum.mixal", script=["run 10000"]).steps, 2 + 3 * 10 + 1 + 4000 - 3006
