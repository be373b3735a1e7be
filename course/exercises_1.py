"""The exercises of chapter 1: what their programs must leave, by Python's own numbers, lists, texts and divisions."""
import re
from fractions import Fraction
from math import factorial, gcd, isqrt, lcm

from arithmetic import saddle_points
from cards import cards_of
from exercise import Case
from first_programs import eliminated, largest_sum
from machine import CHARACTERS
from permutations import fixed_numbers
from subroutines import traced


def second_numbers(draw, n):
    return Case({"N": n}, [sum(range(n, 0, -2))], ("SUM",))


def multiple(draw, size):
    """Numbers with a large common divisor: their product need not fit into a word, but their least multiple does, and is many times each of them."""
    one = draw.number(4 * size, 6 * size + 2) if size else 1
    other = one * draw.number(1, 6) + draw.one_of([k for k in range(1, one) if gcd(k, one) == 1]) if size else 1
    factor = draw.number(1, 64**5 // (one * other) - 1) if size else 1
    above, below, divisions = other, one, 1
    while above % below:
        above, below, divisions = below, above % below, divisions + 1
    return Case({"M": str(factor * other), "N": str(factor * one)}, [lcm(factor * other, factor * one)], ("LCM",), (f"clock <= {26 * divisions + 60}",))


def recursive_fibonacci(draw, n):
    n += draw.number(0, 2)
    one, two = 1, 1
    for _ in range(n - 1):
        one, two = two, one + two
    return Case({"N": n}, [one, 2 * one - 1], ("RESULT", "CALLS"), always=(f"FIB = {2 * one - 1}",))


def degrees(draw, size):
    """Of 8 or 17 degrees above 32 four ninths are left over, which is the most that makes no degree more; of the last two sizes more are."""
    ninths = 9 * draw.number(0, 90)
    fahrenheit = 32 + (0, 1, -1, 8 + ninths, -8 - ninths, ninths + draw.one_of((1, 3, 5, 7)), -ninths - draw.one_of((1, 3, 5, 7)))[size]
    return Case({"FAHREN": str(fahrenheit)}, [round((fahrenheit - 32) * 5 / 9)], ("RESULT",))  # a ninth is never half way


def fields(draw, size):
    day, month, year = draw.number(1, 31), draw.number(1, 12), draw.number(1, 4095)
    return Case({"DATE": f"{day}(1:1),{month}(2:2),{year}(4:5)"}, [(month * 64 + day) * 64**3 + year], ("DATE",), ("steps <= 6",))


def reversal(draw, n):
    table = draw.numbers(n, 1, 9999)
    return Case({"N": n, "data": table}, table[::-1], ("TABLE+1 TABLE+N",), (f"clock <= {11 * (n // 2) + 14}",))


def rotation(draw, n):
    """Three reversals of a part move the first and the last entry twice, if no part has one entry alone."""
    k, table = draw.number(1, n - 1), draw.distinct(n, 1, 999)
    moves = ("writes TABLE+1 = 2", "writes TABLE+N = 2") if 1 < k < n - 1 else ()
    return Case({"N": n, "K": k, "data": table}, table[-k:] + table[:-k], ("TABLE+1 TABLE+N",), always=("TURN = 3", *moves))


def extremes(draw, n):
    """An entry takes 8u, if it is compared with the smallest at all, and a little more if it is a new one."""
    table = draw.numbers(n, 1, 999)
    return Case({"N": n, "data": table}, [max(table), min(table)], ("A", "X"), (f"clock <= {8 * n + 45}",))


def smallest_factors(draw, n):
    """A prime strikes out each of its multiples from its square on in some 9u, whether that was done before or not."""
    n += draw.number(0, 9)
    wanted = [next((d for d in range(2, k) if k % d == 0), 0) for k in range(2, n + 1)]
    struck = sum(n // d - d + 1 for d in range(2, isqrt(n) + 1) if not wanted[d - 2])
    once = [f"writes TABLE+{k} = {int(wanted[k - 2] > 0)}" for k in (2, 30, 60, 90, 97, 101) if k <= n]
    return Case({"N": n}, wanted, ("TABLE+2 TABLE+N",), (f"clock <= {11 * struck + 35 * isqrt(n) + 60}",), tuple(once))


def last_man(draw, n):
    """A division for each man takes some 25u in any way; a circle takes 4u for each step along it, so more than 5 of these for each man. The last man of
    many is another one than of few."""
    last = 0
    while not last or n >= 11 and last <= n // 2:
        m = draw.number(2 if n < 11 else 7, 12)
        last = eliminated(n, m)[-1]
    return Case({"N": n, "M": m}, [last], ("LAST",), (f"clock <= {26 * n + 20}",))


def all_saddle_points(draw, n):
    """Small numbers; but for the smallest size two rows and a column of which two elements are the smallest and the largest."""
    m, j = draw.number(2, n + 1), draw.number(0, n - 1)
    rows = [draw.numbers(n, 2, 9) for _ in range(m)]
    for row in rows if n > 2 else ():
        row[:] = [max(one, 5) for one in row] if row in (rows[0], rows[-1]) else row
        row[j] = 5 if row in (rows[0], rows[-1]) else min(row[j], 5)
    points = saddle_points(rows)
    return Case({"M": m, "N": n, "data": sum(rows, [])}, [len(points), *points], ("COUNT", *(f"POINTS+{k}" for k in range(1, len(points) + 1))))


def farey_lines(draw, n):
    n += draw.number(0, 3)
    series = sorted({Fraction(x, y) for y in range(1, n + 1) for x in range(y + 1)})
    """The two fractions before a fraction give it in some 20 steps, and a line takes a dozen and waits for some 100."""
    rows = ["%05d  /  %05d" % (one.numerator, one.denominator) for one in series]
    return Case({"N": n}, rows, deck=["%UNIT 18 delay 100"], steps=150 * len(rows) + 200, strict=True)


def fixed_points(draw, n):
    return Case({"N": n}, fixed_numbers(n), ("TALLY TALLY+N",), always=(f"COUNT = {factorial(n)}",))


def longest_inverse(draw, size):
    n = draw.number(5, 12)
    return Case({"N": n, "data": [n, *range(1, n)]}, [*range(2, n + 1), 1], ("X+1 X+N",), (f"clock = {12 + 20 * n + 2 * n * (n - 1)}",), told=f"Your N is {n}.")


def three_exits(draw, n):
    """Among several there are the divisors 0 and 1, and a remainder that is not 0 and has another sign than the quotient."""
    above, below = draw.numbers(n, -500, 500), [draw.one_of([0, 1, 2, 5, draw.number(-9, -1), draw.number(10, 99)]) for _ in range(n)]
    if n > 1:
        above[0], below[:3] = 7 * draw.number(1, 60) + draw.number(1, 6), [-7, 0, 1]
    left = [(abs(one) % abs(other) * (-1 if one < 0 else 1)) if other else 0 for one, other in zip(above, below)]
    whole = sum(other != 0 and one % other == 0 for one, other in zip(above, below))
    exits = (f"REMAIN = {n}", f"NONE = {below.count(0)}", f"WHOLE = {whole}", f"OTHER = {n - whole - below.count(0)}")
    return Case({"N": n, "above": above, "below": below}, [below.count(0), whole, *left], ("I4", "I5", "REMS+1 REMS+N"), always=exits)


def swapped_text(draw, n):
    text = "".join(draw.one_of(CHARACTERS[1:40]) for _ in range(n)) + "."
    swapped = re.sub(r"([^.])([^.])", r"\2\1", text)
    digits = "".join("%02d" % CHARACTERS.index(one) for one in text)
    card = "".join(digit + " " * (draw.number(0, 3) == 0) for digit in digits)
    groups = [swapped[at : at + 4] for at in range(0, len(swapped), 4)]
    words = [sum(CHARACTERS.index(one) * 64 ** (4 - at) for at, one in enumerate(group)) for group in groups]
    joints = [limit for name in ("TAKE", "GIVE", "TAKE2", "GIVE2") for limit in (f"{name}X = {len(text)}", f"writes {name}X >= {int(n > 1)}")]
    return Case({}, words, (f"LINE LINE+{len(words) - 1}",), deck=["%UNIT 16 delay 100", card], strict=True, always=tuple(joints), rows=(" ".join(groups),))


def squares(draw, n):
    """The squares down from n; or, if n is 0, another program for the small machine, with a copy of a product on top of its stack."""
    deck = ["%UNIT 18 delay 200"]
    if n:
        n += draw.number(0, 5)
        return Case({"N": n}, ["%010d" % (k * k) for k in range(n, 0, -1)], deck=deck)
    first, second, third = draw.numbers(3, 2, 40)
    small = f"{first}(PUSH) {second}(PUSH) 0(TIMES) 0(COPY) 0(COPY) 0(PLUS) 0(PRINT) {third}(PUSH) 0(COPY) 0(PRINT) 0(PLUS) 0(PRINT) 0(STOP)".split()
    code = [f"{'CODE' if at == 0 else '':<7} NOP  {address}" for at, address in enumerate(small)]
    return Case({"code": code}, ["%010d" % number for number in (2 * first * second, third, first * second + third)], deck=deck, strict=True)


def traced_values(draw, n):
    """The program of the lesson; or, if n is 0, one that counts rA down, in steps that a traced jump repeats."""
    if n:
        n += draw.number(0, 4)
        path, given = traced(n), {"N": n}
    else:
        first, less = draw.number(5, 60), draw.number(1, 9)
        path = [(1000, 0)]
        for held in range(first, 0, -less):
            path += [(1001, held), (1002, held - less)]
        path += [(1003, path[-1][1]), (1005, path[-1][1])]
        given = {"program": [f"PROG    ENTA {first}", f"        DECA {less}", "        JAP  *-1", "        JMP  *+2", "        NOP", "        HLT"]}
    count = len(path)
    return Case(given, [number for column in zip(*path) for number in column], (f"TABLE+1 TABLE+{count}", f"VALUES+1 VALUES+{count}"))


def two_buffers(draw, n):
    """With the most cards the reader is slower than the work on a card, so each card is waited for."""
    work = draw.number(20, 120)
    numbers, delay = draw.numbers(n, 0, 99999), 20 + 2 * work + (draw.number(-20, 0) if n < 12 else draw.number(30, 80))
    waited = (n - 1) * max(0, delay - 20 - 2 * work)
    return Case({"N": n, "WORK": work}, [sum(numbers)], ("SUM",), always=(f"clock <= {delay + waited + n * (26 + 2 * work) + 12}",),
                deck=[f"%UNIT 16 delay {delay}", *("%010d" % number for number in numbers)], strict=True)


def fibonacci(draw, size):
    """A sequence in which each number is the sum of the two before; the first two are not the largest that fit, at any size."""
    first, second = (1, 1) if size == 0 else sorted(draw.numbers(2, 1, 10 ** (2 * size)))
    return Case({"FIRST": str(first), "SECOND": str(second)}, largest_sum(first, second), ("RESULT", "INDEX"))


def checked_sum(draw, n):
    """Sums that may just fit if n is even, and that do not fit if it is odd."""
    table = draw.numbers(n, *((64**5 // n + 1, 64**5 - 1) if n % 2 else (0, (64**5 - 1) // n)))
    return Case({"N": n, "data": table}, [sum(table) if sum(table) < 64**5 else -1], ("SUM",))


def punched(draw, n):
    words, first = draw.numbers(n, 1, 64**5 - 1), draw.number(100, 3000)
    return Case({"N": n, "TO": first, "data": words}, [card.rstrip() for card in cards_of(first, words)], deck=["%UNIT 17 delay 200"], unit="17", strict=True)
