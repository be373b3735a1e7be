"""Facts of the lessons of 1.3.3: products of which each letter is followed, Stirling numbers of the first kind, numbers of fixed points, and sums
over all permutations. None of them runs through cycles as the programs do."""
import itertools
import random
import re
from fractions import Fraction
from math import comb, factorial

from counting import RUN, measured, times
from machine import CHARACTERS


def taken(formula):
    """Where the product takes each letter, in the order in which they come first."""

    def image(letter):
        for cycle in re.findall(r"\w+", formula):
            letter = (cycle + cycle[0])[cycle.index(letter) + 1] if letter in cycle else letter
        return letter

    return {letter: image(letter) for letter in formula if letter.isalpha()}


def drawn_formula(choose, sizes):
    """A formula whose cycles have these sizes, and its symbols as lines of a source."""
    formula = "".join(f"({''.join(choose(size))})" for size in sizes)
    return formula, [f'        ALF  "    {symbol}"' for symbol in formula]


def products(run):
    draw = random.Random(133)
    for sizes in ([3, 2, 3], [1], [2, 2], [9], [3, 1, 4, 1, 5], [5] * 9):
        formula, data = drawn_formula(lambda size: draw.sample("ABCDEFGHIXYZ", size), sizes)
        images, n, cycles = taken(formula), len(formula), []
        for letter in images:
            if letter not in "".join(cycles):
                cycles.append(letter)
                while (letter := images[cycles[-1][-1]]) != cycles[-1][0]:
                    cycles[-1] += letter
        wanted = "".join(f"({cycle})" for cycle in cycles)
        ran = run(N=n, data=data, script=[*RUN, f"show values CYCLES+1 CYCLES+{len(wanted) + 1}"])
        yield f"the product of {formula}", ran.numbers(), [*map(CHARACTERS.index, wanted), 0]
        letters = {"P": len(sizes), "L": sum(sizes), "U": len(cycles), "V": len(images)}
        yield from times(ran, N=n, **letters, M=len(images) * (n + 1) - sum(sizes) - sum(formula.index(cycle[0]) + 1 for cycle in cycles))
        ran = run("answer.mixal", N=n, data=data, script=[*RUN, "show values IMAGE+1 IMAGE+LETTERS"])
        yield f"the images of {formula}", ran.numbers("show values IMAGE+1 IMAGE+LETTERS"), images_of(images)
        yield from times(ran, N=n, LETTERS=29, **letters)


def images_of(images):
    return [CHARACTERS.index(images.get(CHARACTERS[code], CHARACTERS[code])) for code in range(1, 30)]


def cycle_numbers(n):
    """How many permutations of n numbers have 1 to n cycles: n comes alone, or after one of the others."""
    row = [0, 1]
    for m in range(2, n + 1):
        row = [0] + [row[k - 1] + (m - 1) * (row[k] if k < len(row) else 0) for k in range(1, m + 1)]
    return row[1:]


def fixed_numbers(n):
    """How many leave 0 to n numbers fixed: those are chosen, and all others are moved."""
    moved = [sum((-1) ** k * factorial(m) // factorial(k) for k in range(m + 1)) for m in range(n + 1)]
    return [comb(n, k) * moved[n - k] for k in range(n + 1)]


def harmonic(n):
    return sum(Fraction(1, k) for k in range(1, n + 1))


def dictionary_order(n):
    """How often the steps of the next permutation are done, by the length k of the fall at the right end."""
    of_length = {k: factorial(n) * k // factorial(k + 1) for k in range(1, n)}
    return {"F": factorial(n), "D": sum(factorial(n) // factorial(k) for k in range(1, n + 1)),
            "E": sum(factorial(n) // factorial(k + 1) * (k * (k - 1) // 2) for k in range(1, n)),
            "R": sum(count * (k // 2) for k, count in of_length.items())}


def told_of_letters(run):
    """The numbers that the table of README.md has for its letters."""
    rows = re.findall(r"^\| ([A-Z]) \| .* \| (\d+) \|$", (run.folder / "README.md").read_text(), re.M)
    return {letter: int(number) for letter, number in rows}


def cycles_counted(run):
    letters = {**dictionary_order(4), "W": factorial(4) * 5 * (harmonic(5) - 1), "C": factorial(4) * harmonic(4)}
    yield "the table of the letters", told_of_letters(run), letters
    for n in range(1, 7):
        steps = dictionary_order(n)
        ran = run(N=n, script=[*RUN, "show values TALLY+1 TALLY+N"])
        yield f"permutations of {n} by their cycles", ran.numbers("show values TALLY+1 TALLY+N"), cycle_numbers(n)
        walked = factorial(n) * (n + 1) * (harmonic(n + 1) - 1)  # from each number to one that is no larger
        yield from times(ran, N=n, **steps, W=walked, C=factorial(n) * harmonic(n))
        ran = run("answer.mixal", N=n, script=[*RUN, "show values TALLY TALLY+N"])
        yield f"permutations of {n} by their fixed numbers", ran.numbers("show values TALLY TALLY+N"), fixed_numbers(n)
        yield from times(ran, N=n, **steps)


def larger_before(images):
    """For each number, how many larger ones precede it in its cycle, back to one that is not larger; their sum."""
    found = 0
    for m in range(1, len(images) + 1):
        before = images.index(m) + 1
        while before > m:
            found, before = found + 1, images.index(before) + 1
    return found


def inverse(run):
    show, extra = "show values X+1 X+N", 0
    tables = [*itertools.permutations(range(1, 5)), (3, 6, 5, 2, 1, 4), (1,), (2, 1), (9, 8, 7, 6, 5, 4, 3, 2, 1), tuple(range(2, 21)) + (1,)]
    for images in tables:
        ran = run(N=len(images), data=images, script=[*RUN, show])
        yield f"the inverse of {images}", ran.numbers(show), [images.index(m) + 1 for m in range(1, len(images) + 1)]
        yield from times(ran, N=len(images), A=larger_before(images))
        extra += measured(ran, "A")["A"] if len(images) == 4 else 0
    yield "A in all permutations of four: 4! times (5 H(4) - 8)", extra, factorial(4) * (5 * harmonic(4) - 8)
    ran = run("answer.mixal", script=[*RUN, show])
    yield "the inverse that takes longest", ran.numbers(show), [2, 3, 4, 5, 6, 1]
    yield from times(ran, N=6, A=max(map(larger_before, itertools.permutations(range(1, 7)))))
