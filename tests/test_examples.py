"""What the examples must write, by other methods than those of their programs.

The model, a second machine in Python, writes the same. Two runs over primes are long for it: their
steps and times come from how often each part of the program is done, by the times of 1.3.1. The
primes, Easter dates, an inverse, products and a sum are those of Python."""

import string

import pytest

from counting import time_of
from first_programs import is_prime
from tests import TOP
from tests.asking import change, row, written
from tests.model import bundle

EXAMPLES = TOP / "examples"
PRIMES = [n for n in range(2, 4000) if is_prime(n)][:500]


class Count:
    """Steps and time, for parts of a program that are done so many times."""

    def __init__(self, *parts):
        self.steps = self.time = 0
        for names, times in parts:
            self.done(names, times)

    def done(self, names, times=1):
        names = names.split()
        self.steps += times * len(names)
        self.time += times * sum(time_of(name) for name in names)


def parts_of_primes():
    """The parts of the program of primes, and how often each is done, by the primes alone."""
    numbers = range(5, PRIMES[-1] + 1, 2)  # each is tried by one prime after another, up to a factor, or to the first that is not below the quotient
    tries = sum(next(k for k, p in enumerate(PRIMES[1:], 1) if n % p == 0 or n // p <= p) for n in numbers)
    composites = len(numbers) - (len(PRIMES) - 2)
    return [("ENTA STA ENT1 ENT2", 1), ("INC1 ST2 CMP1 JE", 499), ("INC2 ENT3", len(numbers)), ("ENTA ENTX DIV JXZ", tries),
            ("CMPA JLE", tries - composites), ("INC3 JMP", tries - len(numbers)), ("IOC OUT ENT1", 1), ("JBUS ENT2 ENT3", 50),
            ("LDA CHAR STX INC2 INC3 CMP3 JL", 500), ("OUT INC1 CMP1 JLE", 50), ("HLT", 1)]


def primes():
    count = Count(*parts_of_primes())
    rows = ["> %PAGE", row("PRIMES FROM 2 TO 3571")]
    rows += [row("".join(" %04d" % PRIMES[first + 50 * column] for column in range(10))) for first in range(50)]
    return ["ran %d to 0136 clock %d: halt" % (count.steps, count.time), "unit 18 place 0 blocks 0 output 52"] + rows + \
        ["back %d to 0100 clock 0" % count.steps, "unit 18 place 0 blocks 0 output 0"]


def counts_of_primes():
    """How often each instruction is done; the lines are those of the source."""
    source = (EXAMPLES / "12_counts_of_primes.mixal").read_text().split("%SCRIPT\n")[0].splitlines()
    first = next(at for at, line in enumerate(source, 1) if line.startswith("START "))
    parts = parts_of_primes()
    lines, total = [], Count(*parts)
    for k, part in enumerate((name, times) for names, times in parts for name in names.split()):
        count = Count(part)
        lines.append("%10d  %10d  %04d  %5d  %s" % (count.steps, count.time, 100 + k, first + k, source[first - 1 + k]))
    printed = Count(("ST2 CMP1 JE", 1), *parts[6:])  # from the ST2 of the last prime on
    return ["ran %d to 0136 clock %d: halt" % (total.steps, total.time)] + lines + ["%10d  %10d  total" % (total.steps, total.time)] + \
        [change(total.steps - printed.steps + 1, 105, "ST2 999,1", 2, "1499 %s -> %s" % (written(0), written(PRIMES[-1]))),
         "back %d to 0105 clock %d" % (printed.steps, total.time - printed.time)]


FACTS = {"05_primes": primes, "12_counts_of_primes": counts_of_primes}


@pytest.mark.parametrize("name", FACTS)
def test_primes(name):
    assert (EXAMPLES / f"{name}.stdout").read_text() == "".join(f"{line}\n" for line in FACTS[name]())


OTHERS = [path for path in sorted(EXAMPLES.glob("*.mixal")) if path.stem not in FACTS]


@pytest.mark.parametrize("path", OTHERS, ids=lambda path: path.stem)
def test_model(path):
    output, errors, _ = bundle.run(path.read_bytes())
    assert (output, errors) == (path.with_suffix(".stdout").read_bytes(), b"")


def product_of(factors):
    """The cycles of the product of some cycles, from left to right; letters that stay have none."""
    product, found = {}, []
    for letter in string.ascii_uppercase:
        image = letter
        for factor in factors:
            if image in factor:
                image = factor[(factor.index(image) + 1) % len(factor)]
        product[letter] = image
    for letter, image in product.items():
        if image != letter and letter not in "".join(found):
            found.append(letter)
            while product[found[-1][-1]] != letter:
                found[-1] += product[found[-1][-1]]
    return found


def easter():
    """The dates by the rule of Meeus, Jones and Butcher."""
    for year in range(1950, 2001):
        a, (b, c) = year % 19, divmod(year, 100)
        h = (19 * a + b - b // 4 - (b - (b + 8) // 25 + 1) // 3 + 15) % 30
        el = (32 + 2 * (b % 4) + 2 * (c // 4) - h - c % 4) % 7
        month, day = divmod(h + el - 7 * ((a + 11 * h + 22 * el) // 451) + 114, 31)
        yield row("%s %02d, %d" % ("MARCH" if month == 3 else "APRIL", day + 1, year))


CYCLES = product_of("AHC BEDG FC GHE DFCA".split())
TABLE = [4, 8, 1, 9, 5, 2, 7, 3, 6]
PRICES = {"FLOUR": 120, "SUGAR": 95, "COFFEE": 283}
BILL = [*PRICES.items(), ("IN ALL", sum(PRICES.values()))]
RESULTS = {
    "04_largest": [f"A  {written(max(31, 41, 59, 26, 53, 58, 97, 93, 23, 84))}"],
    "06_cycles": [row("".join(f"({cycle})" for cycle in CYCLES))],
    "07_inverse": [f"{99 + m:04d} {written(TABLE.index(m) + 1)}" for m in range(1, 10)],
    "08_easter": [*easter()],
    "09_bill": [row(f"{price:05d} {name}") for name, price in BILL],
    "11_who_wrote_it": [f'0116 {written(n * 5)}{n * 5:12d}  "    {c}"' for n, c in ((6, 0), (7, 5))],
}


@pytest.mark.parametrize("name", RESULTS)
def test_result(name):
    """The lines with the results, each one first in their order."""
    lines, wanted = (EXAMPLES / f"{name}.stdout").read_text().splitlines(), RESULTS[name]
    assert [line for line in dict.fromkeys(lines) if line in wanted] == wanted
