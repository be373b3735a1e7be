"""Facts of the lessons on numbers and squares: magic squares by their sums, saddle points by lists, long numbers and digits by Python's integers."""
import random

from counting import RUN, times

WORD = 64**5


def magic(run):
    for n in (3, 5, 7, 11):
        ran = run(N=n, script=[*RUN, f"show values SQUARE SQUARE+{n * n - 1}"])
        numbers = ran.numbers()
        rows = [numbers[at : at + n] for at in range(0, n * n, n)]
        yield f"the numbers in the square of order {n}", sorted(numbers), list(range(1, n * n + 1))
        yield "the sums of rows, columns and diagonals", sums_of(rows), {n * (n * n + 1) // 2}
        yield "the number above the middle", rows[n // 2 - 1][n // 2], n * n
        yield from times(ran, N=n)


def sums_of(rows):
    """The sums of the rows, the columns and the diagonals of a square."""
    diagonals = [[row[at] for at, row in enumerate(rows)], [row[-1 - at] for at, row in enumerate(rows)]]
    return {sum(line) for line in (*rows, *zip(*rows), *diagonals)}


def generated(x, count):
    """The numbers after x."""
    for _ in range(count):
        x = (314159269 * x + 226908347) % WORD
        yield x


def permuted(seed, n):
    """The numbers 1 to n, of which each is exchanged with one that is no later, the last first."""
    table = list(range(1, n + 1))
    for j, x in zip(range(n, 1, -1), generated(seed, n)):
        k = j * x // WORD
        table[k], table[j - 1] = table[j - 1], table[k]
    return table


def random_numbers(run):
    for n, faces in ((60, 6), (1, 6), (500, 2), (300, 20)):
        ran = run(N=n, FACES=faces, script=[*RUN, f"show values TALLY+1 TALLY+{faces}"])
        thrown = [faces * x // WORD for x in generated(12345, n)]
        yield f"how often each of {faces} faces came", ran.numbers(), [thrown.count(face) for face in range(faces)]
        yield from times(ran, N=n)
    period = [x % 64 for x in generated(12345, 192)]
    yield "byte 5 comes back after 64 numbers, and each byte is among them", (period[:64] == period[64:128], len(set(period))), (True, 64)


def words_of(number, size):
    """The words of a long number, the highest first."""
    return [number // WORD**at % WORD for at in range(size - 1, -1, -1)]


def multiple_precision(run):
    draw = random.Random(431)
    pairs = [(3, [12, WORD - 1, 10**9], [30, 0, 10**8])]
    pairs += [(n, *([draw.choice((0, 1, WORD - 1, draw.randrange(WORD))) for _ in range(n)] for _ in "uv")) for n in (1, 2, 5, 20)]
    for n, u, v in pairs:
        whole = [sum(word * WORD ** (n - 1 - at) for at, word in enumerate(words)) for words in (u, v)]
        ran = run(N=n, data={"u": u, "v": v}, script=[*RUN, f"show values W W+{n}"])
        yield "the sum", ran.numbers(), words_of(sum(whole), n + 1)
        carries = [sum(number % WORD**at for number in whole) >= WORD**at for at in range(n)]
        first = sum(word + carry >= WORD for word, carry in zip(u[::-1], carries))
        yield from times(ran, N=n, A=first, B=sum(carries[1:]) + (sum(whole) >= WORD**n) - first)


def digits_of(number, base):
    return digits_of(number // base, base) + [number % base] if number >= base else [number]


def radix_conversion(run):
    for number, base in ((1938, 8), (0, 10), (WORD - 1, 10), (WORD - 1, 4000), (255, 16), (720, 12)):
        digits = digits_of(number, base)
        set_number = lambda bundle, number=number: bundle.change_instruction("CON 1938", f"CON {number}")
        ran = run(BASE=base, mend=set_number, script=[*RUN, "show values DIGIT+1 DIGIT+K"])
        yield f"{number} to the base {base}", ran.numbers("show values DIGIT+1 DIGIT+K"), [0] * (10 - len(digits)) + digits
        yield from times(ran, D=len(digits))


def saddle_points(rows):
    """Their numbers, the last one first."""
    n = len(rows[0])
    found = [at * n + j + 1 for at, row in enumerate(rows) for j, one in enumerate(row) if one == min(row) == max(other[j] for other in rows)]
    return found[::-1]


def letters(rows):
    """How often a new largest or smallest element is found, from below and from the right; and what is looked at until the first saddle point."""
    points, n, counts = saddle_points(rows), len(rows[0]), dict.fromkeys("SKE", 0)
    larger = sum(one > max(column[at + 1 :]) for column in zip(*rows) for at, one in enumerate(column[:-1]))
    last = (points[0] - 1) // n if points else 0
    for row in rows[last:]:
        counts["S"] += sum(one < min(row[at + 1 :]) for at, one in enumerate(row[:-1]))
        counts["K"], counts["E"] = counts["K"] + n, counts["E"] + row.count(min(row))
    if points:
        left = rows[last][: (points[0] - 1) % n]  # these are not looked at
        counts["K"], counts["E"] = counts["K"] - len(left), counts["E"] - left.count(min(rows[last]))
    return {**counts, "M": len(rows), "N": n, "L": larger, "R": len(rows) - last, "F": bool(points)}


def saddle_point(run):
    draw = random.Random(13210)
    matrices = [[[8, 6, 9, 7], [3, 5, 8, 2], [9, 7, 8, 9], [5, 1, 9, 6]], [[9, 7, 9, 7], [3, 5, 8, 2], [9, 7, 8, 9], [5, 1, 9, 6]], [[1, 1], [1, 1]], [[5]]]
    matrices += [[[draw.randrange(1, most) for _ in range(n)] for _ in range(m)] for m, n, most in ((3, 5, 3), (6, 2, 4), (9, 8, 99), (5, 5, 3), (4, 1, 9), (1, 4, 9))]
    for rows in matrices:
        points, size = saddle_points(rows), {"M": len(rows), "N": len(rows[0])}
        ran = run(data=sum(rows, []), script=[*RUN, "show values"], **size)
        yield f"a saddle point of {rows}", ran.register("I3"), (points or [0])[0]
        yield from times(ran, **letters(rows))
