"""The exercises of the lessons on numbers, on counting and lists, on Fibonaccian search and tries: what their programs must leave, by Python's own numbers."""
from arithmetic import WORD, digits_of, permuted, sums_of, words_of
from exercise import Case
from merging import beginnings, runs_of
from more_sorting import hundreds, linked, radix_parts
from permutations import drawn_formula, images_of, taken
from searching import FIBONACCI, fibonacci_moves
from trees import constants_of, drawn_words, looked_at, trie_of


def magic_or_not(draw, size):
    """A square of the order size // 10. The last digit: 0 it is magic; 1, 2 two entries of a row or a column are exchanged; 3 the diagonals alone differ."""
    n, kind = divmod(size, 10)
    rows = [[(i + j + (n + 1) // 2) % n * n + (i + 2 * j + 2) % n + 1 for j in range(n)] for i in range(n)]
    rows = [row[::-1] for row in rows] if draw.number(0, 1) else rows
    if kind == 3:
        rows = next(other for at in range(1, n) if len(sums_of(other := [*rows[at:], *rows[:at]])) > 1)
    elif kind:
        at, one, other = draw.number(0, n - 1), *draw.distinct(2, 0, n - 1)
        first, second = ((at, one), (at, other)) if kind == 1 else ((one, at), (other, at))
        rows[first[0]][first[1]], rows[second[0]][second[1]] = rows[second[0]][second[1]], rows[first[0]][first[1]]
    sums = sums_of(rows)
    return Case({"N": n, "data": sum(rows, [])}, [max(sums) if len(sums) == 1 else 0], ("SUM",))


def ten_lists(draw, n):
    keys = draw.distinct(n, 1, 999)
    heads, links = linked(hundreds(keys), n)
    passed = sum(one > other and one // 100 == other // 100 for at, one in enumerate(keys) for other in keys[at + 1 :])
    return Case({"N": n, "data": keys}, [*heads, *links], (*(f"HEAD+{h}" for h in range(10)), "LINK+1 LINK+N"), (f"clock <= {10 * passed + 45 * n + 30}",))


def any_size(draw, n):
    """The keys at both ends, one that is not there, and any. N is one less than a Fibonacci number, or the last keys are reached from behind them."""
    keys, order = sorted(draw.distinct(n, 1, 999)), next(k for k in range(2, 11) if FIBONACCI[k + 1] > n)
    wanted = {1: keys[0], 12: keys[-1], 16: keys[-1], 21: keys[0], 30: keys[-1], 31: next(key for key in range(keys[-1] - 1, 0, -1) if key not in keys)}.get(n, draw.one_of(keys))
    place = keys.index(wanted) + 1 if wanted in keys else 0
    numbers = [FIBONACCI[order - at] for at in range(3)]
    looks = fibonacci_moves(order, place or sum(key < wanted for key in keys) + 0.5)[0]
    return Case({"N": n, "WANTED": wanted, "data": keys, "numbers": numbers}, [place], ("I1",), (f"clock <= {20 + 15 * order}",), (f"LOOK = {looks}",))


def growing_trie(draw, n):
    """The letters that are looked at when a word comes depend on the words up to it; each new node takes one more comparison."""
    row, root = drawn_words(draw, n), 2000 + draw.number(0, 99)
    words = list(dict.fromkeys(row))
    trie, looked = trie_of(words, root), sum(len(looked_at(word, list(dict.fromkeys(row[:at])))) for at, word in enumerate(row, 1))
    return Case({"N": n, "TRIE": root, "data": constants_of(row)}, [*(words.index(word) + 1 for word in row), *trie],
                (*(f"PLACE+{j}" for j in range(1, n + 1)), f"TRIE TRIE+{len(trie) - 1}"), (f"clock <= {50 * n + 15 * looked + 5 * len(trie)}",))


def by_digits(draw, n):
    words = [(at % 63 + 1, draw.number(0, 9)) for at in range(n)]
    order = sorted(words, key=lambda word: word[1])
    return Case({"N": n, "data": [f"        CON  {letter}(1:1),{digit}(5:5)" for letter, digit in words]}, [letter * 64**4 + digit for letter, digit in order],
                ("SORTED+1 SORTED+N",), (f"clock <= {35 * n + 350}",), steps=100000)


def transposed(draw, n):
    """The exchanges of neighbours in N rounds; they alone alter the table."""
    keys = draw.distinct(n, 1, 999)
    table, moves = list(keys), [0] * n
    for start in range(n):
        for at in range(start % 2, n - 1, 2):
            if table[at] > table[at + 1]:
                table[at : at + 2] = table[at : at + 2][::-1]
                moves[at], moves[at + 1] = moves[at] + 1, moves[at + 1] + 1
    always = (f"COMPARE = {n * (n - 1) // 2}", *(f"writes KEY+{k} = {count}" for k, count in enumerate(moves[:9], 1)))
    return Case({"N": n, "data": keys}, sorted(keys), ("KEY+1 KEY+N",), always=always)


def kth_smallest(draw, n):
    """Of nine keys key k is the smallest that begins with a 1, of many it is in the middle."""
    first = 512 if n > 9 else 32
    keys = draw.numbers(n, 1, 2 * first - 1)
    k = draw.number(1, n) if n < 9 else n // 2 if n > 9 else min(1 + sum(key < first for key in keys), n)
    wanted = sorted(keys)[k - 1]
    inspected = [len(zeros + ones) for zeros, ones, worth in radix_parts(keys, first) if (zeros + ones)[0] // (2 * worth) == wanted // (2 * worth)]
    return Case({"N": n, "K": k, "FIRST": first, "data": keys}, [wanted], ("KTH",), (f"clock <= {18 * sum(inspected) + 60 * len(inspected) + 100}",))


def turning_runs(draw, n):
    places, keys = draw.one_of((2, 3, 4, 5)) if n < 40 else 8, draw.distinct(n, 1, 64**4 - 1)
    runs = runs_of(keys, places, turning=True)[0]
    return Case({"N": n, "P": places, "data": keys}, [*beginnings(runs), *sum(runs, [])], (*(f"BEGIN+{r}" for r in range(1, len(runs) + 1)), "OUTPUT+1 OUTPUT+N"))


def shuffled(draw, n):
    seed = draw.number(1, WORD - 1)
    return Case({"N": n, "X": str(seed)}, permuted(seed, n), ("TABLE+1 TABLE+N",))


def long_product(draw, size):
    """Words of all kinds, the first not 0; of the largest words there are carries everywhere."""
    n, m = (1, 1) if size == 0 else (draw.number(1, size), draw.number(1, size))
    u, v = ([WORD - 1 if size == 3 else draw.one_of((WORD - 1, draw.number(1, WORD - 1), 0)[: 3 if at else 2]) for at in range(count)] for count in (n, m))
    product = 1
    for words in (u, v):
        product *= sum(word * WORD**at for at, word in enumerate(words[::-1]))
    return Case({"N": n, "M": m, "u": u, "v": v}, words_of(product, n + m), ("W+1 W+N+M",), steps=200000)


def back_from_digits(draw, size):
    """Numbers that fit, and of the odd sizes numbers that do not: of 3 by the last digit alone, which no number is to the base 8."""
    base = draw.one_of((8, 10, 12)[size == 3 :]) if size < 4 else 1000
    number = WORD - 1 if size == 2 else WORD + draw.number(0, base - WORD % base - 1) if size == 3 else draw.number(1, WORD - 1) + size % 2 * WORD
    digits = digits_of(number if size else 0, base)
    return Case({"K": len(digits), "BASE": base, "data": digits}, [-1 if size % 2 else number if size else 0], ("NUMBER",))


def read_once(draw, size):
    """Cycles of up to five letters."""
    formula, data = drawn_formula(lambda length: draw.shuffled("ABCDEFGHIJKLMNOPQRSTUVWXYZ")[:length], draw.numbers(size, 1, 5) if size > 1 else [size + 1])
    return Case({"N": len(formula), "data": data}, images_of(taken(formula)), ("IMAGE+1 IMAGE+29",), (f"clock <= {25 * len(formula) + 400}",))
