"""Facts of the lessons of 1.4: divisions and texts by Python's own means, the times of waiting by closed forms."""
import math
import random

from counting import RUN, count_at, times
from machine import CHARACTERS


def truncated(above, below):
    """Quotient and remainder; the remainder has the sign of the dividend."""
    quotient = abs(above) // abs(below) * (1 if (above < 0) == (below < 0) else -1)
    return quotient, above - quotient * below


def entrances_exits(run):
    quots, rems = "show values QUOTS+1 QUOTS+N", "show values REMS+1 REMS+N"
    cases = [[(17, 5), (100, 10), (5, 0), (-29, 7)], [(0, 0)], [(63, 64), (0, 9), (-8, -3), (12, -4), (1, 0), (0, 0), (1000000, 999)]]
    for pairs in cases:
        data = {"above": [above for above, _ in pairs], "below": [below for _, below in pairs]}
        found = [truncated(*pair) if pair[1] else (0, 0) for pair in pairs]
        none = sum(below == 0 for _, below in pairs)
        whole = sum(below != 0 and above % below == 0 for above, below in pairs)
        ran = run(N=len(pairs), data=data, script=[*RUN, quots, rems, "show values"])
        yield "quotients", ran.numbers(quots), [quotient for quotient, _ in found]
        yield "remainders", ran.numbers(rems), [remainder for _, remainder in found]
        yield "how many have none", ran.register("I4"), none
        yield from times(ran, N=len(pairs), Z=none)
        ran = run("answer.mixal", N=len(pairs), data=data, script=[*RUN, rems, "show values"])
        yield "remainders by the third exit", ran.numbers(rems), [remainder for _, remainder in found]
        yield "the first and the second exit", (ran.register("I4"), ran.register("I5")), (none, whole)
        yield from times(ran, N=len(pairs), Z=none, V=whole)


def moved(towers, move):
    """The towers after a move, a word of a disk, from and to; it has to be the top disk, and smaller than what it comes onto."""
    disk, source, target = move
    if towers.get(source, [])[-1:] != [disk] or any(other < disk for other in towers.get(target, [])):
        return {"a wrong move": move}
    return {**towers, source: towers[source][:-1], target: [*towers[target], disk]}


def recursion(run):
    for n in (1, 2, 3, 5, 7):
        moves, show = 2**n - 1, "show cells MOVES+1 MOVES+%d" % (2**n - 1)
        ran = run(N=n, script=[*RUN, show])
        towers = {1: list(range(n, 0, -1)), 2: [], 3: []}
        for _, (_, word) in sorted(ran.words(show).items()):
            towers = moved(towers, word[2:])
        yield f"the towers of {n} disks at the end", towers, {1: [], 2: [], 3: list(range(n, 0, -1))}
        yield from times(ran, M=moves)


def coroutines(run):
    draw = random.Random(142)
    texts = [(".", ""), ("A.", "0140"), ("AB.", "01 0240"), ("TELEGRAPH.", None), ("MIX, BY 2.", None), ("ABCDEFGH.", None)]
    texts += [("".join(draw.choices(CHARACTERS[1:40], k=draw.randrange(20, 36))) + ".", None) for _ in range(3)]
    for text, card in texts:
        codes = [digit for one in text for digit in "%02d" % CHARACTERS.index(one)]
        spread = "".join(digit + " " * (draw.random() < 0.1) for digit in codes)
        card = card or (spread if len(spread) <= 80 else "".join(codes))
        used = card.rindex("40") + 2
        ran = run(deck=["%UNIT 16", card], script=[*RUN, "show unit 18"])
        groups = " ".join(text[at : at + 4] for at in range(0, len(text), 4))
        yield f"the groups of {card}", ran.rows(18), [groups]
        yield from times(ran, T=len(text), B=card[:used].count(" "), V=math.ceil(used / 5))


# Programs for the small machine, each with what it prints; the cell of COUNT is free for them.
SMALL = [
    ("2(PUSH) 3(PUSH) 0(PLUS) 4(PUSH) 5(PUSH) 0(PLUS) 0(TIMES) 0(PRINT) 0(STOP)", [(2 + 3) * (4 + 5)]),
    ("1(PUSH) 2(PUSH) 3(PUSH) 0(PRINT) 0(PRINT) 0(PRINT) 0(STOP)", [3, 2, 1]),
    ("7(PUSH) COUNT(SAVE) 8(PUSH) COUNT(LOAD) 0(PRINT) 0(PRINT) 0(STOP)", [7, 8]),
    ("6(PUSH) 0(PUSH) CODE+5(ZERO) 9(PUSH) 0(PRINT) 0(PRINT) 0(STOP)", [6]),
    ("6(PUSH) 1(PUSH) CODE+5(ZERO) 9(PUSH) 0(PRINT) 0(PRINT) 0(STOP)", [9, 6]),
    ("5(PUSH) CODE+3(GOTO) 0(STOP) 0(PRINT) 0(STOP)", [5]),
]


def interpreter(run):
    for program, printed in SMALL:
        code = [f"{'CODE' if at == 0 else '':<7} NOP  {address}" for at, address in enumerate(program.split())]
        ran = run(data={"code": [*code, "DONE    NOP"]}, script=["run 10000", "show unit 18", "show values"])
        yield f"what is printed by {program}", ran.rows(18), ["%010d" % number for number in printed]
        yield "what is left on the stack, and how the run ends", (ran.register("I2"), ran.end), (0, "halt")
    for n in (5, 0, 1, 2, 9, 12):
        ran = run(N=n, script=[*RUN, "show unit 18"])
        yield f"the factorial of {n}", ran.rows(18), ["%010d" % math.factorial(n)]
        yield from times(ran, N=n)


def traced(n):
    """Where each instruction of the traced program is, and what rA holds before it: it adds each number from n to 1 twice, by a subroutine."""
    path, total = [(1000, 0), (1001, 0)], 0
    for k in range(n, 0, -1):
        path += [(1002, total), (1007, total), (1008, total), (1009, total + k), (1010, total + 2 * k), (1003, total + 2 * k), (1004, total + 2 * k)]
        total += 2 * k
    return [*path, (1005, total), (1006, total)]


def trace(run):
    for n in (1, 2, 3, 10, 40):
        size = 7 * n + 4
        shows = ["show values SUM SUM", f"show values TABLE+1 TABLE+{size}"]
        ran = run(N=n, script=[*RUN, *shows])
        yield f"what the traced program leaves for {n}", ran.numbers(shows[0]), [2 * sum(range(n + 1))]
        yield f"where its instructions are for {n}", ran.numbers(shows[1]), [location for location, _ in traced(n)]
        yield from times(ran, overwritten=("NOP",), S=size, T=n, J=3 * n - 1, U=1, R=3 * n + 2)


def buffers(run):
    shown = [*RUN, "show unit 18"]
    for n, m, delay in ((5, 10, 300), (5, 10, 177), (5, 10, 178), (1, 1, 0), (2, 24, 1000), (9, 3, 40), (4, 7, 4), (3, 20, 0)):
        table = ["".join(" %04d" % (row * column) for column in range(1, m + 1)) for row in range(1, n + 1)]
        jbus = 1 + (n - 1) * (max(0, delay - 4) + 1)  # 4 u from an OUT to the JBUS
        clocks = {"lesson.mixal": 19 + 17 * m + (n - 1) * max(8 + 17 * m, delay + 1),
                  "wait.mixal": 20 + 17 * m + (n - 1) * (max(4, delay) + 5 + 17 * m),
                  "two.mixal": 21 + 17 * m + (n - 1) * max(9 + 17 * m, delay + 1)}
        for name, clock in clocks.items():
            ran = run(name, deck=[f"%UNIT 18 delay {delay}"], N=n, M=m, script=shown)
            yield f"{name}, the table of {n} lines", ran.rows(18), table
            yield from times(ran, waiting=True, N=n, M=m, W=jbus)
            yield f"{name}, delay {delay}: the clock", ran.clock, clock
    cards = ["0000000031", "0000000041", "0000000059", "0000000026", "0000000053", "1000000000", "0000000097"]
    for n, delay, work in ((5, 220, 100), (5, 221, 100), (1, 300, 100), (7, 10, 200), (7, 1000, 10), (3, 0, 50)):
        busy = 20 + 2 * work  # from an IN to the next JBUS
        waited = delay + 1 + (n - 1) * (max(0, delay - busy) + 1)
        ran = run("answer.mixal", deck=[f"%UNIT 16 delay {delay}", *cards[:n]], N=n, WORK=work, script=[*RUN, "show values SUM SUM"])
        yield f"the sum of {n} cards", ran.numbers("show values SUM SUM"), [sum(map(int, cards[:n]))]
        yield from times(ran, N=n, WORK=work, W=waited)
        yield f"answer.mixal, delay {delay}: the clock", ran.clock, waited + 13 + n * (24 + 2 * work) + n - 1
    ran = run("answer.mixal", script=RUN)
    yield "no JBUS waits but the first: how often it is done", count_at(ran, "JBUS *(READER)"), 220 + 5
