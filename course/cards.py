"""Facts of the lesson on the card loader: decks of cards, made of the words of a program as the listing has them."""
import math
import random
import re
import subprocess

from machine import CHARACTERS

LISTED = re.compile(r"^(\d{4})  \+((?: \d\d){5})")


def words_of(program, path):
    """The words of a source by their locations, each a list of bytes."""
    said = subprocess.run([program, "list", str(path)], capture_output=True, text=True).stdout
    found = [LISTED.match(line) for line in said.splitlines()]
    return {int(one[1]): [int(byte) for byte in one[2].split()] for one in found if one}


def number(word):
    return sum(byte * 64**at for at, byte in enumerate(reversed(word)))


def cards_of(first, numbers):
    """The cards of a program from its first location on: seven words each, and the card that begins it."""
    for at in range(0, len(numbers), 7):
        yield f"{first + at:05d}     " + "".join(f"{one:010d}" for one in numbers[at : at + 7])
    yield f"{first:05d}   GO"


def deck_of(program, folder, name, filled=False):
    """The deck of a program: the loader as characters, and the program as numbers, filled up with zeros if asked."""
    loader = "".join(CHARACTERS[byte] for word in words_of(program, folder / "loader.mixal").values() for byte in word)
    words = words_of(program, folder / name)
    numbers = [number(words[at]) for at in sorted(words)]
    return [loader, *cards_of(min(words), [*numbers, *[0] * (-len(numbers) % 7 if filled else 0)])]


def loader(run):
    hello, copier = deck_of(run.program, run.folder, "hello.mixal"), deck_of(run.program, run.folder, "copier.mixal", filled=True)
    yield "the cards of the lesson", run.bundle("lesson.mixal").deck, ["%UNIT 16", *hello]
    yield "the cards of the copier", run.bundle("copy.mixal").deck, ["%UNIT 16", *copier]
    text = "".join(re.findall(r'ALF +"(.....)"', (run.folder / "hello.mixal").read_text()))
    ran = run(script=["run 10000", "show unit 18"])
    yield "what the loaded program prints", (ran.rows(18), ran.end), ([text.rstrip()], "halt")
    draw = random.Random(131)
    for size in (1, 6, 7, 8, 20):
        first, numbers = draw.randrange(100, 3900), [draw.randrange(1, 64**5) for _ in range(size)]
        cards = [hello[0], *cards_of(first, numbers)]
        ran = run(deck=["%UNIT 16", *cards], script=[f"run 10000 until loc {first}", f"show values {first} {first + size - 1}"])
        yield f"{size} loaded words", ran.numbers(f"show values {first} {first + size - 1}"), numbers
        yield "the location where the program begins", ran.location, first
    ran = run("copy.mixal", script=["run 10000", "show unit 17"])
    yield "the cards that are punched", ran.rows(17), [card.rstrip() for card in copier]
    ran = run("copy.mixal", deck=["%UNIT 16", *ran.rows(17)], script=["run 10000", "show unit 17"])
    yield "the cards that the copy punches", ran.rows(17), [card.rstrip() for card in copier]


RUN = "run 20000"
# Of each program the command that shows its result, what is wrong, how it is mended, and what is
# right.
HUNTS = {
    "lesson.mixal": ("show values SUM SUM", ("halt", [120]),
                   [("1H      ST1  FACTOR", "        ENT2 0,1\n1H      ST2  FACTOR"), ("DEC1 1\n        J1P  1B", "DEC2 1\n        J2P  1B")],
                   [sum(math.factorial(k) for k in range(1, 6))]),
    "second.mixal": ("show values", ("fault M11 no block", None), [("TABLE   EQU  2990", "TABLE   EQU  1990")], sum(k * k for k in range(1, 13))),
    "third.mixal": ("show values RESULT RESULT", ("limit", [0]), [("AVERAGE JMP  TOTAL", "AVERAGE STJ  EXIT"), ("        STJ  EXIT", "        JMP  TOTAL")],
                  [(10 + 20 + 30 + 41) // 4]),
    "fourth.mixal": ("show values RESULT RESULT", ("halt", [12]),
                   [("        CMPA TABLE,1\n        CMP1 =N=\n        JG   DONE\n", "        CMP1 =N=\n        JG   DONE\n        CMPA TABLE,1\n")],
                   [max(59, 31, 97, 88, 12, 23)]),
    "fifth.mixal": ("show values LENGTH LENGTH", ("fault M7 index overflow", [0]),
                  [("        ST2  LIST,1(4:5)\n        LD3  LIST,1(4:5)\n        ST3  LIST,2(4:5)\n",
                    "        LD3  LIST,1(4:5)\n        ST3  LIST,2(4:5)\n        ST2  LIST,1(4:5)\n")], [len([1, 3, 7, 9])]),
    "sixth.mixal": ("show values SUM SUM", ("halt", [-1]), [("        ENT1 N\n        ENTA 0\n2H", "        JOV  *+1\n        ENT1 N\n        ENTA 0\n2H")],
                  [100 + 200 + 300 + 400]),
}


def mended(changes):
    """What makes these changes in a bundle."""

    def mend(bundle):
        text = "\n".join(bundle.source)
        for old, new in changes:
            if text.count(old) != 1:
                raise ValueError(f"{old} is not there once")
            text = text.replace(old, new)
        bundle.source = text.split("\n")

    return mend


def hunt(run):
    for name, (show, (end, wrong), changes, right) in HUNTS.items():
        ran = run(name, script=[RUN, show])
        yield f"{name}: how it ends", ran.end, end
        if wrong is not None:
            yield f"{name}: its wrong result", ran.numbers(show), wrong
        ran = run(name, script=[RUN, show], mend=mended(changes))
        yield f"{name}, mended", (ran.end, ran.register("A") if show == "show values" else ran.numbers(show)), ("halt", right)
