"""The walks of this folder, each in a page of its own."""

import functools
import re

import pytest
import variants
from selenium.webdriver.common.keys import Keys

from tests import walks
from tests.page.looks import FIRST, HERE, PLAIN, PROGRAMS, answer_of

KEYS = {name: value for name, value in vars(Keys).items() if name.isupper()}
TURNS = "".join(map(chr, (*range(0x202A, 0x202F), *range(0x2066, 0x206A))))
# What is different if cells 501 to 700, rA and the first instruction are, but not all of it.
DIFFERENT = ["rA", "cell 0000", *(f"cell {cell:04d}" for cell in range(501, 600))]
# Texts that are too long or too like another one to be in a file.
TEXTS = {
    "plain": PLAIN,
    "edited": PLAIN.replace("ENTA 5", "ENTA 7"),
    "first_example": FIRST,
    "insertion_answer": answer_of("50_insertion"),
    "reversal": answer_of("04_reversal"),
    "buffers": answer_of("25_buffers"),
    "farey": answer_of("15_farey"),
    "card_longer": PROGRAMS["card"]
    .replace("INCA 1", "INCA 5")
    .replace(" HLT", " NOP\n" * 2 + " HLT"),
    "card_silent": PROGRAMS["card"].replace(" OUT 100(18)\n", ""),
    "heat_longer": PROGRAMS["heat"].replace("ENT1 3", "ENT1 2000"),
    "abcde_24": "ABCDE" * 24,
    "prints_120": " OUT 100(18)\n HLT\n ORIG 100\n" + ' ALF "ABCDE"\n' * 24 + " END 0\n",
    "remark": f"{'':20}{'a remark over all columns, ' * 9}",
    "signs": "+" * 1_100_000,
    "lines_19999": "*\n" * 19_999 + " END 0\n",
    "lines_20000": "*\n" * 20_000 + " END 0\n",
    "nop_80": " NOP\n" * 80,
    "con_900": "".join(f" CON {n}\n" for n in range(1, 901)) + " END 0\n",
    "squares": "".join(f" CON {n * n % 99991}\n" for n in range(2000)) + " END 0\n",
    "scattered": "".join(
        f"* {n * 7919 % 99991} {n**3 % 99989} {n**5 % 99971}\n" for n in range(12000)
    )
    + "        END  0\n",
    "run_60": "run 1000000\n" * 60,
    "turns": TURNS,
    "turn_marks": [f"[U+{ord(turn):04X}]" for turn in TURNS],
    "first_30": ", ".join(DIFFERENT[:30]),
    "first_101": [f"{name} ≠" for name in DIFFERENT],
    "run_100": "run 1000000\n" * 100,
    "nop_220000": " NOP\n" * 220_000,
    "nop_12000000": " NOP\n" * 12_000_000,
    "long_names": "".join(f"VERYLONG{n} EQU {n}\n" for n in range(5))
    + f" LDA {'+'.join(f'VERYLONG{n}' for n in range(5))}\n JANZ 0\n END 0\n",
}


@functools.cache
def cases():
    """Of two exercises what a student `page` gets in a case."""
    reversal, buffers = (
        variants.told(next(it for it in variants.ALL if it.name == name), "page", "")[1][0]
        for name in ("04_reversal", "25_buffers")
    )
    table = re.findall(r"CON +(\d+)", reversal["data"])
    head, _, cards = buffers["deck"].partition("\n")
    return {"data": reversal["data"], "k6": table[6], "k7": table[7], "head": head, "deck": cards}


@pytest.mark.parametrize("walk", walks.params(HERE))
def test_walk(page, figure, request, walk):
    more = cases() if walk.file.stem == "check" else {}
    walk.go(page, **PROGRAMS, **KEYS, **TEXTS, **more)
    if page.before:
        figure(request.node.name, f"{page.took()}; before: {page.before}")
