"""What one sees without looking for it: faults at their lines, the line that is next in a small
window, colours that are apart."""

import pytest

from tests.page.looks import PLAIN

ENDED = "     HLT\n     END  0\n"
MANY = f"X    EQU  1\n     JUMP 0\nX    EQU  2\nENTA 10\n     LDA  Y\n{ENDED}"
WARNS = f"     LDA  Y\n{ENDED}"
FOUND = {"many": MANY, "warnings": WARNS, "no END": "     NOP\n     DEK1 1\n", "none": PLAIN}
BUTTONS = "main button, #time button, header button"
SIZES = [(375, 667), (320, 568), (640, 360), (640, 400), (768, 1024), (1280, 720)]
PARTS = dict(program="source", machine="registers", talk="talk", lesson="notes", units="units")


@pytest.mark.parametrize("width, height", SIZES)
def test_small(page, width, height):
    """In small windows, and at 200 %, the line that is next is in view at each step, and tabs take
    the place of a long page."""
    page.size(width, height).lesson(6)
    for _ in range(20):
        page.click("step")
        assert page.in_view(".at .line", "#listing"), page.value("moment")
    assert page.one("time").size["height"] < 0.34 * height, "the bar leaves room"
    low = page.js("lowButtons", BUTTONS, 23.9)
    for tab in ("machine", "program") if width < 800 else ():
        page.tab(tab)
        low += page.js("lowButtons", BUTTONS, 23.9)
    assert low == [], "buttons are high enough for a finger"
    if width < 800:
        for tab, part in PARTS.items():
            page.tab(tab)
            assert [name for name in PARTS.values() if page.is_seen(name)] == [part], tab
        page.tab("program").click("step")
        assert page.js("changedTabs") == ["machine"], "a dot where the step changed something"


PAIRS = """ink paper, ink leaf, soft paper, soft leaf, soft button, ink button, ink here,
    ink altered, red here, red altered, blue altered, blue here, red paper, red leaf, blue paper,
    blue leaf, green leaf, violet leaf, green here, violet here, soft here, paper red, edge paper,
    edge leaf, edge button"""
COLOURS = "paper leaf ink soft edge red here altered blue button green violet".split()
HEAT = 0.25  # of red, where it is hottest


def contrast(*colours):
    def light(parts):
        parts = [it / 12.92 if it <= 0.03928 else ((it + 0.055) / 1.055) ** 2.4 for it in parts]
        return 0.2126 * parts[0] + 0.7152 * parts[1] + 0.0722 * parts[2]

    low, high = sorted(map(light, colours))
    return (high + 0.05) / (low + 0.05)


@pytest.mark.chromium
@pytest.mark.parametrize("shade", ["light", "dark"])
def test_contrast(page, shade):
    """Letters against what is behind them at least 4.5, edges of fields and buttons at least 3."""
    page.shade(shade)
    found = page.js("colours", *COLOURS)
    found = [[int(it[at : at + 2], 16) / 255 for at in (1, 3, 5)] for it in found]
    colours = dict(zip(COLOURS, found))
    for pair in PAIRS.split(","):
        one, other = pair.split()
        least = 3 if one == "edge" else 4.5
        assert contrast(colours[one], colours[other]) >= least, pair
    for ground in ("paper", "leaf", "here", "altered"):
        pairs = zip(colours["red"], colours[ground])
        heated = [HEAT * red + (1 - HEAT) * part for red, part in pairs]
        assert contrast(colours["ink"], heated) >= 4.5, ground


@pytest.mark.parametrize("name", FOUND)
def test_found(page, native, name):
    """Each line with a fault or a warning is marked as one types, and the list has what `mixrev
    check` says of it."""
    page.put("text", FOUND[name])
    wanted = native.found(FOUND[name])
    every = [f"Line {line}: {said}" for line, (_, texts) in wanted.items() for said in texts]
    rows = page.texts("#fault-rows button")
    assert len(rows) == len(every) and all(map(str.startswith, rows, every))
    titles = [title for title in page.js("given", "#listing .line button", "title") if title]
    assert titles == ["; ".join(texts) for _, texts in wanted.values()]
    bad = [line for line, (is_fault, _) in wanted.items() if is_fault]
    assert page.marked(".wrong") == bad
    if wanted:
        line, (_, texts) = next(iter(wanted.items()))
        page.do("pointAtLine", line)
        assert page.attribute("listing", "title") == "; ".join(texts)
    more = len(bad) - 1
    before = page.told().partition(" more fault")[0][-1:]
    assert before == (str(more) if more > 0 else page.told()[-1:])
