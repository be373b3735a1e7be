"""Random ways through a program, and what they send to the engine."""

import random

import pytest
from selenium.webdriver.common.keys import Keys

from tests.page.looks import PROGRAMS

COMMANDS = """step 3, step, trace 2, run 7, run 30 until A, run 50 until loc *+1, back 2, back
    until A, back until over, back break, forth 2, forth until X, forth all, back all, goto 5,
    goto 3, set A -7, set loc 0, set cell 0 5, set over on, break *, clear *, show last 3, show
    diff 1, show counts, show all, show breaks, step 0, jump, * a remark, show changes, set I1
    5000, forth 9, goto 999999999"""
COMMANDS = " ".join(COMMANDS.split()).split(", ")
BUTTONS = ("step", "step", "back", "run", "to-break", "to-start", "to-end")
DECK = "%DEVICES\n%UNIT 16 delay 5\nONE\nTWO\nTHREE\n\n%UNIT 18 delay 3\n"


@pytest.mark.parametrize("seed", range(1, 13))
def test_random_walk(page, native, seed):
    """Buttons, commands, the slider, breakpoints. What is saved then gives the same replies."""
    page.program(PROGRAMS["walk"] + DECK)
    chance = random.Random(seed)
    for _ in range(25):
        kind = chance.randrange(10)
        if kind < 5:
            name = chance.choice(BUTTONS)
            if page.one(name).is_enabled():
                page.click(name)
        elif kind < 8:
            page.say(chance.choice(COMMANDS))
        elif kind == 8 and page.one("slider").is_enabled():
            page.slide(chance.randint(0, int(page.attribute("slider", "max"))))
        else:
            page.press_button(chance.choice(page.all("#listing .line button")))
    page.say("show all").say("show counts")
    shown = dict(page.js("printed"))
    rows = (row.split() for row in page.last_reply().splitlines())
    counts = {place: "" if n == "0" else n for n, _, place, *_ in rows if place in shown}
    assert {place: shown[place] for place in counts} == counts
    assert [place for place, n in shown.items() if n and place not in counts] == []
    page.say("show last 1000")
    assert native.bundle(page.save()) == page.replies()


def test_requests(page, native):
    """A step, a step back, a look and a slide send little after much was done as after little."""
    page.program(PROGRAMS["endless"]).do("keepSent")
    for changes in (["step"] * 3, ["to-end", *["step"] * 20, "run", *["back"] * 20]):
        page.click(*changes).do("taken", "sent")
        page.click("step", "back").slide(1, ends=False).slide(2)
        sent = page.js("taken", "sent")
        assert len(sent) <= 8 and all(not is_new and number <= 4 for is_new, number in sent)
    page.do("focus", "#slider").press(Keys.ARROW_LEFT)
    assert len(page.js("taken", "sent")) <= 2 and page.last().startswith("goto ")
    native.agrees(page)
