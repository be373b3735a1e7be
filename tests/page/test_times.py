"""How long a key takes in a long source, and the map of a million changes; thousands of writes."""

import statistics
import time

import pytest
from selenium.webdriver.common.keys import Keys

from tests.page.browsers import slowed
from tests.page.looks import PROGRAMS

MOST = {2_000: 16, 20_000: 30}  # milliseconds of work for a key, in a text of so many lines
KEYS = 20
KEY = {"text": "x", "key": "x", "code": "KeyX", "windowsVirtualKeyCode": 88}
# Waits for the frame of a key without asking again and again, which would be work of the page.
DRAWN = """return new Promise((done) => {
    const look = () =>
        (window.timed.length > arguments[0] ? done() : requestAnimationFrame(look));
    look(); })"""
# 20,000 of them are less than a source may have.
LINE = "        LDA  1000,2       a remark of some words"


@pytest.mark.chromium
@pytest.mark.parametrize("lines, most", MOST.items())
def test_key_times(page, figure, lines, most):
    """What the page itself works for a key; the median of twenty, the best of three."""
    page.count_work()
    page.size(1280, 800).program(f"{LINE}\n" * (lines - 1) + " END 0\n")
    assert page.value("text").count("\n") == lines
    page.do("keepTimes")
    times, worked = [], []
    for _ in range(3):
        page.idle().caret(lines // 2, 30).do("set", "timed", [])
        spent = []
        for number in range(KEYS):
            before = page.work()
            for kind in ("keyDown", "keyUp"):
                page.command("Input.dispatchKeyEvent", type=kind, **KEY)
            page.script(DRAWN, number)
            spent.append(page.work() - before)
        worked.append(round(statistics.median(spent), 1))
        times.append(round(statistics.median(page.js("kept", "timed")), 1))
    name = f"milliseconds of a key at {lines} lines, to its frame and of the page's work"
    figure(name, (times, worked))
    assert min(worked) <= slowed() * most


@pytest.mark.chromium
def test_map_time(page, figure):
    """The map of a million changes is there within a fifth of a second of the page's work, and the
    engine goes over none of them again."""
    page.count_work()
    page.program(" ENT1 0\nLOOP INC1 1\n ST1 100\n DEC1 1\n J1NN LOOP\n END 0\n").click("run")
    page.do("keepSent")
    before, begun = page.work(), time.monotonic()
    page.do("drawMapAnew").until(lambda: page.all("#map svg"))
    took, seconds = round(page.work() - before, 1), time.monotonic() - begun
    name = "milliseconds to the map of a million changes, and of the page's work"
    figure(name, (round(1000 * seconds), took))
    assert took <= 200 * slowed() and len(page.js("kept", "sent")) <= 1
    assert page.caption("map") == "Map of 1,000,000 changes"
    assert "LOOP: 999,999 times" in page.description("map")


def test_many_writes(page):
    """Of thousands of writes those around this moment, and no curve of the others. After ENT3 and
    ENT1, change 3N writes rI1, which is N + 1 then."""
    page.program(PROGRAMS["long"]).click("run")
    total = 9003
    every = [2, *range(3, 9001, 3)]
    value = {2: (0, 1), **{n: (n // 3, n // 3 + 1) for n in every[1:]}}
    for moment, number in ((6000, 6000), (100, 99), (total, 9000)):
        page.slide(moment).tap("#register-rows tr[data-key='I1'] button")
        page.until(lambda: page.js("writes"))  # not found: that would scroll to it
        rows = page.js("writes")
        here = every.index(number)
        first = max(0, here - 999)
        last = min(len(every), here + 1 + (len(rows) - (here + 1 - first)))
        wanted = [
            ["change {}: {} → {}".format(n, *value[n]), "step" if n == number else None]
            for n in every[first:last]
        ]
        assert rows == wanted, moment
        assert last - here - 1 >= min(300, len(every) - here - 1), moment
        assert page.js("writeIsInView"), moment
        some = "the last 1,000 changes" if first > 0 else f"{here + 1} changes"
        said = f"Of {len(every):,} changes that wrote it: these are {some} up to here, and "
        assert page.text("who-many").startswith(said), moment
        begins, is_whole = page.js("curve")
        assert abs(begins - (4 if first == 0 else 4 + every[first] / total * 480)) <= 1.5, moment
        assert is_whole == (last == len(every)), moment
        page.press(Keys.ESCAPE)
    page.put("text", " INCA 1\n" * 2500 + " HLT\n END 0\n").click("run").slide(100)
    page.tap("#register-rows tr[data-key='A'] button").until(lambda: page.js("writes"))
    wanted = [f"change {n}: {n - 1} → {n}" for n in range(1, 1101)]
    assert page.column(0, "writes") == wanted, "each change is one"
