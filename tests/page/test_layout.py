"""Everything can be seen: at ten sizes each part is scrolled to its last row as a person scrolls, and the browser is asked what is at that place."""
import operator

import pytest

SIZES = (
    (1280, 720), (1280, 800), (1440, 900), (1920, 1080), (1024, 768),
    (960, 600), (768, 1024), (375, 667), (320, 568), (640, 360),
)
# A tab, and the rows of what it shows.
LAST = (
    ("program", "#listing .line"), ("cards", "#deck"), ("bars", "#bars svg"), ("program", "#map svg"),
    ("output", "#papers .paper > div"), ("units", "#unit-list .card, #unit-list p"),
    ("machine", "#register-rows tr"), ("machine", "#flags > div"), ("machine", "#cell-rows tr"),
    ("lesson", "#notes-text > *"), ("talk", "#log pre"), ("talk", "#script-lines"), ("talk", "#anew"),
    ("symbols", "#symbol-rows tr"),
)
SEEN = ("#listing .line", "#papers .paper > div", "#register-rows tr", "#cell-rows tr")


@pytest.mark.parametrize("width, height", SIZES)
def test_reach(page, width, height):
    """The last row of each part, at each size, with the lesson beside the program where there is room."""
    page.lesson(5)  # it has cards, output, a script, symbols and notes
    page.click("run").say("show all").tab("machine")
    page.choose("cells-which", "filled").size(width, height)
    page.do("openLesson")
    for tab, selector in LAST:
        page.tab(tab).frames()
        if selector == SEEN[0]:
            page.until(lambda: page.js("toEnd"))
        page.wait(lambda: not page.js("reachedLast", selector), 1)  # it may be drawn anew
        assert page.js("reachedLast", selector) == "", selector
    assert page.sideways() == 0


def test_together(page):
    """From 1280 by 720 on, and at 200 % of 1920 by 1080, listing, output, registers and memory are seen at once, without scrolling, as one picture."""
    for width, height in (*SIZES[:4], (2560, 1440), (960, 540)):
        page.size(width, height)
        page.lesson(4)  # the first five hundred primes
        page.click("run").frames()
        if width < 1120 and page.is_seen("notes"):
            page.click("read")
        found, least = page.js("rowsInView", *SEEN), (3, 2, 9, 0) if height < 720 else (7, 5, 9, 2)
        assert all(map(operator.ge, found, least)), (width, height, found)
        assert page.js("overflow")[1] == 0, (width, height)
        assert page.js("letter", "#listing .CodeMirror-line") >= min(19, 0.0099 * width), (width, height)
