"""How the page looks, and that everyone can use it: a narrow window, keys alone, a name for every control, no request, and the pictures of it."""
import re
import shutil
import subprocess
import time

import pytest

from tests.page.looks import HERE

PAGE = HERE.parents[1] / "page"
OUT = PAGE / "out"
CONTROLS = {
    "button", "textbox", "slider", "combobox", "link", "checkbox", "searchbox", "spinbutton",
    "DisclosureTriangle", "dialog", "region", "log", "group", "table",
}


def test_modules():
    """Each module of JavaScript by itself, their types, and those that need no page."""
    paths = sorted([*PAGE.glob("*.js"), *HERE.glob("*.js"), *HERE.glob("*.mjs")])
    for path in paths:
        lines = path.read_text().splitlines()
        assert len(lines) <= 250 and (path.parent != PAGE or max(map(len, lines)) <= 120), path.name
    if shutil.which("tsc"):
        ran = subprocess.run(["tsc", "-p", PAGE], capture_output=True, text=True)
        assert ran.returncode == 0, ran.stdout[-2000:]
        paths = [path for path in paths if path.parent != PAGE]
    else:
        print("not run: types, since tsc is missing")
    for path in paths:
        assert subprocess.run(["node", "--check", "--input-type=module"], input=path.read_bytes()).returncode == 0, path.name
    ran = subprocess.run(["node", "--experimental-default-type=module", HERE / "pure.mjs"], capture_output=True, text=True)
    passed = int((re.search(r"^(\d+) passed, 0 failed$", ran.stdout, re.M) or [0, 0])[1])
    assert ran.returncode == 0 and passed > 1000, ran.stdout[-2000:] + ran.stderr[-2000:]


@pytest.mark.chromium
def test_names(page):
    """A screen reader's name for every control."""
    page.lesson(8).click("run")
    for name in (None, "help", "share", "who"):
        if name == "who":
            page.tap(page.first("#register-rows td"))
        elif name:
            page.click(name)
        nodes = page.command("Accessibility.getFullAXTree")["nodes"]
        named = [(node["role"]["value"], node.get("name", {}).get("value", "").strip()) for node in nodes if not node["ignored"]]
        controls = [(role, its) for role, its in named if role in CONTROLS]
        assert len(controls) > (0 if name else 5), name
        assert not [role for role, its in controls if not its and role not in ("table", "group")], name
        page.do("closeDialogs")
    assert page.one("status").get_attribute("role") == "status", "what happens is told"
    moment = page.one("slider").get_attribute("aria-valuetext")
    assert moment.startswith("change 85 of 85, location "), "the slider tells the moment"


def shown(page):
    """A sort at the moment after one of its keys was moved, as docs/PAGE.md shows it: what is seen in one place is what is seen in the others."""
    page.lesson("50_insertion").click("run", "to-start").slide(60)
    page.say("forth until cell KEY+4 or cell KEY+5 or cell KEY+6").do("stops")
    done, state = page.value("moment"), page.state()
    cell, value = re.search(r"cell (\d+) from \d+ to (\d+)", page.told()).groups()
    assert page.value("slider") == done
    assert page.js("said", "bars")[0].endswith(f"after {done} changes")
    bar = page.texts(f"#bars [data-cell='{cell}'] .ink")[0]
    row = page.texts(f"#cell-rows [data-cell='{cell}'] .number")[0]
    assert (bar, row) == (value, value), "the bar and the cell hold what the step wrote"
    assert f"location {page.texts('.at .loc')[0]}" in state[1].replace("\n", " ")


SIZES = ((1280, 800), (1920, 1080), (390, 844))
FAULTY = "X    EQU  1\n     JUMP 0\nX    EQU  2\nENTA 10\n     LDA  Y\n     HALT\n     INCA 0, 1\n     END  0\n"
MOST_BYTES = 250_000  # of docs/page.png


def made(page):
    """A lesson at one of its steps, one that prints, a sort, and a faulty source."""
    for name, lesson, buttons in (("first", 0, ["step"] * 3), ("primes", 4, ["run"])):
        page.lesson(lesson)
        for button in buttons:
            page.click(button)
        yield name
    shown(page)
    yield "sort"
    page.put("text", FAULTY)
    yield "faulty"


@pytest.mark.chromium
@pytest.mark.parametrize("shade", ["light", "dark"])
def test_pictures(page, shade):
    """The pictures, to be looked at, in three windows, light and dark."""
    OUT.mkdir(exist_ok=True)
    page.shade(shade).size(*SIZES[0])
    for name in made(page):
        for width, height in SIZES:
            page.size(width, height).tab("program")
            page.frames()
            page.driver.save_screenshot(str(OUT / f"{name}-{width}-{shade}.png"))
        page.size(*SIZES[0])
    ink, ground = page.js("shades")
    assert (sum(ink) > sum(ground)) == (shade == "dark")
    assert (OUT / "sort-1280-light.png").stat().st_size <= MOST_BYTES


@pytest.mark.chromium
def test_picture_on_paper(page):
    """As printed, the listing is a table."""
    page.size(720, 900)
    page.command("Emulation.setEmulatedMedia", media="print")
    page.do("beforePrint")
    page.driver.save_screenshot(str(OUT / "on-paper.png"))
    assert page.js("shownOnPaper") == [True, False]


def test_bounds(page, native, figure):
    """A million steps, and the slider to any of them."""
    page.program(" ENT1 0\nLOOP INC1 1\n ST1 100\n DEC1 1\n JMP LOOP\n END 0\n").click("run")
    assert page.log()[-1][1].startswith("ran 1000000 to "), "a million steps"
    assert page.told() == "A million steps were done without a halt. Press Run to go on."
    times = []
    for moment in (0, 123456, 500000, 777777, 999999, 1000000):
        begun = time.monotonic()
        page.slide(moment, ends=False)
        times.append(round(1000 * (time.monotonic() - begun)))
        page.slide(moment)
    figure("milliseconds for the slider to 0, 123456, 500000, 777777, 999999 and 1000000 of a million", times)
    native.agrees(page.say("show regs"))
    page.put("script-lines", "run 100000\n" * 3).do("keepDid").click("script-all")
    said = [text for text in page.js("kept", "said") if text.startswith("Working … ")]
    assert said == [f"Working … {done} of 3 long commands done." for done in (1, 2, 3)]
