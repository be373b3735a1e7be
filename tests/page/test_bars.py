"""Cells as bars: at each moment of a sort those that the algorithm of the book gives, by any field, with the registers that point to them."""
import re
import xml.etree.ElementTree as tree

from tests.page.looks import TOP

SVG = "{http://www.w3.org/2000/svg}"
SORT = (TOP / "course/50_insertion/lesson.mixal").read_text()
KEYS = [int(number) for number in re.findall(r"^ +CON +(\d+)$", SORT, re.M)]


def insertions(keys):
    """Straight insertion from the right, as in the book: of each write that alters a key its change, its place, the key before it, and all keys then; all changes."""
    keys, found, changes = list(keys), [], 2  # ENT3, ENT1

    def write(at, key):
        if keys[at] != key:
            before, keys[at] = keys[at], key
            found.append((changes, at, before, list(keys)))

    for first in range(len(keys) - 2, -1, -1):
        key, at = keys[first], first + 1
        changes += 2  # LDA, ENT2
        while at < len(keys):
            changes += 2  # CMPA, JLE
            if key <= keys[at]:
                break
            changes += 2  # LDX, STX
            write(at - 1, keys[at])
            at += 1
            changes += 2  # INC2, J2N
        changes += 1  # STA
        write(at - 1, key)
        changes += 3  # DEC1, DEC3, J3P
    return found, changes + 1  # HLT


def test_sort(page):
    """The lesson of a sort opens with its bars, which follow it forwards, backwards and along the slider."""
    page.lesson("50_insertion")
    assert [page.value("bars-from"), page.value("bars-to")] == ["KEY+1", "KEY+N"]
    assert [(cell, told) for cell, told, _, _ in page.js("bars")] == [(1000 + at, str(key)) for at, key in enumerate(KEYS)]
    page.click("run")
    total = int(page.text("total"))
    seen = {}
    for moment in range(total, -1, -1):
        shown = page.js("bars")
        keys = [int(told) for _, told, _, _ in shown]
        seen[moment] = (keys, [at for at, (_, _, _, kind) in enumerate(shown) if kind == "written"], page.js("said", "bars")[1])
        heights = [height for _, _, height, _ in shown]
        assert all(abs(height / max(heights) - key / max(keys)) <= 0.01 for height, key in zip(heights, keys)), moment
        # `LAST,1` and `LAST,2`, LAST being behind the keys, are the first to use a key by these registers.
        numbers, arrows = dict(page.js("registers")), dict(page.js("arrows"))
        places = {int(cell): float(x) for cell, x in page.js("barPlaces")}
        for name in ("I1", "I2"):
            wanted = places.get(1000 + len(keys) + int(numbers[name]))
            assert wanted is None or abs(float(arrows[f"r{name}"]) - wanted) <= 0.11, (name, moment)
        if moment > 0:
            page.click("back")
    wanted, changes = insertions(KEYS)
    marked = [(moment, keys, marks) for moment, (keys, marks, _) in sorted(seen.items()) if marks]
    assert [(moment, marks, keys) for moment, keys, marks in marked] == [(moment, [at], keys) for moment, at, _, keys in wanted]
    assert (seen[total][0], total) == (sorted(KEYS), changes), "it is sorted"
    said = [seen[moment][2] for moment, _, _ in marked]
    missed = [text for text, (_, at, before, keys) in zip(said, wanted) if f"{1000 + at}: {keys[at]} (written, was {before})" not in text]
    assert missed == [], "what was written, as a text"
    for moment in (marked[3][0], 0, total // 2, marked[-1][0], total):
        page.slide(moment, ends=False)
        assert ([int(told) for _, told, _, _ in page.js("bars")], page.js("said", "bars")[1]) == (seen[moment][0], seen[moment][2]), moment
    page.slide(total)


def test_strip(page):
    """The strip: the keys at moments of the whole sort; a click on one goes there; no call of the engine as long as the changes are the same."""
    page.lesson("50_insertion").click("run", "bars-strip")
    page.until(lambda: page.all("#strip svg"))
    wanted, total = insertions(KEYS)
    moments = [int(total * at / 59 + 0.5) for at in range(60)]
    columns = [next((keys for moment, _, _, keys in reversed(wanted) if moment <= at), KEYS) for at in moments]
    width, high = page.js("stripSize")
    wide, row = width / 60, (high - 8) / len(KEYS)
    shown = [[0] * len(KEYS) for _ in moments]
    for x, y, across, _, shade in page.js("stripBoxes"):
        for column in range(round(x / wide), round((x + across) / wide)):
            shown[column][round((y - 4) / row)] = round(shade * max(KEYS))
    assert shown == columns, "the keys at 60 moments"
    said = page.js("said", "strip")[1]
    altered = []
    for moment, keys, before in zip(moments[1:], columns[1:], columns):
        if cells := [f"{1000 + at}: {key}" for at, (key, old) in enumerate(zip(keys, before)) if key != old]:
            altered.append(f"By change {moment}: {', '.join(cells)}.")
    assert said == " ".join([f"At the start: {' '.join(map(str, KEYS))}.", *altered]), "as a text"
    page.do("keepCalls")
    calls = []
    for moment in (30, 60):
        page.do("set", "calls", 0)
        page.slide(moment, ends=False).slide(moment)
        calls.append(page.js("kept", "calls"))
        page.click("bars-strip")
    assert calls[0] == calls[1], "as many calls of the engine with it as without"
    page.do("clickStrip", 20.5).idle()
    assert page.value("moment") == str(moments[20])
    assert page.commands() == ["run 1000000", f"goto {moments[20]}"]
    saved = page.save()
    assert b"\n* bars: KEY+1 KEY+N number strip\n" in saved, saved[-300:]
    root = tree.fromstring(page.copied("bars-copy"))
    titles = [title.text for title in root.iter(f"{SVG}title")]
    assert [title.rpartition(", ")[2] for title in titles] == ["at 60 moments"]
    assert [float(size) for size in root.get("viewBox").split()] == [0, 0, width, high]
    page.tab("bars").until(lambda: page.js("bars")[0][1])
    assert [int(told) for _, told, _, _ in page.js("bars")] == columns[20]
