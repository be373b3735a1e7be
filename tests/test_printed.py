"""What `mixrev run` prints, traces, counts, draws and keeps, against what other methods give."""
import collections
import csv
import json
import os
import random
import re
import subprocess
import xml.etree.ElementTree

import pytest

from machine import CHARACTERS
from tests import REGISTERS, TOP
from tests.rows import faces

COUNT = re.compile(r" *(\d+) +(\d+)  (\d{4})(?:  ([ \d]{5}).*)?")
STEP = re.compile(r" *(\d+)  (\d{4})  (.*?) +(\d+)u(?:  (.*))?")
ALTERED = re.compile(r"(?:^|  )(A|X|I[1-6]|J|over|cmp) (\S+(?: \d\d)*) -> (\S+(?: \d\d)*)")
TRANSFER = re.compile(r"^[^*%]*\b(IN|OUT) ", re.M)
LOOP = " ENT1 2\nLOOP DEC1 1\n INC1 1\n J1P LOOP\n END 0\n"
HALT = " HLT\n END 0\n"
WRONG = TOP / "course" / "25_buffers" / "lesson.mixal"


def page_of(stdout):
    """The longest page that is shown of a unit, as a run prints it: that of the whole run."""
    pages = [""]
    for line in stdout.splitlines():
        if line.startswith("unit "):
            pages.append("")
        elif line.startswith("> "):
            pages[-1] += "\f" if line == "> %PAGE" else line[2:].rstrip(" ") + "\n"
    return max(pages, key=len)


@pytest.fixture
def run(program, tmp_path):
    """Runs a source with a deck, or without one: what it writes, what it tells, and its status."""

    def ran(source, deck, *words):
        (tmp_path / "program.mixal").write_text(source)
        if deck is not None:
            (tmp_path / "deck").write_text(deck)
            words += ("--devices", "deck")
        done = subprocess.run([program, "run", "program.mixal", *words], cwd=tmp_path, capture_output=True, timeout=600)
        return done.stdout.decode(), done.stderr.decode(), done.returncode

    return ran


@pytest.fixture
def session(program, tmp_path):
    """What a script writes, line by line, with the source and the deck of the last run, or with another deck."""

    def shown(script, deck):
        (tmp_path / "script").write_text(script)
        words = [] if deck is None else ["--devices", deck]
        done = subprocess.run([program, "debug", "program.mixal", "script", *words], cwd=tmp_path, capture_output=True, timeout=600)
        return done.stdout.decode("latin-1").splitlines()

    return shown


def examples():
    """Each example that prints something: its name, source, deck and page."""
    for path in sorted((TOP / "examples").glob("*.mixal")):
        source, marker, deck = path.read_text().partition("%SCRIPT\n")[0].partition("%DEVICES\n")
        page = page_of(path.with_suffix(".stdout").read_text())
        if page:
            yield pytest.param(source, deck if marker else None, page, id=path.stem)


EACH = pytest.mark.parametrize("source, deck, page", list(examples()))


@EACH
def test_page(run, source, deck, page):
    """The rows of the printer or the typewriter, without the blanks at their ends, and a form feed for a page mark."""
    assert run(source, deck) == (page, "", 0)


@EACH
def test_traced(run, session, source, deck, page):
    """The lines of the first steps are those that a script has for them. The card punch, whose rows would come between, is never used."""
    written, _, _ = run(source, deck, "--trace", "--unit", "17", "--steps", "1000")
    *lines, last = session("trace 1000\n", deck and "deck")
    assert written.splitlines() == lines and last.startswith(f"ran {len(lines)} to ")


@EACH
def test_counted(run, session, source, deck, page):
    """The table of the counts of a run has the numbers of show counts; in LaTeX the lines have them."""
    texts = [run(source, deck, "--counts", "--steps", "1000000", *form)[0] for form in ((), ("--json",), ("--latex",))]
    shown = [COUNT.fullmatch(line) for line in session("run 1000000\nshow counts\n", deck and "deck")]
    wanted = [[(one[4] or "").strip(), str(int(one[3])), one[1], one[2]] for one in shown if one and one[1] != "0"]
    names, *rows = csv.reader(texts[0].splitlines())
    objects = [["" if one[name] is None else str(one[name]) for name in names] for one in json.loads(texts[1])]
    assert names == ["line", "location", "count", "time"] and wanted == rows == objects != []
    cells = [line.split(" & ") for line in texts[2].splitlines()]
    assert sorted([row[0], f"${row[2]}$"] for row in rows if row[0]) == sorted([row[0], row[4]] for row in cells if len(row) == 6 and row[4][:1] == "$")


@EACH
def test_drawn(run, tmp_path, source, deck, page):
    """The map of a run has a box where the lines of its trace have a location in a column, as dark as it is there often."""
    lines = run(source, deck, "--trace", "--unit", "17", "--steps", "20000", "--svg", "map.svg")[0].splitlines()
    places, count = [int(line.split()[1]) for line in lines], min(len(lines), 240)
    times = collections.Counter((place, index * count // len(places)) for index, place in enumerate(places))
    most = max(times.values()).bit_length()
    wanted = [{column: 3 + 7 * times[place, column].bit_length() // most for column in range(count) if times[place, column]} for place in sorted(set(places))]
    title, told, *parts, _ = xml.etree.ElementTree.parse(tmp_path / "map.svg").getroot()
    edges = {36 + 720 * column // count: column for column in range(count + 1)}
    rows = collections.defaultdict(dict)
    for box in (part.attrib for part in parts if part.tag.endswith("rect")):
        x, y, width = (int(box[name]) for name in ("x", "y", "width"))
        for column in range(edges[x], edges[x + width]):
            assert column not in rows[y]
            rows[y][column] = round(float(box["fill-opacity"]) * 10)
    assert title.text == f"Map of {len(places)} changes" and [rows[y] for y in sorted(rows)] == wanted[:120]
    spans = [places.count(one) for one in sorted(set(places))][:120]
    for number, text in zip(spans, told.text.splitlines()[-len(spans):], strict=True):
        assert re.fullmatch(rf".*: {number} time{'s' if number > 1 else ''}, between changes \d+ and \d+\.", text)


def value(text):
    """A word of a line of a step, as a table has it: a number, where -0 is -0; on, off, L, E and G are themselves."""
    return faces.number(text) if text[0] in "+-" else text


def table(run, source, deck, *words):
    """A table as CSV; the same as JSON and as LaTeX have the same fields."""
    texts = [run(source, deck, *words, form)[0] for form in ("--csv", "--json", "--latex")]
    rows = list(csv.reader(texts[0].splitlines()))
    # JSON's numbers are read as they are written, since -0 has a sign.
    objects = json.loads(texts[1], parse_int=str)
    cells = [line.removesuffix(r" \\").split(" & ") for line in texts[2].splitlines()[2:-2] if line != r"\midrule"]
    assert rows[1:] == [["" if one[name] is None else one[name] for name in rows[0]] for one in objects]
    assert rows == [[re.sub(r"^\$(-\d+)\$$", r"\1", cell).replace(r"\_", "_") for cell in row] for row in cells]
    return rows


@EACH
def test_tabled(run, session, source, deck, page):
    """The table of the first steps has what their lines say that they altered, and those of the registers what show writes does."""
    lines, _, _ = run(source, deck, "--trace", "--unit", "17", "--steps", "300")
    counts, _, _ = run(source, deck, "--counts", "--steps", "300")
    line_of = {row[1]: row[0] for row in csv.reader(counts.splitlines())}
    state, wanted, clock = {**dict.fromkeys(REGISTERS, "0"), "over": "off", "cmp": "E"}, [], 0
    for number, location, instruction, time, altered in (STEP.fullmatch(line).groups() for line in lines.splitlines()):
        state.update((name, value(after)) for name, _, after in ALTERED.findall(altered or ""))
        clock += int(time)
        location = str(int(location))
        wanted.append([number, line_of[location], location, instruction, *state.values(), str(clock)])
    names = ["change", "line", "location", "instruction", *REGISTERS, "overflow", "comparison", "clock"]
    assert wanted and table(run, source, deck, "--trace", "--steps", "300") == [names, *wanted]
    for part in ("A", "I1", "J", "cmp"):
        wanted = []
        for line in session(f"run 300\nshow writes {part}\n", deck and "deck")[1:]:
            number, location, _, _, altered = STEP.fullmatch(line).groups()
            before, after = next(pair for name, *pair in ALTERED.findall(altered) if name == part)
            location = str(int(location))
            wanted.append([number, line_of[location], location, value(before), value(after)])
        assert table(run, source, deck, "--writes", part, "--steps", "300") == [["change", "line", "location", "before", "after"], *wanted]


def delayed(deck, delay):
    """A deck with a delay of all units."""
    units, lines = {unit: [] for unit in range(21)}, []
    for line in deck.splitlines():
        if line.startswith("%UNIT"):
            lines = units[int(line.split()[1])]
        else:
            lines.append(line)
    return "".join(f"%UNIT {unit} delay {delay}\n" + "".join(f"{line}\n" for line in units[unit]) for unit in units)


def programs():
    """The programs of the examples and of the course that use units, with a delay of these."""
    for path in sorted([*TOP.glob("examples/*.mixal"), *TOP.glob("course/*/*.mixal")]):
        if TRANSFER.search(path.read_text()):
            yield from (pytest.param(path, delay, id=f"{path.parent.name}/{path.stem}-{delay}") for delay in (0, 10, 1000))


@pytest.mark.parametrize("path, delay", programs())
def test_waits(run, path, delay):
    """No program but one that is wrong uses cells of a transfer under way, whatever the delay of the units; a strict run writes the same."""
    source, _, deck = path.read_text().partition("%SCRIPT\n")[0].partition("%DEVICES\n")
    ran = run(source, delayed(deck, delay), "--steps", "200000")
    waits = "transfer under way" not in ran[1] and run(source, delayed(deck, delay), "--steps", "200000", "--strict") == ran
    assert waits != (delay == 1000 and path == WRONG)


def test_memory(program, tmp_path):
    """A loop without an end stops where its steps are used up, and takes no more memory for a hundred million steps than for ten thousand."""
    (tmp_path / "program.mixal").write_text(LOOP)
    most = []
    for steps in (10**4, 10**8):
        ran = subprocess.Popen([program, "run", "program.mixal", "--steps", str(steps)], cwd=tmp_path, stderr=subprocess.PIPE)
        told = ran.stderr.read().decode()
        most.append(os.wait4(ran.pid, 0)[2].ru_maxrss)
        # ENT1 takes the first step; 9,999 more are 3,333 rounds of three.
        assert steps > 10**4 or told == "program.mixal:2: steps used up at 0001 clock 10000\n"
    assert most[1] <= most[0] + 256


def random_deck(draw):
    """A deck of some units, with delays, random words, and lines of random characters."""
    for unit in draw.sample(range(21), 12):
        delay = draw.choice(["", f" delay {draw.randrange(10 ** draw.randrange(1, 19))}"])
        if delay or unit not in (17, 18):
            yield f"%UNIT {unit}{delay}"
        for _ in range(0 if unit in (17, 18) else draw.randrange(4)):
            if unit < 16:
                yield " ".join(draw.choice("+-") + "".join(f"{draw.randrange(64):02}" for _ in range(5)) for _ in range(100))
            else:
                yield "".join(draw.choices(CHARACTERS, k=draw.randrange(81 if unit == 16 else 71)))


@pytest.mark.parametrize("number", range(50))
def test_kept(run, session, tmp_path, number):
    """A deck that a run has read and kept shows the same units, and stays as it is when it is kept again."""
    deck = "".join(f"{line}\n" for line in random_deck(random.Random(number)))
    units = "".join(f"show unit {unit}\n" for unit in range(21))
    run(HALT, deck, "--keep", "kept")
    first = (tmp_path / "kept").read_text()
    shown = session(units, "deck")
    run(HALT, first, "--keep", "again")
    assert session(units, "deck") == shown and len(shown) >= 21 and (tmp_path / "again").read_text() == first
