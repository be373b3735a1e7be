"""Instructions a step of the program, by callgrind: a run of 200,000 steps less one of 100,000

`bench/steps.tsv` has the most of each kind for the four programs of `bench/machine`. A figure there
is only ever lowered: what takes over three in a hundred less is written there.
"""
import csv
import functools
import re
import subprocess

import pytest

from tests import TOP

FIGURES = "bench/steps.tsv"
ROWS = list(csv.DictReader((TOP / FIGURES).open(), delimiter="\t"))
WAYS = [way for way in ROWS[0] if way != "program"]
FEW, MANY = 100_000, 200_000
LINES = {
    "forward": ["run {}"],
    "back": ["run {}", "back {}"],
    "until": ["run {} until cell 3999"],  # which no step alters
}
SAID = {"forward": "ran {} to ", "back": "back {} to 0000 clock 0", "until": "ran {} to "}


def source(name):
    """The program, in more rounds than any run here takes."""
    text = (TOP / f"bench/machine/{name}.mixal").read_text()
    return re.sub("(?m)^ROUNDS .*", "ROUNDS  EQU  4000", text)


@functools.cache
def instructions(program, name, way, steps, folder):
    """Instructions of a whole run; one in which fewer steps are done is an error."""
    file, typed = folder / f"{name}.mixal", ""
    file.write_text(source(name))
    words = [program, "run", "--steps", str(steps), file]
    if way != "run":
        script = [line.format(steps) for line in LINES[way]]
        words, typed = [program], "\n".join([source(name), "%SCRIPT", *script, ""])
    tool = ["valgrind", "--tool=callgrind", "--callgrind-out-file=/dev/null", *words]
    ran = subprocess.run(tool, input=typed, capture_output=True, text=True)
    if way == "run":
        assert "steps used up at" in ran.stderr, ran.stderr
    else:
        assert ran.stdout.splitlines()[-1].startswith(SAID[way].format(steps)), ran.stdout
    return int(re.search(r"Collected : (\d+)", ran.stderr)[1])


def per_step(program, name, way, folder):
    """Instructions a step; of `back`, without those of the steps that it takes back."""
    few, many = (instructions(program, name, way, steps, folder) for steps in (FEW, MANY))
    forward = per_step(program, name, "forward", folder) if way == "back" else 0
    return (many - few) / (MANY - FEW) - forward


@pytest.mark.parametrize("way", WAYS)
@pytest.mark.parametrize("row", ROWS, ids=lambda row: row["program"])
def test_step(program, row, way, tmp_path_factory):
    taken = per_step(program, row["program"], way, tmp_path_factory.getbasetemp())
    most = float(row[way])
    assert taken <= most * 1.03, f"{taken:.1f} instructions a step, and at most {most} are allowed"
    assert taken >= most * 0.97, f"lower {most} in {FIGURES}: it takes {taken:.1f}"


def git(*words):
    return subprocess.run(["git", *words], cwd=TOP, capture_output=True, text=True).stdout


def test_no_figure_was_raised():
    """Each version of the figures, beside the one before it."""
    versions = git("log", "--format=%h", "--", FIGURES).split()
    texts = [(TOP / FIGURES).read_text(), *(git("show", f"{it}:{FIGURES}") for it in versions)]
    read = [[line.split() for line in text.splitlines()[1:]] for text in texts]
    for new, old in zip(read, read[1:]):
        for now, before in zip(new, old, strict=True):
            assert now[0] == before[0]
            assert all(float(a) <= float(b) for a, b in zip(now[1:], before[1:], strict=True)), now
