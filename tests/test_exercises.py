"""Tries the cases of the exercises of the course.

The exercise's own answer has to pass each case. It has to fail one with one instruction changed, each of several ways; so has the program of the lesson
itself. A program that only stores what is wanted in its own case gets half of the points at most. tests/exercises.txt has other programs, and says what
each of them must get. They are the cases of a student whose ID is the word SEED of the environment, or ada. A small source tries what a case can
ask of cells, data and limits."""
import os
import re
import subprocess

import pytest

import variants
from running import COURSE
from tests import REGISTERS, TOP
from tests.rowfiles import parts

SMALL = """N       EQU  3
START   ENT1 N
LOOP    INCA 2
        DEC1 1
        J1P  LOOP
        STA  SUM
        HLT
SUM     CON  0
        END  START
"""
STUDENT = os.environ.get("SEED", "ada")
SLOW = ("04", "60")  # the lesson's program does the same as the exercise, and takes longer
# What a program must get: of the cases that it fails, of its points and of all points.
MUST = {
    "all": lambda failed, points, most: not failed,
    "slow": lambda failed, points, most: failed and 2 * points <= most and all(name.endswith("limits") for name in failed),
    "half": lambda failed, points, most: 2 * points <= most,
    "own": lambda failed, points, most: "1_own" not in failed and 2 * points <= most,
    "part": lambda failed, points, most: bool(failed),
}


@pytest.fixture(autouse=True)
def graded(program, monkeypatch):
    """What grades takes this program."""
    monkeypatch.setenv("MIXREV", program)


FORMS = [part for part in parts(TOP / "tests/exercises.txt") if part[0].startswith("form ")]


@pytest.mark.parametrize("head, body", FORMS)
def test_form(tmp_path, head, body):
    """What a case can ask, and the reason that grade/case must give, or none."""
    reason = head.removeprefix("form all:").strip()
    source, case = tmp_path / "small.mixal", tmp_path / "form"
    source.write_text(SMALL)
    case.mkdir()
    for line in body.splitlines():
        name, _, text = line.partition(": ")
        (case / name).write_text(text.replace(" / ", "\n") + "\n")
    said = subprocess.run([TOP / "grade/case", source, case], capture_output=True, text=True)
    assert said.stdout == (f"not ok - {source} {case}: {reason}\n" if reason else f"ok - {source} {case}\n")


def edited(bundle, edits):
    """Changes a source: each edit names an instruction by its words, after => are those that take its place, with ; between them; or it sorts the data."""
    for edit in edits:
        old, new = (part.strip() for part in edit.split("=>"))
        if old == "* data":
            first, last = bundle.source.index(old), bundle.source.index("* end of data")
            bundle.set_data(sorted(bundle.source[first + 1 : last], key=lambda line: int(line.split()[1]), reverse=new == "descending"))
            continue
        found = [at for at, line in enumerate(bundle.source) if line[:1] != "*" and old.split() in (line.split()[: len(old.split())], line.split()[1:][: len(old.split())])]
        if len(found) != 1:
            raise ValueError(f"{len(found)} lines have the words {old}")
        label = re.match(r"\S*", bundle.source[found[0]])[0]
        parts = [part.strip() for part in new.split(";")]
        bundle.source[found[0] : found[0] + 1] = [f"{label:<7} {parts[0]}", *(f"        {part}" for part in parts[1:])]
    return bundle


def constants(exercise, case):
    """The answer with a beginning that only puts into the cells and registers what is wanted in this case."""
    bundle, wanted = variants.answer(exercise, case), list(case.wanted)
    begin = bundle.source[-1].split()[-1]
    at = next(at for at, line in enumerate(bundle.source) if line.startswith(f"{begin} "))
    named = [name for name in REGISTERS if name in case.cells]
    cells = [name.split() for name in case.cells if name not in named]
    lines, values = [], wanted[len(named) :]
    for first, *last in cells:
        share = len(values) // len(cells) if last else 1
        lines += [line for k in range(share) for line in (f"LDA ={values.pop(0)}=", f"STA {first}{f'+{k}' if k else ''}")]
        cells = cells[1:]
    lines += [f"LD{name.strip('I')} ={number}=" for name, number in zip(named, wanted)]
    bundle.source[at] = " " * len(begin) + bundle.source[at][len(begin) :]
    bundle.source[at:at] = [f"{begin:<7} NOP", *(f"        {line}" for line in lines), "        HLT"]
    return bundle


def rows(exercise, case):
    """The programs of tests/exercises.txt for an exercise: each as what it must get, its words and its source."""
    for head, body in parts(TOP / "tests/exercises.txt"):
        (name, must), words = head.partition(":")[0].split(), head.partition(": ")[2]
        if name == exercise.name:
            yield must, words, edited(variants.answer(exercise, case), body.splitlines()).text() if "=>" in body else body


def attempts(exercise, case):
    """What is handed in for an exercise: each as what it must get, its words and its source."""
    yield "all", "the answer", variants.answer(exercise, case).text()
    must = "slow" if exercise.name[:2] in SLOW else "half"
    yield must, "the program of the lesson", (COURSE / exercise.name / "lesson.mixal").read_text()
    for old, new in exercise.wrong:
        bundle = variants.answer(exercise, case)
        bundle.change_instruction(old, new)
        yield "part", f"{new} instead of {old}", bundle.text()
    if not exercise.put:
        bundle = variants.answer(exercise, case)
        first, second, *others = case.given["data"]
        bundle.set_data([second, first, *others])
        yield "part", "the first two data exchanged", bundle.text()
    if case.cells:
        yield "half" if case.always else "own", "what is wanted, as constants", constants(exercise, case).text()
    yield from rows(exercise, case)


@pytest.fixture(scope="module")
def written(tmp_path_factory):
    """Writes the cases of an exercise: their folder, and the weight of each."""
    folder = tmp_path_factory.mktemp("exercises")

    def cases(exercise):
        if not (folder / exercise.name).exists():
            variants.write(folder / exercise.name, exercise, STUDENT, "a secret")
        weights = variants.cases_of(exercise, STUDENT, "a secret")
        return folder / exercise.name, {name: weight for name, (_, _, weight) in weights.items()}

    return cases


def all_attempts():
    for exercise in variants.ALL:
        case = variants.cases_of(exercise, STUDENT, "a secret")["1_own"][0]
        for must, words, text in attempts(exercise, case):
            yield pytest.param(exercise, must, text, id=f"{exercise.name}: {words}")


@pytest.mark.parametrize("exercise, must, text", all_attempts())
def test_attempt(written, tmp_path, exercise, must, text):
    folder, weights = written(exercise)
    source = tmp_path / f"{STUDENT}.mixal"
    source.write_text(text.partition("%DEVICES")[0])
    ran = subprocess.run([TOP / "grade/cases", folder / "cases", source], capture_output=True, text=True)
    verdicts = [line for line in ran.stdout.splitlines() if "ok - " in line]
    failed = [name for name in weights if not any(line.startswith("ok") and line.endswith(f"/{name}") for line in verdicts)]
    most = sum(weights.values())
    points = most - sum(weights[name] for name in failed)
    assert len(verdicts) == len(weights) and not ran.stderr and MUST[must](failed, points, most), f"{points} of {most} points: {ran.stdout}"


def test_each_answer_has_cases():
    answers = {path.parent.name for path in COURSE.glob("[0-9]*/answer.mixal")}
    assert answers <= {exercise.name for exercise in variants.ALL}
