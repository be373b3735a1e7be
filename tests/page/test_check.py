"""Check: each answer is right, wrong ones differ as grade/case says, and a case is opened."""
import collections
import functools
import operator
import os
import pathlib
import re
import subprocess
import tempfile

import pytest
import variants

from tests.page.looks import TOP

# Of each reason of grade/case what the page says: first, of what the program has, and of its end.
FORMS = (
    (r"number \d+ is not what is wanted: (.+) holds (.+)", r"\1 is not what is wanted.", r"\2", "ended by HLT"),
    (r"line (\d+) is not what is wanted: (.*)", r"row \1 of unit", r"\2", ""),
    (r"(\w+) is (\d+), and not .*", r"\1 is not what is wanted.", r"\2", "ended by HLT"),
    (r"less is written than is wanted", "row", "nothing", "ended by HLT"),
    (r"the source lacks the name (.+)", r"\1, which the program lacks,", "nothing", ""),
    (r"the source lacks the line .+", "is not right", "", "lacks the line"),
    (r"no halt: limit at .*", "", "", "has not ended"),
    (r"no halt: fault (.+) at (\d+) clock .*", "", "", r"at \2, by the fault \1."),
    (r"line \d+: (M\d+ .+) at (\d+) clock .*", "", "", r"at \2, by the fault \1."),
    (r"line \d+: error: at (\d+) clock \d+ (cell .+)", "Case", "", r"conflict at \1: \2."),
)
LETTERS = " ABCDEFGHI?JKLMNOPQR??STUVWXYZ0123456789"  # by their codes, as far as a word of them is told as text
NAMES = [exercise.name for exercise in variants.ALL]
# Lessons whose exercises differ in what they ask.
GRADED = [name for name in NAMES if name.startswith(("00", "01", "04", "06", "11", "15", "25", "34", "53", "59"))]

Exercise = collections.namedtuple("Exercise", "cases answer wrong")


@functools.cache
def exercises():
    """Of each exercise its cases, a program that is right, and programs that are wrong, each with what is changed."""
    found = {}
    for exercise in variants.ALL:
        case = variants.own_case(exercise, "page")

        def program(change=lambda bundle: None, exercise=exercise, case=case):
            bundle = variants.answer(exercise, case)
            change(bundle)
            return "".join(f"{line}\n" for line in bundle.source)

        wrong = {new: program(operator.methodcaller("change_instruction", old, new)) for old, new in exercise.wrong}
        if not exercise.put:
            first, second, *others = case.given["data"]
            wrong["two data exchanged"] = program(operator.methodcaller("set_data", (second, first, *others)))
        wrong["the lesson"] = (TOP / "course" / exercise.name / "lesson.mixal").read_text().partition("%")[0]
        found[exercise.name] = Exercise(variants.told(exercise, "page", "")[1], program(), wrong)
    return found


def told_of(count, right):
    return f"{right} of {count} case{'s' * (count > 1)} {'is' if right == 1 else 'are'} right"


@pytest.mark.parametrize("names", [NAMES[at::6] for at in range(6)], ids=str)
def test_answers(page, names):
    """The answer of each exercise is right."""
    for name in names:
        cases, answer, _ = exercises()[name]
        page.lesson(name).put("text", answer)
        assert page.check() == [told_of(len(cases), len(cases))], name


@pytest.mark.parametrize("name", GRADED)
def test_graded(page, native, name):
    """Changed answers and lessons: as many cases are right as for grade/case, for its reason."""
    cases, _, wrong = exercises()[name]
    page.lesson(name)
    for new, text in wrong.items():
        reasons = [reason_of(native, text, case) for case in cases]
        told = page.put("text", text).check()
        assert told[0] == told_of(len(reasons), reasons.count("")), new
        first = next((number for number, reason in enumerate(reasons, 1) if reason), 0)
        assert not first or told[1].startswith(f"Case {first}") and is_same(told[1:], reasons[first - 1]), new


def reason_of(native, text, case):
    """Why grade/case does not take a source, or nothing."""
    with tempfile.TemporaryDirectory() as folder:
        here = pathlib.Path(folder)
        (here / "s.mixal").write_text(text)
        for name, data in case.items():
            (here / name).write_text(data)
        given = {**os.environ, "MIXREV": str(pathlib.Path(native.program).resolve())}
        ran = subprocess.run([TOP / "grade/case", "s.mixal", "."], cwd=here, env=given, capture_output=True, text=True)
    return "" if ran.stdout.startswith("ok") else ran.stdout.partition(": ")[2].strip() or ran.stderr


def worded(text):
    """A number as the page tells it: one from 10,000,000 on by its letters, otherwise by its sign and bytes."""
    if not re.fullmatch(r"-?\d+", text) or abs(int(text)) < 10_000_000:
        return text
    parts = [abs(int(text)) // 64**place % 64 for place in (4, 3, 2, 1, 0)]
    letters = "".join(LETTERS[part:part + 1] or "?" for part in parts)
    sign = "-" if text[0] == "-" else "+"
    return " ".join([sign, *(f"{part:02d}" for part in parts)]) if sign == "-" or "?" in letters else f"“{letters.rstrip()}”"


def is_same(told, reason):
    """Whether the page says of a case what grade/case says."""
    first, found, end = told[0], told[2] if len(told) == 4 else "", told[-1]
    for form, *parts in FORMS:
        if ran := re.fullmatch(form, reason):
            wanted = [ran.expand(part) for part in parts]
            held = wanted[1] if "row" in wanted[0] else worded(wanted[1])
            return wanted[0] in first and held in found.replace("#", "?") and wanted[2] in end
    return False
