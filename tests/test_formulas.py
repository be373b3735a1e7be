"""Compares `show analysis` with the counts of a run and with Python's values of the formulas

Each lesson that has times in square brackets is run as its facts in course/ run it. The values of N, A and so on are those that the facts work out by
other methods. Each row has the count of its line, the value that course/counting.py finds, and `ok`, or `gave` if it gave a name its value; the names have the same values where only
the constants of the source are given, if the rule finds them. With a formula altered exactly its row is `no`."""
import re
import sys

import pytest

from counting import times_of, value_of
from lessons import all_lessons
from running import COUNTED, Runner
from tests.asking import asked, line, reply_of

# The facts of these lessons give no times.
WITHOUT_TIMES = {"00_first_hour", "02_degrees", "03_fields", "06_loader", "16_hunt"}
NAME = re.compile(r"[A-Z][A-Z0-9]*")


class Kept(Runner):
    """Keeps the name and the bundle of what it ran last."""

    def bundle(self, name):
        self.name, self.last = name, super().bundle(name)
        return self.last


def run_of(program, lesson):
    """Of the first six runs of which the facts of a lesson know the times the longest: its bundle, and what they say of its letters; none without such runs."""
    run, found = Kept(program, lesson.name), []

    def times(outcome, waiting=False, overwritten=(), **quantities):
        if run.name == "lesson.mixal" and outcome.source is run.last.source:
            found.append((outcome.steps, len(found), run.last, {name: int(value) for name, value in quantities.items()}))
        return ()

    module = sys.modules[lesson.facts.__module__]
    before, module.times = getattr(module, "times", None), times
    next((True for _ in lesson.facts(run) if found[5:]), None)
    module.times = before
    return max(found)[2:] if found else None


def names_in(rows):
    return list(dict.fromkeys(name for _, formula, _, _ in rows for name in NAME.findall(formula)))


def values_of(rows, given):
    """The values of the names: those given, and what follows from the first line with one name that has none, again and again; and the lines that gave one."""
    values, givers = dict(given), set()
    while True:
        for number, formula, count, _ in rows:
            unknown = set(NAME.findall(formula)) - set(values)
            if len(unknown) == 1:
                (name,) = unknown
                at = lambda value: value_of(formula, {**values, name: value})
                slope = at(1) - at(0)
                value = (count - at(0)) // slope if slope else 0
                if slope and at(value) == count:
                    values[name] = value
                    givers.add(number)
                    break
        else:
            return values, givers


def analysis(rows, source, given):
    """The lines of `show analysis`: of each row the number of its line, the formula, the count and the time."""
    said, parts, left = {"ok": 0, "no": 0, "?": 0, "gave": 0}, {}, []
    values, givers = values_of(rows, given)
    for number, formula, count, time in rows:
        value = value_of(formula, values) if set(NAME.findall(formula)) <= set(values) else "?"
        verdict = "?" if value == "?" else "gave" if number in givers else "ok" if value == count else "no"
        said[verdict] += 1
        yield f"{count:10}  {value:>10}  {verdict:4}{number:5}  {source[number - 1]}"
        if count and time % count == 0:
            one, all = parts.get(formula, (0, 0))
            parts[formula] = one + time // count, all + time
        else:
            left.append(number)
    yield " ".join(["names", *(f"{name}={values.get(name, '?')}" for name in names_in(rows))])
    known = {name for formula in parts for name in NAME.findall(formula)} <= set(values)
    total = sum(one * value_of(formula, values) for formula, (one, _) in parts.items()) if known else "?"
    yield f"time {' + '.join(f'{one}({formula})' for formula, (one, _) in parts.items())} = {sum(all for _, all in parts.values())} = {total}"
    yield from (f"time of line {number} is left out" for number in left)
    gave = said.pop("gave")
    yield "lines " + ", ".join(f"{many} {verdict}" for verdict, many in said.items()) + (f", {gave} gave a name its value" if gave else "")


def altered(source, quantities):
    """The source with a minus lost, with N for N-1, and with one more in its last formula, where this alters a value; with the line that is altered."""
    for lines, change in ((1, lambda formula: formula.replace("-", "+", 1)), (1, lambda formula: formula.replace("-1", "", 1)), (-1, lambda formula: f"{formula}+1")):
        for number, text in list(enumerate(source, 1))[::lines]:
            formula = times_of(text)
            other = formula and change(formula)
            if formula and other and value_of(other, quantities) != value_of(formula, quantities):
                yield [*source[:number - 1], text.replace(f"[{formula}]", f"[{other}]"), *source[number:]], number
                break


def rows_of(source, counts):
    """The lines with a formula: number, formula, count and time."""
    return [(number, times_of(text), *counts.get(number, (0, 0))) for number, text in enumerate(source, 1) if times_of(text) is not None]


@pytest.mark.parametrize("lesson", all_lessons(), ids=lambda lesson: lesson.name)
def test_lesson(program, lesson):
    name, found = lesson.name, run_of(program, lesson)
    if not found:
        assert name in WITHOUT_TIMES
        return
    bundle, quantities = found
    words = lambda given: line(" ".join(["show analysis", *(f"{name}={value}" for name, value in given.items())]))
    commands = [line(each) for each in bundle.commands() if each.split()[0] in ("set", "run")]
    constants = {one: value for one, value in quantities.items() if any(re.match(rf"{one} +EQU ", each) for each in bundle.source)}
    *_, counts, whole, short = [reply_of(each) for each in asked(program, bundle, [*commands, line("show counts"), words(quantities), words(constants)])]
    found = [COUNTED.fullmatch(each) for each in counts.splitlines()]
    counts = {int(one[4]): (int(one[1]), int(one[2])) for one in found if one}
    rows = rows_of(bundle.source, counts)
    assert names_in(rows) and set(names_in(rows)) <= set(quantities), name
    for given, said in ((quantities, whole), (constants, short)):
        assert said.splitlines() == list(analysis(rows, bundle.source, given)), f"{name}, {len(given)} given"
    wrong = [each for each in whole.splitlines() if re.match(r" *\d+  +\S+  (no|\?) ", each)]
    assert wrong == [], f"{name}: rows that are not ok"
    for source, number in altered(bundle.source, quantities):
        bundle.source = source
        said = reply_of(asked(program, bundle, [*commands, words(quantities)])[-1]).splitlines()
        assert said == list(analysis(rows_of(source, counts), source, quantities)), f"{name}, line {number} altered"
        wrong = [int(each[28:33]) for each in said if re.match(r" *\d+  +-?\d+  no ", each)]
        assert wrong == [number], f"{name}, line {number} altered: the rows that say no"
