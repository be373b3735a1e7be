"""Grades a made class and looks for its copies.

The sources and cases of its students are those of made.py, packed as Moodle's download. grade/cases grades each, and the marks of grade/marks are
compared with those that are known; grade/likeness has to find each of the copies."""
import concurrent.futures
import csv
import json
import os
import pathlib
import re
import subprocess

from tests import TOP
from tests.students import made, moodle

GRADE = TOP / "grade"
NO_SOURCE = ("two sources", "two pictures", "a damaged file", "a Word document", "an online text")  # the others are sources that are refused


def output(*words, **others):
    ran = subprocess.run([str(word) for word in words], capture_output=True, text=True, **others)
    assert (ran.returncode, ran.stderr) == (0, ""), words[0]
    return ran.stdout


def expected(row):
    """What a line of marks says: right, slow or wrong."""
    cases = [name for name in row if name[0].isdigit()]
    if "0" in (row[name] for name in cases if not name.endswith("_limits")):
        return "wrong"
    return "slow" if "0" in (row[name] for name in cases) else "right"


def handed_in(place, known, seed):
    """Packs the sources of a lesson as Moodle's download and unpacks them again: what must be known of them then, and who is refused. The broken ones are
    wrong, and those without a source are left out."""
    students = {student for student, *_ in known}
    broken = moodle.packed(place, [student for student, *_ in known], f"{seed} {place.name}")
    ran = subprocess.run([GRADE / "unpack", "download.zip", "sources", "--worksheet", "worksheet.csv"], cwd=place, capture_output=True, text=True)
    told = {row["ID"]: row for row in csv.DictReader(ran.stdout.splitlines())}
    lacking = {student for student, what in broken.items() if what in NO_SOURCE}
    assert (ran.stderr, set(told)) == ("", students)
    assert {student for student, row in told.items() if not row["file"]} == lacking
    assert {path.stem for path in (place / "sources").iterdir()} == students - lacking
    origin = {student: copied for student, _, copied in known}
    known = [(student, "wrong" if student in broken else verdict, "" if broken.keys() & {student, origin[student]} else origin[student])
             for student, verdict, _ in known if student not in lacking]
    return known, broken.keys() - lacking


def have_other_forms(place, sources, rows, refused):
    """The forms for Moodle and for Gradescope have the same marks, and a case that weighs more counts more."""
    imported = list(csv.DictReader(output(GRADE / "marks", "cases", "verdicts", *sources, "--moodle", cwd=place).splitlines()))
    found = {row["ID number"]: row["Grade"] for row in imported}
    assert found == {student: row["percent"] for student, row in rows.items()}
    for row in imported:
        assert row["ID number"] not in refused or re.fullmatch(r"refused: line 1(, column \d+)?: A\d.*", row["Feedback"])
    first = pathlib.Path(sources[0]).stem
    case = next(name for name in rows[first] if rows[first][name] == "1" and name[0].isdigit()) if rows[first]["points"] != "0" else "1_own"
    weight = place / "cases" / first / case / "weight"
    weight.write_text(f"{float(weight.read_text()) + 2.5}\n")
    one = json.loads(output(GRADE / "marks", "cases", "verdicts", sources[0], "--gradescope", cwd=place))
    more = 2.5 if rows[first][case] == "1" else 0
    assert sum(test["score"] for test in one["tests"]) == one["score"] == float(rows[first]["points"]) + more
    assert sum(test["max_score"] for test in one["tests"]) == float(rows[first]["of"]) + 2.5


def find_copies(place, known, sources):
    """Each copy is found; pairs besides were made by chance with the same instructions."""
    given = TOP / "course" / place.name / "lesson.mixal"
    listed = output(GRADE / "likeness", f"--given={given}", *sources, cwd=place).splitlines()[1:]
    pairs = {frozenset(line.split(",")[:2]) for line in listed}
    copied = {frozenset((student, original)) for student, _, original in known if original}
    assert copied <= pairs
    return len(copied)


def test_class(program, request, tmp_path, monkeypatch):
    monkeypatch.setenv("MIXREV", program)
    seed, copies = str(request.config.getoption("hypothesis_seed") or 1), 0
    for lesson, known in made.make(tmp_path, request.config.getoption("--examples") or 60, seed).items():
        place = tmp_path / lesson
        known, refused = handed_in(place, known, seed)
        sources = [f"sources/{student}.mixal" for student, *_ in known]
        with concurrent.futures.ThreadPoolExecutor(os.cpu_count()) as pool:
            list(pool.map(lambda source: subprocess.run([GRADE / "cases", "cases", source, "verdicts"], cwd=place, capture_output=True), sources))
        rows = {row["source"]: row for row in csv.DictReader(output(GRADE / "marks", "cases", "verdicts", *sources, cwd=place).splitlines())}
        for student, verdict, _ in known:
            assert expected(rows[student]) == verdict, rows[student]
        have_other_forms(place, sources, rows, refused)
        copies += find_copies(place, known, sources)
    assert copies
