"""What is handed in, by a download of Moodle or to a service: what becomes of it, and who is told."""
import json
import os
import pathlib
import shutil
import subprocess
import zipfile

import pytest
from tests.test_grading import FOUND, GRADE, SUM, course, rows, rows_of, said


def test_a_folder_of_moodle_is_unpacked_as_its_zip(course):
    folder = pathlib.Path("download/Müller Jörg_7_assignsubmission_file_")
    folder.mkdir(parents=True)
    (folder / "a.MIX").write_bytes(b"\xff\xfe" + SUM.replace("\n", "\r\n").encode("utf-16-le"))
    (folder / "a.png").write_bytes(b"\x89PNG")
    assert said("unpack", "download", "sources").splitlines()[1:] == ['7,Müller Jörg,a.MIX,"was UTF-16, had CR at line ends"']
    assert pathlib.Path("sources/7.mixal").read_text() == SUM


@pytest.mark.parametrize("name, files, row, feedback", rows("handed in"))
def test_what_was_handed_in_is_named_to_teacher_and_student(course, name, files, row, feedback):
    with zipfile.ZipFile("download.zip", "w") as packed:
        for file, text in files.items():
            packed.writestr(f"{name}_7_assignsubmission_{file}", text)
    pathlib.Path("students.csv").write_text(said("unpack", "download.zip", "sources", status=int(not row[1])))
    assert rows_of(pathlib.Path("students.csv").read_text()) == [["ID", "name", "file", "note"], ["7", *row]]
    pathlib.Path("ada.mixal").write_text(SUM)
    source = "sources/7.mixal" if row[1] else "ada.mixal"
    assert pathlib.Path(source).is_file()
    said("cases", "cases", source, "verdicts")
    marks = rows_of(said("marks", "cases", "verdicts", source, "--moodle", "--students", "students.csv"))
    assert marks[-1] == (["7", "50", feedback] if feedback else ["7", "", row[2]])


def handed_in(folder, text):
    folder.mkdir(parents=True)
    (folder / "ex.txt").write_bytes(text.replace("\n", "\r\n").encode())


def test_gradescope_gets_the_cases_of_the_student(course):
    pathlib.Path("each").mkdir()
    pathlib.Path("cases").rename("each/ada@example.org")
    pathlib.Path("autograder").mkdir()
    said("pack", "gradescope", "each", "autograder.zip")
    subprocess.run(["unzip", "-q", "autograder.zip", "-d", "autograder/source"], check=True)
    submission, result = pathlib.Path("autograder/submission"), pathlib.Path("autograder/results/results.json")
    handed_in(submission, SUM)
    result.parent.mkdir()
    for address, scores in (("ada@example.org", [0, 1]), ("bea@example.org", []), ("ada@example.org", [0, 1]), ("..", []), ("1_own", [])):
        pathlib.Path("autograder/submission_metadata.json").write_text(json.dumps({"users": [{"email": address, "id": 7, "name": "A"}]}))
        ran = subprocess.run(["bash", "autograder/source/run_autograder"], env={**os.environ, "AUTOGRADER": "autograder"}, stderr=subprocess.PIPE, text=True)
        assert (ran.returncode, result.exists()) == ((0, True) if scores else (1, False))
        assert ("no cases for bea@example.org" in ran.stderr) == (address == "bea@example.org") and "ada" not in ran.stderr
        assert not scores or [test["score"] for test in json.loads(result.read_text())["tests"]] == scores
    (submission / "ex.txt").write_bytes(b"%PDF-1.7")
    subprocess.run(["bash", "autograder/source/run_autograder"], env={**os.environ, "AUTOGRADER": "autograder"}, check=True)
    assert json.loads(result.read_text()) == {"score": 0, "output": "ex.txt is not a text: hand in the source"}


@pytest.mark.parametrize("named, cases, why", rows("packed"))
def test_what_can_reach_no_verdict_is_not_packed(course, monkeypatch, named, cases, why):
    (course / "script").write_text('#!/bin/sh\nexec "$MIXREV" "$@"\n')
    (course / "script").chmod(0o755)
    (course / "empty" / "ada").mkdir(parents=True)
    (course / "old").write_text("OLD\n")
    if named:
        named = named if "/" in named else str(course / named)
        monkeypatch.setenv("MIXREV", named)
    for service, target in (("gradescope", "old"), ("vpl", "old"), ("classroom", "template")):
        assert said("pack", service, cases, target, status=2, told=f"grade/pack: {why.format(named=named)}\n") == ""
    assert (course / "old").read_text() == "OLD\n" and not (course / "template").exists()


@pytest.mark.parametrize("named", ["repository/mixrev", "bin/mixrev", None])
def test_the_program_is_packed_and_not_what_starts_it(course, program, monkeypatch, named):
    shutil.copytree(GRADE, "repository/grade")
    pathlib.Path("repository/package").mkdir()
    pathlib.Path("bin").mkdir()
    for file, text in (("mixrev", "exec false"), ("package/program", f"echo '{program}'")):
        pathlib.Path("repository", file).write_text(f"#!/bin/sh\n{text}\n")
        pathlib.Path("repository", file).chmod(0o755)
    pathlib.Path("bin/mixrev").symlink_to("../repository/mixrev")
    monkeypatch.setenv("PATH", f"{course}/bin:{os.environ['PATH']}")
    monkeypatch.setenv("MIXREV", str(course / named)) if named else monkeypatch.delenv("MIXREV")
    subprocess.run(["repository/grade/pack", "classroom", "cases", "template"], check=True)
    assert pathlib.Path("template/grading/mixrev").read_bytes() == pathlib.Path(program).read_bytes()


def test_a_quiz_by_vpl_gets_comments_and_a_grade(course):
    handed_in(pathlib.Path("quiz"), SUM)
    said("pack", "vpl", "cases", "quiz/vpl_evaluate.sh")
    pathlib.Path("quiz/vpl_environment.sh").write_text("export VPL_GRADEMIN=0 VPL_GRADEMAX=20 MOODLE_USER_ID=5\n")
    subprocess.run(["./vpl_evaluate.sh"], cwd="quiz", check=True)
    ran = subprocess.run(["./vpl_execution"], cwd="quiz", capture_output=True, text=True, check=True)
    assert ran.stdout == f"Comment :=>>{FOUND}\nGrade :=>>10\n"


@pytest.mark.parametrize("case, status", [("1_own", 1), ("2_hidden", 0)])
def test_the_action_of_a_classroom_fails_with_a_case(course, case, status):
    pathlib.Path("some").mkdir()
    pathlib.Path("cases", case).rename(f"some/{case}")
    said("pack", "classroom", "some", "template")
    pathlib.Path("template/ex.mixal").write_text(SUM)
    action = pathlib.Path("template/.github/workflows/grade.yml").read_text()
    command = action.partition("- run: ")[2]
    ran = subprocess.run(["bash", "-e", "-c", command], cwd="template", env={**os.environ, "MIXREV": "grading/mixrev"}, capture_output=True, text=True)
    assert (ran.returncode, case in ran.stdout) == (status, True)
