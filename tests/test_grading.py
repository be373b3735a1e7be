"""What a teacher and a student read of grading: names, reasons, feedback, copies."""
import csv
import json
import os
import pathlib
import re
import shutil
import subprocess

import pytest

from tests.rowfiles import parts

GRADE = pathlib.Path(__file__).resolve().parent.parent / "grade"
COURSE = GRADE.parent / "course"
SUM = "N EQU 3\nSTART ENT1 N\nLOOP INCA 2\n DEC1 1\n J1P LOOP\n STA SUM\n HLT\nSUM CON 0\n END START\n"
OWN_DECK = " IN 100(0)\n JBUS *(0)\n LDA 100\n HLT\n END 0\n%DEVICES\n%UNIT 0\n+0000000007\n" + "+0000000000\n" * 99
REFUSED = "\ufeffSTART FOO 1\n BAR 2\n HLT\n"
FAULTS = ["line 1, column 1: A1 bad byte: a byte order mark: save the source without it", "line 2, column 2: A2 no such operation: BAR"]
FOUND = "1_own: number 1 is not what is wanted: rA holds 6"
GIVEN = {"SUM": SUM, "LOWER": SUM.lower(), "FOUND": FOUND, "DECK": OWN_DECK}
GIVEN["JUNK"] = OWN_DECK.replace("+0", "junk")
ROWS = dict(parts(GRADE.with_name("tests") / "grading.txt"))


def rows(part):
    """The rows of a part of grading.txt."""
    text = re.sub(r"\$([A-Z]+)", lambda it: json.dumps(GIVEN[it[1]])[1:-1], ROWS[part])
    return [*map(json.loads, text.splitlines())]


@pytest.fixture
def course(tmp_path, program, monkeypatch):
    """A folder with two cases for the sum, of which the second is hidden."""
    monkeypatch.setenv("MIXREV", str(program))
    monkeypatch.chdir(tmp_path)
    for name, wanted in (("1_own", "7\n6\n"), ("2_hidden", "6\n6\n")):
        case = tmp_path / "cases" / name
        case.mkdir(parents=True)
        (case / "cells").write_text("A\nSUM\n")
        (case / "wanted").write_text(wanted)
    return tmp_path


def rows_of(text):
    return list(csv.reader(text.split("\n")[:-1]))


def said(*words, status=0, told=""):
    ran = subprocess.run([str(GRADE / words[0]), *words[1:]], capture_output=True, text=True)
    assert (ran.returncode, ran.stderr) == (status, told)
    return ran.stdout


def graded(name, text, *form):
    pathlib.Path(name).write_text(text)
    verdicts = said("cases", "cases", f"./{name}", "verdicts")
    return verdicts, said("marks", "cases", "verdicts", *form, f"./{name}")


def case(**files):
    """A case of its own for the sum, with these files too."""
    folder = pathlib.Path("one/1_case")
    folder.mkdir(parents=True)
    for name, text in {"cells": "SUM\n", "wanted": "6\n", **files}.items():
        if text is not None:
            (folder / name).write_text(text)


@pytest.mark.parametrize("files, old, new, reason", rows("measures"))
def test_no_label_is_a_measure_and_no_deck_is_a_students(course, files, old, new, reason):
    case(**files)
    pathlib.Path("a.mixal").write_text(SUM.replace(old, new))
    assert said("cases", "one", "a.mixal") == "1..1\n" + (f"not ok - a.mixal one/1_case: {reason}\n" if reason else "ok - a.mixal one/1_case\n")


def test_names_beyond_ascii_stay_as_they_are(course):
    verdicts, marks = graded("Müller Jörg.mixal", SUM)
    assert "ok - ./Müller Jörg.mixal cases/2_hidden\n" in verdicts
    assert marks.splitlines()[1] == "Müller Jörg,0,1,1,2,50"


@pytest.mark.parametrize("name, spelled", [("=1+1", "%3D1+1"), ("-2+3", "%2D2+3"), ("2+3", "2+3"), ("@a", "%40a"), ("a\n=b", "a%0A%3Db"), ("a%0A=b", "a%250A%3Db"),
                                           ("学" * 83, "学" * 83), ("#" * 249, "%23" * 249), ("\udcff" * 249, "%FF" * 249)])
def test_a_name_is_told_from_each_other_and_is_no_formula(course, name, spelled):
    verdicts, marks = graded(f"{name}.mixal", SUM)
    assert verdicts.count("\nok - ") == 1 and marks.splitlines()[1] == f"{spelled},0,1,1,2,50"


def test_who_has_no_cases_reads_of_nobody_else(course):
    for name in ("bea", "zed"):
        pathlib.Path(f"{name}.mixal").write_text(SUM)
    (course / "each").mkdir()
    (course / "cases").rename(course / "each" / "bea")
    (course / "each" / "bea" / "no_case").mkdir()
    (course / "each" / "..mixal").write_text(SUM)
    for name in ("zed.mixal", "each/..mixal"):
        assert said("cases", "each", name, "verdicts", status=2, told=f"grade/cases: no cases for {pathlib.Path(name).stem}\n") == "1..0\n"
    said("cases", "each", "bea.mixal", "verdicts")
    told = "grade/marks: no cases for zed\n"
    for form, marks in (((), "source,1_own,2_hidden,points,of,percent\nbea,0,1,1,2,50\nzed,,,,,\n"),
                        (["--moodle"], f"ID number,Grade,Feedback\nbea,50,{FOUND}\nzed,,no cases for zed\n")):
        assert said("marks", "each", "verdicts", "bea.mixal", "zed.mixal", *form, status=1, told=told) == marks
    assert said("marks", "each", "verdicts", "zed.mixal", "--gradescope", status=1, told=told) == ""
    assert said("marks", "each", "verdicts", "zed.mixal", "--vpl", status=1, told=told) == "Comment :=>>no cases for zed\n"


def test_no_verdict_is_no_mark(course):
    graded("ada.mixal", SUM)
    pathlib.Path("verdicts/ada.mixal/cases/2_hidden").unlink()
    for form, written in (([], "source,1_own,2_hidden,points,of,percent\nada,0,,,,\n"), (["--gradescope"], ""),
                          (["--moodle"], f"ID number,Grade,Feedback\nada,,{FOUND}; 2_hidden: no verdict\n"),
                          (["--vpl"], f"Comment :=>>{FOUND}\nComment :=>>2_hidden: no verdict\n")):
        assert said("marks", "cases", "verdicts", "./ada.mixal", *form, status=1, told="grade/marks: no verdict on ./ada.mixal cases/2_hidden\n") == written


@pytest.mark.parametrize("letter", ["\u2028", "\x85", "\x1c", "\x0c", "\udcff", "\x00"])
def test_no_letter_of_a_source_ends_the_marks_of_a_class(course, letter):
    pathlib.Path("ada.mixal").write_text(SUM.replace("LOOP INCA", f"LOOP{letter} F{letter}OO"), errors="surrogateescape")
    said("cases", "cases", "./ada.mixal", "verdicts")
    marks = list(csv.DictReader(said("marks", "cases", "verdicts", "./ada.mixal", "--moodle").splitlines()))
    assert marks[0]["Grade"] == "0" and marks[0]["Feedback"].startswith("refused: line 3, column ")


def test_what_was_found_is_told_but_not_of_a_hidden_case(course):
    feedback = list(csv.DictReader(graded("ada.mixal", SUM, "--moodle")[1].splitlines()))[0]["Feedback"]
    assert feedback == FOUND
    feedback = list(csv.DictReader(graded("eve.mixal", SUM.replace("ENT1 N", "ENT1 M"), "--moodle")[1].splitlines()))[0]["Feedback"]
    assert feedback == ("line 2, column 12: warning: M is defined nowhere: END makes a cell of 0 for it; "
                        "1_own: number 1 is not what is wanted: rA holds 14; 2_hidden")


def test_why_a_source_is_refused_is_told_once_and_whole(course):
    feedback = list(csv.DictReader(graded("ada.mixal", REFUSED, "--moodle")[1].splitlines()))[0]["Feedback"]
    assert feedback.startswith(f"refused: {FAULTS[0]}; ") and FAULTS[1] in feedback and "A13 no END" in feedback
    assert feedback.count("A1 bad byte") == 1 and "1_own" not in feedback
    result = json.loads(said("marks", "cases", "verdicts", "ada.mixal", "--gradescope"))
    assert result["score"] == 0 and FAULTS[1] in result["output"] and {test["output"] for test in result["tests"]} == {""}


def test_a_row_that_is_wrong_is_told(course):
    case = pathlib.Path("rows/1_own")
    case.mkdir(parents=True)
    (case / "wanted").write_text("MORE\n")
    pathlib.Path("less.mixal").write_text("ROW ALF \"LESS \"\n ORIG 100\nGO OUT ROW(18)\n JBUS *(18)\n HLT\n END GO\n")
    assert said("case", "less.mixal", "rows/1_own") == "not ok - less.mixal rows/1_own: line 1 is not what is wanted: LESS\n"


@pytest.mark.parametrize("script", [["marks", "cases", "verdicts"], ["likeness", "--least=0"]])
def test_a_reader_that_goes_away_is_no_fault(course, script):
    names = [f"sources/{k:05}.mixal" for k in range(60)]
    pathlib.Path("sources").mkdir()
    for name in names:
        pathlib.Path(name).write_text(SUM)
        for case in ("1_own", "2_hidden"):
            verdict = pathlib.Path("verdicts") / name / "cases" / case
            verdict.parent.mkdir(parents=True, exist_ok=True)
            verdict.write_text(f"ok - {name} cases/{case}\n")
    assert said_to_nobody(GRADE / script[0], *script[1:], *names) == ""


@pytest.mark.parametrize("words", ["variant", "card", "times PROGRAM LESSON N=4", "facts PROGRAM 01"])
def test_nor_is_it_for_the_course(program, words):
    lesson = COURSE / "50_insertion" / "lesson.mixal"
    assert said_to_nobody(*(COURSE / words).as_posix().replace("PROGRAM", str(program)).replace("LESSON", str(lesson)).split(" ")) == ""


def said_to_nobody(*words):
    """What a script says on standard error if nobody reads what it writes."""
    read, write = os.pipe()
    os.close(read)
    ran = subprocess.run(words, stdout=write, stderr=subprocess.PIPE, text=True)
    os.close(write)
    return ran.stderr


def test_if_all_handed_in_the_same_each_pair_is_found(course):
    names = ["ada.mixal", "bea.mixal", "cem.mixal"]
    for name in names:
        pathlib.Path(name).write_text(SUM.replace("LOOP", name[:3].upper()))
    assert said("likeness", *names).splitlines()[1:] == ["ada,bea,100", "ada,cem,100", "bea,cem,100"]


# What is typed after an instruction, and what course/times writes of it for LaTeX.
REMARKS = [("plain -- of N_1", r"\texttt{~HLT~0~plain~-{}-~of~N\_1}"), ("?` !`", r"\texttt{~HLT~0~?{}`~!{}`}"),
           ("\\input{x} \x0c \x7f %", r"\texttt{~HLT~0~\textbackslash{}input\{x\}~?~?~\%}"),
           *((words, r"\anyscript{~HLT~0~%s}" % words) for words in ("«ß„ąţ", "λόγος", "сумма", "合計", "جمع", "e\u0301\u2028\u202e👍"))]


@pytest.mark.parametrize("remark, cell", REMARKS)
def test_typeset(program, tmp_path, remark, cell):
    """A remark in any script is a row of a table for LaTeX, which pdflatex takes without a fault; in CSV it is a text for a spreadsheet."""
    source = tmp_path / "n.mixal"
    source.write_text(f"N EQU 1\n\tENTA\tN\n HLT 0 {remark}\n END 0\n")
    texts = [subprocess.run([COURSE / "times", program, source, "N=1", form], capture_output=True, check=True).stdout for form in ("--latex", "--csv")]
    assert f"{cell} & 1 \\\\" in texts[0].decode().split("\n") and texts[1].startswith(b"N=1,line\n1,'\tENTA\tN\n1,")
    (tmp_path / "n.tex").write_bytes(b"\\documentclass{article}\n\\begin{document}\n" + texts[0] + b"\\end{document}\n")
    if shutil.which("pdflatex"):
        subprocess.run(["pdflatex", "-interaction=batchmode", "-halt-on-error", "n.tex"], cwd=tmp_path, check=True, capture_output=True)
