"""Prints each lesson of the course with its answer and without, and the card of the machine

A page without the answer has all of the lesson but its answer; the card has each operation and each character. The command cmark-gfm comes from Debian, and is
installed if it is missing."""
import html
import re
import subprocess

import pytest

from machine import CHARACTERS, FORMS, codes, said
from tests import TOP

COURSE = TOP / "course"


def text_of(*command):
    """The text of a page, without its marks, each run of blanks as one."""
    ran = subprocess.run(command, capture_output=True, text=True)
    return " ".join(html.unescape(re.sub(r"<[^>]*>", " ", ran.stdout)).split()) if ran.returncode == 0 else ran.stderr


def plain(markdown):
    return " ".join(re.sub(r"[`*|]", " ", markdown).split())


def missing_of_lesson(folder):
    """What is missing of a lesson's pages, or is there and should not be."""
    readme = (folder / "README.md").read_text()
    asked = plain(re.search(r"^\*\*Exercise\.\*\*(.*?)\n\n", readme, re.S | re.M)[1])
    answer = " ".join((folder / "answer.mixal").read_text().partition("%SCRIPT")[0].split())
    short, whole = text_of(COURSE / "print", folder.name), text_of(COURSE / "print", folder.name, "--answer")
    for what, found, wanted in (("the exercise", plain(short), asked), ("the exercise and the answer", plain(whole), asked), ("the answer", whole, answer)):
        if wanted not in found:
            yield f"{folder.name}: the page has not {what}"
    for what in (answer, "Answer"):
        if what in short:
            yield f"{folder.name}: the page without an answer has it"
    for program in sorted(folder.glob("*.mixal")):
        if program.name != "answer.mixal" and " ".join(program.read_text().partition("%SCRIPT")[0].split()) not in short:
            yield f"{folder.name}: the page has not {program.name}"


def missing_of_card():
    card = text_of(COURSE / "card")
    for form in FORMS:
        row = f"{codes(form)} {form.name} {form.field} {form.time} {said(form)}"
        if row not in card:
            yield f"the card has not {row}"
    for code, character in enumerate(CHARACTERS):
        if code and f"{code} {character}" not in card:
            yield f"the card has not {code} {character}"


@pytest.fixture(scope="module", autouse=True)
def cmark():
    subprocess.run([TOP / "tests" / "install", "cmark-gfm"], check=True)


@pytest.mark.parametrize("folder", sorted(path for path in COURSE.iterdir() if path.name[:2].isdigit()), ids=lambda folder: folder.name)
def test_lesson(folder):
    assert not [*missing_of_lesson(folder)]


def test_card():
    assert not [*missing_of_card()]
