"""What users read, in README, docs, page, course, examples, grade and editors.

- No word has a meaning that only its like in another language has: the rows `wrong` of english.tsv
  say what to write instead. Code, between backquotes or in a block, is not read.
- No line of README, docs or course has over 100 characters but rows of tables; README has at most
  110 lines.
- Each term of docs/GLOSSARY.md is used in a document or a lesson.
- Ten habits of one who writes in another language's order, the rows `habit`, are no more than
  HABITS allows, which only goes down. `-k habits -rP` prints their places."""

import re

import pytest

from tests import TOP

ROWS = [it.split("\t") for it in (TOP / "tests/english.tsv").read_text().splitlines()[1:]]
# Phrases in which a word of the list is right.
RIGHT = "tells? apart|at rest|as where|(no|any|every|some)(thing|where|one) else|(what|who) else"
SIZED = [TOP / "README.md", *sorted(TOP.glob("docs/*.md")), *sorted(TOP.glob("course/**/*.md"))]
OTHERS = ("examples/**/*.md", "grade/**/*.md", "editors/**/*.md", "page/**/*.md")
SOURCES = ("examples/*.mixal", "course/*/*.mixal")
READ = [*SIZED, *(path for glob in (*OTHERS, *SOURCES) for path in sorted(TOP.glob(glob)))]
HABITS = {"course": 64, "all others": 58}


def prose(path):
    """The text of a file without its code, line for line; of a source, its comments."""
    text, lines, fenced, listed = path.read_text(), [], False, False
    if path.suffix == ".mixal":
        source = text.split("%SCRIPT")[0].splitlines()
        return "\n".join(line[1:].strip() if line.startswith("*") else "" for line in source)
    for line in text.splitlines():
        fence = line.startswith("```")
        fenced ^= fence
        if line.strip() and not line.startswith(" "):
            listed = re.match(r"[-*] |\d+\. ", line) is not None
        lines.append("" if fence or fenced or line.startswith("    ") and not listed else line)
    return re.sub("`[^`]*`", lambda code: re.sub(r"[^\n]", "`", code[0]), "\n".join(lines))


def found(path, kind):
    """Each place of a file with a pattern of a kind, with its line."""
    text = prose(path)
    if kind == "wrong":
        right = RIGHT.replace(" ", r"\s+")
        text = re.sub(right, lambda it: re.sub(r"\S", "`", it[0]), text, flags=re.I)
    for pattern, say in (row[1:] for row in ROWS if row[0] == kind):
        for it in re.finditer(pattern.replace(" ", r"\s"), text, re.M):
            line = text.count("\n", 0, it.start() + len(it[0]) - len(it[0].lstrip())) + 1
            words = " ".join(it[0].split())
            yield f'{path.relative_to(TOP)}:{line}: "{words}": write {say}'


@pytest.mark.parametrize("path", READ, ids=lambda path: str(path.relative_to(TOP)))
def test_text(path):
    assert not [*found(path, "wrong")]
    lines = path.read_text().splitlines() if path in SIZED else []
    assert not [line for line in lines if len(line) > 100 and not line.startswith("|")]
    assert len(lines) <= 110 or path.parent != TOP


def words_of(text):
    return " " + " ".join(re.findall(r"[\w']+", text.lower()))


def test_glossary():
    glossary = TOP / "docs/GLOSSARY.md"
    text = words_of("\n".join(path.read_text() for path in SIZED if path != glossary))
    terms = re.findall(r"^- \*\*(.*?)\*\*", glossary.read_text(), re.M)
    names = [name for term in terms for name in term.split(", ")]
    assert names and not [name for name in names if words_of(name) not in text]


@pytest.mark.parametrize("where", HABITS)
def test_habits(where):
    texts = [it for it in READ if it.is_relative_to(TOP / "course") == (where == "course")]
    places = [place for path in texts for place in found(path, "habit")]
    print(*places, f"{len(places)} habits in {where}", sep="\n")
    assert len(places) <= HABITS[where]
