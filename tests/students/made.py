"""Makes a class that did three exercises of the course.

For each of three lessons a folder has what course/variant writes for its share of the students, and their sources: right ones of several
kinds, slow ones, wrong ones, and copies of each of these that is not refused, with other names, remarks, spaces and places in memory; some copiers also
put in a NOP that is executed once.
FOLDER/known says what each must get: `right` passes all cases, `slow` all but that of the limits, `wrong` not even these; a copy gets what its original
gets, and is followed by the name of it. No verdict comes from a run."""
import pathlib
import random
import re

import variants
from tests.rowfiles import parts

NAMES = "ABER AGAIN BACK BIG CELL CHECK DOWN EMPTY ENDE FERTIG FIRST FORTH FULL GO1 HERE ITEM KEEP LOOP MORE NEXT9 OVER PASS PUT2 Q7 RUN SKIP STOP T1 UP".split()
REMARKS = "the next one|is it the last?|not yet|one less|one more|keep it|go on|this took me a whole night|as on page 145|round again|done".split("|")
EXPECTED = ["right"] * 50 + ["slow"] * 12 + ["wrong"] * 18 + ["copy"] * 20


def programs():
    """Of each lesson its right programs, slow ones, and mistakes."""
    found = {}
    for head, body in parts(pathlib.Path(__file__).with_name("programs.txt")):
        lesson, kind = head.split()
        mistakes = [[words.strip() for words in line.split("=>")] for line in body.splitlines()]
        found.setdefault(lesson, {"right": [], "slow": [], "wrong": []})[kind] += mistakes if kind == "wrong" else [body]
    return found


def instructions(rng, text, wrong=None):
    """The lines of a program: one way of several, with registers chosen, one mistake if it is to be wrong, and its parts in any order: a part ends
    where a jump is always taken."""
    text = re.sub(r"\[([^]]*)\]", lambda found: rng.choice(found[1].split("|")), text)
    if wrong:
        old, new = rng.choice([change for change in wrong if change[0] in text])
        text = text.replace(old, new, 1)
    registers = list("12345") if rng.random() < 0.2 else rng.sample("12345", 5)
    text = re.sub(r"@([a-e])", lambda found: registers["abcde".index(found[1])], text)
    blocks = [[]]
    for line in (line.strip() for line in re.split(r"[;\n]", text) if line.strip()):
        blocks[-1].append(line)
        if re.search(r"\b(JMP|HLT)\b", line):
            blocks.append([])
    rng.shuffle(blocks)
    return [line for block in blocks for line in block]


def source(rng, lines, given):
    """A program as a student writes it: with names, remarks, spaces and a place of the student's own."""
    names, remarks, width = rng.sample(NAMES, len(NAMES)), rng.random() / 2, rng.choice((5, 8))
    chosen = {}
    told = [f"* {rng.choice(REMARKS)}" for _ in range(rng.randrange(3))] + given + [f"        ORIG {rng.choice((2500, 3000, 3200))}"]
    for line in lines:
        line = re.sub(r"\b[a-z]+\b", lambda found: chosen.setdefault(found[0], names[len(chosen)]), line)
        label, words = "", line.split()
        if len(words) == 3 or words[0] in ("START", *chosen.values()) or re.fullmatch(r"\dH", words[0]):
            label, *words = words
        line = f"{label:<7} {words[0]:<{width - 1}} {' '.join(words[1:])}"
        bare = len(words) == 1
        told.append((line + ("" if bare or rng.random() > remarks else f"{'':{rng.randrange(1, 9)}}{rng.choice(REMARKS)}")).rstrip())
    return "".join(f"{line}\n" for line in [*told, "        END  START"])


def given_lines(exercise, student):
    """What a student takes over from the start of the exercise: its symbols, and the student's own data."""
    bundle = variants.answer(exercise, variants.cases_of(exercise, student, "")["1_own"][0])
    end = next(at for at, line in enumerate(bundle.source) if line.startswith("* end of"))
    return [line for line in bundle.source[: end + 1] if line.startswith(("* data", "* end")) or not line.startswith("*")]


def make(place, number, seed):
    """Makes the folder of each lesson in a place: of each student what the marks must be, and whose copy the source is."""
    rng, known, lessons = random.Random(seed), {}, programs()
    for at, (name, kinds) in enumerate(lessons.items()):
        exercise = next(one for one in variants.ALL if one.name == name)
        folder, made, known[name] = place / name, [], []
        (folder / "sources").mkdir(parents=True)
        for k in range(at, number, len(lessons)):
            student = f"s{k:03}"
            expected, origin = rng.choice(EXPECTED), ""
            if expected == "copy" and made:
                origin, expected, lines = rng.choice(made)
                lines = list(lines)
                if rng.random() < 0.3:
                    lines.insert(1 + next(at for at, line in enumerate(lines) if line.startswith("START")), "NOP")
            else:
                expected = "right" if expected == "copy" else expected
                lines = instructions(rng, rng.choice(kinds["slow" if expected == "slow" else "right"]), kinds["wrong"] if expected == "wrong" else None)
                if not re.search(r"CPM|JAX|IND", " ".join(lines)):
                    made.append((student, expected, lines))
            variants.write(folder, exercise, student, f"secret {k}")
            (folder / "sources" / f"{student}.mixal").write_text(source(rng, lines, given_lines(exercise, student)))
            known[name].append((student, expected, origin))
    return known
