"""The exercises of the course as files: for a student the hand-out, the answer with the same data, and the cases of grade/."""
import re
import textwrap

from exercise import Draw
from lessons import all_lessons
from running import COURSE, Bundle

ALL = list(all_lessons())
SMALL, LARGE, MORE = 3, 8, 3  # up to SMALL entries a case counts one point, if others have LARGE or more; any other case counts MORE


def own_case(exercise, student):
    """The case that a student sees."""
    return exercise.make(Draw(exercise.name, student), exercise.sizes[-2] if len(exercise.sizes) > 1 else exercise.sizes[0])


def cases_of(exercise, student, secret):
    """The cases by their names, each with its kind and its weight: a program that does no more than the smallest cases gets little for it. The first is
    the one that the student sees. One of others asks for the limits too, or that no step uses cells of a transfer under way, and is worth half of all points."""
    own = own_case(exercise, student)
    cases = {"1_own": (own, "", MORE)}
    if exercise.put:
        hidden = [exercise.make(Draw(exercise.name, student, secret, str(at)), size) for at, size in enumerate(exercise.sizes)]
        weights = [1 if size <= SMALL and max(exercise.sizes) >= LARGE else MORE for size in exercise.sizes]
        cases.update({f"{at}_hidden": (case, "", weight) for at, (case, weight) in enumerate(zip(hidden, weights), 2)})
    else:
        hidden = [own]
    share = sum(weight for *_, weight in cases.values())
    if exercise.put and own.limits:
        cases[f"{len(cases) + 1}_own_limits"] = (own, "limits", 1)
        share += 1
    for kind in ("limits", "strict"):
        if getattr(hidden[-1], kind):
            cases[f"{len(cases) + 1}_{kind}"] = (hidden[-1], kind, share)
    return cases


def wrapped(text):
    return textwrap.fill(" ".join(text.split()), 100, break_on_hyphens=False)


def kept_lines(exercise, case):
    """The lines that a program has to keep: those of the case, and before a block of data the lines of the answer that give it its place."""
    source = answer(exercise, case).source
    for line in case.lines():
        if line.startswith("* ") and not line.startswith("* end of"):
            first = last = source.index(line)
            while source[first - 1].split()[:1] in (["ORIG"], ["CON"]):
                first -= 1
            yield from source[first:last]
        yield line


def conditions(exercise, case, tried):
    """What the program of a case keeps to, in paragraphs; `tried` says what for."""
    parts = [wrapped(f"**What your program must keep to.** {exercise.paragraph('Checked:')}")]
    if case.told:
        parts.append(wrapped(case.told))
    elif case.given:
        parts.append(f"Keep these lines, labels and comments. {tried}")
        parts.append("```text\n" + "".join(f"{line}\n" for line in kept_lines(exercise, case)) + "```")
    for name, lines in (("cards", case.cards), ("units", case.deck)):
        if lines:
            parts.append(f"Your {name}:\n\n```text\n" + "".join(f"{line}\n" for line in lines) + "```")
    if case.strict:
        parts.append("For full marks, no step may use or alter a cell while a unit still reads into it or writes from it.")
    if case.limits:
        limits = ", ".join(case.limits).replace("<=", "at most").replace("clock =", "clock")
        parts.append(f"For full marks, with these data: {limits}." + (" With other data there is such a limit, too." if exercise.put else ""))
    return "\n\n".join(parts)


def told(exercise, student, tried):
    """What a hand-out says of the data of a student, and the files of the cases of that."""
    own = own_case(exercise, student)
    kinds = [kind for kind in ("", "limits", "strict") if not kind or getattr(own, kind)]
    return conditions(exercise, own, tried), [own.files(exercise.put, kind, MORE) for kind in kinds]


def handout(exercise, student, case):
    title = (COURSE / exercise.name / "README.md").read_text().partition("\n")[0].removeprefix("# ")
    asked = exercise.paragraph("Exercise.")
    task, questions = re.fullmatch(r"(.*?)((?:(?<=[.?]) [A-Z][^.?]*\?)*)", asked).groups() if exercise.put else (asked, "")
    parts = [f"# {title}: the exercise of {student}", wrapped(f"Read lesson `course/{exercise.name}` first: its words and the layout of its cells are used here.")]
    parts += [wrapped(task), wrapped(f"Not handed in, but worth an answer:{questions}") if questions else ""]
    parts.append(conditions(exercise, case, "Your program is also run with other values in them."))
    return "\n\n".join(part for part in parts if part) + "\n"


def answer(exercise, case):
    """The lines of the exercise's own answer with the data of a case."""
    bundle = Bundle((COURSE / exercise.name / "answer.mixal").read_text())
    for name, value in case.given.items():
        if isinstance(value, list):
            bundle.set_data(value, name)
        else:
            bundle.replace_line(re.compile(rf"({name} +(?:EQU|CON) +)\S+"), rf"\g<1>{value}")
    return bundle


def write(folder, exercise, student, secret):
    cases = cases_of(exercise, student, secret)
    own = cases["1_own"][0]
    files = {f"handouts/{student}.md": handout(exercise, student, own), f"keys/{student}.mixal": "".join(f"{line}\n" for line in answer(exercise, own).source)}
    for name, (case, kind, weight) in cases.items():
        files.update({f"cases/{student}/{name}/{file}": text for file, text in case.files(exercise.put, kind, weight).items()})
    for name, text in files.items():
        path = folder / name
        path.parent.mkdir(parents=True, exist_ok=True)
        path.write_text(text)
