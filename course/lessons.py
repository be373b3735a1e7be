"""The lessons and their exercises, as lessons.tsv lists them."""

import importlib
import re
import typing

from running import COURSE


class Lesson(typing.NamedTuple):
    """A folder; its facts, each with what was found and what was wanted, and a mistake that they
    have to see; the case of its exercise, made of a draw and a size, the sizes of the cases, of
    which the student sees the last but one, and mistakes in its answer."""

    name: str
    facts: typing.Callable
    mistake: tuple
    make: typing.Callable
    sizes: list
    wrong: list

    @property
    def put(self):
        """Whether a case has data of its own. Otherwise the student has to find the data, and they
        are wrong if the first two are exchanged."""
        return bool(self.wrong)

    def paragraph(self, word):
        """The paragraph of the lesson that begins with a word: `Exercise.` asks, and `Checked:`
        says what a program must keep and leave."""
        lesson = (COURSE / self.name / "README.md").read_text()
        return " ".join(re.search(rf"^\*\*{word}\*\* (.*?)\n\n", lesson, re.S | re.M)[1].split())


def named(word):
    """The function of a module, such as `sorting.shell`."""
    module, function = word.split(".")
    return getattr(importlib.import_module(module), function)


def pairs(text):
    return [tuple(pair.split(" => ")) for pair in text.split("; ") if pair]


def all_lessons():
    for line in (COURSE / "lessons.tsv").read_text().splitlines()[1:]:
        name, facts, mistake, make, sizes, wrong = line.split("\t")
        sizes = [int(size) for size in sizes.split()]
        yield Lesson(name, named(facts), *pairs(mistake), named(make), sizes, pairs(wrong))
