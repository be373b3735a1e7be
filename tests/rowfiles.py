"""Rows of tests in files: `KIND |FIELD|..|WANTED`. Empty lines and those with `#` first are none.
And parts of files, each after a line `== NAME`."""
import pathlib
import re

import pytest


def rows_of(file):
    """Each row: the number of its line, its kind, its fields, and the last of them."""
    for number, line in enumerate(pathlib.Path(file).read_text().split("\n"), 1):
        if line and not line.startswith("#"):
            kind, *fields, wanted = line.split("|")
            yield number, kind.strip(), fields, wanted


def params(folder):
    """The rows of the files of a folder, each with its place as the name of its case."""
    for file in sorted(pathlib.Path(folder).glob("*.rows")):
        for number, kind, fields, wanted in rows_of(file):
            yield pytest.param(kind, fields, wanted.strip(), id=f"{file.name}:{number} {kind}")


def parts(file):
    """The name and the text of each part; a line that ends with {*N} is there N times."""
    text = pathlib.Path(file).read_text()
    text = re.sub(r"(?m)^(.*) \{\*(\d+)\}\n", lambda it: f"{it[1]}\n" * int(it[2]), text)
    return [part.partition("\n")[::2] for part in re.split("(?m)^== ", text)[1:]]
