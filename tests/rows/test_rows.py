"""Rows of text that whole runs show. The name of a case is the place of its row: `-k "text.rows and lines"` takes those of a file and a kind.

A row is `LIBRARY KIND |INPUT| WANTED`, where the input is one field or more, parted by bars. `\\t`, `\\n`, `\\r` and `\\xNN` are the bytes that they
name. Each kind of row has a function that makes a run of the input, and reads from what the program writes what the row wants. The rows are files
beside this one, *.rows; what is wanted there is from the book, or worked by hand from the rules in docs/. A row stands only where a run can show
what it wants. Empty lines and those that begin with `#` are no rows."""
import pathlib

import pytest

from tests.rowfiles import params
from tests.rows import mixal, operation_rows, sources, steps, stream_rows, tool, word_rows
from tests.rows.faces import Program

PARTS = (word_rows, operation_rows, mixal, sources, stream_rows, steps, tool)
KINDS = {kind: answer for part in PARTS for kind, answer in part.KINDS.items()}


@pytest.fixture(scope="module")
def shown(program, place):
    """The program, with a folder for the files of its runs."""
    return Program(program, place)


@pytest.mark.parametrize("kind, fields, wanted", params(pathlib.Path(__file__).parent))
def test_row(shown, kind, fields, wanted):
    assert KINDS[kind](shown, fields, wanted) == wanted
