"""The tables of the machine: its operations and its characters, read from docs/operations.tsv and docs/characters.tsv, and its units.
The card is made of them, and times are taken from them; `tests/test_tables.py` compares them with the program."""
import pathlib
from collections import namedtuple

DOCS = pathlib.Path(__file__).resolve().parent.parent / "docs"
REGISTERS = "A123456X"
UNITS = [("0-7", "tapes", 100, "IN OUT IOC"), ("8-15", "disks", 100, "IN OUT IOC, block in rX"), ("16", "card reader", 16, "IN"), ("17", "card punch", 16, "OUT"),
         ("18", "printer", 24, "OUT IOC"), ("19", "typewriter", 14, "IN OUT"), ("20", "paper tape", 14, "IN OUT IOC")]

# The code C, the normal field F, which names the operation where several have its code, the time in
# u, what M is for, and a sentence.
Operation = namedtuple("Operation", "name code field time uses sentence")


def rows(name):
    return [line.split("\t") for line in (DOCS / name).read_text().splitlines()[1:]]


def each(form):
    """The operations of a row: a small r in its name stands for A, 1 to 6 and X, of which each has the next code."""
    return [form._replace(name=form.name.replace("r", register), code=form.code + at) for at, register in enumerate(REGISTERS if "r" in form.name else "-")]


FORMS = [Operation(name, int(code), int(field), time if "F" in time else int(time), *more) for name, code, field, time, *more in rows("operations.tsv")]
OPERATIONS = [operation for form in FORMS for operation in each(form)]
TIMES = {operation.name: operation.time for operation in OPERATIONS}
CHARACTERS = "".join(character for _, character, _ in rows("characters.tsv"))


def said(form):
    """The sentence of a row, for all registers, fields and addresses."""
    return form.sentence.format(V="V", M="M", F="F", cell="field F of cell M", line="M", r="r")


def codes(form):
    """The codes of a row."""
    return f"{form.code}-{form.code + 7}" if "r" in form.name else str(form.code)
