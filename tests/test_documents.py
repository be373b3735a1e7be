"""Runs what the documents show and compares what is written with what they say.

- A block of MIX is a bundle. The block of text after it is its output; a sentence between them may name the status.
- A row of a table that has a cell headed "Input", "Script", "Small input" or "Small script" is a run too.
  An input is the format of printf; a script without an input stands after the source " END".
- A row that has a cell headed "Checked" is a check of that source, the format of printf. The cell "Reported" has each line, column and text."""
import re
import subprocess

import pytest

from tests import TOP

PAIR = re.compile(r"```mix\n(.*?)```(.*?)```text\n(.*?)```", re.S)
CODE = re.compile(r"`([^`]+)`")
ESCAPES = {"n": "\n", "r": "\r", "f": "\f", "t": "\t", "%": "%"}


def unescaped(format):
    return re.sub(r"\\([nrft])|%(%)", lambda found: ESCAPES[found[1] or found[2]], format)


def bundle_of(cell):
    """The bundle of an input in quotes, of a script, or of an input and its script."""
    codes = CODE.findall(cell)
    if not cell.startswith("`"):
        return None
    source, begins = "", codes[0].startswith("'")
    while codes and codes[0].startswith("'"):
        source += unescaped(codes.pop(0).strip("'"))
    if not codes:
        return source
    source = source if begins else " END\n"
    return source + "%SCRIPT\n" + "".join(f"{line}\n" for line in codes)


def rows(text):
    """Each row of each table: its line, and its cells by the heads of their columns."""
    heads = []
    for number, line in enumerate(text.splitlines(), 1):
        cells = [cell.strip() for cell in re.split(r"(?<!\\)\|", line.strip("|"))]
        if not line.startswith("|"):
            heads = []
        elif not heads:
            heads = cells
        elif not set(line) <= set("|- "):
            yield number, dict(zip(heads, cells))


def status_of(text):
    """The status that a sentence or a cell names, if it names one."""
    status = re.search(r"status (\d)", text)
    return status and int(status[1])


def is_written(output, cell):
    """Whether an output is what the cell "Written" says: these lines, or a line, or nothing."""
    said = CODE.findall(cell)
    if cell.startswith("nothing"):
        return output == ""
    if cell.startswith("`"):
        return output.splitlines() == CODE.findall(cell.split(";")[0].split(", status")[0])
    if " line" in cell.split("`")[0]:
        return said[0] in output.splitlines()
    return all(part in output for part in said)


def in_tables(text):
    """Each run that a table shows: its line, its bundle, the test of its output and its errors together, and its status where the cell names it."""
    for number, row in rows(text):
        bundle = bundle_of(row.get("Input", row.get("Script", "")))
        if "Written" in row and bundle is not None:
            yield number, bundle, lambda output, cell=row["Written"]: is_written(output, cell), status_of(row["Written"])
        for head in ("Small input", "Small script"):
            bundle = bundle_of(row.get(head, ""))
            if bundle is not None:
                text = f"{row['Fault']} {row['Text']}".replace(" N: Kn text", "").replace(": Mn text", "")
                at = f"line {row['Line']}: {text}" if "Line" in row else text
                yield number, bundle, lambda output, at=at: at in output, None


def with_reports(text):
    """Each check that a row shows: its line, its source, and the test of its output, of which the lines with a line and a column count."""
    for number, row in rows(text):
        if "Checked" in row:
            source = unescaped(CODE.findall(row["Checked"])[0].strip("'"))
            wanted = [re.sub(r"\s+", " ", said) for said in CODE.findall(row["Reported"])]
            yield number, source, lambda output, wanted=wanted: [line[2:] for line in output.splitlines() if re.match(r"-:\d", line)] == wanted


def in_blocks(text):
    """Each bundle in a block, with the test of its output."""
    for found in PAIR.finditer(text):
        bundle, between, output = found.groups()
        line = text.count("\n", 0, found.start()) + 1
        yield line, bundle, (lambda wrote, output=output: wrote == output), status_of(between)


def runs():
    """Each run of each document: its words, its input, the test of its output, and its status."""
    for path in (*sorted(TOP.glob("docs/*.md")), TOP / "examples" / "README.md"):
        text = path.read_text()
        for line, *run in (*in_blocks(text), *in_tables(text)):
            yield pytest.param([], *run, id=f"{path.name}:{line}")
        for line, *run in with_reports(text):
            yield pytest.param(["check", "-"], *run, None, id=f"{path.name}:{line}")


@pytest.mark.parametrize("words, given, is_right, status", runs())
def test_run(program, words, given, is_right, status):
    ran = subprocess.run([program, *words], input=given.encode(), capture_output=True)
    wrote = (ran.stdout + ran.stderr).decode()
    assert is_right(wrote) and status in (None, ran.returncode), (ran.returncode, wrote)
