"""What the scripts of this folder have in common: the names of sources, cases and verdicts as grade/case and grade/cases make them, and reports."""
import csv
import glob
import json
import os
import pathlib
import re
import signal
import subprocess
import sys

signal.signal(signal.SIGPIPE, signal.SIG_DFL)  # a reader that has seen enough, as head, ends a script without a word
MOST = 20


def escaped(letters):
    return "".join(f"%{byte:02X}" for byte in os.fsencode(letters))


def plain(name):
    """A name in letters, digits and signs that have no meaning for a shell; each other letter is spelled."""
    return re.sub(r"[^A-Za-z0-9._/+-]", lambda letter: escaped(letter[0]), name).replace("..", "%2E%2E")


def kept_as(name):
    """A name as the files of verdicts have it: one that would be too long for a file is a folder, and what follows is in there."""
    return re.sub("([^/]{150})([^/])", r"\1%/\2", plain(name))


def shown(name):
    """A name as the line of a verdict has it."""
    return "".join(letter if letter.isprintable() and letter not in "#%:;\"'\\`$*?<>|" else escaped(letter) for letter in name)


def printable(text):
    """A text on one line, without what a terminal takes for more than a letter."""
    return re.sub("[\0-\x1f\x7f-\x9f\u2028-\u202e\u2066-\u2069\ud800-\udfff]", "?", text)


def stem_of(source):
    return pathlib.PurePath(source).name.removesuffix(".mixal")


def id_of(source):
    """The name of a source without its folder and its ending, spelled if a spreadsheet could take it for more than a name. No two names are spelled alike."""
    name = stem_of(source)
    if name.isprintable() and "%" not in name and re.match(r"\w", name):
        return name
    return re.sub("^[+-]", lambda sign: escaped(sign[0]), plain(name))


def cases_of(cases, source):
    """The cases of a source: those in a folder of its own, if there is one, otherwise all of them. A folder without `wanted` is no case."""
    name, folder = stem_of(source), cases.rstrip("/")
    own = f"{folder}/{name}"
    if name and not name.startswith(".") and os.path.isdir(own) and not os.path.isfile(f"{own}/wanted"):
        folder = own
    return [f"{folder}/{name}" for name in sorted(map(os.path.dirname, glob.glob("*/wanted", root_dir=folder)))]


def write_csv(rows):
    """Writes rows as CSV. A spreadsheet takes each cell for a text or a number, and a terminal shows it as it is."""
    texts = ([re.sub("^(?=[=+@-])", "'", printable(str(cell))) for cell in row] for row in rows)
    csv.writer(sys.stdout, lineterminator="\n").writerows(texts)


def mixrev(command, source):
    """What a command of the program writes of a source; MIXREV names the program, otherwise it is the one on the PATH."""
    with open(source, "rb") as file:
        ran = subprocess.run([os.environ.get("MIXREV", "mixrev"), *command.split(), "-"], stdin=file, capture_output=True, timeout=60)
    return ran.stdout.decode(errors="replace")


def report_of(source):
    """Whether a source is refused, and its faults, otherwise its warnings, each with its line and column; the first of them, if there are many."""
    if os.path.islink(source) or not os.path.isfile(source):
        return False, []
    rows = [json.loads(line) for line in mixrev("check --json", source).split("\n") if line]
    errors = [row for row in rows if row["severity"] == "error"]
    faults = errors or rows
    told = []
    for row in faults[:MOST]:
        column = f", column {row['column']}" if "column" in row else ""
        text = f"{row['code']} {row['text']}" if row["severity"] == "error" else f"warning: {row['text']}"
        told.append(f"line {row['line']}{column}: {printable(text)}")
    return bool(errors), told + [f"and {len(faults) - MOST} more"] * (len(faults) > MOST)
