"""Each text that the program can write stands in a test that runs it, or in a definition.

A text is a literal of the code of a crate (crates/*/src), cut at its line ends and at what a format puts in. It counts as looked at where it stands
- in a literal of a definition (crates/*/specs), which the prover holds the code to,
- or in what a test gives or wants: files of tests/, the documents that tests/test_documents.py runs, and docs/operations.tsv.
What has fewer than three letters says nothing. UNSHOWN has texts that no face writes."""
import re
import subprocess

import pytest

from tests import TOP

ESCAPES = {"n": "\n", "r": "\r", "t": "\t", "0": "\0"}
# A comment, a character, or a literal of the code.
TOKEN = re.compile(r"//[^\n]*|b?'(?:[^'\\\n]|\\[^\n]{1,8}?)'|b?\"((?:[^\"\\]|\\.)*)\"", re.S)
# What no person reads: names of modules and of options for the compiler, and what the prover reads.
UNSAID = re.compile(r"^\s*(?:#!?\[(?!arg|command|clap).*|(?:requires|ensures|ghost|lemma)\b.*)$", re.M)

# What Checked::mending of mix_check calls the ways to mend a line, which no face offers yet; and a
# rule that is said only of a symbol without a name, which no line can have.
UNSHOWN = [
    *("Write END", "Leave it out", "Write a blank", "Write * in column 1", "Write the blanks"),
    *("Begin the label in column 1", "Leave out the colon", "Write =", "Leave out the blank"),
    *("Write )", 'Write "', "Write an ALF for each five characters"),
    ": a symbol that no line before defines can only be the whole A-part of an instruction",
]


def unescaped(text):
    text = re.sub(r"\\\n\s*", "", text)
    return re.sub(r"\\(?:u\{(\w+)\}|x(\w\w)|(.))", lambda it: chr(int(it[1] or it[2], 16)) if it[1] or it[2] else ESCAPES.get(it[3], it[3]), text, flags=re.S)


def literals(text):
    for found in TOKEN.finditer(UNSAID.sub("", text)):
        if found[1] is not None:
            yield unescaped(found[1])


def pieces(text):
    """The parts of a literal that are written as they stand."""
    for line in re.sub(r"\{\{|\{[^{}]*\}|\}\}", lambda it: {"{{": "{", "}}": "}"}.get(it[0], "\n"), text).split("\n"):
        if len(re.findall(r"[A-Za-z]", line)) > 2:
            yield line.strip()


def names(*patterns):
    return subprocess.run(["git", "ls-files", "-co", "--exclude-standard", *patterns], cwd=TOP, capture_output=True, text=True, check=True).stdout.split()


def read(name):
    return (TOP / name).read_bytes().decode(errors="replace")


def texts():
    """Each text, with the name of a file that has it."""
    found = {}
    for name in names("crates/*/src/*.rt"):
        found.update({piece: name for text in literals(read(name)) for piece in pieces(text)})
    return [pytest.param(text, id=f"{name}: {text!r}") for text, name in found.items()]


@pytest.fixture(scope="module")
def places():
    """What looks at texts: the definitions, the tests, and the documents that are run."""
    documents = [f"docs/{name}.md" for name in "RUNS FILES COMMANDS FAULTS DECISIONS".split()]
    defined = [text for name in names("crates/*/specs/*.antt") for text in literals(read(name).replace("--", "//"))]
    operations = read("docs/operations.tsv").replace("{cell}", "cell M").replace("{line}", "M")
    return ["\n".join(defined), re.sub(r"{([VMF])}", r"\1", operations), *map(read, [*names("tests"), *documents])]


@pytest.mark.parametrize("text", texts())
def test_text(places, text):
    if text in UNSHOWN:
        pytest.skip("no face writes it")
    assert any(text in place for place in places)
