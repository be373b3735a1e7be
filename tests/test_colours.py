"""The grammar of VS Code and the syntax of Vim against the table of operations, sample lines, and every source of examples/ and of tests/runs/

- Exactly the operations of the table and the five pseudo-operations are taken as such.
- The sample lines of editors/samples.txt have the colours that stand below them.
- No source that the assembler accepts has a place that is coloured as an error.
- package.json is complete, and the files that it names are there.
What cannot be run, since its tool is not installed, is said."""
import itertools
import json
import os
import pathlib
import re
import shutil
import subprocess
import tempfile

import pytest

from machine import TIMES
from tests import TOP
from tests.adapter.textmate import Grammar
from tests.runs.bundles import bundles

EDITORS = TOP / "editors"
PSEUDO = {"EQU", "ORIG", "CON", "ALF", "END"}

# What a colour of the samples is called in the grammar, by the first parts of its name, and in Vim.
COLOURS = {
    "L": ("entity.name.label", "mixalLabel mixalLocalLabel"),
    "O": ("support.function.operation", "mixalOperation mixalRemarked"),
    "P": ("keyword.control.directive", "mixalPseudo mixalAlf mixalEnd"),
    "N": ("constant.numeric", "mixalNumber"),
    "S": ("variable.other", "mixalSymbol mixalLocal"),
    "h": ("variable.language.location", "mixalHere mixalNextHere"),
    "o": ("keyword.operator", "mixalOperator"),
    "p": ("punctuation", "mixalPunctuation mixalEquals"),
    "\"": ("string", "mixalFive mixalFiveAfterTwo mixalQuoted"),
    "r": ("comment", "mixalComment mixalRemark mixalLetterRemark mixalRest mixalAfterEnd"),
    "m": ("keyword.control.marker", "mixalMarker"),
    "u": ("keyword.other.unit", "mixalUnit"),
    "c": ("keyword.other.command", "mixalCommand"),
    "!": ("invalid", "mixalUnknown mixalBadSymbol mixalBadQuoted mixalBad mixalBadAtom"),
}
OF_GROUP = {group: colour for colour, (_, groups) in COLOURS.items() for group in groups.split()}


def words_of(pattern):
    """The words that a pattern takes whole."""

    def sequence(parts):
        words = [""]
        for kind, value in parts:
            words = [word + more for word in words for more in alternatives(str(kind), value)]
        return words

    def alternatives(kind, value):
        if kind == "LITERAL":
            return [chr(value)]
        if kind == "RANGE":
            return map(chr, range(value[0], value[1] + 1))
        if kind == "IN":
            return itertools.chain(*(alternatives(str(kind), one) for kind, one in value))
        if kind == "BRANCH":
            return itertools.chain(*map(sequence, value[1]))
        if kind == "SUBPATTERN":
            return sequence(value[3])
        raise ValueError(f"{pattern} has a {kind}")

    return set(sequence(re._parser.parse(pattern)))


def of_grammar(grammar):
    """The pattern of each operation and pseudo-operation: the second group of each rule of a whole line that has one."""
    found = {"O": [], "P": []}
    for rule in grammar.rules():
        captures = rule.get("captures", rule.get("beginCaptures", {}))
        name = captures.get("2", {}).get("name", "")
        for colour in found:
            if name.startswith(COLOURS[colour][0]):
                # the group of LOC, blanks, and the group of OP
                found[colour].append(re.search(r"\[ \\t\]\+(\((?:[^()]|\([^()]*\))*\))", rule.get("match", rule.get("begin")))[1])
    return {colour: "|".join(groups) for colour, groups in found.items()}


def of_vim():
    """The same of Vim's syntax, in Python's signs."""
    found = {"O": [], "P": []}
    syntax = (EDITORS / "vim/syntax/mixal.vim").read_text()
    for name, pattern in re.findall(r'^syntax match (\w+) "(.*?)\\%\(\[ \\t\]\\\|\$\\\)\\@=" contained nextgroup', syntax, re.M):
        if OF_GROUP.get(name) in found:
            found[OF_GROUP[name]].append(re.sub(r"\\%\(", "(?:", pattern).replace(r"\)", ")").replace(r"\|", "|").replace(r"\?", "?"))
    return {colour: "|".join(groups) for colour, groups in found.items()}


GRAMMAR = Grammar.read(EDITORS / "vscode")


@pytest.mark.parametrize("patterns", [of_grammar(GRAMMAR), of_vim()], ids=["grammar", "Vim"])
def test_operations(patterns):
    assert {colour: words_of(pattern) for colour, pattern in patterns.items()} == {"O": set(TIMES), "P": PSEUDO}


def near():
    """The names, and words that differ from one by a character: each with the colour that it must have as OP."""
    names = set(TIMES) | PSEUDO
    words = set(names) | {name.lower() for name in names}
    for name in names:
        for at in range(len(name) + 1):
            words |= {name[:at] + letter + name[at:] for letter in "AHNX1Z-*"} | {name[:at] + name[at + 1:]}
            words |= {name[:at] + letter + name[at + 1:] for letter in "ABNX07-"}
    words.discard("")
    return [(word, "P" if word.upper() in PSEUDO else "O" if word.upper() in names else "!") for word in sorted(words)]


def colours_of_grammar(grammar, lines):
    """The colour of each column of each line, a blank where it has none."""
    for line, scopes in zip(lines, grammar.scopes(lines)):
        yield "".join(next((colour for colour, (begin, _) in COLOURS.items() for scope in reversed(stack) if scope.startswith(begin)), " ") for stack in scopes)


def colours_of_vim(lines):
    """The same as Vim has it, which is asked for the group of each byte."""
    with tempfile.TemporaryDirectory() as folder:
        text = "".join(f"{line}\n" for line in lines)
        pathlib.Path(folder, "source.mixal").write_text(text, encoding="latin-1")
        words = ["vim.basic", "-u", "NONE", "-i", "NONE", "-n", "-es", "-S", TOP / "tests/colours.vim"]
        how = {"cwd": folder, "env": {**os.environ, "EDITORS": str(EDITORS)}, "timeout": 300}
        subprocess.run(words, stdin=subprocess.DEVNULL, capture_output=True, check=True, **how)
        rows = pathlib.Path(folder, "wrote").read_text().split("\n")[: len(lines)]
    return ["".join(OF_GROUP.get(name.strip(), " ") for name in row.split(",")) if row else "" for row in rows]


def accepted():
    """The bundles of examples/, and those of tests/runs/ that the assembler accepts: all whose output is not the line of a fault."""
    for path in sorted(TOP.glob("examples/*.mixal")):
        yield str(path.relative_to(TOP)), path.read_text(encoding="latin-1").split("\n")
    for place, bundle, written in bundles():
        if not re.match(r"  line \d+: A\d+ ", written):
            yield place, bundle.split("\n")


def samples():
    """The lines of editors/samples.txt, in groups parted by blank lines; each line has its colours on the next one, after a bar."""
    for group in (EDITORS / "samples.txt").read_text().split("\n\n"):
        rows = [row[1:] for row in group.split("\n") if row.startswith("|")]
        yield rows[0::2], rows[1::2]


def is_coloured(line, found, wanted):
    """Whether each column that is no blank has its colour."""
    return all(character in " \t" or colour == given
               for character, colour, given in zip(line, found.ljust(len(line)), wanted.ljust(len(line))))


@pytest.fixture(scope="module", params=["grammar", "Vim"])
def colours(request):
    """What colours lines."""
    if request.param == "grammar":
        return lambda lines: colours_of_grammar(GRAMMAR, lines)
    subprocess.run([TOP / "tests/install", "vim:vim.basic"], check=True)
    if not shutil.which("vim.basic"):
        pytest.skip("Vim's syntax in Vim, since there is no vim")
    return colours_of_vim


@pytest.mark.parametrize("lines, wanted", samples())
def test_samples(colours, lines, wanted):
    assert not [(line, found, row) for line, found, row in zip(lines, colours(lines), wanted) if not is_coloured(line, found, row)]


@pytest.mark.parametrize("path, lines", accepted())
def test_accepted(colours, path, lines):
    assert not [line for line, found in zip(lines, colours(lines)) if "!" in found]


def test_names_and_words_near_them(colours):
    lines = [f" {word} 5" for word, _ in near()]
    # END would make all that follows it a remark, so each stands before a line of its own
    parts = [line for line in lines if " END " not in line.upper()] + [line for line in lines if " END " in line.upper()][:1]
    of = {f" {word} 5": colour for word, colour in near()}
    wrong = [line for line, found in zip(parts, colours(parts)) if set(found[1:line.index(" ", 1)]) != {of[line]}]
    assert not wrong


def test_package():
    """package.json: its parts, the files that it names, the attributes of launch."""
    folder = EDITORS / "vscode"
    package = json.loads((folder / "package.json").read_text())
    parts = package["contributes"]
    named = [language["configuration"] for language in parts["languages"]] + [grammar["path"] for grammar in parts["grammars"]]
    for name in named:
        assert isinstance(json.loads((folder / name).read_text()), dict), f"package.json names {name}"
    languages = [language["id"] for language in parts["languages"]]
    debugger = parts["debuggers"][0]
    launch = debugger["configurationAttributes"]["launch"]
    assert all(package.get(key) for key in ("name", "publisher", "engines")), package
    assert parts["languages"][0]["extensions"] == [".mix", ".mixal"], languages
    assert {"mixal"} == {*languages, *(entry["language"] for entry in parts["breakpoints"] + parts["grammars"]), *debugger["languages"]}
    assert launch["required"] == ["program"], launch
    every = debugger["initialConfigurations"] + [snippet["body"] for snippet in debugger["configurationSnippets"]]
    known = set(launch["properties"]) | {"type", "request", "name"}
    assert all(set(entry) <= known and entry["type"] == debugger["type"] for entry in every), ("package.json, configurations", every)
    assert parts["grammars"][0]["scopeName"] == Grammar.read(folder).scope_name, "package.json, scope"
