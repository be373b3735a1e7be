"""Every text that names the words of the program, against the program.

- The table of the commands of a script is the help of an interactive session: a row has a form of a
  command, and what it does. docs/COMMANDS.md has the same rows in the same order, each with all its
  forms; the manual page is what package/manual makes of the documents. Each form is taken by the
  program, gets the same reply from the model, is run by tests/runs, and is drawn by the model. Each
  keyword of the sources is in the help. --help, the editors, the page, the card and docs/PROOFS.md
  name each command.
- The table of the words of the command line is --help. docs/RUNS.md has the same words and
  options, and the same statuses and faults of the tool. The completions for bash, zsh and fish
  take theirs from it. What the shells offer is asked of them.
- The version of package/changelog is that of the program, of the manual page and of CITATION.cff;
  the logic is that of `rt version`.
- `man` and `mandoc` find nothing to say of the manual page."""

import os
import pathlib
import random
import re
import shutil
import subprocess
import tempfile

import pytest

from tests import TOP
from tests.model import bundle, draw
from tests.saying import (
    PAGE, SOURCE, between, completed, formats, helped, is_among, items, line_of, normal, read, rows_of_help, runs, tables, help_of,
)

# The texts that name each command: from where on, and up to where.
NAMING = {
    "editors/vim/syntax/mixal.vim": ("mixalCommand ", "\n"),
    "editors/vscode/syntaxes/mixal.tmLanguage.json": ('"script":', '"captures"'),
    "page/index.html": ("Type a command below <i>Commands</i>:", "</dl>"),
    "course/card.html": ("Debugger:", "</p>"),
    "docs/PROOFS.md": ("command does to it is one definition:", "\nA `step`"),
}
# A word of --help that stands for each fault of the tool.
FAULTS = {"T1": "memory", "T2": "read", "T3": "output", "T4": "opened", "T5": "deck", "T6": "too long", "T8": "replaced"}
# The parts of the machine that --writes takes by a name.
PARTS = {"A", "X", *(f"I{number}" for number in range(1, 7)), "J", "over", "cmp"}


def of_help(words, help):
    """The help of the session has each keyword of the sources."""
    keywords = re.findall(r"(\w+)Word::\w+ => \"(\w+)\"", "".join(map(read, ("crates/mix_session/src/keyword/command.rt", "crates/mix_session/src/keyword/target.rt"))))
    yield "commands in the help", set(words), {word for kind, word in keywords if kind == "Command"} | {"quit"}
    yield "commands that the help explains", [word for word in words if word in help[word].split()], words
    later = [(kind.lower(), word) for kind, word in keywords if kind != "Command"]
    yield "keywords in the help", [(kind, word) for kind, word in later if re.search(rf"\b{word}\b", help.get(kind, ""))], later


def of_commands(program):
    """The rows of the table, and each text that names the commands."""
    words = [word for line in helped(program, [])[""].splitlines() for word in (re.match(r"([a-z, ]+?)  ", line) or ["", ""])[1].split(", ") if word]
    help = helped(program, [*words, "until"])
    yield from of_help(words, help)
    table = list({forms[0]: (forms, says) for word in words for forms, says in rows_of_help(word, help[word]) if word != "quit"}.values())
    taken = items("The script")
    rows = taken + items("Nodes, passages, the counts of the book, the map")  # the latter a person's alone
    yield "rows of COMMANDS", [forms[0] for forms, _ in rows], [forms[0] for forms, _ in table]
    said = dict((forms[0], says) for forms, says in rows)
    # what the help says of another form after a semicolon, COMMANDS may say by that form
    yield "sentences of COMMANDS", [(forms[0], said.get(forms[0])) for forms, says in table if says], \
        [(forms[0], says.split(";")[0] if says.split(";")[0] == said.get(forms[0]) else says) for forms, says in table if says]
    yield "forms of the help", [form for forms, _ in table for form in forms if not any(form in row for row, _ in rows)], []
    yield "forms of COMMANDS that the help lacks", \
        [form for forms, _ in rows for form in forms if not set(re.findall(r"\w+", form)) <= set(re.findall(r"\w+", help.get(form.split()[0], "")))], []
    commands = {word for word in words if word != "quit"}
    examples = between(" ".join(help_of(program).split()), "such as: ", ".").split(", ")
    yield "commands of --help that the help lacks", {example.split()[0] for example in examples if example} - commands, set()
    texts = {"debug --help": between(help_of(program, "debug"), "commands, one a line:", ". A deck"), **{name: between(read(name), *ends) for name, ends in NAMING.items()}}
    for name, text in texts.items():
        yield f"commands of {name}", commands & set(re.findall(r"\w+", text)), commands
    yield from of_forms(program, [form for forms, _ in taken for form in forms])


def of_forms(program, forms):
    """Each form: the program takes it, the model gives the same reply, and tests have it."""
    script = SOURCE + "%SCRIPT\n" + "".join(f"{line_of(form)}\n" for form in forms)
    replies = subprocess.run([program], input=script.encode(), capture_output=True, timeout=60).stdout.decode().splitlines()
    yield "replies of C1 or C2 to a form", [reply for reply in replies if re.match(r"\? C[12]", reply)], []
    yield "replies of the model to the forms", bundle.run(script.encode())[0].decode().splitlines(), replies
    yield "forms that a test runs", [form for form in forms if is_among(form, runs())], forms
    drawn = {line for topic in (draw.commands, draw.lines, draw.history) for k in range(300)
             for line in topic(random.Random(f"forms/{k}")).partition(b"%SCRIPT\n")[2].decode("latin-1").splitlines()}
    yield "forms that the model draws", [form for form in forms if is_among(form, drawn)], forms


def options(text):
    """The long options of a help, each with the name of its value."""
    return set(re.findall(r"^ +(?:-[hV], )?(--[a-z]+)(?: <([A-Z]+)>)?", between(text, "Options:", "\n\n"), re.M))


def of_words(program):
    """The words of the command line."""
    names = re.findall(r"^  ([a-z]+) ", between(help_of(program), "Commands:", "\n\n"), re.M)
    made = subprocess.run([TOP / "package" / "manual"], capture_output=True, text=True)
    yield "the manual page made from the documents", [made.stdout, made.stderr], [PAGE.read_text(), ""]
    yield "completion of mixrev", completed(""), {*names, *(word for word, _ in options(help_of(program)))}
    synopsis = between(between(formats(), "\n## The command line\n", "\n## "), "```text\n", "```")
    lines = [re.sub(r"[][|]|< \w+|\.\.\.", " ", line).split() for line in synopsis.replace("\n  ", " ").splitlines()]
    yield "subcommands of RUNS", {line[1] for line in lines if line[1:] and line[1].isalpha()}, set(names)
    for name in ["", *names]:
        text = help_of(program, *name.split())
        said = options(text)
        tags = (tags[-1] for tags, _ in items(f"`{f'mixrev {name}'.strip()}`", "###"))
        found = {tuple(f"{tag} ".split(" ")[:2]) for tag in tags if tag[0] == "-"} | {("--help", "")}
        yield f"options of mixrev {name}", found, said
        if name:
            values = {value for _, value in said}
            usage = set(re.findall(r"[<[]([A-Z]+)[]>]", between(text, "Usage:", "\n"))) - {"OPTIONS"}
            found = {word for line in lines if line[1:2] == [name] for word in line[2:]} - values
            yield f"words of mixrev {name} in RUNS", found | {"--help"}, {word for word, _ in said} | usage
            yield from of_completion(name, said)
    yield "completion of units", completed("run", "--unit", ""), {"17", "18", "19", "20"}
    yield "completion of units after =", completed("run", "--unit", "=", "1"), {"17", "18", "19"}
    yield "completion of a part", completed("run", "--writes", ""), PARTS
    yield "completion after --", completed("run", "--", "-"), {"files"}


def of_completion(name, said):
    yield f"completion of mixrev {name} -", completed(name, "-"), {word for word, _ in said}
    yield f"completion of mixrev {name}, a name", completed(name, "pack"), set() if name in ("dap", "lsp") else {"files"}
    for word in sorted(word for word, value in said if value == "FILE"):
        yield f"completion after {word}", completed(name, word, ""), {"files"}
        yield f"completion after {word}=", completed(name, word, "=", ""), {"files"}


def in_fish(*words):
    """The words that fish offers after these, of which the last is begun."""
    script = f"source {TOP}/package/completion.fish; complete -C (string join ' ' -- $argv)"
    ran = subprocess.run(["fish", "--no-config", "-c", script, "mixrev", *words], capture_output=True, text=True, cwd=TOP / "package")
    return {ran.stderr} if ran.stderr else {line.split("\t")[0] for line in ran.stdout.splitlines()}


def in_zsh(*words):
    """The words that zsh offers after these, of which the last is begun."""
    with tempfile.TemporaryDirectory() as folder:
        os.symlink(TOP / "package/completion.zsh", f"{folder}/_mixrev")
        os.symlink(TOP / "tests/offered.zsh", f"{folder}/.zshrc")
        environment = {**os.environ, "ZDOTDIR": folder, "LINE": " ".join(["mixrev", *words])}
        how = {"env": environment, "stdin": subprocess.DEVNULL, "cwd": TOP / "package"}
        command = ["script", "-qec", "zsh -i", "/dev/null"]
        subprocess.run(command, capture_output=True, timeout=60, **how)
        offered = pathlib.Path(folder, "offered")
        return set(offered.read_text().split()) if offered.exists() else set()


def of_version(program):
    """The version, which is that of the package without the number of its making."""
    version = re.match(r"mixrev \(([^-)]*)", read("package/changelog"))[1]
    short, long = (subprocess.run([program, word], stdin=subprocess.DEVNULL, capture_output=True, text=True, timeout=60) for word in ("-V", "--version"))
    yield "the version", [short.stdout, short.stderr, short.returncode], [f"mixrev {version}\n", "", 0]
    if shutil.which("rt"):
        logic = subprocess.run(["rt", "version"], capture_output=True, text=True).stdout.split()[1:]
        wanted = f"mixrev {version}\ntoolchain Rattle, {' '.join(logic)}\n"
        yield "the toolchain", [long.stdout, long.stderr, long.returncode], [wanted, "", 0]
    yield "the version of the manual page", re.findall(r'^\.TH MIXREV 1 \S+ "(.*?)"', PAGE.read_text(), re.M), [f"mixrev {version}"]
    yield "the version of CITATION.cff", re.findall(r"^version: (.*)$", read("CITATION.cff"), re.M), [version]


def of_statuses(program):
    """The statuses, and the faults of the tool."""
    text = " ".join(help_of(program).split()).partition("The status is ")[2]
    said = sorted(([number], normal(when)) for number, when in re.findall(r"(\d) if (.*?)(?=,? and \d if|, \d if|\. |\.$)", text))
    yield "statuses of RUNS", items("Status"), said
    faults = {fault for cells in tables("Line", formats()) for fault in re.findall(r"`mixrev: (T\d+) (.*?)`", cells[0])}
    yield "faults of the tool in FAULTS", {(cells[0], cells[1]) for cells in tables("Fault", read("docs/FAULTS.md")) if cells[0].startswith("T")}, faults
    reasons = [when for number, when in said if number == ["2"]]
    yield "faults of the tool in --help", {fault for fault, word in FAULTS.items() if word in " ".join(reasons)}, {fault for fault, _ in faults}


@pytest.fixture(autouse=True)
def on_the_path(program, tmp_path, monkeypatch):
    """The completions ask the mixrev of the PATH."""
    (tmp_path / "mixrev").symlink_to(os.path.abspath(program))
    monkeypatch.setenv("PATH", f"{tmp_path}:{os.environ['PATH']}")


@pytest.mark.parametrize("part", [of_commands, of_words, of_version, of_statuses])
def test_words(program, part):
    for name, found, wanted in part(program):
        assert (name, found) == (name, wanted)


def there(package, command):
    """Leaves a test out if a command of Debian is missing and can't be installed."""
    subprocess.run([TOP / "tests/install", package], check=True)
    if not shutil.which(command):
        pytest.skip(f"{command}, which is not there")


@pytest.mark.parametrize("shell, offered", [("fish", in_fish), ("zsh", in_zsh)])
def test_shell(program, shell, offered):
    """What a shell offers."""
    there(shell, shell)
    first = {word for word, _ in options(help_of(program))}
    names = re.findall(r"^  ([a-z]+) ", between(help_of(program), "Commands:", "\n\n"), re.M)
    assert offered("") | offered("--") == {*names, *first}
    for name in names:
        assert offered(name, "--") == {word for word, _ in options(help_of(program, name))}, name
    assert offered("run", "--unit", "1") == {"17", "18", "19"}
    assert offered("run", "--writes", "") == PARTS
    assert offered("run", "--steps", "") == set()
    assert offered("list", "mixrev.") == {"mixrev.1"}


MAN = ["man", "--warnings", "-E", "UTF-8", "-l", "-Tutf8", "-Z"]


@pytest.mark.parametrize("package, tool", [("man-db", MAN), ("mandoc", ["mandoc", "-Tlint", "-Wstyle"])])
def test_tool(package, tool):
    """What tools say of the manual page."""
    there(package, tool[0])
    ran = subprocess.run([*tool, PAGE], capture_output=True, text=True)
    assert (ran.stderr, ran.returncode) == ("", 0) and (package == "man-db" or not ran.stdout)
