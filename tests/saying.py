"""What the program and the documents say of the words of the program."""

import re
import subprocess

from running import at_a_terminal
from tests import TOP

PAGE = TOP / "package" / "mixrev.1"
SOURCE = " ENTA 5\n INCA 7\n STA 100\n HLT\n END 0\n"
# What may stand for an argument in a line of a script, and one that does.
ARGUMENTS = {"N": (r"\d+", "1"), "E": (r"\S+", "0"), "W": (r"\S+", "0"), "REG": ("(A|X|I[1-6]|J)", "A"), "COND": (r"\S+( \S+)?", "A")}


def read(name):
    return (TOP / name).read_text()


def between(text, begin, end):
    return text.partition(begin)[2].partition(end)[0]


def formats():
    """What the documents say of the formats."""
    return "\n".join(read(f"docs/{name}.md") for name in ("RUNS", "FILES", "COMMANDS"))


def codes(text):
    return re.findall(r"`([^`\n]+)`", text)


def normal(sentence):
    """A sentence without the marks that one text has and another lacks."""
    sentence = re.sub(r"(\d),(?=\d{3})", r"\1", " ".join(sentence.replace("`", "").split())).removesuffix(".")
    return sentence[:1].lower() + sentence[1:]


def help_of(program, *words):
    """What --help says."""
    return subprocess.run([program, *words, "--help"], stdin=subprocess.DEVNULL, capture_output=True, text=True, timeout=60).stdout


def helped(program, words):
    """What `help` says at a terminal of each word; what it says alone is that of ""."""
    lines = [*(f"help {word}" for word in words), "help"]
    _, *replies = at_a_terminal(program, [SOURCE.splitlines()], lines)
    return dict(zip([*words, ""], map("\n".join, replies)))


def rows_of_help(command, text):
    """The rows of the help on a command: its forms, and what it does. Some have their forms alone."""
    for line in text.splitlines():
        several = line.split(", ")
        # the second column begins after 17, or after two blanks
        row = re.match(r"(.+?)(?:  +|(?<=^.{16}) )(\S.*)$", line)
        if len(several) > 1 and all(part.startswith(command + " ") for part in several):
            yield from (([part], None) for part in several)
        elif row and line.split()[0] == command:
            yield list(dict.fromkeys([re.sub(r" \[.*\]", "", row[1]), re.sub(r"[][]", "", row[1])])), normal(row[2])


def words_of(form):
    # in `set cmp E` the E is itself
    return [word.lower() if form.startswith("set cmp") else word for word in form.split()]


def line_of(form):
    return " ".join(ARGUMENTS.get(word, ("", word))[1] for word in words_of(form))


def is_among(form, lines):
    """Whether a line of a script has this form."""
    pattern = re.compile(r"[ \t]+".join(ARGUMENTS.get(word, (word,))[0] for word in words_of(form)), re.I)
    return any(pattern.fullmatch(line.strip()) for line in lines)


def tables(head, text):
    """The cells of each row of the tables of a text whose first column has this head."""
    inside = False
    for line in text.splitlines():
        cells = [cell.strip() for cell in line.strip("|").split("|")] if line.startswith("|") else []
        inside = bool(cells) and (inside or cells[0] == head)
        if inside and cells[0] != head and not set(line) <= set("|- "):
            yield cells


def items(head, marks="##"):
    """The items that begin with code below a heading of the formats: the codes, and what is said of
    them."""
    below = rf"(?ms)^{marks} {re.escape(head)}\n(.*?)(?=^#{{2,{len(marks)}}} |\Z)"
    text = re.search(below, formats())[1]
    found = re.findall(r"(?m)^- (`[^`]+`(?:, `[^`]+`)*): (.*(?:\n  .*)*)", text)
    return [(codes(tags), normal(says)) for tags, says in found]


def runs():
    """The lines of the scripts that tests run on the program: those of bundles, of what documents show, and of what tests/runs types."""
    bundles = [file.read_text() for file in TOP.glob("examples/*.mixal")]
    bundles += [block for file in TOP.glob("docs/*.md") for block in re.findall(r"```mix\n(.*?)```", file.read_text(), re.S)]
    typed = [line[4:] for file in TOP.glob("tests/runs/*.t") for line in file.read_text().splitlines() if line.startswith(("  $ ", "  > "))]
    return {line for text in bundles for line in text.partition("%SCRIPT\n")[2].splitlines()} | {
        part for line in typed for quoted in (line, *re.findall("'([^']*)'", line)) for part in quoted.split("\\n")}


def completed(*words):
    """What bash's completion offers after these words, of which the last is begun; `files` where it offers files."""
    script = 'source "$1"; shift; compopt() { echo FILES; }; COMP_WORDS=("$@"); COMP_CWORD=$(($# - 1)); _mixrev; printf "%s\\n" "${COMPREPLY[@]}"'
    ran = subprocess.run(["bash", "-c", script, "bash", TOP / "package" / "completion", "mixrev", *words], capture_output=True, text=True, cwd=TOP / "package")
    offered = ran.stdout.split()
    return {ran.stderr} if ran.stderr else {"files"} if offered[:1] == ["FILES"] else set(offered)
