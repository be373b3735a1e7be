"""What `mixrev check` writes of the sources of this repository, and who takes its lines.

- Of each source of examples/, course/ and grade/example/ there is nothing to say: it has no faults and no warnings. (Dorothy's is refused, and
  the second example meets a fault: they are there for that.) Nor has it a remark directly after HLT, NUM or CHAR, which other assemblers read as an ADDRESS.
- Each editor that Debian has goes to the line and the word of each fault and each warning of a source with tabs and UTF-8, and says whether it is one
  or the other: `M-x compile` and Flycheck of Emacs, the quickfix lists of Vim and Neovim, ALE of Vim, each with the files of editors/ and as it is
  set by them. The problem matcher of editors/vscode takes the lines of a check.
They are installed from Debian where they are missing and this may be done; what cannot be run is said."""
import json
import os
import pathlib
import re
import shutil
import subprocess

import pytest

HERE = pathlib.Path(__file__).resolve().parent
TOP = HERE.parent
REMARK = re.compile(r"[^* \t]*[ \t]+(HLT|NUM|CHAR)[ \t]+[A-Z]", re.I)
SOURCES = ("examples/0[!2]*.mixal", "examples/1*.mixal", "course/*/*.mixal", "grade/example/sources/[!d]*.mixal")

# Each line of a source, and what is to be found in it: the severity, and the text from the column
# on to which an editor goes.
LINES = [
    ("X JUMP 3", "error", "JUMP"),
    ("\tENTA\t4096\ttoo large", "error", "4096"),
    ("\tJMP\tLOPP", "warning", "LOPP"),
    ("LOOP\tHLT", None, None),
    (" ALF TITLES", "warning", "TITLES"),
    ("\tLDA 100 (1:5)\tthe first byte", "warning", "100"),
    ("X CON 5", "error", "X"),
    ("\tADD\tÄB\tmühe", "error", "ÄB"),
    (" HLT", None, None),
]
NO_END = (len(LINES) + 1, "error", "")
FOUND = [(number, severity, text) for number, (_, severity, text) in enumerate(LINES, 1) if severity] + [NO_END]

# Each editor: its packages, some with their command, and the words that write what it finds.
EMACS, VIM = ["emacs", "-Q", "--batch", "--load", f"{HERE}/checked.el", "--funcall"], ["-u", "NONE", "-i", "NONE", "-n", "-es", "-S", f"{HERE}/checked.vim", "-c"]
EDITORS = {
    "M-x compile of Emacs": (["emacs-nox:emacs"], [*EMACS, "by-compile"]),
    "Flycheck of Emacs": (["emacs-nox:emacs", "elpa-flycheck"], [*EMACS, "by-flycheck"]),
    "the quickfix list of Vim": (["vim:vim.basic"], ["vim.basic", "-N", *VIM, "ByMake"]),
    "the quickfix list of Neovim": (["neovim:nvim"], ["nvim", *VIM, "ByMake"]),
    "ALE of Vim": (["vim:vim.basic", "vim-ale"], ["vim.basic", "-N", *VIM, "ByAle"]),
}


@pytest.mark.parametrize("pattern", SOURCES)
def test_sources(program, pattern):
    """There is nothing to say of the sources of the repository."""
    files = sorted(map(str, TOP.glob(pattern)))
    ran = subprocess.run([program, "check", *files], stdin=subprocess.DEVNULL, capture_output=True)
    assert (ran.stdout.decode(), ran.stderr.decode(), ran.returncode, files != []) == ("", "", 0, True)
    assert not [f"{file}: {line}" for file in files for line in pathlib.Path(file).read_text().splitlines() if REMARK.match(line)]


@pytest.fixture
def faulty(program, tmp_path, monkeypatch):
    """A folder with the source, in which the program is on the PATH."""
    (tmp_path / "mixrev").symlink_to(program)
    (tmp_path / "faulty.mixal").write_text("".join(f"{line}\n" for line, _, _ in LINES), encoding="utf-8")
    monkeypatch.setenv("PATH", f"{tmp_path}:{os.environ['PATH']}")
    monkeypatch.setenv("LC_ALL", "C.UTF-8")
    return tmp_path


@pytest.mark.parametrize("name", EDITORS)
def test_editor(faulty, name):
    """The findings of an editor."""
    packages, words = EDITORS[name]
    subprocess.run([HERE / "install", *packages], check=True)
    found = faulty / "found"
    if not shutil.which(words[0]) or subprocess.run(words, cwd=faulty, stdin=subprocess.DEVNULL, capture_output=True, timeout=300).returncode == 77:
        pytest.skip(f"{name}, which is not there")
    texts = {number: text for number, _, text in FOUND}
    rows = [line.split(" ", 2) for line in found.read_text().splitlines()] if found.exists() else []
    # a fault after the last line may lead to that one
    shown = [(int(number), severity, text[:len(texts[int(number)])]) if int(number) in texts and int(number) < len(LINES) else (NO_END[0], severity, "")
             for number, severity, text in rows]
    assert shown == FOUND


def test_vscode(faulty):
    """The findings of the problem matcher."""
    ran = subprocess.run(["mixrev", "check", "faulty.mixal"], cwd=faulty, stdin=subprocess.DEVNULL, capture_output=True, encoding="utf-8")
    package = json.loads((TOP / "editors" / "vscode" / "package.json").read_text())
    matcher, = package["contributes"]["problemMatchers"]
    pattern = matcher["pattern"]
    matches = filter(None, (re.search(pattern["regexp"], line) for line in ran.stdout.splitlines()))
    found = [tuple(match[pattern[part]] for part in ("file", "line", "column", "severity")) for match in matches]
    assert found == [("faulty.mixal", str(number), column_of(number, text), severity) for number, severity, text in FOUND]


def column_of(number, text):
    """The column of a finding, in characters."""
    return str(LINES[number - 1][0].index(text) + 1) if text else None
