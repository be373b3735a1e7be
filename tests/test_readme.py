"""Runs each command of README as a reader would, and compares what it writes.

- In a fresh copy of the repository: those of the parts that are for the repository. There the
  program is the one that is given out.
- In a copy of what ./install puts into a home folder: all others.
- `$ ..` is a command, `(mixrev) ..` a line that is typed in its session at a terminal, and `..`
  stands for all that follows. A block without a `$` has only commands; from a sudo on they are for
  root.
- What is installed names no command of the repository; each file, picture and link that one of its
  documents names is there.
- The moving picture is what package/movie draws of the program."""

import os
import pathlib
import re
import shlex
import shutil
import signal
import subprocess

import pytest

from running import session
from tests import TOP

HERE = "<!-- in the repository -->"


def blocks(text):
    """Each indented block of a document: its first line, whether it is for the repository alone,
    and its lines."""
    inside, found = False, []
    for number, line in enumerate([*text.splitlines(), ""], 1):
        if line.startswith("    "):
            found.append(line[4:])
        elif found:
            yield number - len(found), inside, found
            found = []
        if line.startswith("<!--"):
            inside = line == HERE


def commands(block):
    """The commands of a block, each with the lines that are typed in its session, and what is
    written, after each of them."""
    if not any(line.startswith("$ ") for line in block):
        # in another home, since what is given out may be older
        block = [f"$ export HOME=$PWD/../alone; {it.partition(' && sudo ')[0]}" for it in block]
    for part in re.split(r"^\$ ", "\n".join(block), flags=re.M)[1:]:
        first, *others = re.split(r"^\(mixrev\) ", part.rstrip("\n"), flags=re.M)
        command, *lines = first.split("\n")
        typed = [other.rstrip("\n").split("\n") for other in others]
        replies = [reply for _, *reply in typed] if typed else lines
        yield command, [line for line, *_ in typed], replies


def is_written(wrote, wanted):
    """Whether a reply is what is wanted, or begins with what stands before its `..`."""
    return wrote[: len(wanted) - 1] == wanted[:-1] if wanted[-1:] == [".."] else wrote == wanted


def ran(command, typed, wanted, folder, environment):
    """Whether a command writes what is wanted, what it writes, and the folder that it ends in. If
    more follows, the beginning is read."""
    if typed:
        _, *wrote = session(shlex.split(command), typed, folder, environment)
        return all(map(is_written, wrote, wanted)), wrote, folder
    where, errors = folder.parent / "where", folder.parent / "errors"
    how = {"cwd": folder, "env": environment, "text": True, "start_new_session": True}
    pipes = {"stdin": subprocess.PIPE, "stdout": subprocess.PIPE, "stderr": errors.open("w")}
    shell = subprocess.Popen(["bash", "-c", f"{command}\npwd >{where}"], **how, **pipes)
    if wanted[-1:] == [".."]:
        wrote = [shell.stdout.readline().rstrip("\n") for _ in wanted[:-1]]
        os.killpg(shell.pid, signal.SIGKILL)
        shell.communicate()
        return is_written(wrote, wanted), [wrote, errors.read_text()], folder
    output = shell.communicate()[0]
    right = output.rstrip("\n").split("\n") == wanted if wanted else shell.returncode == 0
    folder = pathlib.Path(where.read_text().strip()) if where.exists() else folder
    return right, [output, errors.read_text()], folder


@pytest.fixture(scope="module")
def places(tmp_path_factory, program):
    """A copy of the repository, a home folder in which it is installed, and the environment."""
    room = tmp_path_factory.mktemp("readme")
    clone, home = room / "clone", room / "home"
    words = ["git", "ls-files", "-z", "--cached", "--others", "--exclude-standard"]
    for name in subprocess.check_output(words, cwd=TOP, text=True).split("\0"):
        if name and (TOP / name).exists():
            (clone / name).parent.mkdir(parents=True, exist_ok=True)
            shutil.copy2(TOP / name, clone / name, follow_symlinks=False)
    home.mkdir()
    own = {"HOME": str(home), "PROGRAM": os.path.abspath(program)}
    environment = {**os.environ, **own, "PATH": f"{home}/.local/bin:{os.environ['PATH']}"}
    subprocess.run([clone / "install"], env=environment, check=True, stdout=subprocess.DEVNULL)
    return clone, home, environment


def test_commands(places):
    clone, home, environment = places
    tree, passed, failed = home / ".local/share/mixrev", 0, []
    at = {True: clone, False: tree}
    for number, here, block in blocks((TOP / "README.md").read_text()):
        for command, typed, wanted in commands(block):
            if command.startswith("cp "):
                command, at[False] = command.replace("/usr/share/mixrev", str(tree)), home
            right, wrote, at[here] = ran(command, typed, wanted, at[here], environment)
            passed += right
            failed += [] if right else [(f"README.md:{number}: {command}", wrote)]
    assert not failed and passed >= 5


def test_installed(places):
    """Nothing is wrong with the documents that a reader copies."""
    folder = places[1] / "mixrev"
    shutil.copytree(places[1] / ".local/share/mixrev", folder, dirs_exist_ok=True)
    for path in sorted(folder.rglob("*.md")):
        text, name = path.read_text(), path.relative_to(folder)
        if name == pathlib.Path("editors/README.md"):
            text = text.replace("`./install`", "")
        assert not re.findall(r"(?<![\w/])\./(?:mixrev|install)\b", text), name
        links = re.findall(r"\]\(([^)#:]+)\)", text)
        assert not [link for link in links if not (path.parent / link).exists()], name
        named = re.findall(r"`((?:course|docs|editors|examples|grade)/[A-Za-z0-9_./-]+)`", text)
        assert not [one for one in named if not (folder / one).exists()], name


def test_movie(program):
    """`package/movie PROGRAM >docs/session.svg` draws it again."""
    drawn = subprocess.check_output([TOP / "package/movie", program], text=True)
    assert drawn == (TOP / "docs/session.svg").read_text()
