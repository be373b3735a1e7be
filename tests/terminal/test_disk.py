"""What a disk is asked to do, which no clause says: of files that a run or a talk replaces."""
import os
import re
import subprocess

import pytest

from tests.terminal.talking import Terminal

DECK = "%UNIT 16\nCARD\n"
OLD = "%UNIT 16\nOLD\n"
KEEP = ("run", "a.mixal", "--devices", "cards.deck", "--keep")
DRAW = ("run", "a.mixal", "--svg")
RENAMES = "rename,renameat,renameat2"
CALLS = f"openat,write,writev,pwrite64,fsync,fdatasync,fchmod,close,link,linkat,{RENAMES}"


@pytest.fixture
def here(folder):
    """A folder with a deck that is kept in place of another one."""
    (folder / "cards.deck").write_text(DECK)
    (folder / "here").mkdir()
    (folder / "here" / "old").write_text(OLD)
    return folder / "here"


def texts_in(folder):
    return {file.name: file.read_text() for file in folder.iterdir()}


@pytest.mark.parametrize("mode", [0o600, 0o640, 0o664, 0o755])
def test_permissions(talk, ran, here, mode):
    """A file that is replaced keeps its permissions, whatever replaces it."""
    ran(*DRAW, "here/map")
    terminal = talk()
    terminal.said("save here/saved")
    before = texts_in(here)
    for file in here.iterdir():
        file.chmod(mode)
    terminal.said("step")
    assert terminal.said("save here/saved") == "saved: here/saved\n" and terminal.end() == 0
    assert ran(*DRAW, "here/map", "--steps", "2").status == 3
    assert ran(*KEEP, "here/old").status == 0
    assert all(before[name] != text for name, text in texts_in(here).items())
    assert [file.stat().st_mode & 0o777 for file in here.iterdir()] == [mode] * 3


def test_links(ran, folder, here):
    """Of a link the file is replaced to which it leads, over other links, and also one that is not
    there yet. A second name of the file keeps the old text."""
    (folder / "link").symlink_to("here/next")
    (here / "next").symlink_to("old")
    (here / "second").hardlink_to(here / "old")
    (folder / "new").symlink_to("here/made")
    for name, end in (("link", "old"), ("new", "made")):
        assert ran(*KEEP, name).status == 0 and (folder / name).is_symlink()
        assert (here / end).read_text() == DECK and not (here / end).is_symlink()
    assert (here / "next").is_symlink()
    assert texts_in(here) == {"old": DECK, "next": DECK, "made": DECK, "second": OLD}


@pytest.mark.parametrize(
    "end, why",
    [("link", "Too many levels of symbolic links"), ("no/such", "No such file or directory")],
)
def test_links_to_nothing(ran, folder, here, end, why):
    """A link that leads nowhere is refused, and stays."""
    (folder / "link").symlink_to(end)
    assert ran(*KEEP, "link").errors == f"mixrev: T4 not opened: link: {why}\n"
    assert (folder / "link").is_symlink()


@pytest.mark.parametrize("many", [1, 9, 10])
def test_own_files(ran, here, many):
    """The user's own files with the names of temporary ones stay as they are, and stop nothing."""
    own = {f".mixrev-{at}": f"MINE {at}\n" for at in range(many)}
    for name, text in own.items():
        (here / name).write_text(text)
    assert ran(*KEEP, "here/old").status == 0
    assert texts_in(here) == {**own, "old": DECK}


@pytest.fixture
def traced(program, strace, folder):
    """Runs the program, and makes a call fail: the status, and the calls that are about files, each
    with its words and what it gave."""

    def run(*words, failing=None):
        injected = ["-e", f"inject={failing}"] if failing else []
        command = [*strace, "trace", "-e", f"trace={CALLS}", *injected, program, *words]
        if words[0] == "debug":
            terminal = Terminal(*command, folder=folder)
            terminal.seen()
            for line in ("save here/old", "step", "save here/old"):
                terminal.said(line)
            status = terminal.end()
        else:
            given = {"stdin": subprocess.DEVNULL, "capture_output": True}
            status = subprocess.run(command, cwd=folder, **given).returncode
        lines = (folder / "trace").read_text()
        return status, re.findall(r"^\d+ +(\w+)\((.*)\) += (-?\d+)", lines, re.M)

    return run


@pytest.mark.parametrize("words", [(*KEEP, "here/old"), (*DRAW, "here/old"), ("debug", "a.mixal")])
def test_order(traced, here, words):
    """The text is in a new file, and on the disk, before that takes the name of the old one."""
    if "--keep" not in words:
        (here / "old").unlink()
    if "--svg" in words:
        traced(*words)
    status, calls = traced(*words)
    end = max(at for at, (call, _, _) in enumerate(calls) if call.startswith("rename"))
    new, old = re.findall(r'"([^"]*)"', calls[end][1])
    assert status == 0 and old.endswith("here/old")
    assert os.path.dirname(new) == os.path.dirname(old)
    created = re.compile(rf'.*"{re.escape(new)}".*O_EXCL')
    begin = max(at for at, (_, names, _) in enumerate(calls[:end]) if created.match(names))
    file = calls[begin][2]
    done = [call for call, names, _ in calls[begin + 1 : end] if names.split(",")[0] == file]
    assert re.fullmatch("(fchmod )?(write )+fsync (fchmod )?close", " ".join(done))


@pytest.mark.parametrize(
    "call", ["write:error=ENOSPC", "fsync:error=EIO", f"{RENAMES}:error=EACCES"]
)
@pytest.mark.parametrize("name", ["old", "new"])
def test_failed(traced, here, call, name):
    """A disk that takes no more, or not this: the old file is as it was, and there is no other."""
    status, calls = traced(*KEEP, f"here/{name}", failing=call)
    if any(gave == "-1" for _, _, gave in calls):
        assert status == 2 and texts_in(here) == {"old": OLD}
    else:
        assert call.startswith("rename") and name == "new"
        assert texts_in(here) == {"old": OLD, "new": DECK}


@pytest.mark.parametrize(
    "call, name, times",
    [("write", "old", 1), ("fsync", "old", 1), (RENAMES, "old", 1), ("write", "old", 10), ("write", "new", 1)],
)
def test_killed(traced, ran, here, call, name, times):
    """A program that is killed while it writes a file leaves the old one, or none, and never a
    part; what it leaves besides stops no later one."""
    for _ in range(times):
        assert traced(*KEEP, f"here/{name}", failing=f"{call}:signal=KILL")[0] == -9
        assert (here / "old").read_text() == OLD and not (here / "new").exists()
    assert ran(*KEEP, f"here/{name}").status == 0 and (here / name).read_text() == DECK
