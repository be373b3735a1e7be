"""The sessions and the counts that a lesson's README.md shows, run and compared line by line.

A session is a block that begins with "```text NAME.mixal". Its lines that begin with the prompt `(mixrev) ` are the commands of the bundle, all
of them and in their order. Below each command is its reply, in which a line `..` stands for lines that are left out, and ` ..` at the end of a
line for what follows there. A block that begins with "```text after NAME.mixal" has commands that follow those of the bundle. A block that begins
with "```text times NAME.mixal N=4 N=7" is what `course/times` writes of these values. A block whose first line is `$ mixrev run ..` has what
this command writes in the folder of the lesson, on standard error last; a program that cannot `run` a source is not asked. A block that begins with
"```text terminal NAME.mixal" is a session at a terminal, and "```text terminal after NAME.mixal" goes on with it; with ", then OTHER.mixal" the source is
edited so before its `reload`. One that begins with "```mixal NAME.mixal" is that source, or some lines of it that follow one another."""
import re
import subprocess

from columns import Counted, as_text, table
from running import PROMPT as ENDED, Bundle, at_a_terminal, replies_of

BLOCK = re.compile(r"^```text (after )?(\S+\.mixal)\n(.*?)^```$", re.S | re.M)
COLUMNS = re.compile(r"^```text times (\S+\.mixal) (.*?)\n(.*?)^```$", re.S | re.M)
TERMINALS = re.compile(r"^```text terminal (after )?(\S+\.mixal)(?:, then (\S+\.mixal))?\n(.*?)^```$", re.S | re.M)
SOURCES = re.compile(r"^```mixal (\S+\.mixal)\n(.*?)^```$", re.S | re.M)
RUNS = re.compile(r"^```text\n\$ mixrev (run .*?)\n(.*?)^```$", re.S | re.M)
PROMPT = ENDED.decode()
LEFT_OUT = ".."


def talk_of(program, bundle):
    """A bundle's talk: each command, and below it its reply."""
    return [(command, reply) for command, reply in zip(bundle.commands(), replies_of(program, bundle))]


def shown_in(text):
    """The commands of a block, each with the lines below it."""
    talk = []
    for line in text.splitlines():
        if line.startswith(PROMPT):
            talk.append((line[len(PROMPT) :], []))
        elif talk:
            talk[-1][1].append(line)
        else:
            talk.append(("", [line]))
    return talk


def is_line(shown, written):
    """Whether a line that is shown is the one written; at its end ` ..` stands for what is left out."""
    return written.startswith(shown[: -len(LEFT_OUT)]) if shown.endswith(" " + LEFT_OUT) else written.rstrip() == shown.rstrip()


def is_shown(shown, written):
    """Whether the lines shown are those written, with `..` for some that are left out."""
    if not shown:
        return not written
    if shown[0] != LEFT_OUT:
        return bool(written) and is_line(shown[0], written[0]) and is_shown(shown[1:], written[1:])
    return any(is_shown(shown[1:], written[at:]) for at in range(1, len(written) + 1))


def same(command, lines, reply):
    """Compares the lines that are shown below a command with its reply."""
    different = [line for line in lines if line != LEFT_OUT and not any(is_line(line, one) for one in reply)]
    yield f"lines of the reply to {command} that are not written", different, []
    yield f"whether the reply to {command} is shown whole and in order", is_shown(lines, reply), True


def can(program, command):
    """Whether a program has this command; one that only reads a bundle has not."""
    return subprocess.run([program, command, "--help"], stdin=subprocess.DEVNULL, capture_output=True).returncode == 0


def terminals(program, folder, text):
    """Compares each session at a terminal with what is seen there, the greeting first."""
    before = []
    for found in TERMINALS.finditer(text) if can(program, "debug") else ():
        shown = shown_in(found[4])
        before = before if found[1] else []
        files = [Bundle((folder / name).read_text()).source for name in found.groups()[1:3] if name]
        replies = at_a_terminal(program, files, [command for command, _ in [*before, *shown] if command])
        before += shown
        for (command, lines), reply in zip(reversed(shown), reversed(replies)):
            yield from same(f"{command or 'nothing'} of {found[2]} at a terminal", lines, reply)


def sources(folder, text):
    """Compares each source that is shown with its file."""
    for found in SOURCES.finditer(text):
        source = "".join(f"{line}\n" for line in Bundle((folder / found[1]).read_text()).source)
        yield f"whether {found[1]} is shown as it is", found[2] in source, True


def runs(program, folder, text):
    """Compares what `mixrev run` writes with each block that shows it."""
    if can(program, "run"):
        for found in RUNS.finditer(text):
            ran = subprocess.run([program, *found[1].split()], cwd=folder, stdin=subprocess.DEVNULL, capture_output=True, text=True)
            yield f"what {found[1]} writes", found[2].splitlines(), [line.rstrip() for line in (ran.stdout + ran.stderr).splitlines()]


def talks(program, folder):
    """Compares each talk of a lesson's README.md; that of `lesson.mixal` and that of `answer.mixal` have to be there."""
    text, seen = (folder / "README.md").read_text(), set()
    for found in BLOCK.finditer(text):
        name, shown = found[2], shown_in(found[3])
        bundle = Bundle((folder / name).read_text())
        first = len(bundle.commands()) if found[1] else 0
        if found[1]:
            bundle.script += [command for command, _ in shown]
        seen.add(name if not found[1] else "")
        said = talk_of(program, bundle)[first:]
        yield f"the commands of {name}", [command for command, _ in shown], [command for command, _ in said]
        for (command, lines), (_, reply) in zip(shown, said):
            yield from same(f"{command} of {name}", lines, reply)
    for found in COLUMNS.finditer(text):
        said = as_text(*table([Counted(program, (folder / found[1]).read_text(), setting) for setting in found[2].split()]))
        yield f"the counts of {found[1]} for {found[2]}", found[3].splitlines(), said
    yield from runs(program, folder, text)
    yield from sources(folder, text)
    yield from terminals(program, folder, text)
    seen |= {found[2] for found in TERMINALS.finditer(text)}
    for name in ("answer.mixal", "lesson.mixal"):
        yield f"README.md shows {name}", name in seen, True
