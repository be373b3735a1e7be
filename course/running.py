"""Runs a lesson's bundle with a program, with other data or one instruction changed, and reads what it writes."""
import json
import os
import pathlib
import pty
import re
import select
import subprocess
import sys
import tempfile

COURSE = pathlib.Path(__file__).resolve().parent
MARK = "show value 1073741823"  # its reply parts the replies of the commands
MARKED = '+ 63 63 63 63 63  1073741823  "?????"'
RAN = re.compile(r"ran (\d+) to (\d+) clock (\d+): (.*)")
COUNTED = re.compile(r" *(\d+) +(\d+)  (\d{4})  ( *\d+)[ *] (.*)")


def done(main):
    """Ends a script with its status; one whose reader has seen enough, as head, ends without a word."""
    try:
        status = main()
        sys.stdout.flush()
    except BrokenPipeError:
        os.dup2(os.open(os.devnull, os.O_WRONLY), sys.stdout.fileno())
        status = 141
    sys.exit(status)


class Refused(Exception):
    """The source or the deck was refused, so there is nothing to look at."""


class Bundle:
    """The three parts of a bundle, each a list of lines; a part that is not there is None."""

    def __init__(self, text):
        lines = text.removesuffix("\n").split("\n")
        script = lines.index("%SCRIPT") if "%SCRIPT" in lines else len(lines)
        deck = lines.index("%DEVICES") if "%DEVICES" in lines[:script] else script
        self.source, self.deck, self.script = lines[:deck], lines[deck + 1 : script], lines[script + 1 :]

    def text(self, marked=False):
        script = [line for command in self.commands() for line in (command, MARK)] if marked else self.script
        return "".join(line + "\n" for line in [*self.source, "%DEVICES", *self.deck, "%SCRIPT", *script])

    def commands(self):
        """The lines of the script that are commands."""
        return [line for line in self.script if line.strip() and not line.startswith("*")]

    def set_constants(self, values):
        """Gives the symbols that the source defines by EQU other values."""
        for name, value in values.items():
            self.replace_line(re.compile(rf"({name} +EQU +)\S+"), rf"\g<1>{value}")

    def replace_line(self, pattern, text):
        """Replaces what matches at the beginning of one line, and of no other."""
        found = [number for number, line in enumerate(self.source) if pattern.match(line)]
        if len(found) != 1:
            raise ValueError(f"{len(found)} lines of the source match {pattern.pattern}")
        self.source[found[0]] = pattern.sub(text, self.source[found[0]], count=1)

    def change_instruction(self, old, new):
        """Changes the one line that has these words for another instruction."""
        self.replace_line(re.compile(rf"((?:\S+)?\s+){re.escape(old)}(?!\S)".replace(r"\ ", r"\s+")), rf"\g<1>{new}")

    def set_data(self, lines, name="data"):
        """Puts other lines between the comments `* data` and `* end of data`; a number is a line CON."""
        first, last = self.source.index(f"* {name}"), self.source.index(f"* end of {name}")
        self.source[first + 1 : last] = [line if isinstance(line, str) else f"        CON  {line}" for line in lines]


def written(program, bundle, marked=False):
    """What the program writes of a bundle: standard output, and the status."""
    ran = subprocess.run([program], input=bundle.text(marked).encode(), capture_output=True)
    if ran.returncode in (1, 2):
        raise Refused((ran.stdout + ran.stderr).decode().strip())
    return ran.stdout.decode(), ran.returncode


def replies_of(program, bundle):
    """The replies of each command, a list of lines for each."""
    replies = [[]]
    for line in written(program, bundle, marked=True)[0].split("\n")[:-1]:
        if line == MARKED:
            replies.append([])
        else:
            replies[-1].append(line)
    return replies[:-1]


def asked(program, bundle, requests):
    """The responses of the debug adapter to requests about the program of a bundle, which waits
    before its first step."""
    source, deck = ("".join(f"{line}\n" for line in part) for part in (bundle.source, bundle.deck))
    launch = {"sourceText": source, "devicesText": deck, "stopOnEntry": True}
    begin = ("initialize", {"adapterID": "mixrev"}), ("launch", launch)
    opening = [*begin, ("configurationDone", {})]
    frames = b""
    for seq, (command, given) in enumerate([*opening, *requests], 1):
        body = {"seq": seq, "type": "request", "command": command, "arguments": given}
        body = json.dumps(body).encode()
        frames += b"Content-Length: %d\r\n\r\n%s" % (len(body), body)
    ran = subprocess.run([program, "dap"], input=frames, capture_output=True)
    bodies = map(json.loads, re.split(rb"Content-Length: \d+\r\n\r\n", ran.stdout)[1:])
    responses = [message for message in bodies if message["type"] == "response"]
    if len(responses) != len(opening) + len(requests) or not responses[1]["success"]:
        raise Refused(responses[1]["message"] if responses[1:] else "the program has no console")
    return responses[3:]


def console_replies(program, bundle):
    """The replies to lines that a person types, of which a script may not have all."""
    lines = [("evaluate", {"expression": it, "context": "repl"}) for it in bundle.commands()]
    for each in asked(program, bundle, lines):
        yield (each["body"]["result"] if each["success"] else each["message"]).splitlines()


class Outcome:
    """The replies to a script, with the numbers that they hold."""

    def __init__(self, bundle, replies):
        self.source, self.replies = bundle.source, dict(zip(bundle.commands(), replies))
        runs = [RAN.fullmatch(line) for lines in replies for line in lines if RAN.fullmatch(line)]
        self.steps, self.location, self.clock = (int(part) for part in runs[-1].groups()[:3]) if runs else (0, 0, 0)
        self.end = runs[-1][4] if runs else "none"

    def lines(self, command):
        return self.replies[command]

    def numbers(self, command=None):
        """The numbers of the words of `show values E E`, the last if none is named, or of `show values`."""
        return [int(line[21:33]) for line in self.lines(command or [one for one in self.replies if one.startswith("show values ")][-1])]

    def words(self, command):
        """The words of `show cells E E`: of each cell its sign, as 1 or -1, and its five bytes."""
        return {int(line[:4]): (-1 if line[5] == "-" else 1, [int(byte) for byte in line[7:].split()]) for line in self.lines(command)}

    def register(self, name):
        """The number of a register in the reply to `show values`."""
        return next(int(line[19:31]) for line in self.lines("show values") if line.startswith(name))

    def rows(self, unit):
        """The rows of a unit, without the blanks at their ends."""
        return [line[2:].rstrip() for line in self.lines(f"show unit {unit}") if line.startswith("> ")]

    def counts(self):
        """Of each line of the source: how often its instruction was done, and the time that it took."""
        found = [COUNTED.fullmatch(line) for line in self.lines("show counts")]
        return {int(one[4]): (int(one[1]), int(one[2])) for one in found if one}


class Runner:
    """Runs the bundles of a lesson. A change, if one is given, is made in the bundle of `lesson.mixal` before each run."""

    def __init__(self, program, folder, change=lambda bundle: None):
        self.program, self.folder, self.change = program, COURSE / folder, change

    def bundle(self, name):
        return Bundle((self.folder / name).read_text())

    def __call__(self, name="lesson.mixal", script=None, deck=None, data=None, mend=None, **constants):
        bundle = self.bundle(name)
        if name == "lesson.mixal":
            self.change(bundle)
        if mend:
            mend(bundle)
        bundle.set_constants(constants)
        if isinstance(data, dict):
            for block, lines in data.items():
                bundle.set_data(lines, block)
        elif data is not None:
            bundle.set_data(data)
        bundle.script = bundle.script if script is None else script
        bundle.deck = bundle.deck if deck is None else deck
        return Outcome(bundle, replies_of(self.program, bundle))


PATIENCE = 60  # seconds in which a prompt has to come
PROMPT = b"(mixrev) "


def read_to_prompt(terminal):
    """What is written up to the next prompt, or to the end of the session."""
    seen = b""
    while not seen.endswith(PROMPT):
        if not select.select([terminal], [], [], PATIENCE)[0]:
            raise ValueError("no prompt comes")
        try:
            more = os.read(terminal, 65536)
        except OSError:  # so a terminal ends that nobody has open any longer
            break
        if not more:
            break
        seen += more
    return [line.rstrip() for line in seen.removesuffix(PROMPT).decode().splitlines()]


def session(words, lines, folder, environment=os.environ):
    """What a command writes in a folder at a terminal: its greeting, and then what follows each
    line, without the line itself, which the terminal repeats."""
    ours, theirs = pty.openpty()
    how = {"env": {**environment, "TERM": "dumb"}, "start_new_session": True, "cwd": folder}
    talk = subprocess.Popen(words, stdin=theirs, stdout=theirs, stderr=theirs, **how)
    os.close(theirs)
    yield read_to_prompt(ours)
    for line in lines:
        os.write(ours, f"{line}\n".encode())
        yield read_to_prompt(ours)[1:]
    os.close(ours)
    talk.wait(PATIENCE)


def at_a_terminal(program, sources, commands):
    """The same of `debug` and a source. Before a `reload` its file gets the last source."""
    with tempfile.TemporaryDirectory() as folder:
        file = pathlib.Path(folder, "sum.mixal")
        file.write_text("".join(f"{line}\n" for line in sources[0]))

        def typed():
            for command in commands:
                if command == "reload":
                    file.write_text("".join(f"{line}\n" for line in sources[-1]))
                yield command

        return list(session([program, "debug", file.name], typed(), folder))
