"""What a stranger's files make the program do, by its calls to the system."""
import json
import re
import subprocess

import pytest

from tests.adapter.frames import frame, framed

# What they ask for: lines of a script, of the console of an editor, and an editor's settings.
LINES = [
    *("save stolen", "save! stolen", "source session", "reload", "keep stolen", "svg stolen"),
    *("!touch stolen", "$(touch stolen)", "step | tee stolen", "quit"),
]
SCRIPT = "".join(f"{line}\n" for line in LINES)
SOURCE = " OUT 5(19)\n HLT\n ORIG 5\n ALF HELLO\n END 0\n"
BUNDLE = f"{SOURCE}%DEVICES\n%UNIT 16\nCARD\n%SCRIPT\n{SCRIPT}"
FILES = {"bundle": BUNDLE, "session": SCRIPT, "cards.deck": "%UNIT 16\nCARD\n"}
LAUNCH = {"program": "bundle", "devices": "cards.deck", "keep": "stolen", "svg": "stolen"}
TALK = [
    *(("initialize", {"adapterID": "mixrev"}), ("launch", LAUNCH), ("configurationDone", {})),
    *(("evaluate", {"expression": line, "context": "repl"}) for line in LINES),
]
OPENED = {"uri": "file:///bundle.mixal", "languageId": "mixal", "version": 1, "text": BUNDLE}
SERVED = [
    ("initialize", {"rootUri": "file:///", "initializationOptions": LAUNCH}),
    ("textDocument/didOpen", {"textDocument": OPENED}),
    ("workspace/executeCommand", {"command": "save", "arguments": ["stolen"]}),
    ("shutdown", None),
]
CALLS = (
    "open,openat,openat2,creat,truncate,/rename,link,linkat,symlink,symlinkat,mkdir,mkdirat,"
    "/chmod,/exec,fork,vfork,clone,clone3,socket,connect"
)


def called(at, name, what):
    """A request to the language server."""
    message = {"jsonrpc": "2.0", "id": at, "method": name, "params": what}
    return frame(json.dumps(message).encode()).decode()


WAYS = {
    "": BUNDLE,
    "run bundle": "",
    "list bundle": "",
    "check bundle session": "",
    "debug bundle session": "",
    "debug bundle --devices cards.deck": SCRIPT,
    "dap": framed(*TALK).decode(),
    "lsp": "".join(called(at, *one) for at, one in enumerate(SERVED, 1)),
}


@pytest.mark.parametrize("words", WAYS)
def test_stranger(program, strace, tmp_path, words):
    """It opens no file to write, starts nothing and calls nobody."""
    for name, text in FILES.items():
        (tmp_path / name).write_text(text)
    command = [*strace, "/dev/fd/2", "-e", f"trace={CALLS}", program, *words.split()]
    given = {"input": WAYS[words], "capture_output": True, "text": True, "timeout": 60}
    done = subprocess.run(command, cwd=tmp_path, **given)
    begun, *others = re.findall(r"^\d+ +(\w+\(.*\)) += ", done.stderr, re.M)
    reads = re.compile(r'open(at)?\([^"]*"[^"]*", O_RDONLY')
    assert begun.startswith("execve(") and [call for call in others if not reads.match(call)] == []
    assert done.stdout and {file.name: file.read_text() for file in tmp_path.iterdir()} == FILES
