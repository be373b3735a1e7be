"""A client of the adapter: debugpy's message channel over the adapter's standard streams. Each message that comes is kept and checked by the schema."""
import json
import os
import pathlib
import subprocess
import threading
import time

import pytest

from tests.adapter import schema

messaging = pytest.importorskip("debugpy.common.messaging", reason="python3-debugpy is not there")

PROGRAMS = pathlib.Path(__file__).with_name("programs")
CALLS = str(PROGRAMS / "calls.mixal")
# Of calls.mixal the line, the location and the clock after each number of steps; see talks.walk.
AFTER = [(3, 10, 0), (4, 11, 1), (6, 12, 2), (7, 13, 4), (8, 14, 5), (6, 12, 6), (7, 13, 8)]
AFTER += [(8, 14, 9), (6, 12, 10), (7, 13, 12), (8, 14, 13), (9, 15, 14), (11, 17, 15)]
AFTER += [(12, 18, 17), (13, 19, 18), (10, 16, 19), (11, 17, 29)]
SECONDS = float(os.environ.get("WAIT", "20"))  # in which whatever is waited for has to come


class Ended(Exception):
    """A talk that can't go on."""


class Recorded(messaging.JsonIOStream):  # type: ignore
    """A stream of messages that keeps what was read."""

    def read_json(self, decoder=None):
        message = super().read_json(decoder)
        self.keep(json.loads(json.dumps(message)))
        return message


class Client:
    def __init__(self, command):
        self.messages, self.arrived, self.seen = [], threading.Condition(), 0
        self.process = subprocess.Popen(command, stdin=subprocess.PIPE, stdout=subprocess.PIPE, stderr=subprocess.PIPE)
        stream = Recorded.from_process(self.process)
        stream.keep = self.keep
        self.channel = messaging.JsonMessageChannel(stream, messaging.MessageHandlers(event=lambda event: None))
        self.channel.start()

    def begin(self, **initialize):
        """The capabilities that the adapter tells."""
        client = {"clientID": "check", "adapterID": "mixrev", "linesStartAt1": True, "columnsStartAt1": True, "pathFormat": "path",
                  "supportsVariableType": True, "supportsMemoryReferences": True, "supportsInvalidatedEvent": True}
        self.capabilities = self.body("initialize", **{**client, **initialize})

    def keep(self, message):
        with self.arrived:
            self.messages.append(message)
            self.arrived.notify_all()

    def ask(self, command, **arguments):
        """The response to a request, as it came."""
        since = len(self.messages)
        request = self.channel.send_request(command, arguments or None)
        return self.first(lambda message: message.get("request_seq") == request.seq, since, f"response to {command} {arguments}")[0]

    def body(self, command, **arguments):
        """The body of a response that accepts."""
        response = self.ask(command, **arguments)
        assert response["success"], (command, arguments, response.get("message"))
        return response.get("body", {})

    def refused(self, command, **arguments):
        """The text of a refusal, and "" where there is none."""
        response = self.ask(command, **arguments)
        return "" if response["success"] else response.get("message", "") or response["body"]["error"]["format"]

    def first(self, test, since, what):
        """The first message from one on that meets a test, and its place; waited for."""
        end = time.monotonic() + SECONDS
        with self.arrived:
            while True:
                for at in range(since, len(self.messages)):
                    if test(self.messages[at]):
                        return self.messages[at], at
                left = end - time.monotonic()
                if left <= 0 or not self.arrived.wait(left):
                    raise Ended(f"no {what} in {SECONDS} s; the status is {self.process.poll()}")

    def wait(self, event, since):
        """The body of the first event of a name from a message on, and its place; waited for."""
        message, at = self.first(lambda message: message.get("event") == event, since, f"event {event}")
        return message.get("body", {}), at

    def stop(self):
        """The next stop."""
        body, at = self.wait("stopped", self.seen)
        self.seen = at + 1
        return body

    def move(self, command, **arguments):
        """A request that runs or steps, and the reason of its stop."""
        self.body(command, **{"threadId": 1, **arguments})
        return self.stop()["reason"]

    def launch(self, program, stops=True, **more):
        """A program launched and configured, and the first stop where it is to be."""
        self.body("launch", program=program, stopOnEntry=stops, **more)
        self.wait("initialized", 0)
        self.body("configurationDone")
        return self.stop()["reason"] if stops else None

    def lines(self, path, *lines):
        """Breakpoints on lines of a source, as they are told."""
        return self.body("setBreakpoints", source={"path": path}, breakpoints=[{"line": line} for line in lines])["breakpoints"]

    def frame(self):
        return self.body("stackTrace", threadId=1)["stackFrames"][0]

    def scopes(self):
        return {scope["name"]: scope["variablesReference"] for scope in self.body("scopes", frameId=self.frame()["id"])["scopes"]}

    def variables(self, reference, **more):
        return self.body("variables", variablesReference=reference, **more)["variables"]

    def values(self, scope):
        """The variables of a scope: each by its name, its value."""
        return {variable["name"]: variable["value"] for variable in self.variables(self.scopes()[scope])}

    def state(self):
        """The line of the source, the location, and the clock."""
        flags = self.values("Flags")
        return self.frame()["line"], int(flags["loc"]), int(flags["clock"])

    def page(self, cell):
        """The reference of the page in which a cell is, and the variable of the cell."""
        for page in self.variables(self.scopes()["Memory"]):
            cells = {variable["name"]: variable for variable in self.variables(page["variablesReference"])} if page["name"][:2] == f"{cell:04}"[:2] else {}
            if f"{cell:04}" in cells:
                return page["variablesReference"], cells[f"{cell:04}"]
        raise AssertionError(f"cell {cell} is not among the memory's pages")

    def repl(self, line):
        return self.body("evaluate", expression=line, context="repl")["result"].rstrip("\n")

    # What walks ask, beside the above

    def at(self):
        """How many steps of calls.mixal lead to this state, or else the state."""
        state = self.state()
        return AFTER.index(state) if state in AFTER else state

    def goes(self, command, **arguments):
        """The reason of the stop after a request, and where it is."""
        reason = self.move(command, **arguments)
        return reason, self.at()

    def starts(self, name, **more):
        """A launch of one of the programs, and the first stop."""
        return self.launch(str(PROGRAMS / name), **more)

    def part(self, path, command, **arguments):
        """A part of a body: names, and numbers or * for items."""
        found = [self.body(command, **arguments)]
        for name in path.split("."):
            if name == "*":
                found = [item for items in found for item in items]
            else:
                found = [it[int(name)] if name.isdigit() else it.get(name) for it in found]
        return found if "*" in path else found[0]

    def unable(self, *names):
        """Those of some capabilities that the adapter has not."""
        return [name for name in names if self.capabilities.get(f"supports{name}") is not True]

    def points(self, path, *lines):
        """The lines of breakpoints, each where it is verified."""
        return [it["verified"] and it["line"] for it in self.lines(path, *lines)]

    def watched(self, scope, name):
        """Whether data breakpoints are verified, of a variable of a scope, or of a cell."""
        place = self.page(name)[0] if scope == "Memory" else self.scopes()[scope]
        name = f"{name:04}" if scope == "Memory" else name
        part = self.body("dataBreakpointInfo", variablesReference=place, name=name)["dataId"]
        return self.part("breakpoints.*.verified", "setDataBreakpoints", breakpoints=[{"dataId": part}])

    def code(self, where, first, count):
        """Instructions from a place on: the place of each, its text, and its line."""
        given = {"memoryReference": where, "instructionOffset": first, "instructionCount": count}
        found = self.body("disassemble", **given)["instructions"]
        return [(it["address"], it["instruction"], it.get("line")) for it in found]

    def value(self, scope, name):
        return self.values(scope)[name].partition(" = ")[0]

    def cell(self, number):
        return self.page(number)[1]["value"].partition(" = ")[0]

    def reference(self, cell):
        return self.page(cell)[1]["memoryReference"]

    def sets(self, scope, name, value):
        """Sets a variable of a scope, or a cell: its value then, or why not."""
        place = self.page(name)[0] if scope == "Memory" else self.scopes()[scope]
        name = f"{name:04}" if scope == "Memory" else name
        given = {"variablesReference": place, "name": name, "value": str(value)}
        response = self.ask("setVariable", **given)
        return response["body"]["value"] if response["success"] else response["message"]

    def events(self):
        return sorted({message["event"] for message in self.messages if "event" in message})

    def outputs(self, category="stdout"):
        return "".join(message["body"]["output"] for message in self.messages
                       if message.get("event") == "output" and message["body"].get("category") == category)

    def close(self):
        """Disconnects; then the program ends with status 0, each message that came is right, and their numbers rise."""
        self.body("disconnect")
        self.end(0)
        return self

    def kill(self):
        """Ends the program, whatever it does."""
        self.process.kill()
        self.process.wait()

    def end(self, status):
        """The program ends with this status; each message that came is right."""
        try:
            ended = self.process.wait(SECONDS)
        except subprocess.TimeoutExpired:
            self.process.kill()
            ended = "none, and it was killed"
        self.channel.close()
        assert ended == status
        for message in self.messages:
            wrong = schema.faults(message)
            assert not wrong, message
        numbers = [message["seq"] for message in self.messages]
        assert numbers == sorted(set(numbers))
