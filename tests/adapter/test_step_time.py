"""How long a step with its three views takes, and a run of a million steps

`next` and its stop, then stackTrace, scopes and variables, one after the other over pipes, as an editor asks for them. Of ten batches of 100 the
median of the best is printed. A millisecond is what an editor is promised; only ten of them fail, since computers differ. A run of a
million steps is to pause within ten seconds."""
import itertools
import json
import statistics
import time

from tests.adapter.frames import Channel, request
from tests.adapter.client import PROGRAMS

MOST = 10_000  # microseconds


class Talk(Channel):
    numbers = itertools.count(1)

    def ask(self, command, until="response", **arguments):
        """Sends a request, and reads up to its response, or up to an event."""
        self.send(request(next(self.numbers), command, arguments))
        end = b'"type":"response"' if until == "response" else b'"event":"%s"' % until.encode()
        # read as JSON only where it is waited for: what is measured is the adapter
        while end not in (body := self.read_frame()):
            pass
        return json.loads(body)

    def step(self):
        self.ask("next", "stopped", threadId=1)
        self.ask("stackTrace", threadId=1)
        self.ask("scopes", frameId=1)
        self.ask("variables", variablesReference=1)


def test_steps(command):
    talk = Talk(command)
    talk.ask("initialize", adapterID="mixrev")
    talk.ask("launch", "initialized", program=str(PROGRAMS / "endless.mixal"), stopOnEntry=True)
    talk.ask("configurationDone", "stopped")
    medians = []
    for _ in range(10):
        times = []
        for _ in range(100):
            began = time.perf_counter()
            talk.step()
            times.append(1e6 * (time.perf_counter() - began))
        medians.append(statistics.median(times))
    found = talk.ask("evaluate", expression="show changes", context="repl")["body"]["result"].strip()
    assert found == "changes 1000", "a thousand steps were done"
    assert min(medians) <= MOST, ("a step with its three views takes ten milliseconds at most", f"{min(medians):.0f} microseconds")
    print(f"a step with its three views: {min(medians):.0f} microseconds")
    assert talk.end() == 0, "status at the end"


def test_long_runs(talk):
    """A run that comes to no stop pauses after a million changes, forwards and backwards; what the client sends meanwhile is heard then."""
    talk.launch(str(PROGRAMS / "endless.mixal"))
    began = time.monotonic()
    assert talk.move("continue") == "pause", "a long run pauses"
    took = time.monotonic() - began
    print(f"a million steps, and their pause: {1e6 * took:.0f} microseconds")
    assert took < 10, ("that is soon", took)
    assert talk.state() == (1, 0, 1000000), "each jump took 1 u"
    talk.body("continue", threadId=1)
    talk.body("pause", threadId=1)
    assert [talk.stop()["reason"], talk.stop()["reason"]] == ["pause", "pause"], "a pause that is sent meanwhile comes after that of the run"
    assert talk.repl("show changes") == "changes 2000000", "two million"
    for left in (1000000, 0):
        assert (talk.move("reverseContinue"), talk.state()) == ("pause", (1, 0, left)), f"back to {left}"
    assert (talk.move("reverseContinue"), talk.state()) == ("entry", (1, 0, 0)), "at the start"
    talk.move("continue")
    assert (talk.move("restart"), talk.state()) == ("entry", (1, 0, 0)), "restart after a long run"
    talk.body("continue", threadId=1)
    # disconnect is heard once the run pauses
    talk.close()
