"""Frames and requests as the adapter has to read them, what a talk comes to, and talks that are sent whole: written anew from the rules, for tests alone.

A header is lines, each ended by a line feed, before which a carriage return may stand, up to the first empty one; `Content-Length`, in any letters,
gives the length of the body in bytes, in 1 to 10 digits. A body is a request where it is JSON in UTF-8, an object of the type "request", with a
whole number from 0 on as `seq`, however it is written, and a text as `command`."""
import json
import re
import subprocess

HEADER, BODY = 4096, 134217728
CUT, LONG = "cut", "too long"
GOOD = [b"", 0]
DONE: tuple = ("configurationDone", {})


def frame(body):
    return b"Content-Length: %d\r\n\r\n%s" % (len(body), body)


def request(seq, command, arguments):
    return json.dumps({"seq": seq, "type": "request", "command": command, "arguments": arguments}).encode()


def framed(*requests, first=1):
    """The frames of requests, each a name and its arguments, that are numbered from one on."""
    return b"".join(frame(request(seq, *each)) for seq, each in enumerate(requests, first))


def launch(source, **given):
    return "launch", {"stopOnEntry": True, "sourceText": source, **given}


def bodies(text):
    """Each frame's body, None where a header gives no length; at the end CUT or LONG where the text does not end at a frame's end."""
    while text:
        length, at = None, 0
        while True:
            end = text.find(b"\n", at, HEADER)
            if end < 0:
                yield LONG if len(text) >= HEADER else CUT
                return
            line, at = text[at:end].removesuffix(b"\r"), end + 1
            if not line:
                break
            found = re.fullmatch(rb"(?i)content-length:[ \t]*(\d{1,10})(?:[ \t].*)?", line, re.S)
            length = int(found[1]) if found else length
        if length is None:
            yield None
        elif length > BODY:
            yield LONG
            return
        elif len(text) < at + length:
            yield CUT
            return
        else:
            yield text[at:at + length]
        text = text[at + (length or 0):]


def no_constant(name):
    raise ValueError(name)


def request_of(body):
    """The request that a body is, or nothing."""
    try:
        message = json.loads(body.decode(), parse_constant=no_constant)
        json.dumps(message, ensure_ascii=False).encode()
    except (ValueError, RecursionError):
        return None
    if not isinstance(message, dict) or message.get("type") != "request" or not isinstance(message.get("command"), str):
        return None
    seq = message.get("seq")
    return message if type(seq) in (int, float) and 0 <= seq < 2 ** 64 and seq % 1 == 0 else None


def read_requests(text):
    """The requests of a text up to a disconnect, and the status that it ends with."""
    requests = []
    for body in bodies(text):
        if body in (CUT, LONG):
            return requests, 2
        found = request_of(body) if body is not None else None
        if found:
            requests.append(found)
            if found["command"] == "disconnect":
                return requests, 0
    return requests, 0


def messages(output):
    """The messages of an output; a failure where it is anything but whole frames."""
    at = 0
    while at < len(output):
        head = re.compile(rb"Content-Length: (\d+)\r\n\r\n").match(output, at)
        if not head or len(output) < head.end() + int(head[1]):
            raise ValueError(f"no frame: {output[at:at + 80]!r}")
        at = head.end() + int(head[1])
        yield json.loads(output[head.end():at])


class Channel:
    """A server of frames that is talked with message by message."""

    def __init__(self, command):
        pipes = {"stdin": subprocess.PIPE, "stdout": subprocess.PIPE}
        self.process = subprocess.Popen(command, **pipes)

    def send(self, body):
        self.process.stdin.write(frame(body))
        self.process.stdin.flush()

    def read_frame(self):
        """The body of the next frame."""
        length = 0
        while (line := self.process.stdout.readline()) not in (b"\r\n", b""):
            name, value = line.split(b":")
            length = int(value) if name.lower() == b"content-length" else length
        return self.process.stdout.read(length)

    def end(self):
        """The status, after the end of the input."""
        self.process.stdin.close()
        return self.process.wait(20)


def sent(command, text):
    """What is sent, what is told on standard error, and the status."""
    ran = subprocess.run(command, input=text, capture_output=True, timeout=120)
    return ran.stdout, ran.stderr, ran.returncode


def texts(command, text):
    """The messages that come back, and how the talk ended."""
    output, *ended = sent(command, text)
    return [body.decode() for body in bodies(output)], ended


def states(command, opening, requests):
    """The state, as a page is told it, after each of some requests."""
    found, _ = texts(command, framed(*opening, *(each for asked in requests for each in (asked, ("mix/state", {})))))
    return [message["body"] for message in map(json.loads, found) if message.get("command") == "mix/state"]


def answers(command, requests):
    """The messages from the response to each request on, and before the next response, by the number of the request."""
    found = {}
    for message in texts(command, framed(*requests))[0]:
        at = json.loads(message).get("request_seq") or max(found, default=0)
        found.setdefault(at, []).append(message)
    return found
