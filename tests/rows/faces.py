"""The program behind its command line, for rows: each face takes texts and gives what a person would read."""
import json
import re

from tests.model.program import Runner


class Program(Runner):
    """The built program, and what a person would read of it."""

    def listing(self, source):
        """What `list` writes of a source."""
        return self.run(words=["list", self.file("s", source)])[0].decode("latin-1")

    def replies(self, source, script, deck=b"", *words):
        """The lines that a script writes, or one with the refusal of its source or of its deck."""
        given = ["debug", self.file("s", source), "-", "--devices", self.file("d", deck), *words]
        text = script if isinstance(script, bytes) else "".join(f"{it}\n" for it in script).encode()
        output, errors, _ = self.run(text, given)
        return (output or errors).decode("latin-1").split("\n")[:-1]

    def found(self, source, *more):
        """All that a check finds in a source, or in several, which are named 0, 1 and so on."""
        files = [self.file(str(n), text) for n, text in enumerate((source, *more))]
        output, _, _ = self.run(words=["check", "--json", *files])
        return [json.loads(line) for line in output.splitlines()]

    def value(self, expression, source=b" END 0\n"):
        """The word, the number and the characters of `show value`, or nothing."""
        line, = self.replies(source, [f"show value {expression}"]) or [""]
        shown = re.fullmatch(r'([+-](?: \d\d){5}) +(-?\d+)  "(.{5})"', line)
        return (shown[1], int(shown[2]), shown[3]) if shown else None

    def codes(self, *words, script=()):
        """The instructions that cells from 0 on show, whose words these numbers are."""
        source = "".join(f" CON {word}\n" for word in words) + " END 0\n"
        lines = self.replies(source.encode(), [f"show code 0 {len(words) - 1}", *script])
        return [re.match(r"\d{4}  [+-](?: \d\d){5}  (.*?) {2,}", line + "  ")[1] for line in lines[:len(words)]], lines[len(words):]


def number(word):
    """The number of a word as rows have it, with its sign: `- 1 16 3 5 4`, `+5` or `-1,2`; the program's `-0` is another word than 0."""
    value = 0
    for part in re.split(r"[ ,]+", word[1:].strip(" ,")):
        value = value * 64 + int(part)
    if value >= 1 << 30:
        raise ValueError(word)
    return ("-" if word[0] == "-" else "") + str(value)


def written(number):
    """A word as the program writes it, from its number."""
    value = abs(int(number))
    return ("-" if number[0] == "-" else "+") + "".join(f" {value >> 6 * at & 63:02d}" for at in (4, 3, 2, 1, 0))


def bytes_of(field):
    """The bytes of a field, where `\\n` and its like are the bytes that they name."""
    named = {b"t": b"\t", b"n": b"\n", b"r": b"\r"}
    return re.sub(rb"\\(?:x([0-9a-f]{2})|([tnr]))", lambda found: bytes.fromhex(found[1].decode()) if found[1] else named[found[2]], field.encode())


def shown(text):
    """Bytes in brackets, as rows have them."""
    names = {9: "\\t", 10: "\\n", 13: "\\r"}
    return "[" + "".join(names.get(byte) or (chr(byte) if 32 <= byte < 127 and byte not in b"\\|" else f"\\x{byte:02x}") for byte in text) + "]"
