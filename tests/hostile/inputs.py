"""Bundles, and the parts of which they are put together."""

import collections
import pathlib
import re

from tests import rowfiles
from tests.rows.faces import bytes_of

HERE = pathlib.Path(__file__).resolve().parent

Bundle = collections.namedtuple("Bundle", "source deck script replies")


def read_bundles():
    """The bundles of bundles.txt, each with its kind and name. After the lines of a script that begin with `$` stand their replies."""
    for head, text in rowfiles.parts(HERE / "bundles.txt"):
        text, _, script = text.encode().partition(b"%SCRIPT\n")
        source, marker, deck = text.partition(b"%DEVICES\n")
        told = re.findall(rb"(?m)^\$ (.*\n)", script)
        yield *head.split(": ", 1), Bundle(source, deck if marker else None, b"".join(told) or script, told and re.sub(rb"(?m)^\$ .*\n", b"", script))


BUNDLES: dict = collections.defaultdict(dict)
for _kind, _name, _bundle in read_bundles():
    BUNDLES[_kind][_name] = _bundle


def bundle(source, script, deck=None):
    """A bundle of texts; a part that does not end its last line gets a line feed."""
    parts = [whole(source)]
    if deck is not None:
        parts += [b"%DEVICES\n", whole(deck)]
    return b"".join(parts + [b"%SCRIPT\n", script])


def whole(text):
    return text if not text or text.endswith(b"\n") else text + b"\n"


def lines(*texts):
    return b"".join(text.encode() + b"\n" for text in texts)


def repeated(text, length=0):
    """A text in which {TEXT*100} is so many times the text, where # is the number of the copy, and N
    is a length."""
    text = re.sub(rb"\bN\b", b"%d" % length, text)

    def copies(found):
        return b"".join(found[1].replace(b"#", b"%d" % k) for k in range(int(found[2])))

    return re.sub(rb"\{([^{}]+)\*(\d+)\}", copies, text)


def rows_of(kind):
    """The rows of a kind in streams.rows, where `-` is nothing."""
    for _, name, fields, last in rowfiles.rows_of(HERE / "streams.rows"):
        if name == kind:
            yield [None if field == "-" else bytes_of(field) for field in (*fields, last)]
