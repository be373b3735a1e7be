"""The bundles that runs of this folder are given in here-documents, for the tests that need many."""
import pathlib
import re

GIVEN = re.compile(r"^  \$ mixrev <<'?EOF'?.*\n((?:  > .*\n)*?)  > EOF\n((?:  .*\n)*)", re.M)


def bundles():
    """Each bundle, with its file and line, and with what it writes, set in by two blanks."""
    for file in sorted(pathlib.Path(__file__).resolve().parent.glob("*.t")):
        text = file.read_text()
        for found in GIVEN.finditer(text):
            bundle = "".join(line[4:] for line in found[1].splitlines(keepends=True))
            yield f"{file.name}:{text.count(chr(10), 0, found.start()) + 1}", bundle, found[2]
