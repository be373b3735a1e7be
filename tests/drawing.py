"""What the tests that hypothesis draws have in common."""
from hypothesis import HealthCheck, settings
from hypothesis.database import DirectoryBasedExampleDatabase

from tests import TOP

KEPT = DirectoryBasedExampleDatabase(str(TOP / "out" / "hypothesis"))


def drawn_anew(request, examples):
    """Settings: so many examples, or as many as --examples says; those that failed are kept in out/hypothesis, and tried first."""
    number = request.config.getoption("--examples") or examples
    return settings(max_examples=number, database=KEPT, deadline=None, print_blob=True, suppress_health_check=list(HealthCheck))


def altered(r, data, pieces):
    """Bytes with a bit flipped, or some of them taken out or replaced by a byte or by a piece."""
    at, size = r.randrange(len(data) + 1), r.choice((0, 1, 1, 2, 3, 8, 30, len(data)))
    if r.randrange(4) == 0:
        size, new = 1, bytes(byte ^ 1 << r.randrange(8) for byte in data[at : at + 1])
    else:
        new = r.choice((b"", bytes([r.randrange(256)]), r.choice(pieces)))
    return data[:at] + new + data[at + size :]
