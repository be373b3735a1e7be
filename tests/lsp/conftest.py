"""The language server as a program, talks with it, and the numbers that random edits follow."""
import random

import pytest

from tests.lsp.server import Client


@pytest.fixture
def serve(program):
    """Begins a server, in an encoding if one is named; its status has to be 0 at the end."""
    begun = []

    def begin(encoding=None):
        begun.append(Client([program, "lsp"], encoding))
        return begun[-1]

    yield begin
    assert [server.end() for server in begun] == [0] * len(begun)


@pytest.fixture
def dice(request):
    """Random numbers, which follow from --hypothesis-seed and the name of the test."""
    seed = f"{request.config.getoption('hypothesis_seed') or 0} {request.node.name}"
    print(f"random.Random({seed!r})")
    return random.Random(seed)
