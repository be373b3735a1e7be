"""What the tests for pytest have in common: the program that is tested, and a talk with its adapter."""
import os
import tempfile

import pytest

from tests.model.program import Runner


def pytest_addoption(parser):
    parser.addoption("--program", required=True, help="the built program")
    parser.addoption("--examples", type=int, help="how many inputs each random test draws")
    parser.addoption("--write", action="store_true", help="make again what test_tables compares")
    parser.addoption("--full", action="store_true", help="what takes long, too")
    parser.addoption("--again", metavar="FILE", help="the program of tests/hostile/again")
    parser.addoption("--page", metavar="FILE", help="the page, or docs/mixrev.html")
    parser.addoption("--engine", metavar="FILE", help="the engine of the page, packed or not")
    parser.addoption("--firefox", action="store_true", help="test the page in Firefox")
    parser.addoption("--webkit", action="store_true", help="test the page in WebKit")


@pytest.fixture(scope="session")
def program(request):
    return request.config.getoption("--program")


@pytest.fixture(scope="module")
def place():
    """A folder for the files of runs, in memory where there is one."""
    with tempfile.TemporaryDirectory(dir="/dev/shm" if os.path.isdir("/dev/shm") else None) as name:
        yield name


@pytest.fixture(scope="module")
def runner(program, place):
    return Runner(program, place)


@pytest.fixture
def command(program):
    return [program, "dap"]


@pytest.fixture
def talk(command, request):
    """A talk through debugpy's channel, after `initialize`, of a client that may count from 0."""
    from tests.adapter.client import Client  # without python3-debugpy only these tests are left out

    client = Client(command)
    counted = {name: False for name in ("linesStartAt1", "columnsStartAt1")}
    client.begin(**(counted if request.node.get_closest_marker("from_zero") else {}))
    yield client
    client.kill()


def pytest_terminal_summary(terminalreporter):
    """What was not run is said, each reason once."""
    skipped = {report.longrepr[2] for report in terminalreporter.getreports("skipped")}
    for reason in sorted(skipped):
        terminalreporter.write_line(f"not run: {reason.removeprefix('Skipped: ')}")


def pytest_collection_modifyitems(config, items):
    """What takes long is left out, if it is not asked for."""
    if not config.getoption("--full"):
        items[:] = [item for item in items if not item.get_closest_marker("full")]
