"""The page in a browser: headless Chromium, or Firefox or WebKit if tests/pytest is given that
option."""

import pathlib

import pytest

from tests import TOP

pytest.register_assert_rewrite("tests.page.looks", "tests.page.words", "tests.walks")


@pytest.fixture
def native(program):
    from tests.page.looks import Native

    return Native(program)


@pytest.fixture(scope="session")
def browser(request):
    from tests.page import browsers  # the engine is tested where there is no python3-selenium

    option = request.config.getoption
    other = browsers.WebKit if option("--webkit") else browsers.Chromium
    kind = browsers.Firefox if option("--firefox") else other
    yield kind
    kind.end()


@pytest.fixture
def page(request, browser, native):
    """The page, in a window of its own. The browser must complain of nothing, and the page ask for
    nothing but itself."""
    is_chromium = browser.__name__ == "Chromium"
    if not is_chromium and request.node.get_closest_marker("chromium"):
        pytest.skip("what asks Chromium itself")
    path = request.config.getoption("--page") or TOP / "docs/mixrev.html"
    with browser(pathlib.Path(path).resolve().as_uri()) as page:
        page.native = native
        yield page
        assert page.errors() == []
        assert page.requests() == []


@pytest.fixture
def figure(record_property):
    """Says what was measured: a name, and what it took."""
    return lambda name, took: record_property("figure", f"{name}: {took}")


def pytest_terminal_summary(terminalreporter):
    """What was measured is said."""
    for report in terminalreporter.getreports("passed"):
        for name, value in report.user_properties:
            if report.when == "call" and name == "figure":
                terminalreporter.write_line(value)
