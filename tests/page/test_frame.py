"""The page in a frame of lecture notes: the program, the buttons and one picture, and a link to the whole page."""
import re

import pytest

PARTS = ("lessons", "tabs", "notes", "talk", "registers", "memory", "units", "symbols", "output", "bars-form", "bars", "source", "steps", "slider", "status", "whole")
# Before the page's own script: who is shown a view is so in the opposite order.
TURNED = """const add = EventTarget.prototype.addEventListener, lists = new Map();
EventTarget.prototype.addEventListener = function (name, work, ...more) {
  if (name !== 'view') return add.call(this, name, work, ...more);
  if (!lists.has(this)) { lists.set(this, []); add.call(this, name, (event) => { for (const each of lists.get(this)) each(event); }); }
  lists.get(this).unshift(work); window.turned = lists.get(this).length; };"""


def cells(page):
    """Each bar with its number and its kind; its height is that of the box."""
    return [(cell, told, kind) for cell, told, _, kind in page.js("bars")]


@pytest.mark.chromium
def test_frame(page, tmp_path):
    """The frame that Share gives, in pages of others, wide and narrow, also one without rights; then the whole page by its link."""
    page.lesson("50_insertion").click("run").slide(40)
    state, log = page.state(), page.log()
    picture, registers = (page.js("said", "bars"), cells(page)), page.text("register-rows")
    given = page.link("frame-text")
    assert re.fullmatch(r'<iframe src="[^"]*\?embed=bars,registers,output#mix=[\w-]+" title="50\. [^"]*" width="800" height="500"></iframe>', given)
    page.lesson(0)
    bare = page.link("frame-text")
    page.lesson(4).click("run", "share", "frame-registers", "frame-memory")
    printed = page.value("frame-text")
    wanted = ["source", "steps", "slider", "status", "whole"]
    bound = given.replace("<iframe", '<iframe sandbox="allow-scripts allow-popups"')
    frames = {"wide": given, "narrow": given.replace("800", "360"), "without rights": bound, "without bars": bare, "printed": printed}
    parts = {"without bars": ["registers"], "printed": ["memory", "output"]}
    for name, text in frames.items():
        path = tmp_path / "notes.html"
        path.write_text(f"<!doctype html><title>Notes</title><p>Notes</p>{text}")
        page.driver.get(path.as_uri())
        page.driver.switch_to.frame(0)
        page.idle()
        assert page.value("moment") == "0", name
        if name != "without bars":
            page.click("link-all")
        shown = [part for part in PARTS if page.is_seen(part)]
        picked = parts.get(name, ["registers", "bars"])
        assert shown == [part for part in PARTS if part in (*wanted, *picked)], name
        if name == "printed":
            last = page.all("#papers .paper > div")[-1]
            assert (len(page.all("#papers .paper > div:not(.page)")), page.js("reached", last)) == (51, "")
            page.driver.switch_to.default_content()
            continue
        assert page.js("overflow") == [0, 0], name
        if name != "without bars":
            assert (page.text("register-rows"), page.value("moment"), (page.js("said", "bars"), cells(page))) == (registers, "40", picture), name
        page.click("step", "back").until(lambda: page.one("whole").get_attribute("href"))
        link = page.one("whole").get_attribute("href")
        assert (link.split("#")[0], page.one("whole").get_attribute("target")) == (page.address.split("#")[0], "_blank"), name
        page.driver.switch_to.default_content()
        if name == "wide":
            page.follow(link)
            assert (page.state(), page.log()[:-2], page.commands()[-2:]) == (state, log, ["forth 1", "back 1"])
            assert page.is_seen("lessons") and not page.is_seen("whole")
            assert (page.js("said", "bars"), cells(page)) == picture
            page.driver.get("about:blank")
            page.leave()


@pytest.mark.chromium
def test_any_order(page):
    """No part of the page has to be shown a moment before another."""
    found = []
    for script in ("", TURNED):
        page.command("Page.addScriptToEvaluateOnNewDocument", source=script)
        page.go(page.address + "#50@60").click("heat").press_button(page.one("predict"))
        page.click("step", "back", "step")
        seen = [page.text(name) for name in ("status", "listing", "cell-rows", "bars", "map")]
        found.append([*page.state(), *seen, page.js("given", "#cell-rows tr", "title")])
    assert found[1] == found[0], "what is seen"
    assert page.js("kept", "turned") > 9, "it was another"
