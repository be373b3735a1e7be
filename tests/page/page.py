"""The page as a person uses it: by clicks and by keys. What a browser does in its own way is in browsers.py."""
import base64
import pathlib
import tempfile
import zlib

from selenium import webdriver
from selenium.common.exceptions import NoAlertPresentException
from selenium.webdriver.common.keys import Keys
from selenium.webdriver.support.ui import Select

from tests.page.looks import EXAMPLES, SECONDS, STAGE
from tests.page.words import Words


class Page(Words):
    started = None  # the browser, where all pages have one

    def __init__(self, address, width=1280, height=900):
        self.address = address
        self.folder = tempfile.TemporaryDirectory()
        self.driver = self.begun()
        self.driver.set_script_timeout(SECONDS)
        self.size(width, height)
        self.go(address)

    def __enter__(self):
        return self

    def __exit__(self, *fault):
        self.driver.quit()
        self.folder.cleanup()

    @classmethod
    def end(cls):
        if cls.started:
            cls.started.quit()

    def go(self, address):
        """Opens an address, without the tour for who opens the page first."""
        self.driver.get("about:blank")
        self.leave()
        self.driver.get(address if "#" in address else f"{address}#no-tour")
        return self.idle()

    def again(self):
        """Presses F5."""
        self.driver.refresh()
        self.leave()
        self.wait(lambda: self.all("main"))
        return self.idle()

    def follow(self, link):
        """Opens a link, and does the commands that it brings."""
        self.go(link)
        if self.one("link-all").is_displayed():
            self.one("link-all").click()
        return self.idle()

    def leave(self):
        """Says yes where the browser or the page asks whether the program may be left."""
        try:
            self.driver.switch_to.alert.accept()
        except NoAlertPresentException:
            pass
        if self.js("isAsked"):
            self.one("leave-yes").click()

    def caret(self, line, letter=0):
        """Puts the cursor of the source somewhere; lines are counted from 1."""
        return self.do("caret", line, letter)

    def brought(self, name):
        """What has this id, in view: out of the menu or a tab first, as a person brings it."""
        self.js("bring", name)
        return self.one(name)

    def click(self, *names):
        for name in names:
            self.brought(name).click()
            self.idle()
        return self

    def new(self):
        """Begins a program of one's own."""
        self.click("new")
        self.leave()
        return self.idle()

    def own(self, text):
        return self.new().put("text", text)

    def program(self, text):
        """Puts a program in place of the first lesson's."""
        return self.lesson(0).put("text", text)

    def copied(self, button):
        """What a button copies; nothing where it copies nothing."""
        self.js("keepCopied")
        self.click(button)
        return self.js("kept", "copied")

    def tap(self, found, at=0):
        """Clicks on an element, which is brought to the middle of the window."""
        found = self.middle(found, at)
        found.click()
        return self.idle()

    def middle(self, found, at=0):
        """Brings an element, or one of those of a selector, to the middle of the window."""
        found = self.all(found)[at] if isinstance(found, str) else found
        self.script("arguments[0].scrollIntoView({ block: 'center' })", found)
        return found

    def tab(self, name):
        """Shows a part where the window is too narrow for all, or one of those on the stage."""
        tab = self.first(f"#tabs [data-tab={'stage' if name in STAGE else name}]")
        if tab.is_displayed():
            tab.click()
        if name in STAGE:
            tab = self.first(f"#stage-tabs [data-box={STAGE[name]}]:not(#bars-strip)")
            self.script("arguments[0].scrollIntoView({ block: 'nearest' })", tab)
            tab.click()
        return self

    def press_button(self, button, at=0):
        """Presses a button, or one of those of a selector, wherever it is."""
        button = self.all(button)[at] if isinstance(button, str) else button
        self.script("arguments[0].click()", button)
        return self.idle()

    def breakpoint(self, line):
        return self.press_button("#listing .line button", line - 1)

    def type(self, name, text):
        """Types a text into a field in place of what is there, and Enter."""
        field = self.brought(name)
        field.send_keys(Keys.CONTROL, "a")
        field.send_keys(text, Keys.ENTER)
        return self.idle()

    def press(self, *keys):
        webdriver.ActionChains(self.driver).send_keys("".join(keys)).perform()
        return self.idle()

    def click_keys(self, *keys):
        """Presses one key after the other, each when the page is idle."""
        for key in keys:
            self.press(key)
        return self

    def chord(self, *keys):
        """Presses the last key while the others are down."""
        chain = webdriver.ActionChains(self.driver)
        for key in keys[:-1]:
            chain.key_down(key)
        chain.send_keys(keys[-1])
        for key in keys[:-1]:
            chain.key_up(key)
        chain.perform()
        return self.idle()

    def put(self, name, text):
        """Puts a text into a field, as if it were pasted; what is the same in the source stays."""
        return self.do(*(("paste", text) if name == "text" else ("put", name, text))).idle()

    def between(self, name, first, last):
        """Chooses a range of cells, of the list or of the bars."""
        return self.put(f"{name}-from", first).put(f"{name}-to", last)

    def cells(self, first, last):
        return self.choose("cells-which", "range").between("cells", first, last)

    def lesson(self, which):
        """Chooses a lesson by the name of its folder, an example by its place, or one by its number in the menu."""
        if isinstance(which, str) or which < len(EXAMPLES):
            name = which if isinstance(which, str) else EXAMPLES[which].stem
            which = self.js("lessonNumber", name)
        Select(self.one("lessons")).select_by_value(str(which))
        self.leave()
        return self.idle()

    def choose(self, name, value):
        Select(self.one(name)).select_by_value(value)
        return self.idle()

    def say(self, command):
        """Types a command, and once more where the page asks for that. The stage shows then what it showed before."""
        before = self.js("openBox")
        self.tab("talk")
        self.one("command").clear()
        self.one("command").send_keys(command, Keys.ENTER)
        self.idle()
        if self.text("command-note").startswith("This drops"):
            self.one("command").send_keys(Keys.ENTER)
            self.idle()
        if before:
            self.js("open", before)
        return self

    def slide(self, moment, ends=True):
        return self.do("slide", moment, ends).idle()

    def calls_as_often_with(self, shown):
        """The engine is called as often while what is shown is open as while it is not. It stays open."""
        self.click("step")
        self.js("keepCalls")
        calls = []
        for is_open in (False, True):
            self.do("open", f"{shown}-box", is_open).press().do("set", "calls", 0)
            self.click("step", "step", "back").slide(1, ends=False).slide(1)
            calls.append(self.js("kept", "calls"))
        assert calls[0] == calls[1]

    def open_file(self, data):
        """Opens a file of these bytes, or of a text."""
        path = pathlib.Path(self.folder.name) / "opened"
        path.write_bytes(data.encode() if isinstance(data, str) else data)
        self.js("keepReading")
        self.one("file").send_keys(str(path))
        self.leave()
        self.wait(lambda: self.js("kept", "isRead"), SECONDS)
        return self.idle()

    def link(self, name="link-text"):
        """What Share gives."""
        self.click("share")
        link = self.value(name)
        self.js("closeDialogs")
        return link

    def link_of(self, bundle):
        press = zlib.compressobj(9, zlib.DEFLATED, -15)
        bundle = bundle.encode() if isinstance(bundle, str) else bundle
        packed = press.compress(bundle) + press.flush()
        return f"{self.address}#mix={base64.urlsafe_b64encode(packed).decode().rstrip('=')}"
