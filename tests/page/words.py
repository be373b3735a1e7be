"""What the walks ask of the page and do there, beside what a person does; and what that costs."""

import base64
import collections
import re
import time
import zlib

from selenium.webdriver.common.keys import Keys

from tests.page.looks import TOP, Looks, Native, kept


class Words(Looks):
    native: Native  # the program to compare with
    before = ""  # what a task cost once

    def agrees(self):
        self.native.agrees(self)

    def bundle(self, text):
        """What the program writes of a bundle."""
        return self.native.bundle(text)

    @staticmethod
    def file(name):
        return (TOP / name).read_text()

    @staticmethod
    def first_part(text, cards=None):
        """The program and the devices of a bundle, with other cards."""
        text = text.partition("%SCRIPT\n")[0]
        return text if cards is None else re.sub(r"(?s)(%UNIT 16\n).*", rf"\1{cards}", text)

    @staticmethod
    def lines(text, first, last=None):
        return "\n".join(text.split("\n")[first:last])

    find = staticmethod(re.findall)

    def saved(self):
        return self.save().decode()

    def in_file(self, what):
        """What the page keeps of something in the file that it saves."""
        return kept(self.saved(), what)

    @staticmethod
    def still_to_do(saved):
        """The commands that a file has still to do, each in a line."""
        return "\n".join(kept(saved))

    def pause(self):
        """Waits for what must not come."""
        self.wait(lambda: False, 0.5)

    def column(self, at, name, *given):
        """A column of what a function of looks.js gives."""
        return [row[at] if at < len(row) else "" for row in self.js(name, *given)]

    def column_of(self, name, at):
        return self.column(at, "rows", f"#{name}-rows tr")

    def caption(self, picture):
        return self.js("said", picture)[0]

    def description(self, picture):
        return self.js("said", picture)[1]

    def differences(self):
        """The names that the comparison has in its sentence, and marks in its table."""
        text = self.text("compare-text")
        names = re.fullmatch(r"Different: (.*)\.|Nothing is different\.", text)[1] or ""
        marked = [f"{name} ≠" for name in names.split(", ") if name and not name.startswith("row")]
        assert self.texts("#compare-rows .differs th") == marked
        return names

    def magnitudes(self):
        """The numbers of the bars without their signs."""
        return [abs(int(number)) for number in self.column(1, "bars")]

    def arrow_cells(self):
        """Each register that points to a bar, and the cell of that."""
        cells = {place: cell for cell, place in self.js("barPlaces")}
        return [(name, cells[place]) for name, place in self.js("arrows")]

    def first_cell(self):
        return self.js("firstCell")[0]

    def question(self):
        return self.text("question") if self.is_seen("answers") else ""

    def machine(self):
        """The registers, what else is shown of the machine, and its output."""
        return self.state()[:3]

    def last(self, number=1):
        """The last commands."""
        return ", ".join(self.commands()[-number:])

    def last_reply(self):
        return self.log()[-1][1]

    def replies_without(self, command):
        return "".join(reply for typed, reply in self.log() if typed != command)

    def fragment(self):
        return self.script("return location.hash")

    def held(self):
        """What the address holds, once that is what is here."""
        old, text = "", self.value("text")
        for _ in range(20):
            time.sleep(1.5)
            now, bundle = self.fragment(), ""
            if (packed := now.removeprefix("#mix=")) != now:
                data = base64.urlsafe_b64decode(packed + "=" * (-len(packed) % 4))
                bundle = zlib.decompress(data, -15).decode()
            if now == old and (bundle.startswith(text) or not bundle):
                break
            old = now
        return old

    def cursor_line(self):
        return self.js("cursor")[0]

    def policy(self):
        return self.first("meta[http-equiv]").get_attribute("content")

    def invalid_marks(self, number):
        return [mark.text for mark in self.all("#listing .cm-invalidchar")][:number]

    def lines_shown(self):
        rows = self.all("#listing .line button")
        return [int(row.text) for row in rows if row.is_displayed()]

    def times_told(self, text):
        return self.told().lower().count(text.lower())

    def requests_sent(self):
        return sum(number for _, number in self.js("kept", "sent"))

    def shown_check(self):
        """What Check says: the cases that are right, and of the first that is not."""
        parts = ("told", "what", "wanted", "found", "end")
        told, what, *rows, end = [self.text(f"check-{part}") for part in parts]
        if not self.is_seen("check-first"):
            return [told]
        return [told, what, *(rows if self.is_seen("check-rows") else []), end]

    def check(self):
        self.click("check-run")
        return self.shown_check()

    def lacks(self, name, text):
        """The lines of a text that a field has not."""
        found = self.value(name) if name == "text" else self.text(name)
        return [line for line in text.splitlines() if line not in found]

    def line_of(self, label):
        """The line of the source with a label."""
        lines = self.value("text").splitlines()
        return next(at for at, line in enumerate(lines, 1) if line.startswith(label))

    def names_at_points(self):
        """What begins the lines with breakpoints."""
        lines = self.value("text").splitlines()
        return [lines[line - 1].split()[0] for line in self.points()]

    def letters_gained(self):
        """By how many letters the source is wider without columns."""
        before = self.js("room")
        self.click("columns")
        gained = self.js("room") - before
        self.click("columns")
        return gained

    def stops(self):
        """What the tab key goes to from here on; Escape lets it leave the source."""
        seen = []
        while (name := self.active()) not in seen:
            seen.append(name)
            self.press(Keys.ESCAPE, Keys.TAB)
        return "\n".join(seen)

    # What is done

    def seconds(self, step, *given):
        """How long a step takes where nothing else is done."""
        from tests.page.browsers import slowed  # which needs this module

        begun = time.monotonic()
        getattr(self, step)(*given)
        return (time.monotonic() - begun) / slowed()

    def go_to(self, part):
        return self.go(self.address.split("#")[0] + part)

    def begin(self, name):
        """Clicks, and does not wait for what that does."""
        self.brought(name).click()

    def clear(self, name):
        self.one(name).clear()

    def enter(self, name, *keys):
        self.one(name).send_keys(*keys)
        return self.idle()

    def edit(self, name, old, new):
        """Puts a text in place of another one in a field."""
        return self.put(name, self.value(name).replace(old, new))

    def undo_to(self, key, text):
        """Undoes or does again until there is a text: what is typed slowly is several edits."""
        for _ in range(9):
            if self.value("text") != text:
                self.chord(Keys.CONTROL, key)
        return self.idle()

    def tab_to(self, name):
        for _ in range(60):
            if self.active() != name:
                self.press(Keys.ESCAPE, Keys.TAB)

    def step_to(self, operation):
        while operation not in self.text("next"):
            self.click("step")

    def ask(self):
        """Turns the questions on."""
        return self if self.is_checked("predict") else self.click("predict")

    def answer(self, guess):
        """Chooses an answer, or types it."""
        for button in self.all("#choices button"):
            if button.text == str(guess):
                button.click()
                return self.idle()
        return self.type("guess", guess)

    # What is counted

    def begins(self, before):
        """Begins a task in a small window."""
        self.before, self.costs = before, collections.Counter()
        self.size(1280, 720)

    def cost(self, number, what):
        self.costs[what] += number

    def hit(self, selector, at=0):
        """A click, with a scroll before it where that is needed."""
        found = self.all(selector)[at]
        if not self.in_view(found) and not self.js("isAtHand", found):
            self.cost(1, "scroll")
            self.middle(found)
        self.cost(1, "click")
        found.click()
        self.idle()

    def menu(self, lesson):
        self.cost(2, "click")
        self.lesson(lesson)

    def look(self, selector, at=0, inside=None):
        """Sees something, for which it has to be in view."""
        found = self.all(selector)[at]
        if not self.in_view(found, inside):
            self.cost(1, "scroll")
            self.middle(found)

    def took(self):
        counted = [(self.costs[what], what) for what in ("click", "key", "scroll")]
        return ", ".join(f"{n} {what}{'' if n == 1 else 's'}" for n, what in counted if n)
