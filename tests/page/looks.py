"""What is seen of the page, the native program to compare it with, and the texts that the tests have in common."""
import json
import pathlib
import re
import subprocess
import time

from selenium.webdriver.common.by import By

HERE = pathlib.Path(__file__).resolve().parent
TOP = HERE.parents[1]
KEPT = "* Kept by the page, and no commands:\n"
SECONDS = 120  # in which whatever is asked for has to be done
EXAMPLES = sorted((TOP / "examples").glob("*.mixal"))
FIRST = EXAMPLES[0].read_text()
PLAIN = FIRST.split("%SCRIPT")[0]
LOOKS = "".join((HERE / name).read_text() for name in ("looks.js", "deeds.js"))
STAGE = {"output": "output-box", "cards": "given", **{name: f"{name}-box" for name in (
    "units", "talk", "bars", "nodes", "symbols", "analysis", "passages")}}  # its tabs, each with its box


def sections(name):
    """The parts of a file of texts, by their names."""
    return dict(re.findall(r"^\[(\w+)\]\n(.*?\n)(?:\n|\Z)", (HERE / name).read_text(), re.M | re.S))


PROGRAMS = sections("programs.txt")


def answer_of(lesson):
    """The source that is the answer of a lesson's exercise."""
    return (TOP / f"course/{lesson}/answer.mixal").read_text().partition("%")[0]


class Looks:
    """What a person sees on the page; `js` asks the functions of looks.js and deeds.js."""

    def script(self, text, *given):
        return self.driver.execute_script(text, *given)

    def js(self, name, *given):
        """Calls a function of looks.js or deeds.js, which a new document gets first."""
        call = f"return window.looks ? [window.looks.{name}(...arguments)] : []"
        if not (found := self.script(call, *given)):
            self.script(f"{LOOKS}window.looks = looks;")
            found = self.script(call, *given)
        return found[0]

    def do(self, name, *given):
        self.js(name, *given)
        return self

    def idle(self):
        if not self.wait(lambda: self.js("isIdle"), SECONDS):
            raise TimeoutError("the page is still busy")
        return self

    def wait(self, test, seconds=30):
        """Waits until something holds, for some seconds at most; whether it does."""
        end = time.monotonic() + seconds
        while not (holds := test()) and time.monotonic() < end:
            time.sleep(0.02)
        return holds

    def until(self, test, seconds=30):
        self.wait(test, seconds)
        return self

    def frames(self):
        """Waits until two frames are drawn."""
        self.script("return new Promise((done) => requestAnimationFrame(() => requestAnimationFrame(done)))")
        return self

    def one(self, name):
        return self.driver.find_element(By.ID, name)

    def first(self, selector):
        return self.driver.find_element(By.CSS_SELECTOR, selector)

    def all(self, selector):
        return self.driver.find_elements(By.CSS_SELECTOR, selector)

    def count(self, selector):
        return len(self.all(selector))

    def attribute(self, name, what):
        return self.one(name).get_attribute(what)

    def width(self, name):
        return self.one(name).size["width"]

    def enabled(self, name):
        found = self.one(name)
        return found.is_enabled() and found.get_attribute("aria-disabled") is None

    def is_checked(self, name):
        return self.one(name).is_selected()

    def text_at(self, selector, at):
        return self.all(selector)[at].text

    def joined(self, selector):
        return "\n".join(self.texts(selector))

    def kinds(self, selector, attribute):
        return sorted(set(self.js("given", selector, attribute)))

    def in_view(self, element, inside=None):
        """Whether all of it is seen, below the bar; in a box."""
        return self.js("inView", element, inside)

    def active(self):
        """What has the focus, by its id or else by its name."""
        return self.js("active")

    def is_seen(self, name):
        return self.one(name).is_displayed()

    def text(self, name):
        return self.one(name).get_attribute("textContent")

    def texts(self, selector):
        return self.js("texts", selector)

    def value(self, name):
        return self.js("text") if name == "text" else self.one(name).get_attribute("value")

    def points(self):
        """The lines with a breakpoint."""
        return [int(row.text) for row in self.all("#listing .line button[aria-pressed='true']")]

    def marked(self, kind=".at"):
        """The lines that are marked so."""
        return [int(number) for number in self.texts(f"{kind} .line button")]

    def sideways(self):
        """How much of the page stands out to the side."""
        return self.js("overflow")[0]

    def chosen(self):
        """The name of the lesson that the menu shows."""
        return self.js("lesson")[0]

    def title(self):
        """Its title there."""
        return self.js("lesson")[1]

    def told(self):
        """What the status says was done."""
        return self.text("did")

    def log(self):
        """Each command with its reply."""
        return [(command, f"{reply}\n" if reply else "") for command, reply in self.js("log")]

    def commands(self):
        return [command for command, _ in self.log()]

    def replies(self):
        return "".join(reply for _, reply in self.log())

    def state(self):
        """All that is shown of the machine."""
        return self.js("state")


def kept(saved, what="still to do"):
    """What the page keeps in a saved file beside the commands."""
    return re.findall(rf"^\* {what}: (.*)$", saved.split(KEPT)[-1], re.M)


def with_script(bundle, script):
    """A bundle with another script."""
    return bundle.split("%SCRIPT\n")[0] + "%SCRIPT\n" + script


class Native:
    def __init__(self, program):
        self.program = program

    def bundle(self, text):
        """What a bundle writes."""
        data = text if isinstance(text, bytes) else text.encode()
        ran = subprocess.run([self.program], input=data, capture_output=True)
        return ran.stdout.decode(errors="replace")

    def found(self, text):
        """What `check` says of a source: of each line that has a fault or a warning, whether it has a fault, and the texts."""
        words = [self.program, "check", "--json", "-"]
        ran = subprocess.run(words, input=text, capture_output=True, text=True)
        lines = {}
        for each in map(json.loads, ran.stdout.splitlines()):
            is_fault = each["severity"] == "error"
            said = f"{each['code']} {each['text']}" if is_fault else each["text"]
            before, texts = lines.get(each["line"], (False, []))
            lines[each["line"]] = (before or is_fault, [*texts, said])
        return lines

    def agrees(self, page):
        """What is saved gives natively the replies that the page has shown; what is still to be done of a lesson's script is kept in it as remarks."""
        saved = page.save().decode()
        assert kept(saved) == page.value("script-lines").splitlines()
        assert self.bundle(saved) == page.replies()
