"""The browsers: headless Chromium; WebKit, the engine of Safari, by Debian's WebKitWebDriver; and Firefox, by its own protocol Marionette, since Debian
has no geckodriver. The windows of the last two are never narrower than some 450 and 500 pixels."""
import glob
import json
import os
import pathlib
import socket
import subprocess
import tempfile
import time

from selenium import webdriver
from selenium.webdriver.chrome.options import Options
from selenium.webdriver.chrome.service import Service
from selenium.webdriver.firefox.options import Options as FirefoxOptions
from selenium.webdriver.remote.file_detector import UselessFileDetector
from selenium.webdriver.webkitgtk.options import Options as WebKitOptions

from tests.page.looks import SECONDS
from tests.page.page import Page

# What selenium asks, where Marionette has another name for it than the same with a capital.
NAMES = {
    "get": "Navigate", "quit": "DeleteSession", "w3cExecuteScript": "ExecuteScript", "screenshot": "TakeScreenshot", "actions": "PerformActions",
    "clickElement": "ElementClick", "clearElement": "ElementClear", "sendKeysToElement": "ElementSendKeys", "w3cAcceptAlert": "AcceptAlert",
    "w3cGetAlertText": "GetAlertText",
    "findChildElement": "FindElement", "findChildElements": "FindElements", "w3cGetActiveElement": "GetActiveElement",
}


def slowed():
    """How many times as long all may take beside other work, with which caches are shared."""
    return 3 if os.getloadavg()[0] >= os.cpu_count() / 2 else 1


class Chromium(Page):
    """One for all tests, each of which has a tab of its own."""

    @staticmethod
    def start():
        options = Options()
        options.binary_location = "/usr/bin/chromium"
        for word in ("headless=new", "no-sandbox", "disable-gpu", "disable-dev-shm-usage"):
            options.add_argument(f"--{word}")
        options.set_capability("goog:loggingPrefs", {"browser": "ALL", "performance": "ALL"})
        options.set_capability("unhandledPromptBehavior", "ignore")
        return webdriver.Chrome(service=Service("/usr/bin/chromedriver"), options=options)

    def begun(self):
        driver = Chromium.started = Chromium.started or self.start()
        driver.switch_to.window(driver.window_handles[0])
        driver.switch_to.new_window("tab")
        for kind in ("browser", "performance"):
            driver.get_log(kind)
        saved = {"behavior": "allow", "downloadPath": self.folder.name}
        driver.execute_cdp_cmd("Browser.setDownloadBehavior", saved)
        return driver

    def __exit__(self, *fault):
        self.driver.get("about:blank")
        self.leave()
        self.driver.close()
        self.folder.cleanup()

    def command(self, name, **given):
        return self.driver.execute_cdp_cmd(name, given)

    def size(self, width, height):
        given = {"width": width, "height": height, "deviceScaleFactor": 1, "mobile": False}
        self.command("Emulation.setDeviceMetricsOverride", **given)
        return self

    def shade(self, shade):
        features = [{"name": "prefers-color-scheme", "value": shade}]
        self.command("Emulation.setEmulatedMedia", features=features)
        return self

    def errors(self):
        """What the browser complains of."""
        return [each["message"] for each in self.driver.get_log("browser") if each["level"] == "SEVERE"]

    def requests(self):
        """Where the page went, but for itself and for the files of a test."""
        own = self.address.split("#")[0], pathlib.Path(tempfile.gettempdir()).as_uri()
        entries = (json.loads(each["message"])["message"] for each in self.driver.get_log("performance"))
        asked = [each["params"]["request"]["url"] for each in entries if each["method"] == "Network.requestWillBeSent"]
        assert asked, "no request was seen"
        return [url for url in asked if not url.startswith((*own, "blob:", "data:", "about:"))]

    def count_work(self):
        self.command("Performance.setTimeDomain", timeDomain="threadTicks")
        self.command("Performance.enable")

    def work(self):
        """Milliseconds that the page has worked, by the time of its thread."""
        metrics = self.command("Performance.getMetrics")["metrics"]
        parts = ("ScriptDuration", "LayoutDuration", "RecalcStyleDuration")
        return sum(1000 * each["value"] for each in metrics if each["name"] in parts)

    def save(self):
        """The file that is saved."""
        folder = pathlib.Path(self.folder.name)
        for path in folder.glob("*.mixal"):
            path.unlink()
        self.click("save")
        self.wait(lambda: list(folder.glob("*.mixal")), SECONDS)
        time.sleep(0.1)
        return next(folder.glob("*.mixal")).read_bytes()


class WebKit(Page):
    def begun(self):
        options = WebKitOptions()
        options.binary_location = glob.glob("/usr/lib/*/webkit2gtk-4*/MiniBrowser")[0]
        options.add_argument("--automation")
        return webdriver.WebKitGTK(options=options, executable_path="/usr/bin/WebKitWebDriver")

    def size(self, width, height):
        self.driver.set_window_size(width, height)
        return self

    def go(self, address):
        return super().go(address).do("keepAll")

    def again(self):
        return super().again().do("keepAll")

    def one(self, name):
        return self.seen(super().one(name))

    def all(self, selector):
        found = super().all(selector)
        return [*map(self.seen, found[:1]), *found[1:]]

    def seen(self, found):
        """The driver clicks on nothing outside the window."""
        self.middle(found)
        return found

    def save(self):
        self.js("set", "saved", None)
        self.click("save")
        self.wait(lambda: self.js("kept", "saved") is not None, SECONDS)
        return bytes(self.js("kept", "saved"))

    def errors(self):
        return self.js("taken", "complaints")

    def requests(self):
        """Nothing is known of them."""
        return []


class Marionette:
    """A Firefox that is started, for one page after the other, and to which selenium's commands are handed on."""

    def __init__(self):
        self.profile = tempfile.TemporaryDirectory()
        with socket.socket() as free:
            free.bind(("127.0.0.1", 0))
            port = free.getsockname()[1]
        # What is saved goes there too, and no panel opens for it, which would take the keys away.
        given = {"marionette.port": port, "browser.download.alwaysOpenPanel": False, "browser.download.folderList": 2, "browser.download.dir": self.profile.name}
        pathlib.Path(self.profile.name, "user.js").write_text("".join(f'user_pref("{name}", {json.dumps(value)});\n' for name, value in given.items()))
        words = ["firefox-esr", "--headless", "--marionette", "--no-remote", "--profile", self.profile.name]
        self.firefox = subprocess.Popen(words, stdout=subprocess.DEVNULL, stderr=subprocess.DEVNULL)
        self.number, self.wire = 0, self.reached(port)
        self.received()

    def quit(self):
        self.firefox.terminate()
        self.firefox.wait()

    @staticmethod
    def reached(port):
        end = time.monotonic() + SECONDS
        while True:
            try:
                return socket.create_connection(("127.0.0.1", port)).makefile("rwb")
            except ConnectionRefusedError:
                if time.monotonic() > end:
                    raise
                time.sleep(0.1)

    def received(self):
        """The next message: its length in digits, a colon, and JSON."""
        digits = b""
        while not digits.endswith(b":"):
            more = self.wire.read(1)
            if not more:
                raise ConnectionError("Firefox has ended")
            digits += more
        return json.loads(self.wire.read(int(digits[:-1])))

    def execute(self, command, given):
        given = {key: value for key, value in given.items() if key != "sessionId"}
        if command == "newSession":
            given = {"unhandledPromptBehavior": "ignore"}
        if command.startswith("findChild"):
            given["element"] = given.pop("id")
        self.number += 1
        message = json.dumps([0, self.number, f"WebDriver:{NAMES.get(command, command[0].upper() + command[1:])}", given])
        self.wire.write(f"{len(message)}:{message}".encode())
        self.wire.flush()
        _, _, fault, found = self.received()
        if fault:
            return {"status": 500, "value": json.dumps({"value": fault})}
        return {"value": found["value"] if isinstance(found, dict) and "value" in found else found}

    def close(self):
        """For selenium, which closes what it is connected by."""


class Firefox(WebKit):
    def begun(self):
        Firefox.started = Firefox.started or Marionette()
        driver = webdriver.Remote(command_executor=Firefox.started, options=FirefoxOptions())
        driver.file_detector = UselessFileDetector()  # a file that is opened is on this computer
        return driver

    def size(self, width, height):
        """What is asked for is the size of the page, without what the window has around it."""
        super().size(width, height)
        wide, high = self.script("return [outerWidth - innerWidth, outerHeight - innerHeight]")
        super().size(width + wide, height + high)
        return self
