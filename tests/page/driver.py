"""A client of a browser's driver, over the WebDriver protocol (W3C): headless Chromium and chromedriver, as Debian has them."""
import base64
import http.client
import json
import os
import shutil
import socket
import subprocess
import time

# how many seconds a thing of the page is waited for; a loaded machine may take more
PATIENCE = float(os.environ.get("PAGE_PATIENCE", 20))
# and how long the driver's own answer, which may have to wait until a page is there
ANSWERS = 6 * PATIENCE
# by which an element is named in JSON
ELEMENT = "element-6066-11e4-a52e-4f735466cecf"
# how many milliseconds a page has between two keys
MOMENT = 30
KEYS = {"tab": "\ue004", "enter": "\ue007", "space": "\ue00d", "escape": "\ue00c"}
ARGUMENTS = ["--headless=new", "--no-sandbox", "--disable-gpu", "--disable-dev-shm-usage", "--hide-scrollbars", "--no-first-run"]
# this machine by a name that no browser knows as its own
ELSEWHERE = "hub.test"
ARGUMENTS += [f"--host-resolver-rules=MAP {ELSEWHERE} 127.0.0.1", "--disable-features=HttpsUpgrades", "--accept-lang=en-GB"]


class DriverFault(Exception):
    """What the driver answered instead."""


class NotHere(DriverFault):
    """What this browser cannot be asked for, so that a trial cannot be run in it."""


def free_port():
    with socket.socket() as one:
        one.bind(("127.0.0.1", 0))
        return one.getsockname()[1]


def standing(milliseconds):
    """A script by which the clock of a page stands at this moment."""
    return f"""{{
        const now = {milliseconds}, Real = Date;
        globalThis.Date = class extends Real {{
            constructor(...words) {{ super(...(words.length ? words : [now])); }}
            static now() {{ return now; }}
        }};
    }}"""


class Browser:
    """A browser of its own, with no profile of anybody."""

    # whether it says what a screen reader hears
    hears = True

    def __init__(self):
        for program in ("chromium", "chromedriver"):
            if not shutil.which(program):
                raise DriverFault(f"{program} is not there: apt-get install chromium chromium-driver")
        self.port = free_port()
        self.driver = subprocess.Popen(["chromedriver", f"--port={self.port}"], stdout=subprocess.DEVNULL, stderr=subprocess.DEVNULL)
        self.session, self.clock = "", None
        options = {"args": ARGUMENTS, "binary": shutil.which("chromium")}
        wanted = {"browserName": "chrome", "goog:chromeOptions": options, "goog:loggingPrefs": {"browser": "ALL"}}
        self.session = "/session/" + self.begun({"capabilities": {"alwaysMatch": wanted}})["sessionId"]

    def begun(self, wanted):
        for _ in range(100):
            try:
                return self.ask("POST", "/session", wanted)
            except ConnectionError:
                time.sleep(0.1)
        raise DriverFault("chromedriver does not answer")

    def __enter__(self):
        return self

    def __exit__(self, *_):
        try:
            self.ask("DELETE", "")
        finally:
            self.driver.terminate()
            self.driver.wait()

    def ask(self, method, path, body=None):
        connection = http.client.HTTPConnection("127.0.0.1", self.port, timeout=ANSWERS)
        data = json.dumps({} if body is None else body).encode() if method == "POST" else None
        connection.request(method, self.session + path, data, {"Content-Type": "application/json"})
        answer = json.loads(connection.getresponse().read())["value"]
        connection.close()
        if isinstance(answer, dict) and "error" in answer:
            raise DriverFault(f"{answer['error']}: {answer['message'].splitlines()[0]}")
        return answer

    def developer(self, command, **words):
        """A command of the browser's developer tools."""
        return self.ask("POST", "/goog/cdp/execute", {"cmd": command, "params": words})

    def go(self, address):
        self.ask("POST", "/url", {"url": address})

    def tab(self):
        """The name of this tab."""
        return self.ask("GET", "/window")

    def new_tab(self):
        """Opens another tab, and goes to it."""
        self.to_tab(self.ask("POST", "/window/new", {"type": "tab"})["handle"])

    def to_tab(self, name):
        self.ask("POST", "/window", {"handle": name})

    def close_tab(self, to):
        """Closes this tab, and goes to another."""
        self.ask("DELETE", "/window")
        self.to_tab(to)

    def address(self):
        return self.ask("GET", "/url")

    def run(self, script, *words):
        """What a script in the page returns."""
        return self.ask("POST", "/execute/sync", {"script": script, "args": list(words)})

    def all(self, selector):
        return [it[ELEMENT] for it in self.ask("POST", "/elements", {"using": "css selector", "value": selector})]

    def one(self, selector):
        """The element, once it is there."""
        return wait(lambda: (self.all(selector) or [None])[0], f"{selector} in the page")

    def labelled(self, label, number=0):
        """The input with this label, or one of these, or the one of that number among them."""
        labels = "[...document.querySelectorAll('label')].filter(it => [arguments[0]].flat().includes(it.textContent))"
        script = f"return {labels}.map(it => it.control)[arguments[1]]"
        return wait(lambda: self.run(script, label, number), f"a field {label}")[ELEMENT]

    def named(self, kind, *texts):
        """The button, link or summary with this text, or one of these."""
        is_it = "it => arguments[1].includes(it.textContent) && it.offsetParent !== null"
        script = f"return [...document.querySelectorAll(arguments[0])].find({is_it}) ?? null"
        return wait(lambda: self.run(script, kind, texts), f"{kind} {' or '.join(texts)}")[ELEMENT]

    def click(self, element):
        self.ask("POST", f"/element/{element}/click")

    def press(self, text, kind="button"):
        self.click(self.named(kind, text))

    def type(self, element, text):
        self.ask("POST", f"/element/{element}/clear")
        self.ask("POST", f"/element/{element}/value", {"text": text})

    def choose_file(self, element, *files):
        self.ask("POST", f"/element/{element}/value", {"text": "\n".join(files)})

    def tab_through(self, count):
        """Presses the tabulator this often, with a moment for the page after each."""
        tab = [{"type": kind, "value": KEYS["tab"]} for kind in ("keyDown", "keyUp")]
        actions = [*tab, {"type": "pause", "duration": MOMENT}] * count
        self.ask("POST", "/actions", {"actions": [{"type": "key", "id": "keyboard", "actions": actions}]})

    def drop(self, name, text):
        """Drops a file upon the page's place for files."""
        script = """const data = new DataTransfer();
            data.items.add(new File([arguments[1]], arguments[0]));
            const words = { dataTransfer: data, bubbles: true, cancelable: true };
            document.querySelector('.drop').dispatchEvent(new DragEvent('drop', words));"""
        self.run(script, name, text)

    def to_start(self):
        """Takes the focus to the start of the page: the tabulator reaches the first thing of it next."""
        self.run("document.activeElement.blur(); scrollTo(0, 0)")
        self.run("document.body.setAttribute('tabindex', '-1'); document.body.focus(); document.body.removeAttribute('tabindex')")

    def keys(self, *names):
        """Keys, pressed one after another."""
        actions = [{"type": kind, "value": KEYS.get(name, name)} for name in names for kind in ("keyDown", "keyUp")]
        self.ask("POST", "/actions", {"actions": [{"type": "key", "id": "keyboard", "actions": actions}]})

    def text(self, selector="main"):
        return self.run("return document.querySelector(arguments[0])?.innerText ?? ''", selector)

    def rows(self, selector):
        """The texts of a table's cells, row by row, without the headings."""
        rows = "[...document.querySelectorAll(arguments[0] + ' tr')].filter(it => it.querySelector('td'))"
        return self.run(f"return {rows}.map(it => [...it.cells].map(cell => cell.textContent))", selector)

    def until_says(self, text, selector="body"):
        """Waits until the page says this, or one of these."""
        texts = [text] if isinstance(text, str) else text
        wait(lambda: any(it in self.text(selector) for it in texts), f"{text!r} in {selector}", lambda: self.text(selector))

    def until_replied(self, text, selector="body"):
        """Waits until a reply of the hub says this, behind its disclosure."""
        replies = "return [...document.querySelectorAll(arguments[0] + ' .raw-details pre')].map(it => it.textContent).join()"
        wait(lambda: text in self.run(replies, selector), f"{text!r} in a reply in {selector}", lambda: self.text(selector))

    def picture(self, file):
        # the mouse is over nothing
        away = {"type": "pointerMove", "duration": 0, "x": 0, "y": 0}
        self.ask("POST", "/actions", {"actions": [{"type": "pointer", "id": "mouse", "actions": [away]}]})
        with open(file, "wb") as opened:
            opened.write(base64.b64decode(self.ask("GET", "/screenshot")))

    def complaints(self):
        """What the browser logged as errors: scripts that failed, and what the policy forbids. What a server answered is no such error."""
        found = [it["message"] for it in self.ask("POST", "/se/log", {"type": "browser"}) if it["level"] == "SEVERE"]
        return [it for it in found if "Failed to load resource" not in it]

    def look(self, width=1280, height=900, dark=False, narrow=False):
        self.developer("Emulation.setDeviceMetricsOverride", width=width, height=height, deviceScaleFactor=1, mobile=narrow)
        features = [{"name": "prefers-color-scheme", "value": "dark" if dark else "light"}]
        self.developer("Emulation.setEmulatedMedia", features=features)

    def run_clock(self):
        """From the next page on its clock runs."""
        if self.clock:
            self.developer("Page.removeScriptToEvaluateOnNewDocument", identifier=self.clock)
        self.clock = None

    def stop_clock(self, milliseconds):
        """From the next page on its clock stands at this moment, at UTC."""
        self.developer("Emulation.setTimezoneOverride", timezoneId="UTC")
        self.run_clock()
        self.clock = self.developer("Page.addScriptToEvaluateOnNewDocument", source=standing(milliseconds))["identifier"]


def wait(ask, what, said=None):
    """What is asked for, once it is true of something. An element that the page replaces while it is asked is asked for again."""
    end = time.monotonic() + PATIENCE
    while time.monotonic() < end:
        try:
            found = ask()
        except DriverFault as fault:
            if not str(fault).startswith("stale element reference"):
                raise
            found = None
        if found:
            return found
        time.sleep(0.03)
    raise AssertionError(f"no {what}" + (f", but {said()!r:.600}" if said else ""))
