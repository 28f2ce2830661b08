"""A client of Firefox, as Debian's firefox-esr has it: by Marionette, the protocol behind its drivers, since Debian has no geckodriver. A
message is its length, a colon and JSON: `[0, number, command, words]`, and `[1, number, fault, answer]` for an answer."""
import json
import os
import shutil
import socket
import subprocess
import tempfile
import time

from tests.page.driver import ANSWERS, ELSEWHERE, Browser, DriverFault, NotHere, free_port
from tests.page.stage import Keeping

PREFERENCES = {
    "marionette.port": 0,
    "intl.accept_languages": "en-GB, en",
    "intl.locale.requested": "en-GB",
    "browser.shell.checkDefaultBrowser": False,
    "browser.startup.page": 0,
    "datareporting.policy.dataSubmissionEnabled": False,
    "toolkit.telemetry.enabled": False,
    "app.update.disabledForTesting": True,
    "network.dns.localDomains": ELSEWHERE,
    "dom.security.https_first": False,
    "dom.disable_beforeunload": True,
    # a list of what was downloaded would take the focus from the page
    "browser.download.alwaysOpenPanel": False,
    "layout.css.prefers-color-scheme.content-override": 1,
    # Firefox sends a request by itself again whose connection broke, so that trials could not count what the page sends
    "network.http.request.max-attempts": 1,
}
# the commands of Marionette by method and path of WebDriver; what stands in a path is a word of the command
COMMANDS = {
    ("POST", "/url"): ("Navigate", lambda body: body),
    ("GET", "/url"): ("GetCurrentURL", None),
    ("GET", "/window"): ("GetWindowHandle", None),
    ("POST", "/window/new"): ("NewWindow", lambda body: {"type": "tab", "focus": True}),
    ("POST", "/window"): ("SwitchToWindow", lambda body: {"handle": body["handle"], "focus": True}),
    ("DELETE", "/window"): ("CloseWindow", None),
    ("POST", "/elements"): ("FindElements", lambda body: body),
    ("POST", "/actions"): ("PerformActions", lambda body: body),
    ("GET", "/screenshot"): ("TakeScreenshot", lambda _: {"full": False}),
    ("POST", "/refresh"): ("Refresh", None),
    ("POST", "/back"): ("Back", None),
    ("POST", "/execute/async"): ("ExecuteAsyncScript", lambda body: {"script": body["script"], "args": body["args"], "sandbox": None}),
    ("POST", "/execute/sync"): ("ExecuteScript", lambda body: {"script": body["script"], "args": body["args"], "sandbox": None}),
    ("POST", "/print"): ("Print", lambda body: body),
}
# what those who look after the browser see: errors of scripts, and what the policy forbids
CONSOLE = """const all = Services.console.getMessageArray(); Services.console.reset();
    return all.filter(it => it instanceof Ci.nsIScriptError && !(it.flags & Ci.nsIScriptError.warningFlag))
        .filter(it => it.sourceName.startsWith('http') || it.category.includes('CSP')).map(it => it.errorMessage)"""


# the same for Firefox as what trials ask of Chromium's developer tools
DEVELOPER = {
    "Browser.setDownloadBehavior": """const { prefs } = Services; prefs.setIntPref('browser.download.folderList', 2);
        prefs.setStringPref('browser.download.dir', arguments[0].downloadPath);
        prefs.setBoolPref('browser.download.alwaysOpenPanel', false)""",
    "Emulation.setEmulatedMedia": "gBrowser.selectedBrowser.browsingContext.mediumOverride = arguments[0].media",
    "Emulation.setTimezoneOverride": "gBrowser.selectedBrowser.browsingContext.timezoneOverride = arguments[0].timezoneId",
    "Emulation.setUserAgentOverride": "Services.prefs.setStringPref('intl.accept_languages', arguments[0].acceptLanguage)",
    "Network.getAllCookies": "return { cookies: Services.cookies.cookies.map(it => it.name) }",
}


class Firefox(Browser):
    """A Firefox of its own, with a profile that is made for it."""

    # whether it says what a screen reader hears
    hears = False

    def __init__(self):
        if not shutil.which("firefox-esr"):
            raise DriverFault("firefox-esr is not there: apt-get install firefox-esr")
        self.profile = tempfile.mkdtemp()
        port = free_port()
        with open(os.path.join(self.profile, "user.js"), "w", encoding="utf-8") as file:
            for name, value in {**PREFERENCES, "marionette.port": port}.items():
                file.write(f"user_pref({json.dumps(name)}, {json.dumps(value)});\n")
        words = ["firefox-esr", "--headless", "--marionette", "--remote-allow-system-access", "--no-remote", "--profile", self.profile]
        home = {**os.environ, "HOME": self.profile}
        self.driver = subprocess.Popen(words, stdout=subprocess.DEVNULL, stderr=subprocess.DEVNULL, env=home)
        self.number, self.clock, self.zoomed = 0, None, 1
        self.stream = self.connected(port)
        self.received()
        self.command("NewSession", {"capabilities": {"alwaysMatch": {"acceptInsecureCerts": False}}})

    def connected(self, port):
        for _ in range(300):
            try:
                return socket.create_connection(("127.0.0.1", port), timeout=ANSWERS)
            except OSError:
                time.sleep(0.2)
        raise DriverFault("Firefox does not answer")

    def __exit__(self, *_):
        try:
            self.command("Quit", {"flags": ["eForceQuit"]}, "Marionette")
        except (OSError, DriverFault):
            pass
        self.driver.terminate()
        self.driver.wait()
        shutil.rmtree(self.profile, ignore_errors=True)

    def received(self):
        length = b""
        while not length.endswith(b":"):
            length += self.stream.recv(1) or b":"
        wanted, text = int(length[:-1] or b"0"), b""
        while len(text) < wanted:
            text += self.stream.recv(wanted - len(text))
        return json.loads(text or b"null")

    def command(self, name, words=None, of="WebDriver"):
        self.number += 1
        text = json.dumps([0, self.number, f"{of}:{name}", words or {}]).encode()
        self.stream.sendall(b"%d:%b" % (len(text), text))
        _, _, fault, answer = self.received()
        if fault:
            raise DriverFault(f"{fault['error']}: {fault['message'].splitlines()[0] if fault['message'] else ''}")
        return answer["value"] if isinstance(answer, dict) and set(answer) == {"value"} else answer

    def ask(self, method, path, body=None):
        if path.startswith("/element/"):
            _, _, element, act = path.split("/")
            name = {"click": "ElementClick", "clear": "ElementClear", "value": "ElementSendKeys"}[act]
            return self.command(name, {"id": element, **(body or {})})
        name, words = COMMANDS[(method, path)]
        return self.command(name, words(body) if words else None)

    def chrome(self, script, *words):
        """What a script of the browser itself returns."""
        self.command("SetContext", {"value": "chrome"}, "Marionette")
        try:
            return self.command("ExecuteScript", {"script": script, "args": list(words), "sandbox": None, "newSandbox": True})
        finally:
            self.command("SetContext", {"value": "content"}, "Marionette")

    def developer(self, command, **words):
        """What trials ask of Chromium's developer tools, as far as Firefox can do it."""
        if command not in DEVELOPER or "features" in words:
            raise NotHere(f"Firefox has no {command}")
        return self.chrome(DEVELOPER[command], words)

    def to_start(self):
        self.chrome("gBrowser.selectedBrowser.focus()")
        super().to_start()

    def keys(self, *names):
        """From the last thing of a page the tabulator goes on to Firefox's own buttons. Its driver presses keys in the page even then, but
        nothing of the page has the focus and its ring: so the round begins again at the start of the page, as a person comes to it."""
        for name in names:
            if not self.run("return document.hasFocus()"):
                self.to_start()
            super().keys(name)

    def complaints(self):
        return self.chrome(CONSOLE)

    def look(self, width=1280, height=900, dark=False, narrow=False):
        """A window is at least 500 pixels wide, so a narrower one is a wide one that is enlarged."""
        zoom = 2 if width < 600 else 1
        self.chrome("Services.prefs.setIntPref('layout.css.prefers-color-scheme.content-override', arguments[0])", 0 if dark else 1)
        self.chrome("const { browsingContext } = gBrowser.selectedBrowser; browsingContext.fullZoom = arguments[0]", zoom)
        for _ in range(20):
            inner = self.run("return [innerWidth, innerHeight, devicePixelRatio]")
            if inner == [width, height, zoom]:
                break
            rect = self.command("GetWindowRect")
            more = [(wanted - it) * zoom for wanted, it in zip((width, height), inner)]
            self.command("SetWindowRect", {"width": rect["width"] + more[0], "height": rect["height"] + more[1]})

    def run_clock(self):
        Keeping.clock = None

    def stop_clock(self, milliseconds):
        """The page itself loads the script that stops its clock."""
        self.developer("Emulation.setTimezoneOverride", timezoneId="UTC")
        Keeping.clock = milliseconds
