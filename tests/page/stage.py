"""What a trial of the page stands on: a hub of the example register in a folder of its own, the proxy before it, which keeps what was sent,
and who signs in where."""
import http.client
import importlib.util
import os
import re
import shutil
import subprocess
import sys
import tempfile
import threading
from datetime import datetime, timezone

from tests.harness.tree import EXAMPLES
from tests.page.driver import free_port, standing

DAY = os.path.join(EXAMPLES, "day")

HUB, RETAILER, ALPHA, BETA = "5412345000006", "5412345000013", "4012345500004", "8712345000004"
# a screen that the retailer does not have, so it gets its first one
MAILBOX = "#mailbox"
KEYS = {RETAILER: "retail-key", ALPHA: "alpha-key-1", BETA: "beta-key-1"}


def module(name, *path):
    """A Python file that is no module of a package, as one."""
    spec = importlib.util.spec_from_file_location(name, os.path.join(*path))
    found = importlib.util.module_from_spec(spec)
    spec.loader.exec_module(found)
    return found


# which the proxy imports by this name
sys.modules["show"] = module("show", EXAMPLES, "page", "show.py")
proxy = module("page_proxy", EXAMPLES, "page", "proxy.py")
# where pages find the script that stops their clocks
CLOCK = "/clock"


class Keeping(proxy.Handler):
    """The proxy's handler, which keeps each body that is sent, and whose way to the hub and back a trial can break."""

    # the moment at which the clocks of pages stand, in milliseconds at UTC, for a browser that cannot stop them itself
    clock = None
    # when all that comes from a mailbox is said to have come in, such as `250606:0915`, in the place of the hub's own time
    prepared = None

    def give_file(self):
        breaks = self.server.instead.get(self.path)
        if breaks:
            return breaks(self, None)
        if self.clock is None or self.path not in ("/", CLOCK):
            return super().give_file()
        if self.path == CLOCK:
            return self.answer(200, standing(self.clock).encode(), "text/javascript")
        with open(os.path.join(proxy.PAGE, "index.html"), "rb") as file:
            begin, end = file.read().split(b"<head>")
        self.answer(200, b'%b<head><script src="%b"></script>%b' % (begin, CLOCK.encode(), end), "text/html; charset=utf-8")

    def do_POST(self):
        self.server.posted.append((self.path, self.headers.get("X-Hub-Key")))
        super().do_POST()

    def asked(self, body):
        self.server.asked.append(self.path)
        if body is not None:
            self.server.sent.append((self.path, body))
        breaks = self.server.instead.get(self.path)
        if body and self.server.breaks:
            breaks = self.server.breaks.pop(0)
        status, answer = breaks(self, body) if breaks else super().asked(body)
        if self.prepared and "/mail/item/" in self.path:
            answer = re.sub(rb"\+\d{6}:\d{4}\+", b"+%b+" % self.prepared.encode(), answer, count=1)
        return status, answer

    def passed(self, body):
        """What the hub answers, whatever becomes of it then."""
        return super().asked(body)

    def cut(self, sent=b""):
        """Ends the connection, behind these bytes."""
        self.wfile.write(sent)
        self.wfile.flush()
        self.connection.close()
        raise ConnectionAbortedError

    def send_header(self, name, value):
        # modules do not change while a trial runs, so they are not fetched again each time somebody signs in
        is_module = self.path.endswith((".js", ".css", ".svg"))
        super().send_header(name, "max-age=3600" if name == "Cache-Control" and is_module else value)

    def handle(self):
        # a connection that a trial cut has nothing more to be flushed
        try:
            super().handle()
        except (ConnectionError, ValueError):
            self.close_connection = True

    def pass_on(self, body):
        try:
            status, answer = self.asked(body)
        except ConnectionAbortedError:
            self.close_connection = True
            return
        except OSError:
            status, answer = 502, b"the hub does not answer\n"
        self.answer(status, answer)

    def finish(self):
        try:
            super().finish()
        except (ConnectionError, ValueError):
            pass


class Stage:
    # by program the files of a hub that was founded and did nothing yet
    founded = {}

    def __init__(self, program):
        self.program = program
        self.folder = tempfile.mkdtemp()
        self.file = os.path.join(self.folder, "hub.db")
        self.hub = None
        if program not in Stage.founded:
            self.command("init", "--register", os.path.join(EXAMPLES, "register.toml"))
            Stage.founded[program] = self.files()
        self.put(Stage.founded[program])
        self.begin_hub()
        self.proxy = proxy.Proxy(0, self.hub_port, Keeping, program=program)
        self.proxy.sent, self.proxy.asked, self.proxy.posted, self.proxy.breaks = [], [], [], []
        # by path what is done each time in the place of asking the hub
        self.proxy.instead = {}
        threading.Thread(target=self.proxy.serve_forever, daemon=True).start()
        self.address = self.proxy.address

    def __enter__(self):
        return self

    def __exit__(self, *_):
        self.proxy.shutdown()
        self.proxy.server_close()
        self.end_hub()
        shutil.rmtree(self.folder, ignore_errors=True)

    @property
    def sent(self):
        """The bodies that were sent, each with its path."""
        return self.proxy.sent

    @property
    def asked(self):
        """The paths of the hub that the page asked for."""
        return self.proxy.asked

    @property
    def posted(self):
        """The paths that were posted to, be they of the hub or not, each with the key."""
        return self.proxy.posted

    def command(self, name, *words):
        """What a command over the hub's file prints; the hub must not run."""
        ran = subprocess.run([self.program, name, "--db", self.file, *words], stdout=subprocess.PIPE, check=True)
        return ran.stdout.decode("latin-1")

    def files(self):
        """The hub's files, by their names; the hub must not run."""
        found = {}
        for name in os.listdir(self.folder):
            if name.startswith("hub.db"):
                with open(os.path.join(self.folder, name), "rb") as file:
                    found[name] = file.read()
        return found

    def put(self, files):
        """Takes these files as the hub's, in the place of all others; the hub must not run."""
        for name in self.files():
            os.remove(os.path.join(self.folder, name))
        for name, content in files.items():
            with open(os.path.join(self.folder, name), "wb") as file:
                file.write(content)

    def keep(self):
        """The hub as it is now, for `back_to`."""
        self.end_hub()
        found = self.files()
        self.begin_hub()
        return found

    def back_to(self, files):
        """Takes the hub back to what it was."""
        self.end_hub()
        self.put(files)
        self.begin_hub()

    def begin_hub(self):
        self.hub_port = free_port()
        words = ["serve", "--db", self.file, "--port", str(self.hub_port), "--count", "1000000"]
        self.hub = subprocess.Popen([self.program, *words], stdout=subprocess.PIPE)
        assert self.hub.stdout.readline().startswith(b"listening"), "the hub does not listen"
        if hasattr(self, "proxy"):
            self.proxy.hub_port = self.hub_port

    def end_hub(self):
        if self.hub:
            self.hub.kill()
            self.hub.communicate()
            self.hub = None

    def ask(self, who, path, body=None):
        """What the hub answers a party, without the page."""
        hub = http.client.HTTPConnection("127.0.0.1", self.hub_port, timeout=60)
        data = body.encode("latin-1") if isinstance(body, str) else body
        hub.request("GET" if body is None else "POST", f"/p/{who}/{path}", data, {"X-Hub-Key": KEYS[who]})
        answer = hub.getresponse().read().decode("latin-1")
        hub.close()
        return answer

    def beside(self, text):
        """Puts a list of suppliers beside the page."""
        self.proxy.suppliers = os.path.join(self.folder, "suppliers.csv")
        with open(self.proxy.suppliers, "wb") as file:
            file.write(text.encode() if isinstance(text, str) else text)

    def upload(self, who, text):
        """Uploads without the page, and sees that all of it is accepted."""
        answer = self.ask(who, "interchanges", text)
        assert all(line.endswith(" accepted") for line in answer.splitlines()[1:]) and answer.startswith("interchange"), answer
        return answer


def signed_in(browser, stage, who, screen=MAILBOX):
    """A tab that is loaded again, and its first screen: a supplier's mailbox, if no other is named."""
    sign_in(browser, stage, who, screen=screen)
    browser.one("nav a[aria-current]")


def opened(browser, stage, screen=""):
    """A tab that is loaded again and has kept nothing of before."""
    browser.go("about:blank")
    browser.go(stage.address + screen)
    if browser.run("return sessionStorage.length"):
        browser.run("sessionStorage.clear()")
        browser.go("about:blank")
        browser.go(stage.address + screen)


def sign_in(browser, stage, who, key=None, screen=MAILBOX):
    """The button is pressed, whatever comes of it."""
    opened(browser, stage, screen)
    browser.type(browser.labelled("GLN"), who)
    browser.type(browser.labelled("Key"), key or KEYS[who])
    browser.press("Sign in")


def milliseconds(*moment):
    """A moment at UTC."""
    return int(datetime(*moment, tzinfo=timezone.utc).timestamp() * 1000)


def released(text):
    return "".join("?" + it if it in "?'+:" else it for it in text)


def message(kind, *segments, reference=1):
    return f"UNH+{reference}+{kind}'" + "".join(it + "'" for it in segments) + f"UNT+{len(segments) + 2}+{reference}'"


def interchange(sender, reference, *messages, to=HUB, prepared="250603:0915"):
    return f"UNA:+.? 'UNB+UNOC:3+{sender}:14+{to}:14+{prepared}+{reference}'{''.join(messages)}UNZ+{len(messages)}+{reference}'"


def gtin(number):
    """The article of this number, of a company of no account."""
    digits = f"4000862{number:05d}"
    total = sum(int(it) * (3 if place % 2 else 1) for place, it in enumerate(digits))
    return digits + str(-total % 10)


def order(number, quantities, supplier=ALPHA, reference=1, texts=()):
    """An order of so much of one article after the other."""
    lines = [it for place, quantity in enumerate(quantities, 1) for it in (f"LIN+{place}++{gtin(place)}:SRV", f"QTY+21:{quantity}")]
    head = [f"BGM+220+{released(number)}+9", "DTM+137:20250603:102", "DTM+2:20250606:102", *texts]
    parties = [f"NAD+BY+{RETAILER}::9", f"NAD+SU+{supplier}::9"]
    return message("ORDERS:D:01B:UN:EAN010", *head, *parties, *lines, "UNS+S", f"CNT+2:{len(quantities)}", reference=reference)
