"""Today: what waits for a supplier, each with its action, overdue first. It is refreshed while the tab is seen, and a large mailbox costs a
bounded number of requests."""
import re
import threading
import time
from http.server import BaseHTTPRequestHandler, ThreadingHTTPServer

from tests.page.driver import wait
from tests.page.locks import LATER, LOCKED, TEN, unlock
from tests.page.stage import ALPHA, HUB, KEYS, RETAILER, Stage, gtin, interchange, message, milliseconds, released, sign_in, signed_in

TODAY = "#today"
FIVE = 300_000
MOST, ENTRIES = 100, 6_000
PALLETS = ("340123455000000012", "340123455000000029", "340123455000000036")
TITLE = "return document.title"
# the rows of a part: the texts of its cells, and where its action leads
PART = """const titled = it => it.querySelector("h2").textContent.startsWith(arguments[0]);
    const part = [...document.querySelectorAll("main section")].find(titled);
    return [...part.querySelectorAll('tbody tr')].filter(it => !it.querySelector('.none')).map(it =>
        [...it.cells].slice(0, -1).map(cell => cell.textContent).concat(it.querySelector('.action a').getAttribute('href')))"""
DONE = "As of"
USED = "dispatchEvent(new PointerEvent('pointermove'))"
SEEN = """Object.defineProperty(document, 'visibilityState', { value: arguments[0], configurable: true });
    document.dispatchEvent(new Event('visibilitychange'))"""
PARTIES = (f"NAD+BY+{RETAILER}::9", f"NAD+SU+{ALPHA}::9")


def dated(number, quantities, wanted, ordered="20250603", reference=1):
    """An order with these dates; without the wanted one if it is empty."""
    lines = [it for place, quantity in enumerate(quantities, 1) for it in (f"LIN+{place}++{gtin(place)}:SRV", f"QTY+21:{quantity}")]
    dates = [f"DTM+137:{ordered}:102", *([f"DTM+2:{wanted}"] if wanted else [])]
    body = (f"BGM+220+{released(number)}+9", *dates, *PARTIES, *lines, "UNS+S", f"CNT+2:{len(quantities)}")
    return message("ORDERS:D:01B:UN:EAN010", *body, reference=reference)


def ordered(stage, number, quantities, wanted, when="20250603"):
    stage.upload(RETAILER, interchange(RETAILER, f"O{number}", dated(number, quantities, wanted, when)))


def accepted(stage, number):
    body = (f"BGM+231+R{number}+29", "DTM+137:20250604:102", f"RFF+ON:{released(number)}", *PARTIES, "UNS+S")
    stage.upload(ALPHA, interchange(ALPHA, f"R{number}", message("ORDRSP:D:01B:UN:EAN009", *body)))


def announced(stage, number, sscc, quantity):
    line = ("CPS+1", f"GIN+BJ+{sscc}", f"LIN+1++{gtin(1)}:SRV", f"QTY+12:{quantity}", f"RFF+ON:{number}:1")
    body = (f"BGM+351+D{sscc[-3:]}+9", "DTM+137:20250606:102", *PARTIES, *line)
    stage.upload(ALPHA, interchange(ALPHA, f"D{sscc[-3:]}", message("DESADV:D:01B:UN:EAN007", *body)))


def received(stage, sscc, quantity):
    line = ("CPS+1", f"GIN+BJ+{sscc}", f"LIN+1++{gtin(1)}:SRV", f"QTY+194:{quantity}")
    body = (f"BGM+632+W{sscc[-3:]}+9", "DTM+137:20250607:102", *PARTIES, *line)
    stage.upload(RETAILER, interchange(RETAILER, f"W{sscc[-3:]}", message("RECADV:D:01B:UN:EAN005", *body)))


def furnished(stage):
    """Orders that wait, orders to ship with and without a day, and three pallets: on its way, short and whole."""
    ordered(stage, "T1", [10, 20], "20250630:102")
    ordered(stage, "T2", [30], "20250606:102")
    ordered(stage, "T3", [40], "20250620:102")
    ordered(stage, "T4", [50], "", "20250601")
    ordered(stage, "T5", [60], "202506051200:203")
    ordered(stage, "T6", [70], "20250610:102")
    ordered(stage, "T7", [80], "20250609:102")
    for number in ("T2", "T3", "T4", "T5", "T6"):
        accepted(stage, number)
    for sscc, quantity in zip(PALLETS, (5, 6, 7)):
        announced(stage, "T3", sscc, quantity)
    received(stage, PALLETS[1], 4)
    received(stage, PALLETS[2], 7)
    # an order that was taken is found too
    stage.ask(ALPHA, "mail/item/2/taken", "")


def shown(browser):
    browser.until_says(DONE)
    return {it: browser.run(PART, it) for it in ("Orders to answer", "Lines to despatch", "Announced, not received", "Received short")}


def parts(browser, stage):
    """Today is 10 June: what was wanted earlier is overdue and comes first, and an order without a day goes by its date."""
    sign_in(browser, stage, ALPHA, screen="")
    browser.one("nav a[aria-current]")
    assert browser.address().endswith(TODAY), browser.address()
    wanted = {
        "Orders to answer": [
            ["T7", "1", "80", "9 June 2025 overdue", "#answer/7"],
            ["T1", "2", "30", "30 June 2025", "#answer/1"],
        ],
        "Lines to despatch": [
            ["T5", "1", gtin(1), "60", "5 June 2025 overdue", "#despatch/5"],
            ["T2", "1", gtin(1), "30", "6 June 2025 overdue", "#despatch/2"],
            ["T4", "1", gtin(1), "50", "ordered 1 June 2025", "#despatch/4"],
            ["T6", "1", gtin(1), "70", "10 June 2025", "#despatch/6"],
            ["T3", "1", gtin(1), "22", "20 June 2025", "#despatch/3"],
        ],
        "Announced, not received": [[PALLETS[0], "1", "5", f"#status/{PALLETS[0]}"]],
        "Received short": [[PALLETS[1], gtin(1), "6", "−2 missing", "#entry/8"]],
    }
    assert shown(browser) == wanted, shown(browser)
    lead = "2 orders to answer, 5 lines to despatch, 2 of them overdue, 1 pallet announced and not received, 1 received short."
    assert browser.text(".lead") == lead, browser.text(".lead")
    assert browser.run(TITLE) == "(8) Today · edihub", browser.run(TITLE)
    return sum(len(it) for it in wanted.values())


def actions(browser):
    """Each action leads to what it is about."""
    for press, heading in (
        ("Answer order T7", "Answer order T7"),
        ("Despatch order T2, line 1", "Announce a despatch"),
        (f"Show pallet {PALLETS[0]} in the status", "Status"),
        (f"Read the advice of pallet {PALLETS[1]}", "Receiving advice W029"),
    ):
        browser.run("location.hash = 'today'")
        browser.until_says(DONE)
        browser.run("[...document.querySelectorAll('main a')].find(it => it.ariaLabel === arguments[0]).click()", press)
        wait(lambda: browser.run("return document.querySelector('h1').textContent") == heading, heading)
        if heading == "Announce a despatch":
            assert browser.run("return [...document.querySelectorAll('.orders :checked')].map(it => it.value)") == ["T2"]
        if heading == "Status":
            assert [it[0] for it in browser.rows("table.pallet-rows tbody")] == [PALLETS[0]]
    # once the advice is marked as taken, the pallet is done, and there is no table without rows
    browser.press("Mark as read")
    browser.until_says("Marked as read")
    browser.press("Today", "a")
    assert shown(browser)["Received short"] == []
    browser.until_says("Nothing new was received short.")
    seen = "return [...document.querySelectorAll('main table')].filter(it => it.checkVisibility()).map(it => it.tBodies[0].rows.length)"
    assert browser.run(seen) == [2, 5, 1], browser.run(seen)
    assert browser.run(TITLE) == "(7) Today · edihub", browser.run(TITLE)


def while_searching(browser, stage):
    """Until the mailbox was searched a row has no link, so that none becomes another one under the hand."""
    gate = threading.Event()
    path = f"/p/{ALPHA}/mail/after/0"

    def held(handler, body):
        gate.wait()
        return handler.passed(body)

    signed_in(browser, stage, ALPHA, "#sent")
    stage.proxy.instead[path] = held
    browser.run("location.hash = 'today'")
    browser.until_says("Orders to answer (2)")
    assert browser.run("return [...document.querySelectorAll('main section:nth-of-type(-n + 2) .action')].map(it => it.textContent)") == [
        *["", "…", "…"],
        *["", *["…"] * 5],
    ]
    gate.set()
    browser.until_says(DONE)
    del stage.proxy.instead[path]


def without_a_search(browser, stage):
    """If the search gets no answer, the rows lead to the mailbox, where the order is to be found."""
    path = f"/p/{ALPHA}/mail/after/0"
    signed_in(browser, stage, ALPHA, "#sent")
    stage.proxy.instead[path] = lambda handler, body: handler.cut()
    browser.run("location.hash = 'today'")
    browser.until_says("The hub did not reply at")
    found = browser.run("return [...document.querySelectorAll('main .action a')].map(it => it.getAttribute('href'))")
    assert found.count("#mailbox") == 7, found
    del stage.proxy.instead[path]


def of_today(browser, program):
    with Stage(program) as stage:
        furnished(stage)
        while_searching(browser, stage)
        without_a_search(browser, stage)
        browser.stop_clock(milliseconds(2025, 6, 10, 9, 30))
        count = parts(browser, stage)
        actions(browser)
        complaints = browser.complaints()
        assert complaints == [], complaints
    return f"{count} rows in four parts, overdue first, and an action of each part"


def quiet(browser, stage):
    """For two seconds the page asks for nothing."""
    before = len(stage.asked)
    browser.run("return new Promise(done => setTimeout(done, 2000))")
    assert stage.asked[before:] == [], stage.asked[before:]


def refreshes(browser, stage):
    """After five minutes what came meanwhile is there, and the focus stays where it was; a look costs two requests if little is new."""
    signed_in(browser, stage, ALPHA, TODAY)
    browser.until_says("Orders to answer (1)")
    browser.until_says(DONE)
    assert browser.run(TITLE) == "(1) Today · edihub"
    ordered(stage, "U2", [5], "20990101:102")
    browser.run("[...document.querySelectorAll('main a')].find(it => it.textContent === 'Answer').focus()")
    quiet(browser, stage)
    before = len(stage.asked)
    browser.run(LATER, FIVE - 60_000)
    quiet(browser, stage)
    browser.run(LATER, 61_000)
    browser.until_says("Orders to answer (2)")
    wait(lambda: browser.run(TITLE) == "(2) Today · edihub", "the count in the title", lambda: browser.run(TITLE))
    settled(stage)
    paths = [it.rsplit(f"{ALPHA}/")[1] for it in stage.asked[before:]]
    assert paths == ["status", "mail/after/1", "mail/item/2"], paths
    assert browser.run("return document.activeElement.getAttribute('href')") == "#answer/1"


def hidden(browser, stage):
    """A tab that is not seen asks for nothing, and looks again as soon as it is seen."""
    browser.run(USED)
    browser.run(SEEN, "hidden")
    ordered(stage, "U3", [5], "20990101:102")
    browser.run(LATER, FIVE)
    quiet(browser, stage)
    browser.run(SEEN, "visible")
    browser.until_says("Orders to answer (3)")
    settled(stage)


def elsewhere(browser, stage):
    """On another screen nothing is asked for, and its title has no count."""
    browser.press("Status", "a")
    browser.until_says("Order lines")
    browser.run(LATER, FIVE)
    quiet(browser, stage)
    assert browser.run(TITLE) == "Status · edihub"
    browser.press("Today", "a")
    browser.until_says(DONE)


def locked(browser, stage):
    """A locked tab asks for nothing."""
    browser.run(LATER, TEN)
    browser.until_says(LOCKED)
    ordered(stage, "U4", [5], "20990101:102")
    quiet(browser, stage)
    assert browser.run(TITLE) == "Locked · edihub"
    unlock(browser, KEYS[ALPHA])
    browser.until_says("Orders to answer (4)")


def unanswered(browser, stage):
    """If the hub is away, what was shown stays, and the page says that it asks again."""
    stage.end_hub()
    browser.press("Look again now")
    browser.until_says("The hub did not reply at")
    assert len(browser.run(PART, "Orders to answer")) == 4
    stage.begin_hub()
    browser.press("Look again now")
    wait(lambda: "The hub did not reply at" not in browser.text(), "an answer")


def kept_fresh(browser, program):
    with Stage(program) as stage:
        ordered(stage, "U1", [5], "20990101:102")
        for trial in (refreshes, hidden, elsewhere, locked, unanswered):
            trial(browser, stage)
        complaints = browser.complaints()
        assert complaints == [], complaints
    return "looks after five minutes in a tab that is seen, and none in one that is hidden, locked or elsewhere"


class LargeHub(BaseHTTPRequestHandler):
    """In a hub's place: thousands of orders of one line that wait for an answer, in a mailbox where all are new or all are taken."""

    def do_GET(self):
        name, *words = self.path.split("/")[3:]
        first = int(words[-1]) if words else 0
        if name == "status":
            rest = f"{1:>6} {gtin(1):0>14} W {1:>9} {1:>9} {0:>9} {0:>9} {0:>9}"
            text = "".join(f"L {self.order(it):<35} {rest}\n" for it in numbers()) + "end\n"
        elif words[0] == "after":
            new = [] if self.server.taken else numbers(first)
            text = "".join(f"{it:>14} ORDERS {self.order(it)}\n" for it in new[:100]) + ("more\n" if len(new) > 100 else "end\n")
        else:
            text = interchange(HUB, first, dated(self.order(first), [1], "20990101:102"), to=ALPHA) if first <= ENTRIES else ""
        self.send_response(200 if text else 404)
        self.end_headers()
        self.wfile.write((text or "unknown\n").encode())

    @staticmethod
    def order(number):
        return f"L{number:05d}"

    def log_message(self, *_):
        pass


def numbers(above=0):
    return range(above + 1, ENTRIES + 1)


def looked(browser, stage, times):
    """The requests of each of so many looks."""
    counts = []
    for place in range(times):
        before = len(stage.asked)
        if place:
            browser.press("Look again now")
        else:
            browser.run("location.hash = 'today'")
        wait(lambda: len(stage.asked) > before, "a request")
        settled(stage)
        counts.append(len(stage.asked) - before)
    return counts


def settled(stage):
    """Waits until the page has asked for nothing for a second."""
    count, since = len(stage.asked), time.monotonic()
    while time.monotonic() - since < 1:
        time.sleep(0.05)
        if len(stage.asked) != count:
            count, since = len(stage.asked), time.monotonic()


def large(browser, program):
    """Thousands of entries cost at most a hundred requests for each look, whether they are new or taken, and this is said."""
    with Stage(program) as stage, ThreadingHTTPServer(("127.0.0.1", 0), LargeHub) as hub:
        threading.Thread(target=hub.serve_forever, daemon=True).start()
        stage.proxy.hub_port, counts = hub.server_port, {}
        for hub.taken in (False, True):
            signed_in(browser, stage, ALPHA, "#sent")
            counts[hub.taken] = looked(browser, stage, 4)
            assert max(counts[hub.taken]) <= MOST, counts
            browser.until_says(f"Orders to answer ({ENTRIES:,})")
            browser.until_says("These are the first 100. Status has all of them.")
            browser.until_says(f"at most {MOST} times")
            links = [it[-1] for it in browser.run(PART, "Orders to answer")]
            assert len(links) == 100 and all(re.fullmatch(r"#answer/\d+", it) for it in links), links
        # of what is taken the newest are looked through, and then no more
        assert counts[False] == [MOST] * 4 and counts[True][-1] <= 3, counts
        assert "#answer/5801" in links and counts[True][0] == MOST, (links, counts)
        hub.shutdown()
        complaints = browser.complaints()
        assert complaints == [], complaints
    return f"{ENTRIES:,} entries, and these requests for each look: new ones {counts[False]}, taken ones {counts[True]}"


TRIALS = {"today's four parts": of_today, "today is refreshed": kept_fresh, "today with a large mailbox": large}
