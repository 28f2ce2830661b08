"""Times: what the page writes comes from one clock, the local one, and tables are sorted by time whatever the format of a date."""
from tests.page.driver import ELEMENT
from tests.page.forms import send
from tests.page.stage import ALPHA, RETAILER, Keeping, Stage, gtin, interchange, message, milliseconds, order, signed_in

# an order's date as it is sent, and when it comes in; in the order of the dates
DATES = [
    ("K1", "202505312359:203", "250610:0900"),
    ("K2", "20250601:102", "250603:1800"),
    ("K3", "202506010001:203", "250603:0700"),
    ("K4", "20250602:102", "250604:0700"),
    ("K5", "202506021200:203", "250602:2359"),
]
ARRIVED = ["K5", "K3", "K2", "K4", "K1"]


def one_clock(browser, stage):
    """In Auckland it is the next day already: number, date and time of an answer and of a despatch all say so."""
    browser.stop_clock(milliseconds(2025, 6, 3, 22, 30))
    browser.developer("Emulation.setTimezoneOverride", timezoneId="Pacific/Auckland")
    stage.upload(RETAILER, interchange(RETAILER, "T0", order("T0", [5])))
    # what came in at half past ten at UTC
    Keeping.prepared = "250603:2230"
    signed_in(browser, stage, ALPHA)
    browser.until_says("4 June 2025, 10:30", "table.mailbox")
    Keeping.prepared = None
    for screen, label, act in (
        ("answer/1", "Number of your answer", "Accept the line"),
        ("despatch/1", "Number of the despatch", "Load all that is left on this pallet"),
    ):
        browser.run("location.hash = arguments[0]", screen)
        browser.press(act)
        if screen == "despatch/1":
            browser.type(browser.labelled("SSCC"), "340123455000000012")
        stage.sent.clear()
        number = browser.labelled(label)
        assert browser.run("return arguments[0].value", {ELEMENT: number}) == "250604103000", screen
        send(browser, "answer" if "answer" in screen else "despatch advice")
        browser.until_replied("accepted", ".delivery")
        browser.run("location.hash = 'sent'")
        browser.until_says("4 June 2025, 10:30", "table.sent")
        sent = stage.sent[0][1].decode()
        assert "+250604:1030+" in sent and "+250604103000+" in sent and "DTM+137:20250604:102'" in sent, sent
    browser.run_clock()
    browser.developer("Emulation.setTimezoneOverride", timezoneId="")


def dated(number, date):
    line = (f"LIN+1++{gtin(1)}:SRV", "QTY+21:5", "UNS+S")
    return message("ORDERS:D:01B:UN:EAN010", f"BGM+220+{number}+9", f"DTM+137:{date}", f"NAD+BY+{RETAILER}::9", f"NAD+SU+{ALPHA}::9", *line)


def documents(browser):
    return [it[2] for it in browser.rows("table.mailbox tbody") if len(it) > 2]


def sorted_by_time(browser, stage):
    """By date and by arrival, up and down, also if the heading is pressed before the dates are there."""
    for place in (3, 0, 4, 1, 2):
        number, date, _ = DATES[place]
        stage.upload(RETAILER, interchange(RETAILER, number, dated(number, date)))
    wanted = [it[0] for it in DATES]
    signed_in(browser, stage, ALPHA)
    browser.press("Date")
    browser.until_says("31 May 2025, 23:59", "table.mailbox")
    browser.until_says("2 June 2025, 12:00", "table.mailbox")
    browser.run("return new Promise(done => setTimeout(done, 300))")
    assert documents(browser)[:5] == wanted, documents(browser)
    browser.press("Date")
    assert documents(browser)[-5:] == wanted[::-1], documents(browser)


def functions(_program):
    """By which numbers times are sorted."""
    from tests.page.agreement import by_node

    calls = [("edi/dates.js", "moment", *it[1].split(":")) for it in DATES]
    found = by_node("call.mjs", calls)
    assert found == sorted(found) and len(set(found[1:])) == 4, found
    calls = [("edi/dates.js", "preparedMoment", *it[2].split(":")) for it in DATES]
    found = dict(zip((it[0] for it in DATES), by_node("call.mjs", calls)))
    assert sorted(found, key=found.get) == ARRIVED, found
    assert by_node("call.mjs", [("edi/dates.js", "moment", "x", "102")]) == [0]


def clocks(browser, program):
    functions(program)
    with Stage(program) as stage:
        one_clock(browser, stage)
        sorted_by_time(browser, stage)
        assert browser.complaints() == []
    return f"2 documents by the clock of Auckland, and {len(DATES)} dates of two formats in their order"


TRIALS = {"clocks and the order of dates": clocks}
