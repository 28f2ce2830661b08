"""Each screen of the page as a person finds it: a hub with a day on it, and the way to each screen."""
import os

from tests.page.driver import wait
from tests.page.forms import change, check, fresh, send, send_files
from tests.page.stage import ALPHA, BETA, DAY, RETAILER, gtin, interchange, message, order, released, signed_in
from tests.page.stage import opened as tab_opened


def furnished(stage):
    """Some days: orders of several lines, answers, despatches, receipts of which one corrects another, and a cancellation."""
    by = {"1-orders": RETAILER, "2-answer-of-a": ALPHA, "4-despatch-of-a": ALPHA, "7-receipts": RETAILER, "8-correction": RETAILER}
    for folder, who in by.items():
        for name in sorted(os.listdir(os.path.join(DAY, folder))):
            with open(os.path.join(DAY, folder, name), encoding="latin-1") as file:
                text = file.read()
            # what supplier B would have to announce first is left out
            if BETA not in text or folder == "1-orders":
                stage.upload(who, text)
    texts = ["FTX+AAI+++" + released("Please deliver to gate 3, before noon.")]
    stage.upload(RETAILER, interchange(RETAILER, "2001", order("128590", [120, 60, 36, 24, 48, 12, 240, 30, 18, 6], texts=texts)))
    stage.upload(RETAILER, interchange(RETAILER, "2002", order("128591", [80, 40])))
    parties = ("DTM+137:20250606:102", f"NAD+BY+{RETAILER}::9", f"NAD+SU+{ALPHA}::9")
    line = ("CPS+1", "GIN+BJ+340123455000000036", f"LIN+1++{gtin(1)}:SRV", "QTY+12:30", "RFF+ON:128591:1")
    stage.upload(ALPHA, interchange(ALPHA, "3001", message("DESADV:D:01B:UN:EAN007", "BGM+351+A-D2+9", *parties, *line)))
    assert stage.ask(RETAILER, "cancellations", f"{ALPHA}\nC9\n128591\n2\n15\n") == "accepted\n"
    stage.ask(ALPHA, "mail/item/1/taken", "")


def wait_dates(browser):
    browser.until_says("June 2025", "table.mailbox tbody tr:last-child")


def taken(browser):
    browser.press("Show read entries")
    browser.until_says("128576", ".taken")


def mailbox(browser):
    wait_dates(browser)
    taken(browser)


def answer(browser):
    browser.press("Accept all 10 lines")
    change(browser, 2, "40")
    browser.run("document.activeElement.blur()")


def reviewed(browser):
    answer(browser)
    check(browser, "answer")
    browser.until_says("What is sent cannot be taken back.")


def despatch(browser):
    browser.type(browser.labelled("Your GS1 company prefix"), "40123455")
    browser.keys("tab")
    browser.press("Load all that is left on this pallet")
    browser.run("scrollTo(0, 0); document.activeElement.blur()")


def pallets(browser):
    """All that is open, split over three pallets, and less on one of them, so that something is left."""
    despatch(browser)
    browser.type(browser.labelled("Split evenly over this many pallets"), "3")
    browser.press("Split")
    browser.until_says("Done: split over this pallet and pallets 2 to 3.")
    browser.press("Collapse all pallets")
    browser.run("document.querySelectorAll('.toggle')[2].click()")
    browser.type(browser.labelled("Quantity of order 128590, line 2"), "8")
    browser.press("Left to load: 12 pieces from 1 of 10 lines", "summary")
    browser.run("document.querySelector('details.left').scrollIntoView(); document.activeElement.blur()")


def sent(browser):
    """An answer that the hub refused: somebody answered meanwhile."""
    browser.press("Accept all 2 lines")
    send(browser, "answer")
    browser.until_says("What the hub replied")


def no_answer(browser):
    browser.press("Accept all 10 lines")
    send(browser, "answer")
    browser.until_says("No reply from the hub")


def uploaded(browser):
    text = interchange(RETAILER, "4001", order("128600", [10], supplier=BETA), order("128577", [10], supplier=BETA, reference=2))
    browser.drop("orders-of-today.edi", text)
    browser.drop("letter.txt", "no EDIFACT")
    send_files(browser, 2)
    browser.until_says("Refused, and nothing of it was taken.")


def cancel(browser):
    """More than is open, which is told before anything is sent."""
    browser.type(browser.labelled("Quantity to cancel"), "999")
    check(browser, "cancellation")
    browser.until_says("Only 25 pieces are open, as of ")


def fetched(browser):
    """The statuses of two suppliers and of one that the hub does not know, by a list that is dropped."""
    if not browser.all("table.across"):
        browser.run("location.hash = 'overview'")
        browser.one(".drop")
    if "Fetched 2 of 3 suppliers." not in browser.text():
        browser.drop("suppliers.csv", f"GLN;Name\n{ALPHA};Alpha\n{BETA};Beta\n4000000000006;Gamma\n")
        browser.press("Fetch the status of 3 suppliers")
        browser.until_says("Fetched 2 of 3 suppliers.")


def open_lines(browser):
    fetched(browser)
    browser.run("location.hash = 'open-lines'")
    browser.until_says("lines of 2 fetched suppliers are open")
    late = order("128591", [80], reference=2).replace("DTM+2:20250606", "DTM+2:20250604")
    browser.drop("orders.edi", interchange(RETAILER, "2001", order("128590", [120]), late))
    browser.until_says("wanted day found for 2 orders.")
    # others have their days only if this tab uploaded them
    named = lambda: [row for row in browser.rows("main table tbody") if {"128590", "128591"} & set(row)]
    wait(lambda: named() and all(row[-1] != "–" for row in named()), "a day at each line of these orders")


def searched(browser):
    fetched(browser)
    browser.run("location.hash = 'search/34012345500000003'")
    browser.until_says("34012345500000003", "main p.lead")


def lines_chosen(browser):
    """Three lines of two orders, and the summary before they are sent."""
    for number in ("Choose order 128590, line 2", "Choose order 128590, line 4", "Choose order 128591, line 1"):
        browser.run("document.querySelector(`[aria-label='${arguments[0]}']`).click()", number)
    browser.press("Cancel 3 lines…")
    for label, quantity in (("128590, line 2", "12"), ("128590, line 4", "10"), ("128591, line 1", "30")):
        browser.type(browser.labelled(f"Quantity to cancel of order {label}"), quantity)


def lines_checked(browser):
    lines_chosen(browser)
    browser.press("Check cancellations")
    browser.until_says("You cancel 3 lines of 2 orders, 52 pieces in all")


def explained(browser):
    """A file with two messages, one of which has a fault."""
    wrong = order("128601", [10, 20], reference=2).replace("QTY+21:20", "QTY+21:2O")
    browser.drop("orders-of-today.edi", interchange(RETAILER, "4002", order("128600", [10]), wrong))
    browser.until_says("1 of 2 messages would be refused")


def locked(browser):
    """Ten minutes later, by the tab's clock, which goes on from there."""
    browser.run("const [then, from] = [Date.now() + 600_000, performance.now()]; window.Date.now = () => then + performance.now() - from")
    browser.until_says("it has forgotten your key")


def nothing(_browser):
    """The screen as it opens."""


# each screen: who sees it, its address, what it says when it is there, and what is done on it
SCREENS = {
    "sign-in": (None, "", "This tab keeps GLN and key", nothing),
    "locked": (ALPHA, "mailbox", "new entries", locked),
    "today": (ALPHA, "today", "looks again every five minutes", nothing),
    "mailbox": (ALPHA, "mailbox", "new entries", mailbox),
    "order": (ALPHA, "entry/4", "gate 3", nothing),
    "answer": (ALPHA, "answer/4", "Accept all 10 lines", answer),
    "check": (ALPHA, "answer/4", "Accept all 10 lines", reviewed),
    "despatch": (ALPHA, "despatch/4", "Pallet 1", despatch),
    "pallets": (ALPHA, "despatch/4", "Pallet 1", pallets),
    "receipt": (ALPHA, "entry/2", "A later advice replaced", nothing),
    "status": (ALPHA, "status", "Sum of", nothing),
    "sent": (ALPHA, "answer/5", "Accept all 2 lines", sent),
    "no-answer": (ALPHA, "answer/4", "Accept all 10 lines", no_answer),
    "sent-list": (ALPHA, "sent", "What this tab has sent", nothing),
    "explain": (RETAILER, "explain", "Choose an .edi file", explained),
    "upload": (RETAILER, "upload", "Choose .edi files", uploaded),
    "supplier": (RETAILER, f"supplier/{ALPHA}", "Cancel…", nothing),
    "overview": (RETAILER, "overview", "Overview", fetched),
    "open-lines": (RETAILER, "overview", "Overview", open_lines),
    "search": (RETAILER, "overview", "Overview", searched),
    "cancel-lines": (RETAILER, f"supplier/{ALPHA}", "Cancel…", lines_checked),
    "cancel": (RETAILER, f"cancel/{ALPHA}/128591/2", "25 pieces are open", cancel),
}


def lost(handler, _body):
    handler.cut()


def is_signed_in(browser, stage, who):
    """Whether the tab shows this page, and not that of an earlier trial, to this caller."""
    shown = "return document.querySelector('.who .digits')?.textContent ?? ''"
    return browser.address().startswith(stage.address) and browser.run(shown) == who


def opened(browser, stage, name):
    """This screen, as SCREENS says."""
    who, address, said, act = SCREENS[name]
    if who is None:
        tab_opened(browser, stage)
    elif not is_signed_in(browser, stage, who):
        signed_in(browser, stage, who)
    if who is not None:
        fresh(browser, address)
    browser.until_says(said)
    stage.proxy.breaks[:] = [lost, lost] if name == "no-answer" else []
    act(browser)
