"""Orders whose numbers differ only in blanks at the end: they stay apart on the screen, in the choice of what is despatched, and in what is
sent."""
from urllib.parse import quote

from tests.page.driver import wait
from tests.page.forms import send
from tests.page.stage import ALPHA, RETAILER, Stage, gtin, interchange, message, order, signed_in

PLAIN, BLANK, TWO = "E1", "E1 ", "E1  "
CHOICES = "return [...document.querySelectorAll('.orders label')].map(it => it.querySelector('.exact').textContent)"


def order_of_lines(number, lines):
    """An order with these line numbers."""
    named = [it for line, quantity in lines for it in (f"LIN+{line}++{gtin(line)}:SRV", f"QTY+21:{quantity}")]
    head = [f"BGM+220+{number}+9", "DTM+137:20250603:102", f"NAD+BY+{RETAILER}::9", f"NAD+SU+{ALPHA}::9"]
    return message("ORDERS:D:01B:UN:EAN010", *head, *named, "UNS+S")


def lines_of(stage, number):
    """Answer, open and despatched of the lines of all orders that are called so, but for blanks at the end, in the report's order."""
    lines = [it for it in stage.ask(ALPHA, "status").splitlines() if it.startswith(f"L {number:<35} ")]
    return [(it[60], *(int(quantity) for quantity in it[61:].split()[1:5:3])) for it in lines]


def shown(browser, stage):
    """Mailbox, order and status say which is which."""
    signed_in(browser, stage, ALPHA)
    browser.until_says("E1  (1 blank at its end)", "table.mailbox")
    browser.until_says("E1   (2 blanks at its end)", "table.mailbox")
    for place, open_quantity, title in ((1, ["10", "20"], "Order E1"), (2, ["30"], "Order E1  (1 blank at its end)"), (3, ["40"], "")):
        browser.run("location.hash = arguments[0]", f"entry/{place}")
        browser.until_says("2 blanks" if place == 3 else title, "h1")
        rows = [it for it in browser.rows("table") if not it[0].startswith("Sum")]
        assert [it[3] for it in rows] == open_quantity, rows
    browser.run("location.hash = 'status'")
    browser.one("table.lines")
    rows = [(it[0], it[1], it[4]) for it in browser.rows("table.lines tbody")]
    first = [("E1", "1", "10"), ("E1", "2", "20"), ("E1  (1 blank at its end)", "1", "30"), ("E1   (2 blanks at its end)", "1", "40")]
    assert rows[:4] == first, rows
    # also where the line numbers go on from one order to the other
    assert rows[4:] == [("E2", "1", "1"), ("E2", "2", "2"), ("E2  (1 blank at its end)", "3", "3")], rows


def answered(browser, stage):
    """The answer to one of them changes nothing of the others."""
    browser.run("location.hash = 'answer/2'")
    browser.press("Accept the line")
    send(browser, "answer")
    browser.until_replied("1 ORDRSP accepted")
    assert [it[0] for it in lines_of(stage, "E1")] == ["W", "W", "A", "W"], lines_of(stage, "E1")


def despatched(browser, stage):
    """Each is a choice of its own, also in a tab that has not seen the mailbox, where all is marked as taken."""
    for place in range(1, 6):
        stage.ask(ALPHA, f"mail/item/{place}/taken", "")
    signed_in(browser, stage, ALPHA)
    browser.run("location.hash = 'despatch'")
    browser.one(".orders input")
    assert browser.run(CHOICES) == [PLAIN, BLANK, TWO, "E2", "E2 "], browser.run(CHOICES)
    browser.click(browser.all(".orders input")[1])
    rows = browser.rows("table.contents")
    assert [(it[0], it[3]) for it in rows] == [("E1  (1 blank at its end)", "30")], rows
    browser.type(browser.labelled("SSCC"), "340123455000000012")
    browser.press("Load all that is left on this pallet")
    stage.sent.clear()
    send(browser, "despatch advice")
    browser.until_replied("1 DESADV accepted")
    sent = stage.sent[0][1].decode()
    assert "QTY+12:30'RFF+ON:E1 :1'CNT" in sent and sent.count("RFF+ON") == 1, sent
    assert [it[1] for it in lines_of(stage, "E1")] == [10, 20, 0, 40], lines_of(stage, "E1")


def seen_by_the_retailer(browser, stage):
    """The retailer sees that there are several; which one is cancelled it types itself."""
    signed_in(browser, stage, RETAILER)
    browser.run("location.hash = arguments[0]", f"supplier/{ALPHA}")
    browser.one("table.lines a")
    rows = [it[1] for it in browser.rows("table.lines tbody")]
    said = [f"E1 (order {it} of those that differ in blanks at the end)" for it in (1, 1, 2, 3)]
    assert rows[:4] == said, rows
    links = browser.run("return [...document.querySelectorAll('table.lines a')].map(it => it.getAttribute('href'))")
    assert set(links[:3]) == {f"#cancel/{ALPHA}"} and links[3:] == [f"#cancel/{ALPHA}/{quote('E2')}/{it}" for it in (1, 2, 3)], links
    browser.run("document.querySelector('table.lines a').click()")
    wait(lambda: browser.run("return document.querySelectorAll('form input')[0]?.value") == ALPHA, "the supplier's GLN")
    for label, text in (("Order number", TWO), ("Line", "1"), ("Quantity to cancel", "4")):
        browser.type(browser.labelled(label), text)
    send(browser, "cancellation")
    browser.until_says("Accepted: the hub has taken it")
    assert [it[1] for it in lines_of(stage, "E1")] == [10, 20, 0, 36], lines_of(stage, "E1")


def blanks(browser, program):
    with Stage(program) as stage:
        for place, (number, quantities) in enumerate(((PLAIN, [10, 20]), (BLANK, [30]), (TWO, [40]))):
            stage.upload(RETAILER, interchange(RETAILER, f"E{place}", order(number, quantities)))
        stage.upload(RETAILER, interchange(RETAILER, "E8", order_of_lines("E2", ((1, 1), (2, 2)))))
        stage.upload(RETAILER, interchange(RETAILER, "E9", order_of_lines("E2 ", ((3, 3),))))
        shown(browser, stage)
        answered(browser, stage)
        despatched(browser, stage)
        seen_by_the_retailer(browser, stage)
        assert browser.complaints() == []
    return "5 orders under 2 numbers, but for blanks at the end, each shown, and one answered, despatched and cancelled"


TRIALS = {"numbers that end in blanks": blanks}
