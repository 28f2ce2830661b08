"""The result of an upload names the order and the supplier of each message, as the file says them, also of a message that is refused."""
from tests.page.csv_files import CAUGHT, compared
from tests.page.driver import wait
from tests.page.forms import send_files
from tests.page.open_lines import elsewhere
from tests.page.stage import ALPHA, BETA, RETAILER, Stage, interchange, message, order, signed_in


def shown(browser, name):
    """The rows of a file's result."""
    card = "[...document.querySelectorAll('.upload')].find(it => it.querySelector('h2').textContent === arguments[0])"
    script = f"return [...({card}?.querySelectorAll('tbody tr') ?? [])].map(it => [...it.cells].map(cell => cell.innerText.trim()))"
    return wait(lambda: browser.run(script, name), f"the result of {name}", browser.text)


def receipt(number, reference):
    parties = ("DTM+137:20250607:102", f"NAD+BY+{RETAILER}::9", f"NAD+SU+{ALPHA}::9")
    line = ("CPS+1", "GIN+BJ+340123455000000012", "LIN+1++4000862141404:SRV", "QTY+194:1")
    return message("RECADV:D:01B:UN:EAN005", f"BGM+632+{number}+9", *parties, *line, reference=reference)


def names(browser, program):
    with Stage(program) as stage:
        stage.beside(f"{BETA};Beta\n")
        signed_in(browser, stage, RETAILER)
        # the second is refused for its own fault, the third since the hub has no such supplier; the last is an advice
        faulty = order("U2", [7], reference=2).replace("QTY+21:7", "QTY+21:0")
        foreign = order("<i>U3", [7], reference="C 3", supplier="4000000000006")
        text = interchange(RETAILER, "1", order("U1", [5], supplier=BETA), faulty, foreign, receipt("W9", 4))
        wanted = [
            ["1", "Order", "U1", f"Beta {BETA}"],
            ["2", "Order", "U2", ALPHA],
            ["C 3", "Order", "<i>U3", "4000000000006"],
            ["4", "Receiving advice", "W9", ALPHA],
        ]
        codes = ["Accepted", *(f"Refused: nothing was changed. {it} " for it in ("M08", "B02", "B14"))]
        browser.drop("a.edi", text)
        # the same in another spelling: the hub had the first already
        browser.drop("b.edi", elsewhere(text))
        browser.until_says("3 ORDERS, 1 RECADV", ".uploads")
        send_files(browser, 2)
        for name, first in (("a.edi", "Accepted"), ("b.edi", "The hub had it already")):
            found = shown(browser, name)
            assert [[it.replace("\n", " ") for it in row[:4]] for row in found] == wanted, found
            assert [row[4].startswith(it) for row, it in zip(found, [first, *codes[1:]])] == [True] * 4, found
        browser.run(CAUGHT)
        assert compared(browser) == 8
        browser.press("Sent", "a")
        browser.until_says(f"Message 2 (Order U2, supplier {ALPHA}): Refused", "table.sent")
        browser.until_says("Message 1 (Order U1, supplier Beta): Accepted", "table.sent")
        assert browser.complaints() == [] and browser.run("return document.querySelectorAll('main i').length") == 0
    return "4 messages in two spellings, each with its order or advice and its supplier"


TRIALS = {"uploads name order and supplier": names}
