"""What is missing or wrong is said at its place, with the focus there: nothing chosen, and a supplier's number in the address."""
from tests.page.forms import check
from tests.page.stage import ALPHA, RETAILER, Stage, interchange, order, signed_in

# of what has the focus: the group that it is in, and what is said there
CHOICE = """const it = document.activeElement;
    return [it.type, it.closest('fieldset')?.className, document.getElementById(it.getAttribute('aria-describedby'))?.textContent]"""
PATHS = "return performance.getEntriesByType('resource').map(it => new URL(it.name).pathname).filter(it => it.startsWith('/p/'))"
# what an address names as a supplier, and is none
WRONG = ("4012345500005", "..", "../4012345500004", "4012345500004/../../x", "%00", "x y")


def no_order(browser, stage):
    signed_in(browser, stage, ALPHA)
    browser.run("location.hash = 'despatch'")
    browser.type(browser.labelled("SSCC"), "340123455000000012")
    stage.sent.clear()
    check(browser, "despatch advice")
    browser.until_says("Choose at least one order.", ".orders")
    assert browser.run(CHOICE) == ["checkbox", "orders", "Choose at least one order."], browser.run(CHOICE)
    assert stage.sent == []
    # once one is chosen, it is no longer said
    browser.keys("space")
    assert browser.text(".orders .wrong") == "" and "Put something on this pallet" not in browser.text()


def no_answer(browser, stage):
    """The same of an order's lines: the focus goes to the first choice."""
    signed_in(browser, stage, ALPHA)
    browser.run("location.hash = 'answer/1'")
    stage.sent.clear()
    check(browser, "answer")
    browser.until_says("Choose an answer for at least one line.")
    assert browser.run("return [document.activeElement.type, document.activeElement.value]") == ["radio", "accepted"]
    assert stage.sent == []


def suppliers_of_addresses(browser, stage):
    """A path of the hub is asked only with a GLN in it, and the field says what is wrong with any other number."""
    signed_in(browser, stage, RETAILER)
    for text in WRONG:
        for screen in ("supplier/{}", "cancel/{}/S1/1"):
            browser.run("location.hash = 'upload'")
            browser.one(".drop")
            browser.run("location.hash = arguments[0].replace('{}', encodeURIComponent(arguments[1]))", screen, text)
            browser.until_says("A GLN has 13 digits")
            label = "return document.activeElement.labels?.[0]?.textContent"
            assert browser.run(label) == "The supplier's GLN", (screen, text, browser.run(label))
    paths = browser.run(PATHS)
    assert not [it for it in paths if "/status/" in it and it != f"/p/{RETAILER}/status/{RETAILER}"], paths


def silent(browser, program):
    with Stage(program) as stage:
        for number in ("S1", "S2"):
            stage.upload(RETAILER, interchange(RETAILER, number, order(number, [7])))
        no_order(browser, stage)
        no_answer(browser, stage)
        suppliers_of_addresses(browser, stage)
        assert browser.complaints() == []
    return f"no order and no answer chosen, and {len(WRONG)} numbers in addresses that are no GLN"


TRIALS = {"nothing is silent": silent}
