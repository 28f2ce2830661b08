"""The menu's item of the screen that is shown loads it again, and asks first if typed work is left. After one document comes another."""
from tests.page.driver import ELEMENT, wait
from tests.page.forms import asked, send
from tests.page.stage import ALPHA, RETAILER, Stage, interchange, order, signed_in


def loads_again(browser, stage):
    for screen, of, said in (("Mailbox", "M2", "M2"), ("Status", "M3", "M3"), ("Despatch", "M4", "M4")):
        browser.press(screen, "a")
        browser.one("main:not([aria-busy])")
        browser.until_says("M1")
        stage.upload(RETAILER, interchange(RETAILER, of, order(of, [10])))
        assert said not in browser.text()
        browser.press(screen, "a")
        browser.until_says(said)


def asks_first(browser, stage):
    """The screen of a form is loaded again with what was typed."""
    browser.run("document.querySelector('.orders input').click()")
    browser.type(browser.labelled("Quantity of order M1, line 1"), "7")
    stage.upload(RETAILER, interchange(RETAILER, "M5", order("M5", [10])))
    browser.press("Despatch", "a")
    asked(browser)
    browser.press("Stay")
    assert "M5" not in browser.text()
    browser.press("Despatch", "a")
    asked(browser)
    browser.press("Reload")
    browser.until_says("M5")
    assert browser.run("return arguments[0].value", {ELEMENT: browser.labelled("Quantity of order M1, line 1")}) == "7"


def another(browser, stage):
    browser.type(browser.labelled("SSCC"), "340123455000000012")
    send(browser, "despatch advice")
    browser.until_replied("1 DESADV accepted")
    browser.press("Another despatch")
    wait(lambda: not browser.all(".notice.good") and browser.all(".pallet"), "an empty form")
    assert not browser.run("return document.querySelector('form fieldset').disabled")
    signed_in(browser, stage, RETAILER)
    browser.run("location.hash = arguments[0]", f"cancel/{ALPHA}/M1/1")
    browser.type(browser.labelled("Quantity to cancel"), "1")
    send(browser, "cancellation")
    browser.until_says("Accepted: the hub has taken it")
    browser.press("Another cancellation")
    wait(lambda: browser.run("return arguments[0].value", {ELEMENT: browser.labelled("Order number")}) == "", "an empty form")
    assert browser.run("return arguments[0].value", {ELEMENT: browser.labelled("The supplier's GLN")}) == ALPHA


def menu(browser, program):
    with Stage(program) as stage:
        stage.upload(RETAILER, interchange(RETAILER, "M1", order("M1", [10])))
        signed_in(browser, stage, ALPHA)
        for trial in (loads_again, asks_first, another):
            trial(browser, stage)
        complaints = browser.complaints()
        assert complaints == [], complaints
    return "4 screens loaded again, and another document after each"


TRIALS = {"the menu loads again": menu}
