"""Typed work is not lost: the page asks before it is left, and the tab keeps it until it is sent or the person signs out."""
from tests.page.driver import ELEMENT, wait
from tests.page.forms import ASKED, asked, change, check, send
from tests.page.stage import ALPHA, BETA, KEYS, RETAILER, Stage, gtin, interchange, message, order, signed_in

PALLETS = 33
# a browser whose store is full
FULL = """window.setItem = Storage.prototype.setItem;
    Storage.prototype.setItem = () => { throw new DOMException('full', 'QuotaExceededError'); }"""
DRAFTS = "return Object.keys(sessionStorage).filter(it => it.includes('.draft.'))"


def value(browser, label, number=0):
    return browser.run("return arguments[0].value", {ELEMENT: browser.labelled(label, number)})


def back_in(browser, who):
    """Signs in again after a reload, if the page asks for it."""
    browser.one("form.sign-in, nav a[aria-current]")
    if browser.all("form.sign-in"):
        browser.type(browser.labelled("GLN"), who)
        browser.type(browser.labelled("Key"), KEYS[who])
        browser.press("Sign in")
    browser.one("nav a[aria-current]")


def filled(browser):
    """A form with many pallets, each with so much of a line as its number is."""
    browser.type(browser.labelled("Your GS1 company prefix"), "40123455")
    browser.keys("tab")
    for _ in range(PALLETS - 1):
        browser.press("Add a pallet")
    wait(lambda: len(browser.all(".pallet")) == PALLETS, f"{PALLETS} pallets")
    quantities = """document.querySelectorAll('.pallet .contents input').forEach((it, place) => {
        it.value = place + 1; it.dispatchEvent(new Event('input', { bubbles: true })); })"""
    browser.run(quantities)
    browser.type(browser.labelled("Number of the despatch"), "D-33")


def is_filled(browser):
    wait(lambda: len(browser.all(".pallet")) == PALLETS, f"{PALLETS} pallets", lambda: browser.text())
    quantities = browser.run("return [...document.querySelectorAll('.pallet .contents input')].map(it => Number(it.value))")
    assert quantities == list(range(1, PALLETS + 1)), quantities
    ssccs = browser.run("return [...document.querySelectorAll('.pallet > .field:first-of-type input')].map(it => it.value)")
    assert len(set(ssccs)) == PALLETS and ssccs[0] == "340123455000000012", ssccs
    assert value(browser, "Number of the despatch") == "D-33"


def asks(browser):
    """The menu and Back ask, and to stay changes nothing."""
    browser.press("Mailbox", "a")
    assert asked(browser).endswith("is not sent yet"), asked(browser)
    browser.press("Stay")
    is_filled(browser)
    assert browser.address().endswith("#despatch"), browser.address()
    browser.run("history.back()")
    asked(browser)
    # Escape stays
    browser.keys("escape")
    wait(lambda: not browser.run(ASKED), "end of the question")
    is_filled(browser)
    assert browser.address().endswith("#despatch"), browser.address()
    # the browser asks before the tab is left
    assert browser.run("return dispatchEvent(new Event('beforeunload', { cancelable: true }))") is False


def kept(browser, stage):
    """What is left is there again when the screen is opened, also after a reload."""
    browser.press("Mailbox", "a")
    asked(browser)
    browser.press("Leave")
    browser.until_says("new entr")
    browser.press("Despatch", "a")
    browser.until_says("What you typed here before is back. It was not sent.")
    is_filled(browser)
    browser.ask("POST", "/refresh")
    back_in(browser, ALPHA)
    browser.until_says("What you typed here before is back.")
    is_filled(browser)
    # under its own name alone: another order's form is empty
    browser.press("Mailbox", "a")
    browser.press("Leave")
    browser.until_says("new entr")
    browser.run("location.hash = 'despatch/1'")
    wait(lambda: len(browser.all(".pallet")) == 1, "an empty form")
    assert "is back" not in browser.text()


def ended(browser, stage):
    """It is gone once it was sent; a refusal gives it back, also where the screen was left."""
    browser.press("Despatch", "a")
    is_filled(browser)
    assert len(browser.run(DRAFTS)) == 1
    send(browser, "despatch advice")
    browser.until_replied("1 DESADV accepted")
    assert browser.run(DRAFTS) == [], browser.run(DRAFTS)
    browser.press("Another despatch")
    wait(lambda: len(browser.all(".pallet")) == 1, "another form")
    browser.type(browser.labelled("Quantity of order K1, line 1"), "7")
    browser.run("document.querySelector('nav a[href=\"#mailbox\"]').click()")
    asked(browser)
    browser.press("Leave")
    browser.until_says("new entr")
    browser.press("Despatch", "a")
    browser.until_says("is back")
    assert value(browser, "Quantity of order K1, line 1") == "7"
    browser.press("Start from scratch")
    wait(lambda: browser.all(".pallet") and value(browser, "Quantity of order K1, line 1") == "", "an empty form")
    assert browser.run(DRAFTS) == [], browser.run(DRAFTS)
    # what was typed and deleted is no draft
    number = value(browser, "Number of the despatch")
    browser.type(browser.labelled("Number of the despatch"), "D-34")
    wait(lambda: len(browser.run(DRAFTS)) == 1, "a draft")
    browser.type(browser.labelled("Number of the despatch"), number)
    wait(lambda: browser.run(DRAFTS) == [], "no draft", lambda: browser.run(DRAFTS))


def its_own_lines(browser, stage):
    """An answer's choices come back to the lines for which they were made."""
    browser.run("location.hash = 'answer/2'")
    browser.until_says("Accept all 3 lines")
    browser.run("document.querySelectorAll('.choices')[1].querySelector('[value=refused]').click()")
    change(browser, 3, "4")
    wait(lambda: len(browser.run(DRAFTS)) == 1, "a draft")
    browser.run("location.hash = 'mailbox'")
    asked(browser)
    browser.press("Leave")
    browser.until_says("new entr")
    # meanwhile line 1 is answered by another, so line 2 is the first that waits
    parties = ("DTM+137:20250604:102", "RFF+ON:K2", f"NAD+BY+{RETAILER}::9", f"NAD+SU+{ALPHA}::9")
    answer = message("ORDRSP:D:01B:UN:EAN009", "BGM+231+AK2+4", *parties, f"LIN+1+5+{gtin(1)}:SRV", "RFF+ON:K2:1", "UNS+S")
    stage.upload(ALPHA, interchange(ALPHA, "AK2", answer))
    browser.run("location.hash = 'answer/2'")
    browser.until_says("is back")
    # a quantity can be typed where a change was chosen
    assert browser.run("return [...document.querySelectorAll('.answers .field input')].map(it => it.disabled)") == [True, False]
    check(browser, "answer")
    browser.until_says("1 line refused, 1 changed from 3,000 to 4.", ".summary")
    browser.until_says("Line 2: refused", ".summary")


def without_room(browser, stage):
    """If the browser has no room for a draft, the form says so, and so does the question before it is left."""
    said = "Your browser has no room to keep what you typed"
    browser.press("Change something")
    browser.run(FULL)
    change(browser, 3, "5")
    browser.until_says(said, "form")
    browser.run("location.hash = 'mailbox'")
    asked(browser)
    browser.until_says(said, "dialog")
    browser.press("Stay")
    browser.run("Storage.prototype.setItem = window.setItem")
    change(browser, 3, "4")
    wait(lambda: said not in browser.text("form"), "a draft that is kept again")
    check(browser, "answer")


def forgotten(browser, stage):
    """To sign out asks first, and forgets; another GLN never finds anything."""
    browser.press("Sign out")
    asked(browser)
    browser.press("Stay")
    browser.until_says("Line 2: refused", ".summary")
    browser.press("Sign out")
    asked(browser)
    browser.click(browser.all("dialog button")[1])
    browser.one("form.sign-in")
    assert browser.run("return sessionStorage.length") == 0
    signed_in(browser, stage, ALPHA)
    browser.run("location.hash = 'answer/2'")
    change(browser, 3, "4")
    wait(lambda: len(browser.run(DRAFTS)) == 1, "a draft")
    # the tab is taken over by another, without signing out
    others = "Object.keys(sessionStorage).filter(it => !it.includes('.draft.')).forEach(it => sessionStorage.removeItem(it))"
    browser.run(others)
    browser.go("about:blank")
    browser.go(stage.address)
    back_in(browser, BETA)
    assert browser.run(DRAFTS) == [], browser.run(DRAFTS)


def drafts(browser, program):
    with Stage(program) as stage:
        stage.upload(RETAILER, interchange(RETAILER, "K1", order("K1", [1000])))
        signed_in(browser, stage, ALPHA)
        browser.press("Despatch", "a")
        filled(browser)
        asks(browser)
        kept(browser, stage)
        ended(browser, stage)
        stage.upload(RETAILER, interchange(RETAILER, "K2", order("K2", [1000, 2000, 3000])))
        its_own_lines(browser, stage)
        without_room(browser, stage)
        forgotten(browser, stage)
        complaints = browser.complaints()
        assert complaints == [], complaints
    return f"a form with {PALLETS} pallets left by the menu, by Back and by a reload, and nothing of it lost"


TRIALS = {"typed work is kept": drafts}
