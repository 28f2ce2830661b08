"""Nothing is sent by Enter or by one press: Enter goes on to the next field, and a summary before the second press says what is sent."""
from tests.page.driver import ELEMENT, wait
from tests.page.forms import change, check
from tests.page.screens import furnished
from tests.page.stage import ALPHA, RETAILER, Stage, gtin, signed_in

FOCUSED = "const it = document.activeElement; return (it.labels?.[0] ?? it).textContent.trim()"
OFFERED = "return [...document.querySelectorAll('main button, main summary')].flatMap(it => it.checkVisibility() ? [it.textContent] : [])"


def focus(browser, label):
    wait(lambda: browser.run(FOCUSED) == label, f"focus on {label}", lambda: browser.run(FOCUSED))


def cancellation(browser, stage):
    """As a scanner types: each text ends with Enter."""
    signed_in(browser, stage, RETAILER)
    browser.press("Cancel lines", "a")
    fields = (("The supplier's GLN", ALPHA), ("Order number", "128591"), ("Line", "2"), ("Quantity to cancel", "5"))
    after = [label for label, _ in fields[1:]] + ["Check cancellation"]
    browser.click(browser.labelled("The supplier's GLN"))
    stage.sent.clear()
    for (label, text), then in zip(fields, after, strict=True):
        focus(browser, label)
        browser.keys(*text, "enter")
        assert stage.sent == [], f"Enter in {label} sends {stage.sent}"
        focus(browser, then)
    # a second Enter shows the summary, and a third one does nothing: the button that sends has not the focus
    browser.keys("enter")
    of_it = f"of article {gtin(2)}: order 128591, line 2, of supplier {ALPHA}. 25 pieces are open at the moment."
    browser.until_says(f"You are cancelling 5 pieces {of_it}", ".summary")
    focus(browser, "Before you send it")
    browser.keys("enter", "enter")
    browser.press("Change something")
    browser.type(browser.labelled("Quantity to cancel"), "6")
    check(browser, "cancellation")
    browser.until_says(f"You are cancelling 6 pieces {of_it}")
    # of a line that the hub does not know the summary says what was typed
    browser.press("Change something")
    browser.type(browser.labelled("Line"), "77")
    browser.type(browser.labelled("Quantity to cancel"), "1")
    check(browser, "cancellation")
    browser.until_says(f"You are cancelling 1 piece: order 128591, line 77, of supplier {ALPHA}.", ".summary")
    browser.press("Change something")
    browser.type(browser.labelled("Line"), "2")
    browser.type(browser.labelled("Quantity to cancel"), "6")
    check(browser, "cancellation")
    browser.until_says("You are cancelling 6 pieces")
    # the second click of a double click on the button before does not send
    browser.run("[...document.querySelectorAll('.summary button')][0].dispatchEvent(new MouseEvent('click', { detail: 2, bubbles: true }))")
    assert stage.sent == [], stage.sent
    browser.press("Send cancellation")
    browser.until_says("Accepted: the hub has taken it")
    # what was sent cannot be checked or sent from here again
    assert not {"Check cancellation", "Send cancellation", "Show what will be sent"} & set(browser.run(OFFERED)), browser.run(OFFERED)
    assert len(stage.sent) == 1 and stage.sent[0][1].endswith(b"\n128591\n2\n6\n"), stage.sent


def answer(browser, stage):
    signed_in(browser, stage, ALPHA)
    browser.run("location.hash = 'answer/4'")
    browser.press("Accept all 10 lines")
    change(browser, 2, "40")
    stage.sent.clear()
    browser.keys("enter")
    assert stage.sent == [], f"Enter sends {stage.sent}"
    # from line 2 on to the answer of line 3, which is chosen
    focus(browser, "Accept")
    check(browser, "answer")
    browser.until_says("You are answering order 128590: 9 lines accepted, 1 changed from 60 to 40.", ".summary")
    browser.until_says("Line 2: from 60 to 40", ".summary")
    assert browser.run("return document.querySelector('form fieldset').disabled") is True
    browser.press("Send answer")
    browser.until_replied("1 ORDRSP accepted")
    assert len(stage.sent) == 1, stage.sent


def despatch(browser, stage):
    browser.run("location.hash = 'despatch/5'")
    browser.click(browser.labelled("SSCC"))
    browser.run("document.activeElement.select()")
    stage.sent.clear()
    browser.keys(*"34012345500000005", "enter")
    assert stage.sent == [], f"Enter sends {stage.sent}"
    # what a field does when it is left is done
    wait(lambda: browser.run("return arguments[0].value", {ELEMENT: browser.labelled("SSCC")}) == "340123455000000050", "check digit")
    browser.press("Load all that is left on this pallet")
    browser.type(browser.labelled("Number of the despatch"), "D-77")
    check(browser, "despatch advice")
    browser.until_says("You are announcing despatch D-77: 1 pallet, 69 pieces of order 128591.", ".summary")
    browser.until_says("340123455000000050: 69 pieces, 2 lines", ".summary")
    browser.press("Send despatch advice")
    browser.until_replied("1 DESADV accepted")


def summaries(browser, program):
    with Stage(program) as stage:
        furnished(stage)
        for trial in (cancellation, answer, despatch):
            trial(browser, stage)
        complaints = browser.complaints()
        assert complaints == [], complaints
    return "3 forms, none sent by Enter or by one press"


TRIALS = {"enter moves on and never sends": summaries}
