"""What the hub refuses is told at the field that its code speaks of: the form was right when it was opened, and something else came
between."""
import threading
import time

from tests.page.driver import ELEMENT, wait
from tests.page.forms import change, check, fresh, send
from tests.page.stage import ALPHA, BETA, RETAILER, Stage, gtin, interchange, message, order, signed_in

PALLET = "340123455000000012"


def despatch_by_another(stage, reference, number, sscc, quantity, of="R1"):
    parties = ("DTM+137:20250604:102", f"RFF+ON:{of}", f"NAD+BY+{RETAILER}::9", f"NAD+SU+{ALPHA}::9")
    line = ("CPS+1", f"GIN+BJ+{sscc}", f"LIN+1++{gtin(1)}:SRV", f"QTY+12:{quantity}")
    stage.upload(ALPHA, interchange(ALPHA, reference, message("DESADV:D:01B:UN:EAN007", f"BGM+351+{number}+9", *parties, *line)))


def cancelled(stage, reference, quantity, of="R1", line=1):
    answer = stage.ask(RETAILER, "cancellations", f"{ALPHA}\n{reference}\n{of}\n{line}\n{quantity}\n")
    assert answer == "accepted\n", answer


def told_at(browser, label, code, said):
    """The code in words, and at this field, which has the focus, what is wrong."""
    browser.until_replied("interchange")
    browser.until_replied(f"refused {code}", ".delivery")
    browser.until_says(said, "form")
    focused(browser, label)


def focused(browser, label):
    """The field with this label has the focus, and is told to be wrong, once the status as it is now was asked for."""
    active = lambda: browser.run("const it = document.activeElement; return [it.labels?.[0]?.textContent, it.getAttribute('aria-invalid')]")
    wait(lambda: active() == [label, "true"], f"focus on {label}", active)


def form(browser, sscc=PALLET, quantity="10", number="D-NEW"):
    fresh(browser, "despatch")
    browser.type(browser.labelled("SSCC"), sscc)
    browser.type(browser.labelled("Number of the despatch"), number)
    browser.type(browser.labelled("Quantity of order R1, line 1"), quantity)


def despatches(browser, stage):
    field = "Quantity of order R1, line 1"
    form(browser, sscc="387123450000000012")
    send(browser, "despatch advice")
    told_at(browser, "SSCC", "B11", "under none of your company prefixes")
    form(browser)
    despatch_by_another(stage, "X1", "D-1", PALLET, 1)
    send(browser, "despatch advice")
    told_at(browser, "SSCC", "B12", "You have used this SSCC before.")
    form(browser, sscc="340123455000000029", number="D-2")
    despatch_by_another(stage, "X2", "D-2", "340123455000000036", 1)
    send(browser, "despatch advice")
    told_at(browser, "Number of the despatch", "B13", "You have sent a despatch advice of this number before")
    form(browser, sscc="340123455000000029", quantity="46")
    cancelled(stage, "Y1", 6)
    send(browser, "despatch advice")
    told_at(browser, field, "B10", "Only 40 are open, and 46 are on your pallets.")
    # mended, under the same form, it goes
    browser.type(browser.labelled(field), "5")
    send(browser, "despatch advice")
    browser.until_replied("1 DESADV accepted")


def checks_of_the_form(browser, stage):
    """What is wrong before anything is sent."""
    stage.sent.clear()
    value = lambda number=0: browser.run("return arguments[0].value", {ELEMENT: browser.labelled("SSCC", number)})
    form(browser, sscc="34012345500000004")
    assert value() == "340123455000000043", value()
    last, short, used = "The last digit should be 3", "An SSCC has 18 digits.", "You have used this SSCC before."
    for number, said in (("340123455000000044", last), ("3401234550", short), ("340123455000000012", used)):
        browser.type(browser.labelled("SSCC"), number)
        check(browser, "despatch advice")
        browser.until_says(said)
    browser.type(browser.labelled("Your GS1 company prefix"), "9999")
    browser.type(browser.labelled("SSCC"), "340123455000000043")
    check(browser, "despatch advice")
    browser.until_says("your company prefix 9999 should follow")
    browser.type(browser.labelled("Your GS1 company prefix"), "40123455")
    browser.press("Add a pallet")
    assert value(1) == "340123455000000050", value(1)
    browser.type(browser.labelled("SSCC", 1), "340123455000000043")
    check(browser, "despatch advice")
    browser.until_says("Another pallet of this form has the same SSCC.")
    browser.until_says("Put something on this pallet, or remove it.")
    assert stage.sent == [], stage.sent


def answers(browser, stage):
    """A line that is despatched in part and one that is answered meanwhile."""
    stage.upload(RETAILER, interchange(RETAILER, "R2", order("R2", [30, 40])))
    fresh(browser, "answer/2")
    for line, quantity in ((1, "5"), (2, "20")):
        change(browser, line, quantity)
    change(browser, 2, "41")
    check(browser, "answer")
    browser.until_says("Give a whole number from 0 to 40.")
    change(browser, 2, "20")
    despatch_by_another(stage, "X3", "D-3", "340123455000000081", 10, of="R2")
    send(browser, "answer")
    told_at(browser, "Changed quantity of line 1", "B08", "Give a whole number from 10 to 30.")
    change(browser, 1, "12")
    parties = ("DTM+137:20250604:102", "RFF+ON:R2", f"NAD+BY+{RETAILER}::9", f"NAD+SU+{ALPHA}::9")
    answer = message("ORDRSP:D:01B:UN:EAN009", "BGM+231+A2+4", *parties, f"LIN+1+5+{gtin(2)}:SRV", "RFF+ON:R2:2", "UNS+S")
    stage.upload(ALPHA, interchange(ALPHA, "X4", answer))
    send(browser, "answer")
    told_at(browser, "Changed quantity of line 2", "B07", "Line 2 is answered already: accepted.")
    # the line that still waits is answered by itself
    send(browser, "answer")
    browser.until_replied("1 ORDRSP accepted")
    lines = [it.split()[4:8] for it in stage.ask(ALPHA, "status").splitlines() if it.startswith("L R2 ")]
    assert lines == [["C", "30", "2", "18"], ["A", "40", "40", "0"]], lines


def cancellation(browser, **others):
    """A cancellation that is right, but for these."""
    fresh(browser, "cancel")
    right = {"The supplier's GLN": ALPHA, "Order number": "R2", "Line": "2", "Quantity to cancel": "1"}
    for name, value in {**right, **others}.items():
        browser.type(browser.labelled(name), value)


def cancellations(browser, stage):
    signed_in(browser, stage, RETAILER)
    wrong = (("The supplier's GLN", "7612345000008", "B02"), ("Order number", "R9", "B05"), ("Line", "3", "B06"))
    for label, text, code in wrong:
        cancellation(browser, **{label: text})
        send(browser, "cancellation")
        browser.until_replied(f"refused {code}")
        focused(browser, label)


def more_than_is_open(browser, stage):
    """Told before anything is sent, by what is open at that moment; what another cancels before the second press the hub refuses."""
    label = "Quantity to cancel"
    stage.sent.clear()
    cancellation(browser, **{label: "41"})
    check(browser, "cancellation")
    browser.until_says("Only 40 pieces are open, as of ")
    focused(browser, label)
    # what was open a moment ago is asked for again by each press
    browser.type(browser.labelled(label), "40")
    cancelled(stage, "Y2", 3, of="R2", line=2)
    check(browser, "cancellation")
    browser.until_says("Only 37 pieces are open, as of ")
    browser.until_says(f"Of article {gtin(2)}, 37 pieces are open.")
    focused(browser, label)
    browser.type(browser.labelled(label), "37")
    check(browser, "cancellation")
    browser.until_says("You are cancelling 37 pieces", ".summary")
    assert stage.sent == [], stage.sent
    cancelled(stage, "Y3", 1, of="R2", line=2)
    browser.press("Send cancellation")
    browser.until_replied("refused B17")
    browser.until_says("Only 36 pieces are open, as of ")
    focused(browser, label)
    # of another line nothing is known yet
    browser.type(browser.labelled("Line"), "1")
    browser.until_says("At most what is open.")
    browser.type(browser.labelled("Line"), "2")
    cancelled(stage, "Y4", 36, of="R2", line=2)
    check(browser, "cancellation")
    browser.until_says("Nothing of this line is open any more, as of ")
    assert len(stage.sent) == 1, stage.sent


def while_nobody_answers(browser, stage):
    """If the hub does not say what is open now, the page goes by what it said before, and says so; of a line that it does not know it
    sends what was typed."""
    label = "Quantity to cancel"
    gate = threading.Event()
    path = f"/p/{RETAILER}/status/{ALPHA}"
    fresh(browser, f"cancel/{ALPHA}/R1/1")
    browser.until_says("35 pieces are open.")
    stage.proxy.instead[path] = lambda handler, body: gate.wait(60) and handler.passed(body)
    for text, said in (("36", "Only 35 pieces are open, as of "), ("35", "35 pieces were open at ")):
        browser.type(browser.labelled(label), text)
        check(browser, "cancellation")
        browser.until_says(said)
    browser.until_says("; the hub does not reply just now.", ".summary")
    browser.press("Change something")
    browser.type(browser.labelled("Line"), "7")
    check(browser, "cancellation")
    browser.until_says(f"You are cancelling 35 pieces: order R1, line 7, of supplier {ALPHA}.", ".summary")
    browser.press("Change something")
    # what is typed while the page asks is checked by the next press
    browser.type(browser.labelled("Line"), "1")
    browser.type(browser.labelled(label), "3")
    check(browser, "cancellation")
    browser.type(browser.labelled(label), "33")
    gate.set()
    del stage.proxy.instead[path]
    time.sleep(4)
    assert not browser.run("return document.querySelector('.summary').checkVisibility()")
    check(browser, "cancellation")
    browser.until_says("You are cancelling 33 pieces of article", ".summary")
    browser.until_says("35 pieces are open at the moment.", ".summary")


def refusals(browser, program):
    with Stage(program) as stage:
        stage.upload(RETAILER, interchange(RETAILER, "R1", order("R1", [48])))
        signed_in(browser, stage, ALPHA)
        for trial in (despatches, checks_of_the_form, answers, cancellations, more_than_is_open, while_nobody_answers):
            trial(browser, stage)
        signed_in(browser, stage, BETA)
        browser.run("location.hash = 'despatch'")
        browser.until_says("Nothing is open")
        complaints = browser.complaints()
        assert complaints == [], complaints
    return "10 refusals told at their fields, and 12 told before anything is sent"


TRIALS = {"refusals at their fields": refusals}
