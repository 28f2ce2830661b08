"""A hub or a proxy that stops in the midst of a send: the very same bytes come again, once by themselves and then by the button, and
nothing is done twice."""
import time

from tests.page.forms import check, send, send_files
from tests.page.stage import ALPHA, BETA, RETAILER, Stage, interchange, order, sign_in

SAFE = "Sending it again is safe"


def lost(handler, body):
    """The hub does it, and the answer is lost."""
    handler.passed(body)
    handler.cut()


def half(handler, body):
    """The hub does it, and half of the answer comes."""
    _, answer = handler.passed(body)
    handler.cut(b"HTTP/1.1 200 OK\r\nContent-Length: %d\r\n\r\n" % len(answer) + answer[: len(answer) // 2])


def late(handler, body):
    """The hub does it, and the answer is lost after a while."""
    time.sleep(1)
    lost(handler, body)


def away(handler, body):
    """Nothing reaches the hub."""
    handler.cut()


def begun(browser, stage, number):
    """An order of two lines, and the form of its answer, with all accepted."""
    stage.upload(RETAILER, interchange(RETAILER, number, order(number, [48, 24])))
    sign_in(browser, stage, ALPHA)
    browser.press(number, "a")
    browser.press("Answer", "a")
    browser.press("Accept all 2 lines")
    stage.sent.clear()


def alike(stage, times):
    """So many sends, each with the same bytes."""
    bodies = {body for _, body in stage.sent}
    assert len(stage.sent) == times and len(bodies) == 1, f"{len(stage.sent)} sends of {len(bodies)} texts, not {times} of one"


def answered_lines(stage, number, letter):
    lines = [it.split()[4] for it in stage.ask(ALPHA, "status").splitlines() if it.startswith(f"L {number} ")]
    assert lines == [letter] * 2, lines


def by_itself(browser, stage):
    for number, breaks, said in (("L1", lost, "repeated"), ("L2", half, "repeated"), ("L3", away, "accepted")):
        begun(browser, stage, number)
        stage.proxy.breaks[:] = [breaks]
        send(browser, "answer")
        browser.until_says("The connection broke. The page sends the very same again, by itself. " + SAFE)
        browser.until_replied(f"1 ORDRSP {said}")
        alike(stage, 2)
        answered_lines(stage, number, "A")


def by_the_button(browser, stage):
    begun(browser, stage, "L4")
    stage.proxy.breaks[:] = [lost, lost, away]
    send(browser, "answer")
    browser.until_says("No reply from the hub")
    browser.until_says(SAFE)
    alike(stage, 2)
    # until an answer comes nothing else can be sent in its place, and the browser asks before the tab is left
    leaves = "return dispatchEvent(new Event('beforeunload', { cancelable: true }))"
    assert browser.run("return document.querySelector('form fieldset').disabled") is True and not browser.run(leaves)
    browser.press("Send the same again")
    browser.until_says("was sent 3 times")
    browser.press("Send the same again")
    browser.until_says("The hub had it already")
    alike(stage, 4)
    assert browser.run(leaves)
    answered_lines(stage, "L4", "A")


def a_hub_that_is_killed(browser, stage):
    """The hub dies at the very send; once it runs again, the button brings it there."""
    begun(browser, stage, "L5")

    def killed(handler, body):
        stage.end_hub()
        return handler.passed(body)

    stage.proxy.breaks[:] = [killed]
    send(browser, "answer")
    browser.until_says("No reply from the hub")
    alike(stage, 2)
    stage.begin_hub()
    browser.press("Send the same again")
    browser.until_replied("1 ORDRSP accepted")
    alike(stage, 3)
    answered_lines(stage, "L5", "A")


def a_screen_that_is_left(browser, stage):
    """What has no answer is told on every screen, also where the screen was left before that, and can be sent again there."""
    begun(browser, stage, "L6")
    stage.proxy.breaks[:] = [late, lost]
    send(browser, "answer")
    browser.press("Status", "a")
    browser.until_says("Your answer to order L6 was sent, and no reply came.", "#banner")
    # nothing new is sent before that
    browser.press("Mailbox", "a")
    browser.press("L6", "a")
    browser.press("Answer", "a")
    browser.until_says("No line of this order waits")
    browser.press("Despatch", "a")
    browser.type(browser.labelled("SSCC"), "340123455000000012")
    browser.run("document.querySelector('.orders input').click()")
    browser.press("Load all that is left on this pallet")
    check(browser, "despatch advice")
    browser.until_says("Something that you sent before has no reply yet.")
    alike(stage, 2)
    browser.press("Send the same again")
    browser.until_replied("1 ORDRSP repeated", "#banner")
    alike(stage, 3)


def a_cancellation(browser, stage):
    sign_in(browser, stage, RETAILER)
    browser.press("Cancel lines", "a")
    for label, text in (("The supplier's GLN", ALPHA), ("Order number", "L1"), ("Line", "1"), ("Quantity to cancel", "8")):
        browser.type(browser.labelled(label), text)
    stage.sent.clear()
    stage.proxy.breaks[:] = [lost, half]
    send(browser, "cancellation")
    browser.until_says("No reply from the hub")
    browser.press("Send the same again")
    browser.until_says("The hub had it already")
    alike(stage, 3)
    line = next(it for it in stage.ask(ALPHA, "status").splitlines() if it.startswith("L L1 "))
    assert line.split()[5:] == ["48", "40", "0", "8", "0"], line
    # more than is left by then is refused, and told at the field
    browser.press("Status", "a")
    browser.type(browser.labelled("The supplier's GLN"), ALPHA)
    browser.press("Show status")
    browser.press("Cancel…", "a")
    browser.type(browser.labelled("Quantity to cancel"), "40")
    check(browser, "cancellation")
    browser.until_says("You are cancelling 40 pieces", ".summary")
    assert stage.ask(RETAILER, "cancellations", f"{ALPHA}\nM1\nL1\n1\n1\n") == "accepted\n"
    browser.press("Send cancellation")
    browser.until_says("More is cancelled than is open.")
    browser.until_says("Only 39 pieces are open, as of ")
    assert browser.run("return document.activeElement.getAttribute('aria-invalid')") == "true"
    assert browser.run("return document.activeElement.labels[0].textContent") == "Quantity to cancel"


def an_upload(browser, stage):
    sign_in(browser, stage, RETAILER)
    browser.one(".drop")
    stage.sent.clear()
    stage.proxy.breaks[:] = [away, away]
    text = interchange(RETAILER, "9001", order("U1", [5], supplier=BETA), order("U1", [6], supplier=BETA, reference=2))
    browser.drop("u.edi", text)
    send_files(browser)
    browser.until_says("No reply from the hub")
    browser.press("Send the same again")
    browser.until_says("Accepted")
    alike(stage, 3)
    rows = browser.rows("table")
    named = ["Order", "U1", BETA]
    assert [it[:4] for it in rows] == [["1", *named], ["2", *named]] and rows[1][4].startswith("Refused: nothing was changed. B04 "), rows
    stage.sent.clear()
    browser.drop("long.edi", "x" * 1_048_577)
    browser.until_says("Too large: an interchange has at most 1,048,576 bytes.")
    assert stage.sent == [], len(stage.sent)


def breaks(browser, program):
    with Stage(program) as stage:
        for trial in (by_itself, by_the_button, a_hub_that_is_killed, a_screen_that_is_left, a_cancellation, an_upload):
            trial(browser, stage)
        complaints = browser.complaints()
        assert complaints == [], complaints
    return "8 sends that broke, each done once"


TRIALS = {"connections that break": breaks}
