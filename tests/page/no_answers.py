"""What is no answer of the hub, though something came: the same is sent again, and nothing else in its place."""
import time

from tests.page.breaks import alike, lost
from tests.page.driver import wait
from tests.page.forms import check, send
from tests.page.stage import ALPHA, RETAILER, Stage, interchange, order, sign_in

PIECES = 30


def answer(status, body, *fields, does=False):
    """The hub does it or not, and this is answered."""

    def answering(handler, request):
        if does:
            handler.passed(request)
        head = [f"HTTP/1.1 {status}", f"Content-Length: {len(body)}", "Connection: close", *fields]
        handler.cut(("\r\n".join(head) + "\r\n\r\n" + body).encode())

    return answering


def form(browser, stage, quantity=PIECES):
    sign_in(browser, stage, RETAILER)
    browser.one("nav a[aria-current]")
    browser.run("location.hash = arguments[0]", f"cancel/{ALPHA}/N1/1")
    browser.type(browser.labelled("Quantity to cancel"), str(quantity))
    stage.sent.clear()


def cancelled(stage):
    line = next(it for it in stage.ask(ALPHA, "status").splitlines() if it.startswith("L N1 "))
    return int(line.split()[8])


def unreadable(browser, stage):
    """A page of somebody else's, with 200, in the place of the hub's answer: the cancellation is done once."""
    form(browser, stage)
    page = answer("200 OK", "<html>Please log in</html>", does=True)
    stage.proxy.breaks[:] = [page, page]
    send(browser, "cancellation")
    browser.until_says("What came back is not a reply of the hub.")
    browser.until_says("No reply from the hub")
    browser.until_says("Please log in")
    assert browser.run("return document.querySelector('form fieldset').disabled") is True
    browser.press("Send the same again")
    browser.until_says("The hub had it already")
    alike(stage, 3)
    assert cancelled(stage) == PIECES, cancelled(stage)


def too_slow(browser, stage):
    form(browser, stage, 1)
    stage.proxy.breaks[:] = [answer("408 Request Timeout", "timeout\n")]
    send(browser, "cancellation")
    browser.until_says("It took too long to reach the hub: your connection is slow (408).")
    browser.until_says("Accepted: the hub has taken it")
    alike(stage, 2)
    assert cancelled(stage) == PIECES + 1, cancelled(stage)


def too_many(browser, stage):
    """Turned away before the hub, and asked to wait: it is sent then, and not before."""
    form(browser, stage, 1)
    stage.proxy.breaks[:] = [answer("429 Too Many Requests", "too many\n", "Retry-After: 3")]
    send(browser, "cancellation")
    browser.until_says("Too many requests came from your network address (429). It was not done. The page sends it by itself, at ")
    begun = time.monotonic()
    browser.until_says("Accepted: the hub has taken it")
    assert 2 < time.monotonic() - begun < 8, time.monotonic() - begun
    alike(stage, 2)
    assert cancelled(stage) == PIECES + 2, cancelled(stage)


def busy(browser, stage):
    """Asked to wait twice: the button does not send before that either."""
    form(browser, stage, 1)
    stage.proxy.breaks[:] = [answer("503 Service Unavailable", "busy\n", "Retry-After: 1"), answer("503 No", "busy\n", "Retry-After: 3")]
    send(browser, "cancellation")
    browser.until_says("You are asked to wait until")
    begun = time.monotonic()
    browser.press("Send the same again")
    browser.until_says("The hub is busy (503). The page sends the very same again, by itself, at ")
    browser.until_says("Accepted: the hub has taken it")
    assert time.monotonic() - begun > 1.5, time.monotonic() - begun
    alike(stage, 3)
    assert cancelled(stage) == PIECES + 3, cancelled(stage)


def denied_after_a_break(browser, stage):
    """A denial says nothing about the try before it."""
    form(browser, stage, 1)
    stage.proxy.breaks[:] = [lost, answer("403 Forbidden", "denied\n")]
    send(browser, "cancellation")
    browser.until_says("No reply from the hub")
    browser.until_says("The last time: Denied")
    browser.press("Send the same again")
    browser.until_says("The hub had it already")
    alike(stage, 3)
    assert cancelled(stage) == PIECES + 4, cancelled(stage)
    # denied at the first try, it was not done, and the form can be changed
    form(browser, stage, 1)
    stage.proxy.breaks[:] = [answer("403 Forbidden", "denied\n")]
    send(browser, "cancellation")
    browser.until_says("Denied: the hub does not know this GLN with this key")
    wait(lambda: browser.run("return document.querySelector('form fieldset').disabled") is False, "a form that can be changed")
    check(browser, "cancellation")
    browser.until_says("You are cancelling 1 piece", ".summary")
    assert cancelled(stage) == PIECES + 4, cancelled(stage)


def no_answers(browser, program):
    with Stage(program) as stage:
        stage.upload(RETAILER, interchange(RETAILER, "N1", order("N1", [100])))
        for trial in (unreadable, too_slow, too_many, busy, denied_after_a_break):
            trial(browser, stage)
        complaints = browser.complaints()
        assert complaints == [], complaints
    return "5 cancellations that got no answer of the hub's, each done once"


TRIALS = {"answers that are none": no_answers}
