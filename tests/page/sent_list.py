"""What was sent is never lost from sight: not if the screen is left, not if something else fails, not by a reload."""
import os
import time

from tests.page.breaks import alike, answered_lines, begun, late, lost
from tests.page.driver import wait
from tests.page.drafts import back_in
from tests.page.forms import send
from tests.page.stage import ALPHA, Stage


def left_while_sending(browser, stage):
    """The answer comes when another screen is shown: it is said there, and in the list."""
    begun(browser, stage, "V1")
    stage.proxy.breaks[:] = [slow]
    send(browser, "answer")
    browser.run("location.hash = 'mailbox'")
    browser.until_replied("1 ORDRSP accepted", "#banner")
    browser.until_says("Your answer to order V1", "#banner")
    browser.press("Sent", "a")
    browser.until_says("Your answer to order V1", "table.sent")
    browser.until_says("Accepted: the hub has taken it, and keeps it.", "table.sent")
    # it is said once
    wait(lambda: not browser.text("#banner").strip(), "end of the notice", lambda: browser.text("#banner"))


def slow(handler, body):
    """The hub's answer takes a while."""
    time.sleep(1)
    return handler.passed(body)


def held_back(handler, body):
    """The hub does it, and its answer is lost after a while."""
    handler.passed(body)
    time.sleep(1)
    handler.cut()


def downloaded(browser, stage):
    browser.developer("Browser.setDownloadBehavior", behavior="allow", downloadPath=stage.folder)
    browser.press("Download .edi")
    files = lambda: [it for it in os.listdir(stage.folder) if it.endswith(".edi")]
    name = wait(files, "file that is downloaded")[0]
    with open(os.path.join(stage.folder, name), "rb") as file:
        assert file.read() == stage.sent[0][1]


def another_failure(browser, stage):
    """Something else fails while a document has no answer: both are said."""
    begun(browser, stage, "V2")
    stage.proxy.breaks[:] = [late, lost]
    send(browser, "answer")
    browser.press("Mailbox", "a")
    browser.until_says("Your answer to order V2 was sent, and no reply came.", "#banner")
    browser.named("a", "Sent (1 without a reply)")
    stage.end_hub()
    browser.press("Mark as read")
    browser.until_says("try again in a moment", "#banner")
    complaints = browser.complaints()
    assert complaints and all("502 the hub does not answer" in it for it in complaints), complaints
    browser.until_says("Your answer to order V2 was sent, and no reply came.", "#banner")
    stage.begin_hub()
    browser.named("button", "Send the same again")


def after_a_reload(browser, stage):
    """A reload keeps it too, with its button; and the form does not offer the same once more under another reference."""
    browser.ask("POST", "/refresh")
    back_in(browser, ALPHA)
    browser.until_says("Your answer to order V2 was sent, and no reply came.", "#banner")
    browser.press("Sent (1 without a reply)", "a")
    browser.until_says("No reply. It may have arrived or not.", "table.sent")
    browser.press("Send the same again")
    browser.until_says("The hub had it already", "table.sent")
    assert browser.run("return document.activeElement.className") == "verdict"
    bodies = [body for path, body in stage.sent if path.endswith("interchanges")]
    assert len(bodies) == 3 and len(set(bodies)) == 1, bodies
    answered_lines(stage, "V2", "A")
    rows = [it[1] for it in browser.rows("table.sent")]
    assert rows[0] == "Your answer to order V2", rows


def interrupted(browser, stage):
    """The page is loaded again while it sends."""
    begun(browser, stage, "V3")
    stage.proxy.breaks[:] = [held_back]
    send(browser, "answer")
    wait(lambda: not stage.proxy.breaks, "send")
    browser.ask("POST", "/refresh")
    back_in(browser, ALPHA)
    browser.run("location.hash = 'sent'")
    browser.until_says("The page was loaded again before a reply came.", "table.sent")
    browser.press("Send the same again")
    wait(lambda: "The hub had it already" in browser.rows("table.sent")[0][2], "answer to the latest")
    alike(stage, 2)
    browser.press("Sign out")
    browser.one("form.sign-in")
    assert browser.run("return sessionStorage.length") == 0


def sent_list(browser, program):
    with Stage(program) as stage:
        left_while_sending(browser, stage)
        downloaded(browser, stage)
        another_failure(browser, stage)
        after_a_reload(browser, stage)
        interrupted(browser, stage)
        complaints = browser.complaints()
        assert complaints == [], complaints
    return "3 answers whose screen was left, each with its verdict"


TRIALS = {"what was sent is not lost from sight": sent_list}
