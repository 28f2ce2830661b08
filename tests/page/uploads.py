"""Files go in the order in which they were chosen. One that cannot be read holds up no other; one without an answer does, until it is
answered or the person continues with the rest."""
from tests.page.breaks import lost
from tests.page.driver import wait
from tests.page.focus import LISTEN
from tests.page.forms import send_files
from tests.page.stage import BETA, RETAILER, Stage, interchange, order, signed_in

# of a file that was moved or changed after it was chosen
UNREADABLE = """const real = Blob.prototype.arrayBuffer;
    Blob.prototype.arrayBuffer = function () {
        return this.name.startsWith('gone') ? Promise.reject(new DOMException('gone', 'NotReadableError')) : real.call(this);
    }"""

LABEL = "return document.activeElement?.getAttribute('aria-label')"
# the file whose answer has the focus
ANSWER = "return document.activeElement?.matches('.delivery') && document.activeElement.closest('.upload').querySelector('h2').textContent"
SEND = "const it = [...document.querySelectorAll('main button')].find(it => it.textContent === 'Send 2 files'); it.focus(); it.click()"


def file(number):
    return interchange(RETAILER, number, order(number, [5], supplier=BETA))


def card(browser, name):
    cards = "[...document.querySelectorAll('.upload')].find(it => it.querySelector('h2').textContent === arguments[0])"
    return browser.run(f"return {cards}?.innerText ?? ''", name)


def says(browser, name, text):
    wait(lambda: text in card(browser, name), f"{text!r} at {name}", lambda: card(browser, name))


def sent_names(stage):
    return [body.decode().split("BGM+220+")[1].split("+")[0] for _, body in stage.sent]


def unreadable(browser, stage):
    browser.run(UNREADABLE)
    browser.drop("gone.edi", "x")
    browser.drop("a.edi", file("F1"))
    send_files(browser)
    says(browser, "a.edi", "Accepted")
    says(browser, "gone.edi", "Your browser could not read this file.")
    browser.until_says("1 file cannot be sent: it says below why.")
    assert sent_names(stage) == ["F1"], stage.sent


def listed_first(browser, stage):
    """Nothing is sent before the second press, and a file can be taken back."""
    stage.sent.clear()
    browser.run("document.querySelector('[aria-label=\"Remove gone.edi\"]').click()")
    wait(lambda: not card(browser, "gone.edi"), "file taken back")
    browser.run(LISTEN)
    browser.drop("b.edi", file("F2"))
    browser.drop("c.edi", file("F3").replace("'", "'\r\n"))
    browser.drop("wrong.txt", "no EDIFACT")
    says(browser, "b.edi", "1 ORDERS, ")
    says(browser, "c.edi", "1 ORDERS, ")
    says(browser, "wrong.txt", "in a spelling that the page does not read")
    browser.until_says("You are sending 3 files. What is sent cannot be taken back.")
    assert stage.sent == [], stage.sent
    removing = "const it = document.querySelector('[aria-label=\"Remove wrong.txt\"]'); it.focus(); it.click()"
    # the focus goes to what a person can remove next
    browser.run(removing)
    wait(lambda: browser.run(LABEL) == "Remove c.edi", "focus on the next file", lambda: browser.run(LABEL))
    wait(lambda: not card(browser, "wrong.txt"), "file taken back")
    # what a file is, before it is sent, is not said aloud
    assert browser.run("return window.unheard") == [], browser.run("return window.unheard")
    # they are there when the screen is left and opened again
    browser.press("Sent", "a")
    browser.one("table.sent")
    browser.press("Upload", "a")
    browser.named("button", "Send 2 files")
    # once there is nothing to press any more, the focus is at what the hub said
    browser.run(SEND)
    says(browser, "c.edi", "Accepted")
    assert browser.run(ANSWER) == "b.edi", browser.run(ANSWER)
    assert sent_names(stage) == ["F2", "F3"], stage.sent


def paused(browser, stage):
    stage.sent.clear()
    stage.proxy.breaks[:] = [lost, lost]
    for name in ("F4", "F5", "F6"):
        browser.drop(f"{name}.edi", file(name))
    send_files(browser, 3)
    browser.until_says("A file got no reply, so those after it wait.")
    says(browser, "F5.edi", "Waiting for its turn")
    assert sent_names(stage) == ["F4", "F4"], sent_names(stage)
    # the answer lets the rest go
    browser.press("Send the same again")
    says(browser, "F6.edi", "Accepted")
    says(browser, "F4.edi", "The hub had it already")
    assert sent_names(stage) == ["F4", "F4", "F4", "F5", "F6"], sent_names(stage)
    assert "those after it wait" not in browser.text()


def continued(browser, stage):
    stage.sent.clear()
    stage.proxy.breaks[:] = [lost, lost]
    for name in ("F7", "F8"):
        browser.drop(f"{name}.edi", file(name))
    send_files(browser, 2)
    browser.press("Continue with the rest")
    says(browser, "F8.edi", "Accepted")
    says(browser, "F7.edi", "No reply from the hub")
    assert sent_names(stage) == ["F7", "F7", "F8"], sent_names(stage)
    browser.press("Send the same again")
    says(browser, "F7.edi", "The hub had it already")


def uploads(browser, program):
    with Stage(program) as stage:
        signed_in(browser, stage, RETAILER)
        for trial in (unreadable, listed_first, paused, continued):
            trial(browser, stage)
        complaints = browser.complaints()
        assert complaints == [], complaints
    return "8 files in their order, of which two had no answer at first, and one that could not be read"


TRIALS = {"uploads in their order": uploads}
