"""How a trial sends a form: it checks it, and sends it by a second press at the summary. And how it leaves one."""
from tests.page.driver import wait

ASKED = "return document.querySelector('dialog[open] h2')?.textContent ?? ''"


def check(browser, noun):
    """Presses the button that checks the form, whatever comes of it."""
    browser.press(f"Check {noun}")


def send(browser, noun):
    """Checks a form that is right, and sends it."""
    check(browser, noun)
    browser.press(f"Send {noun}")


def change(browser, line, quantity):
    """Changes a line of an order to a quantity."""
    browser.click(browser.one(f"[data-field='answer.answerToLine/{line}'] [value=changed]"))
    browser.type(browser.labelled(f"Changed quantity of line {line}"), quantity)


def send_files(browser, count=1):
    """Sends the files that were chosen."""
    browser.press("Send 1 file" if count == 1 else f"Send {count} files")


def asked(browser):
    """What the page asks before typed work is left."""
    return wait(lambda: browser.run(ASKED), "question before typed work is left")


def fresh(browser, to):
    """Leaves a screen, whether something is typed there or not, and opens one without its draft."""
    dirty = browser.run("return document.querySelector('[data-typed]') !== null")
    browser.run("location.hash = 'sent'")
    if dirty:
        asked(browser)
        browser.press("Leave")
    browser.one("table.sent")
    browser.run("Object.keys(sessionStorage).filter(it => it.includes('.draft.')).forEach(it => sessionStorage.removeItem(it))")
    browser.run("location.hash = arguments[0]", to)
