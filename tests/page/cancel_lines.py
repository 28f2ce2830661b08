"""Several lines are cancelled at once: chosen in a status, summed up, and sent one after another, each with a reference of its own. One
without an answer holds those after it, and nothing is sent twice."""
import threading

from tests.page.breaks import lost
from tests.page.csv_files import CAUGHT, compared, file_of
from tests.page.drafts import back_in
from tests.page.driver import wait
from tests.page.forms import ASKED, asked
from tests.page.screens import furnished
from tests.page.stage import ALPHA, RETAILER, Stage, gtin, interchange, order, signed_in

OPEN = {("128590", "2"): 60, ("128590", "4"): 24, ("128591", "1"): 50}
MOST = 100
FOCUSED = "const it = document.activeElement; return (it.labels?.[0] ?? it).textContent.trim()"
BAR = ".chosen"
SUMMARY = ".summary:not([hidden])"


def cancelled(stage):
    """How much of each line is cancelled, by the hub."""
    rows = [it.split() for it in stage.ask(RETAILER, f"status/{ALPHA}").splitlines() if it.startswith("L")]
    return {(it[1], it[2]): int(it[-2]) for it in rows if int(it[-2])}


def bodies(stage):
    """The cancellations that were sent: reference, order, line and quantity."""
    return [tuple(body.decode().split("\n")[1:5]) for path, body in stage.sent if path.endswith("/cancellations")]


def status(browser):
    browser.run("location.hash = 'sent'")
    browser.one("table.sent")
    browser.run("location.hash = arguments[0]", f"supplier/{ALPHA}")
    browser.one(BAR)


def tick(browser, *lines):
    for number, line in lines:
        script = "const it = document.querySelector(`[aria-label='${arguments[0]}']`); it.focus(); it.click()"
        browser.run(script, f"Choose order {number}, line {line}")


def quantity(number, line):
    return f"Quantity to cancel of order {number}, line {line}"


def fill(browser, quantities):
    for (number, line), count in quantities.items():
        browser.type(browser.labelled(quantity(number, line)), str(count))


def chosen(browser, stage):
    """Lines are ticked, also over a filter and another screen; what is not open has no tick."""
    signed_in(browser, stage, RETAILER, f"#supplier/{ALPHA}")
    browser.one(BAR)
    assert len(browser.all(".tick input")) == 12 and "128576" in browser.text("table.lines")
    # they are where each row begins, so that they are in view also where the table is wider than the screen
    assert browser.run("return [...document.querySelectorAll('.tick')].every(it => it.closest('td').cellIndex === 0)")
    browser.until_says("Tick lines to cancel several at once, at most 100.", BAR)
    tick(browser, *list(OPEN)[:2])
    browser.until_says("2 lines chosen, of which 84 pieces are open.", BAR)
    browser.type(browser.labelled("Order or article"), "128591")
    wait(lambda: len(browser.rows("table.lines tbody")) == 2, "filtered lines")
    browser.press("Choose all that are shown")
    browser.until_says("4 lines chosen, of which 159 pieces are open.", BAR)
    assert browser.run(FOCUSED).startswith("4 lines chosen"), browser.run(FOCUSED)
    tick(browser, ("128591", "2"))
    status(browser)
    browser.until_says("3 lines chosen, of which 134 pieces are open.", BAR)
    browser.press("Cancel 3 lines…")
    browser.until_says("Fill in all that is open")
    assert [it[:2] for it in browser.rows("table.answers")] == [list(it) for it in OPEN], browser.rows("table.answers")


def limits(browser, stage):
    """At least one line, whole numbers, and at most what is open; the first wrong field has the focus."""
    browser.press("Check cancellations")
    browser.until_says("Give a quantity for at least one line.")
    number = "Give a whole number from 1 to 60."
    for wrong, said in (("61", "Only 60 pieces are open, as of "), *((it, number) for it in ("0", "1.5", "-1", "x"))):
        fill(browser, {("128590", "2"): wrong})
        browser.press("Check cancellations")
        browser.until_says(said)
        assert browser.run(FOCUSED) == quantity("128590", "2"), (wrong, browser.run(FOCUSED))
    browser.press("Fill in all that is open")
    browser.run(CAUGHT)
    assert compared(browser) == 3 and [it[-1] for it in file_of(browser, "Lines to cancel")[1:]] == ["60", "24", "50"]
    assert stage.sent == [], stage.sent


def summed_up(browser, stage):
    """Enter moves on, the first press shows the summary, and what was typed is there after a reload."""
    fill(browser, {("128590", "2"): 12})
    browser.keys("enter")
    assert browser.run(FOCUSED) == quantity("128590", "4"), browser.run(FOCUSED)
    fill(browser, {("128590", "4"): 10, ("128591", "1"): 30})
    browser.press("Sent", "a")
    assert asked(browser) == "Your cancellation of 3 lines is not sent yet", asked(browser)
    browser.press("Stay")
    wait(lambda: not browser.run(ASKED), "end of the question")
    browser.run("document.querySelector('[data-typed]').removeAttribute('data-typed')")
    browser.ask("POST", "/refresh")
    back_in(browser, RETAILER)
    browser.press("Check cancellations")
    browser.until_says(f"You cancel 3 lines of 2 orders, 52 pieces in all, of supplier {ALPHA}.", ".summary")
    browser.until_says(f"Order 128590, line 2, article {gtin(2)}: 12 of 60 open pieces", ".summary")
    assert browser.run(FOCUSED) == "Before you send it" and stage.sent == [], stage.sent
    browser.press("Change something")
    browser.press("Check cancellations")
    browser.run("[...document.querySelectorAll('.summary button')][0].dispatchEvent(new MouseEvent('click', { detail: 2, bubbles: true }))")
    assert stage.sent == [], stage.sent


def one_after_another(browser, stage):
    """The second gets no answer: the third waits, and goes after the same was sent again. Each has a reference of its own."""
    stage.proxy.breaks[:] = [None, lost, lost]
    browser.press("Send cancellations")
    browser.until_says("A cancellation got no reply, so those after it wait.")
    browser.until_says("Waiting for its turn…", "table.sent")
    sent = bodies(stage)
    assert [it[1:] for it in sent] == [("128590", "2", "12")] + [("128590", "4", "10")] * 2 and sent[1] == sent[2], sent
    # it is told here, and not above the screen too
    assert not browser.text("#banner").strip(), browser.text("#banner")
    browser.press("Send the same again")
    browser.until_says("3 cancellations: 3 accepted.")
    sent = bodies(stage)
    assert len(sent) == 5 and len({it[0] for it in sent}) == 3 and sent[3] == sent[2] and sent[4][1:] == ("128591", "1", "30"), sent
    assert cancelled(stage) == {("128590", "2"): 12, ("128590", "4"): 10, ("128591", "1"): 30, ("128591", "2"): 15}, cancelled(stage)
    said = [it[-1] for it in browser.rows("table.sent")]
    assert ["Accepted" in said[0], "had it already" in said[1], "Accepted" in said[2]] == [True] * 3, said
    assert browser.run("return Object.keys(sessionStorage).filter(it => it.includes('.draft.'))") == []
    browser.press("Sent", "a")
    for number, line, count in (("128590", 2, 12), ("128590", 4, 10), ("128591", 1, 30)):
        browser.until_says(f"Your cancellation of {count} pieces of order {number}, line {line}", "table.sent")


def some_refused(browser, stage):
    """Something was cancelled meanwhile: that line is refused with its code, and those after it are sent."""
    stage.sent.clear()
    status(browser)
    tick(browser, ("128590", "1"), ("128590", "3"))
    browser.press("Cancel 2 lines…")
    browser.press("Fill in all that is open")
    browser.press("Check cancellations")
    # what comes before the summary the page says itself
    browser.until_says("You cancel 2 lines of 1 order", SUMMARY)
    assert stage.ask(RETAILER, "cancellations", f"{ALPHA}\nM1\n128590\n1\n1\n") == "accepted\n"
    browser.press("Send cancellations")
    browser.until_says("2 cancellations: 1 accepted, 1 not accepted.")
    rows = browser.rows("table.sent")
    assert "B17" in rows[0][-1] and "Accepted" in rows[1][-1] and len(rows) == 2, rows
    assert browser.run(FOCUSED).startswith("2 cancellations"), browser.run(FOCUSED)


def meanwhile(browser, stage):
    """Each check asks what is open then: what is too much is told at its field, and a line of which nothing is left can be left out."""
    stage.sent.clear()
    status(browser)
    lines = [("128590", "8"), ("128590", "9"), ("128590", "10")]
    tick(browser, *lines)
    browser.press("Cancel 3 lines…")
    browser.press("Fill in all that is open")
    for reference, line, count in (("M3", 9, 5), ("M4", 10, 6)):
        assert stage.ask(RETAILER, "cancellations", f"{ALPHA}\n{reference}\n128590\n{line}\n{count}\n") == "accepted\n"
    browser.press("Check cancellations")
    browser.until_says("Only 13 pieces are open, as of ")
    browser.until_says("Nothing of this line is open any more, as of ")
    assert browser.run(FOCUSED) == quantity("128590", "9") and stage.sent == [], (browser.run(FOCUSED), stage.sent)
    browser.press("Fill in all that is open")
    # without an answer the page goes by the last one, and says so
    gate = threading.Event()
    path = f"/p/{RETAILER}/status/{ALPHA}"
    stage.proxy.instead[path] = lambda handler, body: gate.wait(60) and handler.passed(body)
    browser.press("Check cancellations")
    browser.until_says("the hub does not reply just now.", SUMMARY)
    gate.set()
    del stage.proxy.instead[path]
    browser.press("Change something")
    browser.press("Check cancellations")
    browser.until_says("You cancel 2 lines of 1 order, 43 pieces in all", SUMMARY)
    assert "just now" not in browser.text(SUMMARY)
    browser.until_says("line 9, article", SUMMARY)
    browser.until_says("13 of 13 open pieces", SUMMARY)
    browser.press("Send cancellations")
    browser.until_says("2 cancellations: 2 accepted.")
    assert [it[1:] for it in bodies(stage)] == [("128590", "8", "30"), ("128590", "9", "13")], bodies(stage)


def interrupted(browser, stage):
    """After a reload in the midst the one without an answer can be sent again, and those that were not sent are back in the form."""
    stage.sent.clear()
    status(browser)
    lines = [("128590", "5"), ("128590", "6"), ("128590", "7")]
    tick(browser, *lines)
    browser.press("Cancel 3 lines…")
    fill(browser, dict.fromkeys(lines, 3))
    browser.press("Check cancellations")
    stage.proxy.breaks[:] = [lost, lost]
    browser.press("Send cancellations")
    browser.until_says("A cancellation got no reply")
    # another visit of the screen does not offer once more what waits
    browser.press("Sent (1 without a reply)", "a")
    browser.one("table.sent")
    browser.run("history.back()")
    browser.until_says("Waiting for its turn…", "table.sent")
    assert not browser.all("table.answers")
    browser.ask("POST", "/refresh")
    back_in(browser, RETAILER)
    browser.until_says("was sent, and no reply came.", "#banner")
    assert [it[:2] for it in browser.rows("table.answers")] == [list(it) for it in lines[1:]], browser.rows("table.answers")
    browser.press("Check cancellations")
    browser.until_says("Something that you sent before has no reply yet.")
    browser.press("Send the same again")
    browser.until_says("The hub had it already", "#banner")
    browser.press("Check cancellations")
    browser.press("Send cancellations")
    browser.until_says("2 cancellations: 2 accepted.")
    found = cancelled(stage)
    assert [found[it] for it in lines] == [3, 3, 3] and len({it[0] for it in bodies(stage)}) == 3, found


def at_most(browser, stage):
    """A hundred lines at once, and what has nothing open any more is left out."""
    stage.upload(RETAILER, interchange(RETAILER, "Z", order("Z1", [2] * MOST)))
    status(browser)
    browser.press("Choose all that are shown")
    browser.until_says("100 lines chosen", BAR)
    browser.until_says("These are the most at once: ", BAR)
    browser.press("Choose none")
    browser.until_says("Tick lines to cancel several at once", BAR)
    tick(browser, ("Z1", "1"), ("Z1", "2"))
    assert stage.ask(RETAILER, "cancellations", f"{ALPHA}\nM2\nZ1\n1\n2\n") == "accepted\n"
    browser.press("Cancel 2 lines…")
    browser.until_says("Nothing is open any more, so this is left out: order Z1, line 1.")
    assert len(browser.rows("table.answers")) == 1


def cancellations(browser, program):
    with Stage(program) as stage:
        furnished(stage)
        for trial in (chosen, limits, summed_up, one_after_another, some_refused, meanwhile, interrupted, at_most):
            trial(browser, stage)
        complaints = browser.complaints()
        assert complaints == [], complaints
    return "10 lines cancelled in four goes, of which two had no answer at first and one was refused"


TRIALS = {"several lines are cancelled at once": cancellations}
