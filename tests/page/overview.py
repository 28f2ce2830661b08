"""The planner's overview: one request for each supplier of a list, its figures, what failed and why, and that it stops when told to."""
import time

from tests.page.csv_files import CAUGHT, compared
from tests.page.drafts import FULL
from tests.page.driver import wait
from tests.page.screens import furnished
from tests.page.stage import ALPHA, BETA, RETAILER, Stage, signed_in

UNKNOWN = "4000000000006"
LIST = f"GLN;Name\r\n{ALPHA};Alpha & S\xf6hne\r\n{BETA};\"Beta; b.v.\"\r\n{UNKNOWN};<b>Gamma</b>\r\n"
STATUS = f"/p/{RETAILER}/status/"
FOCUSED = "return document.activeElement.innerText"
OVERVIEW = "#overview"


def counted(stage, gln):
    """The figures of a supplier's status, counted here: its open lines and pieces, lines without an answer, overdue ones, of which nothing
    is known, pallets and differences."""
    lines, pallets = [], []
    for row in stage.ask(RETAILER, f"status/{gln}").splitlines():
        words = row.split()
        if row.startswith("L"):
            lines.append((words[-6], int(words[-4])))
        elif row.startswith("P"):
            pallets.append((words[1], words[3], int(words[-1])))
    opened = [count for _, count in lines if count]
    some = lambda fits: len({it[0] for it in pallets if fits(it)})
    found = [len(opened), sum(opened), sum(it[0] == "W" for it in lines), "–", some(lambda it: it[1] == "A"), some(lambda it: it[2])]
    return [it if it == "–" else f"{it:,}" for it in found] + [max((it[0] for it in pallets), default="–")]


def statuses(stage):
    """The suppliers of which the page asked for the status, in that order."""
    return [it[len(STATUS) :] for it in stage.asked if it.startswith(STATUS) and it != STATUS + RETAILER]


def row_of(browser, name):
    return next((it for it in browser.rows("table.across tbody") if it[0] == name), None)


def fetch(browser, count):
    browser.press(f"Fetch the status of {count} suppliers")
    assert browser.run(FOCUSED).startswith("Fetch"), browser.run(FOCUSED)


def denied(handler, _body):
    return 403, b"denied\n"


def cut(handler, _body):
    handler.cut()


def unavailable(handler, _body):
    handler.answer(503, b"no answer\n", "text/plain")


def said(browser):
    return browser.run("return document.querySelector('main').innerText")


def slow(handler, body):
    time.sleep(2)
    return handler.passed(body)


def beside_the_page(browser, stage):
    """The list is found beside the page, a wrong row is named, and nothing is asked for before the press."""
    stage.beside(LIST + "4012345500005;Wrong\r\n" + f"{ALPHA};Twice\r\n4,01235E+12;Short\r\n")
    signed_in(browser, stage, RETAILER, OVERVIEW)
    browser.until_says("3 suppliers in suppliers.csv, which is beside this page.")
    for said in ("5: “4012345500005” is not a GLN.", f"6: {ALPHA} is in an earlier row too.", "7: the spreadsheet shortened"):
        browser.until_says("Row " + said)
    assert statuses(stage) == [], stage.asked
    assert row_of(browser, "<b>Gamma</b>")[1:3] == [UNKNOWN, "–"], browser.rows("table.across")
    assert browser.run("return document.querySelectorAll('main b').length") == 0


def figures(browser, stage):
    """One request for each; the one that fails holds up no other, and says why."""
    fetch(browser, 3)
    browser.until_says("Fetched 2 of 3 suppliers. 1 failed: the table says why.")
    assert statuses(stage) == [ALPHA, BETA, UNKNOWN], stage.asked
    for name, gln in (("Alpha & S\xf6hne", ALPHA), ("Beta; b.v.", BETA)):
        wait(lambda: row_of(browser, name)[1:-1] == [gln, *counted(stage, gln)], f"figures of {name}", lambda: row_of(browser, name))
    assert row_of(browser, "<b>Gamma</b>")[-1] == "Not known to the hub.", row_of(browser, "<b>Gamma</b>")
    sums = browser.rows("table.across tfoot")[0]
    assert sums[:4] == ["Sum of 3", "", "13", "729"], sums
    assert counted(stage, ALPHA)[4:6] == ["1", "0"], counted(stage, ALPHA)


def on_a_phone(browser):
    """Where the headings are not seen, a choice sorts the rows, and shows how they are sorted."""
    seen = "return [document.querySelector('.sort-choice').checkVisibility(), document.querySelector('.sort-choice select').value]"
    assert browser.run(seen) == [False, "3 true"], browser.run(seen)
    browser.look(360, 740, narrow=True)
    assert browser.run(seen)[0]
    for way, first in (("3 false", "<b>Gamma</b>"), ("1 true", "Beta; b.v."), ("", "Alpha & S\xf6hne"), ("3 true", "Alpha & S\xf6hne")):
        script = "const it = document.querySelector('.sort-choice select'); it.value = arguments[0]; it.dispatchEvent(new Event('change'))"
        browser.run(script, way)
        assert browser.rows("table.across tbody")[0][0] == first, (way, browser.rows("table.across tbody"))
    browser.look()


def as_a_table(browser):
    """It is sorted, filtered, and saved as it is shown."""
    browser.run(CAUGHT)
    press = "[...document.querySelectorAll('table.across button.sort')].find(it => it.textContent === 'Open pieces').click()"
    for falling in (False, True):
        browser.run(press)
        names = [it[0] for it in browser.rows("table.across tbody")]
        assert names.index("Beta; b.v.") > names.index("Alpha & S\xf6hne") if falling else names[-1] == "Alpha & S\xf6hne", names
    assert compared(browser) == 3
    on_a_phone(browser)
    browser.type(browser.labelled("Name or GLN"), "söhne")
    wait(lambda: len(browser.rows("table.across tbody")) == 1, "one row")
    assert compared(browser) == 1
    fetch(browser, 3)
    browser.until_says("Fetched 2 of 3 suppliers.")
    wait(lambda: len(browser.rows("table.across tbody")) == 1, "one row again")
    browser.type(browser.labelled("Name or GLN"), " ")
    for kind, count in (("late", 0), ("failed", 1), ("waiting", 2), ("announced", 1), ("all", 3)):
        script = "const it = document.querySelector('main select'); it.value = arguments[0]; it.dispatchEvent(new Event('change'))"
        browser.run(script, kind)
        rows = browser.rows("table.across tbody")
        assert len([it for it in rows if len(it) > 1]) == count, (kind, rows)


def failures(browser, stage):
    """A denial and a cut connection: each is asked for once, and said; a press asks for those alone again."""
    stage.asked.clear()
    stage.proxy.instead = {STATUS + ALPHA: denied, STATUS + BETA: cut}
    fetch(browser, 3)
    browser.until_says("Fetched 0 of 3 suppliers. 3 failed: the table says why.")
    assert statuses(stage) == [ALPHA, BETA, UNKNOWN], stage.asked
    said = [row_of(browser, it)[-1] for it in ("Alpha & S\xf6hne", "Beta; b.v.")]
    assert said == ["Denied: sign out and in again.", "No reply. The connection broke."], said
    stage.proxy.instead = {}
    stage.asked.clear()
    browser.press("Fetch the failed ones again (3)")
    browser.until_says("Fetched 2 of 3 suppliers.")
    assert statuses(stage) == [ALPHA, BETA, UNKNOWN], stage.asked


def stopped(browser, stage):
    """Stop ends it at once, though the hub has not answered; what was fetched stays, and the screen may be left while it goes on."""
    stage.asked.clear()
    stage.proxy.instead = {STATUS + BETA: slow}
    fetch(browser, 3)
    wait(lambda: len(statuses(stage)) == 2, "two requests")
    progress = "const it = document.querySelector('progress'); return [it.value, it.max, it.labels[0].textContent, it.checkVisibility()]"
    wait(lambda: browser.run(progress) == [1, 3, "1 of 3 fetched", True], "progress", lambda: browser.run(progress))
    browser.press("Stop")
    browser.until_says("Stopped after 1 of 3. What was fetched stays.")
    assert browser.run(FOCUSED).startswith("Stopped after"), browser.run(FOCUSED)
    assert browser.run(progress)[3] is False
    browser.run("return new Promise(done => setTimeout(done, 2500))")
    assert len(statuses(stage)) == 2 and row_of(browser, "Alpha & S\xf6hne")[2] == "12", stage.asked
    # the rows that come do not take the focus away
    fetch(browser, 3)
    link = f"document.querySelector('table.across a[href=\"#supplier/{BETA}\"]')"
    browser.run(f"const it = {link}; it.focus(); it.dataset.old = 'old'")
    wait(lambda: browser.run(f"return {link}.dataset.old ?? 'new'") == "new", "a new row")
    assert browser.run(f"return document.activeElement === {link}")
    browser.until_says("Fetched 2 of 3 suppliers.")
    fetch(browser, 3)
    browser.press("Sent", "a")
    browser.one("table.sent")
    browser.press("Overview", "a")
    browser.until_says("Fetched 2 of 3 suppliers.")


def dropped(browser, stage):
    """A list that is dropped is used in the place of the other, kept over a reload, and gone once the planner signs out."""
    browser.drop("nothing.csv", "GLN,Name\nx,y\n")
    browser.until_says("nothing.csv names no supplier.")
    assert len(browser.rows("table.across tbody")) == 3
    browser.drop("mine.csv", f"Name\tTown\tGLN\nOnly one\tBonn\t{BETA}\n")
    browser.until_says("1 supplier in mine.csv.")
    assert browser.run(FOCUSED).startswith("1 supplier in mine.csv."), browser.run(FOCUSED)
    wait(lambda: [it[:2] for it in browser.rows("table.across tbody")] == [["Only one", BETA]], "one supplier")
    browser.ask("POST", "/refresh")
    browser.until_says("1 supplier in mine.csv.")
    # the status may be asked for by the name
    browser.press("Only one", "a")
    browser.until_says("Status of Only one")
    offered = browser.run("return [...document.querySelectorAll('datalist option')].map(it => [it.value, it.textContent])")
    assert offered == [[BETA, "Only one"]], offered
    browser.press("Sign out")
    browser.one("form.sign-in")
    assert browser.run("return sessionStorage.length") == 0


def lost(browser, stage):
    """A list that the browser has no room for, and one beside the page that cannot be read: the page says so, and looks again."""
    stage.proxy.instead = {"/suppliers.csv": unavailable}
    signed_in(browser, stage, RETAILER, OVERVIEW)
    browser.until_says("There is no list of suppliers yet.")
    browser.until_says("suppliers.csv beside this page could not be read.")
    stage.proxy.instead = {}
    browser.press("Sent", "a")
    browser.press("Overview", "a")
    browser.until_says("3 suppliers in suppliers.csv, which is beside this page.")
    assert "could not be read" not in said(browser), said(browser)
    browser.run(FULL)
    browser.drop("mine.csv", f"Name\tTown\tGLN\nOnly one\tBonn\t{BETA}\n")
    browser.until_says("1 supplier in mine.csv.")
    browser.until_says("Your browser has no room to keep this list")
    browser.run("Storage.prototype.setItem = window.setItem")
    browser.drop("mine.csv", f"Name\tTown\tGLN\nOnly one\tBonn\t{BETA}\n")
    wait(lambda: "no room to keep this list" not in said(browser), "a list that is kept", lambda: said(browser))
    browser.press("Sign out")
    browser.one("form.sign-in")


def without(browser, stage):
    """Without a list the page says so, and a supplier is asked for by its GLN."""
    stage.proxy.suppliers = None
    signed_in(browser, stage, RETAILER, OVERVIEW)
    browser.until_says("There is no list of suppliers yet.")
    assert not browser.run("return [...document.querySelectorAll('main section')].some(it => it.querySelector('table')?.checkVisibility())")
    browser.press("Status", "a")
    browser.type(browser.labelled("The supplier's GLN"), ALPHA)
    browser.press("Show status")
    browser.until_says("Order lines")


def overview(browser, program):
    with Stage(program) as stage:
        furnished(stage)
        beside_the_page(browser, stage)
        figures(browser, stage)
        as_a_table(browser)
        for trial in (failures, stopped, dropped, lost, without):
            trial(browser, stage)
        complaints = browser.complaints()
        assert complaints == [], complaints
    return "3 suppliers by one request each: fetched, unknown, denied, cut and stopped; and a list beside the page, dropped, missing, unread and not kept"


def held(handler, _body):
    """The front asks to wait for a second, and then the hub is asked."""
    handler.server.instead.clear()
    head = ["HTTP/1.1 429 Too Many Requests", "Content-Length: 9", "Connection: close", "Retry-After: 2"]
    handler.cut(("\r\n".join(head) + "\r\n\r\ntoo many\n").encode())


def waits(browser, program):
    """What the front turns away is asked for once more, when it said; it may be stopped meanwhile."""
    with Stage(program) as stage:
        stage.beside(LIST)
        signed_in(browser, stage, RETAILER, OVERVIEW)
        for press in ("", "Stop"):
            stage.asked.clear()
            stage.proxy.instead = {STATUS + ALPHA: held}
            fetch(browser, 3)
            browser.until_says("The hub asks to wait until")
            if press:
                browser.press(press)
                browser.until_says("Stopped after 0 of 3.")
                browser.run("return new Promise(done => setTimeout(done, 2500))")
                assert statuses(stage) == [ALPHA], stage.asked
            else:
                browser.until_says("Fetched 2 of 3 suppliers.")
                assert statuses(stage) == [ALPHA, ALPHA, BETA, UNKNOWN], stage.asked
        complaints = browser.complaints()
        assert complaints == [], complaints
    return "a wait that is kept, and one that is stopped"


TRIALS = {"the overview of suppliers": overview, "the overview waits": waits}
