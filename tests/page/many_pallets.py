"""A despatch of 200 lines on 33 pallets: pallets are filled from a spreadsheet, copied, split and collapsed, what is left of each line is
shown, and nothing of it pauses for more than 100 milliseconds."""
from tests.page.driver import wait
from tests.page.forms import check, fresh, send
from tests.page.pauses import short
from tests.page.stage import ALPHA, RETAILER, Stage, interchange, order, signed_in

LINES, PALLETS, OPEN = 200, 33, 330
COUNT = "document.querySelectorAll('.pallet').length"
# the text of each pallet's heading line, which says how much is on it
ON = "return [...document.querySelectorAll('.pallet .toggle')].map(it => it.textContent)"
PRESS = "[...document.querySelectorAll('button')].find(it => it.textContent === '%s' && it.checkVisibility()).click()"
LEFT = "return document.querySelector('details.left summary').textContent"
QUANTITIES = "return [...document.querySelectorAll('.pallet')[arguments[0]].querySelectorAll('.contents input')].map(it => it.value)"


def paste(browser, text):
    script = "const it = document.querySelector('details.paste'); it.open = true; it.querySelector('textarea').value = arguments[0]"
    browser.run(script, text)
    browser.press("Put these on the pallets")


def opened(browser):
    """An empty form with the prefix of the supplier."""
    fresh(browser, "despatch")
    browser.type(browser.labelled("Your GS1 company prefix"), "40123455")
    browser.keys("tab")
    wait(lambda: len(browser.run("return document.querySelector('.pallet > .field input').value")) == 18, "an SSCC")


def on(browser, wanted):
    wait(lambda: browser.run(ON) == wanted, f"pallets with {wanted}", lambda: browser.run(ON))


def pressed(browser, place, text):
    """Presses a button of a pallet."""
    its = "[...document.querySelectorAll('.pallet')[arguments[0]].querySelectorAll('button')]"
    browser.run(f"{its}.find(it => it.textContent === arguments[1]).click()", place, text)


def pasted(browser):
    """Rows fill pallets by their number and their SSCC, in any order; or nothing changes, and each wrong row is named."""
    opened(browser)
    first = browser.run("return document.querySelector('.pallet > .field input').value")
    wrong = ["S9 1 5 1", "S1 9 5 1", "S1 one 5 1", "S1 1 many 1", "S1 1 5 left", "S1 1 5 340123455000000013", "S1 1 1 1", "S1 1 2 1"]
    paste(browser, "\n".join(it.replace(" ", "\t") for it in ("Order Line Quantity Pallet", *wrong)))
    said = (
        "Row 2: no order S9 has something open.",
        "Row 3: order S1 has no line 9 with something open.",
        "Row 4: “one” is not a line number.",
        "Row 5: “many” is not a whole number.",
        "Row 6: “left” is not a pallet. Give its number in the form, from 1 to 500, or its SSCC.",
        "Row 7: 340123455000000013 is not an SSCC: look for a wrong digit.",
        "Row 9: the same line and pallet are in row 8 too.",
    )
    for it in said:
        browser.until_says(it, ".paste [role=alert]")
    assert browser.run(ON) == ["Nothing on it yet"], browser.run(ON)
    paste(browser, "S1\t1\t5\t3")
    browser.until_says("No row is for pallet 2: number the pallets without gaps.", ".paste [role=alert]")
    paste(browser, f"S1;1;40;2\nS1;2;30;2\nS2;1;7;{first}\nS1;3;;4\n\nS1;2;10;(00) 9 4012345 500000001 4")
    browser.until_says("87 pieces of 4 rows are on 3 pallets. Nothing is sent yet.", ".paste [role=status]")
    on(browser, ["1 line, 7 pieces", "2 lines, 70 pieces", "1 line, 10 pieces"])
    browser.until_says("Left to load: 353 pieces from 4 of 4 lines", "details.left summary")
    # the same pallet again: what was on it is replaced
    paste(browser, "S1;2;80;2")
    on(browser, ["1 line, 7 pieces", "1 line, 80 pieces", "1 line, 10 pieces"])
    browser.press("Left to load: 343 pieces from 4 of 4 lines", "summary")
    browser.until_says("S2", "table.left-lines")
    rows = browser.rows("table.left-lines tbody")
    assert [[it[0], it[1], *it[3:]] for it in rows] == [
        ["S1", "1", "100", "0", "100"],
        ["S1", "2", "100", "90", "10"],
        ["S1", "3", "100", "0", "100"],
        ["S2", "1", "140", "7", "133"],
    ], rows


def listed(browser):
    """A pallet that is pasted is collapsed; what is wrong with it opens it; and it lists all lines or its own."""
    assert browser.run("return [...document.querySelectorAll('.pallet .toggle')].map(it => it.ariaExpanded)") == ["true", "false", "false"]
    paste(browser, "S1;2;100;2")
    on(browser, ["1 line, 7 pieces", "1 line, 100 pieces", "1 line, 10 pieces"])
    browser.until_says("too much of 1 line", "details.left summary")
    check(browser, "despatch advice")
    browser.until_says("Only 100 are open, and 110 are on your pallets.")
    on(browser, ["1 line, 7 pieces", "1 line, 100 pieces, 1 to correct", "1 line, 10 pieces, 1 to correct"])
    assert browser.run("return document.activeElement.value") == "100"
    browser.type(browser.labelled("Quantity of order S1, line 2", 1), "20")
    # less here is enough for the other pallet too
    on(browser, ["1 line, 7 pieces", "1 line, 20 pieces", "1 line, 10 pieces"])
    for text, lines in (("Show only the lines on this pallet", 1), ("Show all 4 lines", 4)):
        pressed(browser, 1, text)
        wait(lambda: len(browser.run(QUANTITIES, 1)) == lines, f"{lines} lines", lambda: browser.run(QUANTITIES, 1))
    browser.press("Collapse all pallets")
    wait(lambda: browser.run("return [...document.querySelectorAll('.on-pallet')].every(it => it.hidden)"), "collapsed pallets")
    browser.press("Expand all pallets")
    wait(lambda: not browser.run("return [...document.querySelectorAll('.on-pallet')].some(it => it.hidden)"), "expanded pallets")


def copied(browser):
    """A copy has the same on it, but no more than is left."""
    browser.press("Expand all pallets")
    pressed(browser, 1, "Copy this pallet")
    on(browser, ["1 line, 7 pieces", "1 line, 20 pieces", "1 line, 10 pieces", "1 line, 20 pieces"])
    browser.until_says("Pallet 4 is a copy of this one.")
    paste(browser, "S1;2;60;2")
    pressed(browser, 1, "Copy this pallet")
    on(browser, ["1 line, 7 pieces", "1 line, 60 pieces", "1 line, 10 pieces", "1 line, 20 pieces", "1 line, 10 pieces"])
    browser.until_says("Pallet 5 is a copy of this one with what was left to load: 50 pieces less.")
    pressed(browser, 1, "Copy this pallet")
    browser.until_says("Nothing of its lines is left to load, so there is no copy.")
    for place in (4, 3):
        pressed(browser, place, "Remove this pallet")
    on(browser, ["1 line, 7 pieces", "1 line, 60 pieces", "1 line, 10 pieces"])
    browser.until_says("Left to load: 363 pieces from 4 of 4 lines", "details.left summary")


def split(browser):
    """What is on a pallet is dealt out evenly, each line and all pieces together."""
    pressed(browser, 0, "Load all that is left on this pallet")
    on(browser, ["4 lines, 370 pieces", "1 line, 60 pieces", "1 line, 10 pieces"])
    assert browser.run(LEFT) == "Nothing left to load", browser.run(LEFT)
    for text, said in (("1", "Give a whole number from 2 to 500."), ("371", "Only 370 pieces are on it.")):
        browser.type(browser.labelled("Split evenly over this many pallets"), text)
        pressed(browser, 0, "Split")
        browser.until_says(said)
    browser.type(browser.labelled("Split evenly over this many pallets"), "3")
    pressed(browser, 0, "Split")
    browser.until_says("Done: split over this pallet and pallets 4 to 5.")
    on(browser, ["4 lines, 124 pieces", "1 line, 60 pieces", "1 line, 10 pieces", "4 lines, 123 pieces", "4 lines, 123 pieces"])
    shares = browser.run(QUANTITIES, 0)
    assert shares == ["34", "10", "33", "47"], shares


def kept_and_sent(browser, stage):
    """A draft has what collapsed pallets have; and so has the interchange."""
    browser.type(browser.labelled("Number of the despatch"), "D-S")
    browser.press("Collapse all pallets")
    before = browser.run(ON)
    browser.run("location.hash = 'mailbox'")
    browser.press("Leave")
    browser.until_says("new entr")
    browser.run("location.hash = 'despatch'")
    browser.until_says("What you typed here before is back.")
    on(browser, before)
    assert "It had something" not in browser.text()
    stage.sent.clear()
    send(browser, "despatch advice")
    browser.until_replied("1 DESADV accepted")
    text = stage.sent[0][1].decode()
    wanted = ["LIN+1++4000862000015:SRV'QTY+12:34'RFF+ON:S1:1'", "QTY+12:47'RFF+ON:S2:1'", "QTY+12:60'RFF+ON:S1:2'", "CNT+2:14'"]
    assert all(it in text for it in wanted) and text.count("CPS+") == 5, text
    open_now = [line.split()[6] for line in stage.ask(ALPHA, "status").splitlines() if line.startswith(("L S1", "L S2"))]
    assert open_now == ["0"] * 4, open_now


def filled(browser, program):
    with Stage(program) as stage:
        stage.upload(RETAILER, interchange(RETAILER, "S1", order("S1", [100, 100, 100])))
        stage.upload(RETAILER, interchange(RETAILER, "S2", order("S2", [140])))
        signed_in(browser, stage, ALPHA)
        pasted(browser)
        listed(browser)
        copied(browser)
        split(browser)
        kept_and_sent(browser, stage)
        complaints = browser.complaints()
        assert complaints == [], complaints
    return "pallets filled from rows, copied, split, collapsed, kept and sent"


IS_SUMMED_UP = "document.querySelector('.summary:not([hidden])') !== null"


def typing(place):
    """Types a quantity into the first line of a pallet, and another one each time."""
    return f"""const it = document.querySelectorAll('.pallet')[{place}].querySelector('.contents input');
        it.value = it.value === '1' ? '2' : '1'; it.dispatchEvent(new Event('input', {{ bubbles: true }}))"""


def last(selector):
    """The last of these in the page."""
    return f"[...document.querySelectorAll('{selector}')].pop()"


def typed_meanwhile(browser):
    """What is typed while the fields are locked is not summed up unseen, and nothing stays locked."""
    browser.run(f"{PRESS % 'Check despatch advice'}; {typing(PALLETS - 1)}")
    wait(lambda: not browser.all(".pallet[disabled]"), "pallets that are not locked")
    assert not browser.run(f"return {IS_SUMMED_UP}"), "the summary is of what was there before"


def timed(browser):
    """Each of what a person does, on pallets that have all lines, with what is left shown all the time."""
    times = {}

    def take(name, act, until="true", again=None):
        times[name] = max(times.get(name, 0), short(browser, name, act, until, again))

    collapse, expand = PRESS % "Collapse all pallets", PRESS % "Expand all pallets"
    rows = "\\n".join(f"L1;{line};1;1" for line in range(1, LINES + 1))
    browser.run("document.querySelectorAll('details.left, details.paste').forEach(it => (it.open = true))")
    pasting = f"document.querySelector('.paste textarea').value = '{rows}'; {PRESS % 'Put these on the pallets'}"
    take("pasted", pasting, "document.querySelector('.toggle').textContent.startsWith('200 lines')")
    for count in range(2, PALLETS + 1):
        take("copied", PRESS % "Copy this pallet", f"{COUNT} === {count}", f"{last('.remove')}.click()")
    take("typed", typing(0))
    take("collapsed", collapse, "!document.querySelector('.contents input')", expand)
    take("expanded", expand, f"document.querySelectorAll('.contents input').length === {LINES * PALLETS}", collapse)
    take("typed in one of all", typing(20))
    take("checked", PRESS % "Check despatch advice", IS_SUMMED_UP, PRESS % "Change something")
    is_unlocked = f"!({IS_SUMMED_UP}) && !document.querySelector('.pallet[disabled]')"
    take("changed", PRESS % "Change something", is_unlocked, PRESS % "Check despatch advice")
    typed_meanwhile(browser)
    take("collapsed", collapse, "!document.querySelector('.contents input')", expand)
    lists_all = f"{last('.pallet')}.querySelectorAll('.contents input').length === {LINES}"
    take("added", PRESS % "Add a pallet", lists_all, f"{last('.remove')}.click()")
    each = f"{last('.pallet')}.querySelectorAll('.contents input').forEach"
    empty = f"{each}(it => {{ it.value = ''; it.dispatchEvent(new Event('input')); }})"
    take("filled", f"{last('.fill')}.click()", f"{last('.toggle')}.textContent.startsWith('{LINES} lines')", empty)
    splitting = f"const it = {last('.split')}; it.querySelector('input').value = '{PALLETS}'; it.querySelector('button').click()"
    take("split", splitting, f"{COUNT} >= {2 * PALLETS}")
    return times


def pauses(browser, program):
    with Stage(program) as stage:
        stage.upload(RETAILER, interchange(RETAILER, "L1", order("L1", [OPEN] * LINES)))
        signed_in(browser, stage, ALPHA)
        opened(browser)
        times = timed(browser)
        assert browser.complaints() == []
    return f"{LINES} lines on each of {PALLETS} pallets, pauses in ms: " + ", ".join(f"{name} {it:.0f}" for name, it in times.items())


TRIALS = {"many pallets": filled, "pauses of a despatch": pauses}
