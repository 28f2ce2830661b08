"""Each table can be downloaded as CSV as it is shown: by Python's reader a file has what the screen has, in the same order. And an answer
that was downloaded, edited and pasted back is what is sent."""
import csv
import io
import os
import re

from tests.page.driver import ELEMENT, wait
from tests.page.forms import send
from tests.page.screens import furnished, opened
from tests.page.stage import ALPHA, RETAILER, Stage, gtin, interchange, order, signed_in
from tests.page.words import Spoken

# titles of what is for the eye or the hand alone
NOT_IN_FILES = ("", "Shares", "Anteile", "Cancel", "Stornieren")
# what a spreadsheet would run or change, in the numbers of orders
SCREENS_WITH_TABLES = ("today", "mailbox", "order", "answer", "despatch", "pallets", "receipt", "status", "upload", "supplier")
SCREENS_WITH_TABLES += ("overview", "open-lines", "search")
NUMBERS = ["=1+1", "+1", "-1", "@SUM(A1)", "0012", "12-06", "1E5", 'a;b,"c', "'x", "1234567890123456", " =2"]
FORMULAS = ("=", "+", "-", "@", "\t", "\r")
# keeps the bytes of each file that the page makes
CAUGHT = """window.files = []; const real = URL.createObjectURL;
    URL.createObjectURL = it => { window.files.push(it.arrayBuffer()); return real.call(URL, it); }"""
BYTES = "return window.files.pop().then(it => [...new Uint8Array(it)])"
# of each table in the screen: its caption, titles and rows, with what is typed or chosen in a cell
SHOWN = """const text = it => [...it.querySelectorAll('input')].find(one => one.type === 'radio')
        ? it.querySelector('input:checked')?.value ?? '' : it.querySelector('input')?.value ?? it.textContent;
    return [...document.querySelectorAll('main table')].filter(it => it.checkVisibility()).map(table => [table.caption.textContent,
        [...table.tHead.rows[0].cells].map(it => it.textContent), [...table.tBodies[0].rows].map(it => [...it.cells].map(text))])"""


def file_of(browser, caption, separator=","):
    """The rows of the table's file; its form is that of RFC 4180, in UTF-8 with its mark."""
    its_button = "return [...document.querySelectorAll('button.csv')].find(it => it.ariaLabel === arguments[0] && it.checkVisibility())"
    browser.click(browser.run(f"{its_button} // aria-label", f"Download CSV: {caption}")[ELEMENT])
    data = bytes(browser.run(BYTES))
    assert data.startswith(b"\xef\xbb\xbf") and data.endswith(b"\r\n"), data[:80]
    text = data[3:].decode()
    assert text.count("\n") == text.count("\r\n") == text.count("\r"), text
    return list(csv.reader(io.StringIO(text, newline=""), delimiter=separator, strict=True))


def harmless(cell):
    return not cell.startswith(FORMULAS) or re.fullmatch(r"-\d+", cell)


def as_shown(cell):
    """What the screen has where a file has this."""
    return cell[1:] if cell.startswith("'") else cell


def as_written(title, text):
    """A cell of the screen without what is for the eye alone: commas in figures, and the sign and word of a difference."""
    difference = re.fullmatch(r"([−+±])([\d.,]+)( missing| too many| fehlen| zu viel)?", text)
    if difference and title in ("Difference", "Differenz"):
        sign = "-" if difference[1] == "−" else ""
        return sign + re.sub(r"[.,]", "", difference[2])
    return re.sub(r"[.,]", "", text) if re.fullmatch(r"[\d.,]+", text) else text


def compared(browser, separator=","):
    """How many rows of this screen's tables the files have, each as it is shown."""
    count = 0
    for caption, titles, rows in browser.run(SHOWN):
        if rows and len(rows[0]) == 1:
            continue
        places = [place for place, it in enumerate(titles) if it not in NOT_IN_FILES]
        found = file_of(browser, caption, separator)
        assert all(harmless(it) for row in found for it in row), found
        wanted = [[as_written(titles[place], row[place]) for place in places] for row in rows]
        assert found[0] == [titles[it] for it in places], (found[0], titles)
        words = [[as_shown(it) for it in row] for row in found[1:]]
        assert [[it.strip() for it in row] for row in words] == [[it.strip() for it in row] for row in wanted], (words, wanted)
        identifiers = [place for place, it in enumerate(found[0]) if "GTIN" in it or "SSCC" in it]
        assert all(row[it].startswith("'") for row in found[1:] for it in identifiers), found
        count += len(rows)
    return count


def each_screen(browser, stage):
    """The tables of all screens."""
    count = 0
    for name in SCREENS_WITH_TABLES:
        opened(browser, stage, name)
        browser.run(CAUGHT)
        found = compared(browser)
        assert found, name
        count += found
    return count


def sorted_and_filtered(browser, stage):
    """A file has the rows that are left by the filter, in the order of the heading that was pressed, and no others."""
    for place, number in enumerate(NUMBERS):
        stage.upload(RETAILER, interchange(RETAILER, f"F{place}", order(number, [1000 + place, 7])))
    signed_in(browser, stage, ALPHA)
    browser.run("location.hash = 'status'")
    browser.one("table.lines")
    browser.run(CAUGHT)
    for _ in range(2):
        browser.run("[...document.querySelectorAll('table.lines button.sort')].find(it => it.textContent === 'Ordered').click()")
    browser.type(browser.labelled("Order or article"), gtin(1))
    rows = wait(lambda: [it for it in [browser.rows("table.lines tbody")] if len(it) == len(NUMBERS) + 2], "filtered rows")[0]
    found = file_of(browser, "Order lines")[1:]
    assert [it[4] for it in found] == sorted((it[4] for it in found), key=int, reverse=True), found
    assert [as_shown(it[0]) for it in found] == [it[0] for it in rows] and set(NUMBERS) < {as_shown(it[0]) for it in found}, found
    assert compared(browser)
    browser.type(browser.labelled("Order or article"), "no such order")
    browser.until_says("No order line fits.")
    assert not browser.run("return [...document.querySelectorAll('button.csv')][0].checkVisibility()"), "a file of nothing"


def in_german(browser, stage):
    """Where numbers have a decimal comma, cells are separated by semicolons; and the file has a name. The page speaks German then too."""
    agent = browser.run("return navigator.userAgent")
    browser.developer("Emulation.setUserAgentOverride", userAgent=agent, acceptLanguage="de-DE")
    german = Spoken(browser, "de")
    signed_in(german, stage, ALPHA)
    browser.run("location.hash = 'status'")
    browser.one("table.lines")
    assert browser.run("return [navigator.language, document.documentElement.lang]") == ["de-DE", "de"]
    browser.run(CAUGHT)
    assert compared(german, ";")
    browser.developer("Browser.setDownloadBehavior", behavior="allow", downloadPath=stage.folder)
    file_of(german, "Order lines", ";")
    file = os.path.join(stage.folder, "bestellpositionen.csv")
    wait(lambda: os.path.exists(file) and os.path.getsize(file), "file that is downloaded")
    browser.developer("Emulation.setUserAgentOverride", userAgent=agent, acceptLanguage="en-GB")


def tables(browser, program):
    with Stage(program) as stage:
        furnished(stage)
        count = each_screen(browser, stage)
        sorted_and_filtered(browser, stage)
        in_german(browser, stage)
        complaints = browser.complaints()
        assert complaints == [], complaints
    return f"{count} rows of all screens' tables, {len(NUMBERS)} order numbers that a spreadsheet would change, and two languages"


def paste(browser, text):
    """Pastes rows into the form, and takes them."""
    browser.run("document.querySelector('details.paste').open = true")
    area = browser.labelled("Rows from a spreadsheet")
    give = "arguments[0].value = arguments[1]; arguments[0].dispatchEvent(new Event('input', { bubbles: true }))"
    browser.run(give, {ELEMENT: area}, text)
    browser.press("Take these rows")


def form(browser):
    """What the form answers to each line."""
    return [row[4:6] for row in browser.run(SHOWN)[0][2]]


def rows_that_do_not_fit(browser):
    """Each row that does not fit is named, and no line is changed, not even those whose rows fit."""
    browser.press("Accept all 10 lines")
    before = form(browser)
    wrong = {
        "3\taccepted": "",
        "99\trefused": "Row 2: The order has no line 99.",
        "x\taccepted": "Row 3: “x” is not a line number.",
        "4\tmaybe": "Row 4: “maybe” is not an answer to line 4.",
        "5\tchanged\t49": "Row 5: Line 5: give a whole number from 0 to 48.",
        "6\tchanged": "Row 6: Line 6: give a whole number from 0 to 12.",
        "7\taccepted\t239": "Row 7: Line 7: accepted with the quantity 239.",
        "3\trefused": "Row 8: Line 3 is in an earlier row too.",
        "2\trefused": "",
    }
    paste(browser, "\n".join(wrong))
    browser.until_says("Nothing was changed.", "details.paste")
    said = browser.run("return [...document.querySelectorAll('details.paste li')].map(it => it.textContent)")
    named = [it for it in wrong.values() if it]
    assert len(said) == len(named) and all(it.startswith(want) for it, want in zip(said, named)), said
    assert form(browser) == before and before[2] == ["accepted", ""], form(browser)
    assert browser.run("return [document.activeElement.tagName, document.activeElement.ariaInvalid]") == ["TEXTAREA", "true"]
    paste(browser, "")
    browser.until_says("No row has an answer.", "details.paste")
    return len(named)


def pasted_back(browser, stage):
    """The downloaded table with the answers filled in, in the spreadsheet's order, as it is copied from there and as a file."""
    browser.run(CAUGHT)
    titles, *rows = file_of(browser, "Lines of the order, each with your answer")
    answers = {"1": ("refused", ""), "2": ("changed", "40"), "3": ("", "7"), "4": ("Accepted", ""), "5": ("", "")}
    for row in rows:
        row[4:6] = answers.get(row[0], ("accepted", row[2] if row[0] == "6" else ""))
    copied = "\r\n".join("\t".join(it) for it in [titles, *reversed(rows)]) + "\r\n"
    paste(browser, copied)
    browser.until_says("9 lines are answered as in the rows.", "details.paste")
    wanted = [["refused", ""], ["changed", "40"], ["changed", "7"], ["accepted", ""], ["accepted", ""]]
    assert form(browser)[:5] == wanted and form(browser)[5:] == [["accepted", ""]] * 5, form(browser)
    assert browser.run("return document.activeElement.className") == "verdict"
    # without titles, three columns
    paste(browser, "5;refused;\n")
    browser.until_says("1 line is answered as in the rows.", "details.paste")
    assert form(browser)[4] == ["refused", ""], form(browser)
    stage.sent.clear()
    send(browser, "answer")
    browser.until_replied("1 ORDRSP accepted")
    lines = [it.split() for it in stage.ask(ALPHA, "status").splitlines() if it.startswith("L 128590 ")]
    assert "".join(it[4] for it in lines) == "NCCANAAAAA" and (lines[1][6], lines[2][6]) == ("40", "7"), lines


def pasted(browser, program):
    with Stage(program) as stage:
        furnished(stage)
        signed_in(browser, stage, ALPHA)
        browser.run("location.hash = 'answer/4'")
        browser.until_says("Accept all 10 lines")
        count = rows_that_do_not_fit(browser)
        pasted_back(browser, stage)
        complaints = browser.complaints()
        assert complaints == [], complaints
    return f"{count} rows that do not fit, and an answer of 10 lines that was downloaded, edited, pasted back and sent"


TRIALS = {"tables as files": tables, "answers from a spreadsheet": pasted}
