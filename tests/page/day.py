"""A day in the browser, from the order to the receipt and its correction. What the page sends is compared byte for byte with what is
written here by hand, and the hub's status after it with that of the example day, played by commands on a hub of its own."""
import os
import shutil
import subprocess
import tempfile
import time

from tests.page.driver import wait
from tests.page.forms import change, check, send, send_files
from tests.page.stage import ALPHA, BETA, DAY, EXAMPLES, RETAILER, Stage, milliseconds, sign_in

# by hand: the page's references are the moment in milliseconds, to the base of 36, and a counter
ANSWER_OF_A = (
    "UNA:+.? 'UNB+UNOC:3+4012345500004:14+5412345000006:14+250603:0810+MBG8NBUO001'"
    "UNH+1+ORDRSP:D:01B:UN:EAN009'BGM+231+ANSWER-A+4'DTM+137:20250603:102'RFF+ON:128576'NAD+BY+5412345000013::9'NAD+SU+4012345500004::9'"
    "LIN+1+5+4000862141404:SRV'RFF+ON:128576:1'LIN+2+3+4000862141411:SRV'QTY+113:20'RFF+ON:128576:2'"
    "UNS+S'CNT+2:2'UNT+14+1'UNZ+1+MBG8NBUO001'"
)
ANSWER_OF_B = (
    "UNA:+.? 'UNB+UNOC:3+8712345000004:14+5412345000006:14+250603:0900+MBGAFMO0001'"
    "UNH+1+ORDRSP:D:01B:UN:EAN009'BGM+231+ANSWER-B+4'DTM+137:20250603:102'RFF+ON:128577'NAD+BY+5412345000013::9'NAD+SU+8712345000004::9'"
    "LIN+1+5+8712345000011:SRV'RFF+ON:128577:1'UNS+S'CNT+2:1'UNT+11+1'UNZ+1+MBGAFMO0001'"
)
CANCELLATION = "8712345000004\nMBGASHMO001\n128577\n1\n10\n"
DESPATCH_OF_A = (
    "UNA:+.? 'UNB+UNOC:3+4012345500004:14+5412345000006:14+250604:0800+MBHNQBK0001'"
    "UNH+1+DESADV:D:01B:UN:EAN007'BGM+351+ADVICE-A+9'DTM+137:20250604:102'NAD+BY+5412345000013::9'NAD+SU+4012345500004::9'"
    "CPS+1'PAC+1'PCI+33E'GIN+BJ+340123455000000012'LIN+1++4000862141404:SRV'QTY+12:48'RFF+ON:128576:1'"
    "CPS+2'PAC+1'PCI+33E'GIN+BJ+340123455000000029'LIN+2++4000862141411:SRV'QTY+12:20'RFF+ON:128576:2'CNT+2:2'UNT+21+1'UNZ+1+MBHNQBK0001'"
)
DESPATCH_OF_B = (
    "UNA:+.? 'UNB+UNOC:3+8712345000004:14+5412345000006:14+250604:0900+MBHPVHC0001'"
    "UNH+1+DESADV:D:01B:UN:EAN007'BGM+351+ADVICE-B+9'DTM+137:20250604:102'NAD+BY+5412345000013::9'NAD+SU+8712345000004::9'"
    "CPS+1'PAC+1'PCI+33E'GIN+BJ+387123450000000012'LIN+1++8712345000011:SRV'QTY+12:40'RFF+ON:128577:1'CNT+2:1'UNT+14+1'UNZ+1+MBHPVHC0001'"
)

EACH_FILE = "return [...document.querySelectorAll('.upload')].map(it => it.textContent)"

# which quantities of an answer cannot be typed, the colour of the last one, and whether a notice is before the table
QUANTITIES = "return [...document.querySelectorAll('.answers .field input')].map(it => it.disabled)"
GROUND = "return getComputedStyle([...document.querySelectorAll('.answers .field input')].pop()).backgroundColor"
BEFORE = "return document.querySelector('.notice.warn').compareDocumentPosition(document.querySelector('table')) & 4"


def file_of(*path):
    with open(os.path.join(DAY, *path), "rb") as file:
        return file.read()


def upload(browser, stage, *files):
    """The retailer chooses files, and sees a line for each message."""
    sign_in(browser, stage, RETAILER)
    browser.choose_file(browser.one("input[type=file]"), *(os.path.join(DAY, *it) for it in files))
    send_files(browser, len(files))
    browser.until_says("Accepted")
    wait(lambda: all("Accepted" in it for it in browser.run(EACH_FILE)), "answer to each file", browser.text)
    wanted = [(f"/p/{RETAILER}/interchanges", file_of(*it)) for it in files]
    end = time.monotonic() + 10
    while len(stage.sent) < len(files) and time.monotonic() < end:
        time.sleep(0.05)
    assert stage.sent == wanted, stage.sent
    stage.sent.clear()


def sent_is(stage, who, path, wanted):
    assert stage.sent == [(f"/p/{who}/{path}", wanted.encode("latin-1"))], f"{stage.sent}, not {wanted!r}"
    stage.sent.clear()


def printed_and_downloaded(browser, stage):
    """On paper stand the order's parties and lines, and no buttons; the file is the entry as the hub has it, byte for byte."""
    parts = "['#top', 'main .actions', 'main h1', 'main .terms', 'main table']"
    seen = f"return {parts}.map(it => document.querySelector(it).checkVisibility())"
    browser.developer("Emulation.setEmulatedMedia", media="print")
    assert browser.run(seen) == [False, False, True, True, True], browser.run(seen)
    browser.developer("Emulation.setEmulatedMedia", media="")
    assert browser.run(seen) == [True] * 5
    browser.developer("Browser.setDownloadBehavior", behavior="allow", downloadPath=stage.folder)
    browser.press("Download .edi")
    file = os.path.join(stage.folder, "order-1.edi")
    wait(lambda: os.path.exists(file) and os.path.getsize(file), "file that is downloaded")
    with open(file, encoding="latin-1", newline="") as opened:
        assert opened.read() == stage.ask(ALPHA, "mail/item/1")


def answer_in_part(browser, stage):
    """Alpha reads its mailbox, takes the order, and answers: all of the first article, 20 of the second."""
    browser.stop_clock(milliseconds(2025, 6, 3, 8, 10))
    sign_in(browser, stage, ALPHA)
    browser.until_says("1 new entry")
    browser.until_says("3 June 2025", "table.mailbox")
    browser.press("128576", "a")
    browser.until_says("6 June 2025")
    rows = browser.rows("table")
    first, second = ["1", "4000862141404", "48", "48", "0", "not answered yet"], ["2", "4000862141411", "24", "24", "0", "not answered yet"]
    assert rows == [first, second, ["Sum of 2", "", "72", "72", "0", ""]], rows
    printed_and_downloaded(browser, stage)
    browser.press("Mark as read")
    browser.until_says("Marked as read")
    browser.press("Answer", "a")
    # a quantity is typed for a change alone
    browser.press("Accept all 2 lines")
    assert browser.run(QUANTITIES) == [True, True], browser.run(QUANTITIES)
    change(browser, 2, "20")
    assert browser.run(QUANTITIES) == [True, False], browser.run(QUANTITIES)
    ground = browser.run(GROUND)
    browser.type(browser.labelled("Number of your answer"), "ANSWER-A")
    browser.press("Show what will be sent", "summary")
    browser.until_says("QTY+113:20'")
    assert browser.text("details pre").replace("\n", "") == ANSWER_OF_A, browser.text("details pre")
    stage.sent.clear()
    send(browser, "answer")
    browser.until_says("Accepted: the hub has taken it")
    browser.until_replied("1 ORDRSP accepted")
    # the hub's own line is not in view, and what was sent does not look as if it could be changed
    assert "1 ORDRSP accepted" not in browser.text() and browser.run(GROUND) != ground, (browser.text(), ground)
    sent_is(stage, ALPHA, "interchanges", ANSWER_OF_A)


def answer_whole_and_cancel(browser, stage):
    """Beta takes all; then the retailer cancels ten pieces of it, in the line's own form."""
    browser.stop_clock(milliseconds(2025, 6, 3, 9, 0))
    sign_in(browser, stage, BETA)
    browser.press("128577", "a")
    browser.press("Answer", "a")
    browser.press("Accept the line")
    browser.type(browser.labelled("Number of your answer"), "ANSWER-B")
    send(browser, "answer")
    browser.until_says("Accepted: the hub has taken it")
    sent_is(stage, BETA, "interchanges", ANSWER_OF_B)
    browser.stop_clock(milliseconds(2025, 6, 3, 9, 10))
    sign_in(browser, stage, RETAILER)
    browser.press("Status", "a")
    browser.type(browser.labelled("The supplier's GLN"), BETA)
    browser.press("Show status")
    browser.press("Cancel…", "a")
    browser.until_says("60 pieces are open")
    browser.type(browser.labelled("Quantity to cancel"), "10")
    send(browser, "cancellation")
    browser.until_says("Accepted: the hub has taken it")
    sent_is(stage, RETAILER, "cancellations", CANCELLATION)


def despatch(browser, stage, who, moment, prefix, number):
    """The form of a despatch, with the order that is open, its number and the company's prefix."""
    browser.stop_clock(moment)
    sign_in(browser, stage, who)
    browser.press("Despatch", "a")
    browser.type(browser.labelled("Number of the despatch"), number)
    browser.type(browser.labelled("Your GS1 company prefix"), prefix)
    browser.keys("tab")


def despatches(browser, stage):
    """Both announce: Alpha two pallets, Beta 40 of its 50. More than open is not sent."""
    despatch(browser, stage, ALPHA, milliseconds(2025, 6, 4, 8, 0), "40123455", "ADVICE-A")
    browser.type(browser.labelled("Quantity of order 128576, line 1"), "48")
    browser.press("Add a pallet")
    browser.type(browser.labelled("Quantity of order 128576, line 2", 1), "21")
    check(browser, "despatch advice")
    browser.until_says("Only 20 are open, and 21 are on your pallets.")
    assert stage.sent == [], stage.sent
    browser.type(browser.labelled("Quantity of order 128576, line 2", 1), "20")
    send(browser, "despatch advice")
    browser.until_says("Accepted: the hub has taken it")
    sent_is(stage, ALPHA, "interchanges", DESPATCH_OF_A)
    despatch(browser, stage, BETA, milliseconds(2025, 6, 4, 9, 0), "8712345", "ADVICE-B")
    browser.type(browser.labelled("Quantity of order 128577, line 1"), "40")
    send(browser, "despatch advice")
    browser.until_says("Accepted: the hub has taken it")
    sent_is(stage, BETA, "interchanges", DESPATCH_OF_B)


def receipts(browser, stage):
    """The retailer tells what was received; Alpha reads it beside what it announced, and again once it is corrected."""
    upload(browser, stage, ("7-receipts", "of-a.edi"), ("7-receipts", "of-b.edi"))
    sign_in(browser, stage, ALPHA)
    browser.press("W-1", "a")
    browser.until_says("−2 missing")
    rows = browser.rows("table")
    first = ["340123455000000012", "4000862141404", "48", "45", "1", "0", "−2 missing"]
    assert rows[:2] == [first, ["340123455000000029", "4000862141411", "20", "20", "0", "0", "±0"]], rows
    sign_in(browser, stage, RETAILER)
    browser.one(".drop")
    browser.drop("of-a.edi", file_of("8-correction", "of-a.edi").decode("latin-1"))
    send_files(browser)
    browser.until_says("Accepted")
    sign_in(browser, stage, ALPHA)
    browser.press("W-3", "a")
    browser.until_says("This advice replaces an earlier one (function 5)")
    assert browser.rows("table") == [["340123455000000012", "4000862141404", "48", "47", "1", "0", "±0"]], browser.rows("table")
    browser.press("‹ Mailbox", "a")
    browser.press("W-1", "a")
    browser.until_says("A later advice replaced what W-1 says of pallet 340123455000000012.")
    # which is said before what it says
    assert browser.run(BEFORE) > 0, browser.text()
    browser.press("‹ Mailbox", "a")
    browser.press("Show read entries")
    browser.until_says("128576", ".taken")


def shown_status(browser, stage):
    """What the page shows of Alpha's status, in the evening."""
    browser.press("Status", "a")
    browser.until_says("Sum of 2", "table.lines")
    *lines, sums = [it[:9] for it in browser.rows("table.lines")]
    first = ["128576", "1", "4000862141404", "accepted", "48", "48", "0", "0", "0"]
    assert lines == [first, ["128576", "2", "4000862141411", "changed", "24", "20", "0", "4", "0"]], lines
    assert sums[4:] == ["72", "68", "0", "4", "0"], sums
    pallets = [it[2:] for it in browser.rows("table.pallet-rows tbody")]
    assert pallets == [["received, corrected", "48", "47", "1", "0", "±0"], ["received", "20", "20", "0", "0", "±0"]], pallets


def by_commands(program):
    """The status of both suppliers where the same day is played by commands."""
    folder = tempfile.mkdtemp()
    file = os.path.join(folder, "hub.db")
    retailer = ["--as", RETAILER, "--key", "retail-key"]
    suppliers = {ALPHA: ["--as", ALPHA, "--key", "alpha-key-1"], BETA: ["--as", BETA, "--key", "beta-key-1"]}
    steps = [["init", "--register", os.path.join(EXAMPLES, "register.toml")]]
    imported = lambda who, name: ["import", *who, "--folder", os.path.join(DAY, name)]
    steps += [imported(retailer, "1-orders"), imported(suppliers[ALPHA], "2-answer-of-a"), imported(suppliers[BETA], "3-answer-of-b")]
    steps += [["cancel", *retailer, "--supplier", BETA, "--reference", "C1", "--order", "128577", "--line", "1", "--quantity", "10"]]
    steps += [imported(suppliers[ALPHA], "4-despatch-of-a"), imported(suppliers[BETA], "5-despatch-of-b")]
    steps += [imported(retailer, "7-receipts"), imported(retailer, "8-correction")]
    try:
        for name, *words in steps:
            subprocess.run([program, name, "--db", file, *words], stdout=subprocess.DEVNULL, check=True)
        status = lambda words: subprocess.run([program, "status", "--db", file, *words], stdout=subprocess.PIPE, check=True).stdout.decode()
        return {who: status(words) for who, words in suppliers.items()}
    finally:
        shutil.rmtree(folder)


def day(browser, program):
    with Stage(program) as stage:
        upload(browser, stage, ("1-orders", "orders.edi"))
        assert browser.text("table").count("Accepted") == 2, browser.text("table")
        answer_in_part(browser, stage)
        answer_whole_and_cancel(browser, stage)
        despatches(browser, stage)
        receipts(browser, stage)
        shown_status(browser, stage)
        found = {who: stage.ask(who, "status") for who in (ALPHA, BETA)}
        wanted = by_commands(program)
        assert found == wanted and found[ALPHA].count("\n") == 5 and found[BETA].count("\n") == 3, f"{found}, not {wanted}"
        complaints = browser.complaints()
        assert complaints == [], complaints
    return "5 interchanges and a cancellation as written by hand, 4 files as they are, and the status as by commands"


TRIALS = {"a day from the order to the receipt": day}
