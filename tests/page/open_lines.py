"""What is open at all suppliers, with the days of ORDERS files in whatever spelling, and a search across their statuses."""
from tests.page.csv_files import CAUGHT, compared, file_of
from tests.page.driver import wait
from tests.page.overview import OVERVIEW, fetch
from tests.page.screens import furnished
from tests.page.stage import ALPHA, BETA, RETAILER, Stage, gtin, interchange, milliseconds, order, signed_in

LIST = f"{ALPHA};Alpha\n{BETA};Beta\n"
MANY = 12
LINES = 45
SSCC = "340123455000000036"


def days(number, day, reference, supplier=ALPHA):
    return order(number, [9], supplier=supplier, reference=reference).replace("DTM+2:20250606", f"DTM+2:{day}")


def elsewhere(text):
    """The same interchange as another program spells it: with separators of its own and a line for each segment."""
    return "UNA*|,! ~\r\n" + text[9:].translate(str.maketrans(":+'?", "*|~!")).replace("~", "~\r\n")


def fetched(browser, stage):
    stage.beside(LIST)
    signed_in(browser, stage, RETAILER, OVERVIEW)
    fetch(browser, 2)
    browser.until_says("Fetched 2 suppliers.")


def rows(browser, caption="Open lines"):
    table = "[...document.querySelectorAll('main table')].find(it => it.caption.textContent === arguments[0])"
    some = f"[...{table}.tBodies[0].rows].filter(it => !it.querySelector('.none'))"
    return browser.run(f"return {some}.map(it => [...it.cells].map(cell => cell.innerText))", caption)


def choose(browser, kind):
    script = "const it = document.querySelector('main select'); it.value = arguments[0]; it.dispatchEvent(new Event('change'))"
    browser.run(script, kind)


def with_days(browser, stage):
    """Days come from files in two spellings; overdue ones come first, and orders that differ in blanks alone have no certain day."""
    browser.press("Open lines of all suppliers", "a")
    browser.until_says("14 lines of 2 fetched suppliers are open, 0 of them overdue, 14 without a wanted day.")
    assert all(it[-1] == "–" for it in rows(browser)), rows(browser)
    stage.asked.clear()
    early, late = days("128590", "20250609", 1), days("128591", "202506101200", 2).replace("1200:102", "1200:203")
    browser.drop("letter.txt", "no EDIFACT")
    browser.until_says("letter.txt: the page finds no order in it.")
    unsure = (days("B1", "20250601", 3), days("B1 ", "20250602", 4), days("other", "20250601", 5, BETA))
    browser.drop("a.edi", interchange(RETAILER, "1", early, *unsure).replace("'", "'\r\n"))
    browser.until_says("a.edi: wanted day found for 4 orders.")
    browser.drop("b.edi", elsewhere(interchange(RETAILER, "2", late, days("128577", "20250617", 6, BETA), order("x", [1], reference=7))))
    browser.until_says("b.edi: wanted day found for 3 orders.")
    browser.until_says("14 lines of 2 fetched suppliers are open, 10 of them overdue, 1 without a wanted day.")
    found = rows(browser)
    shown = [(it[2], it[-1]) for it in found]
    assert shown[:10] == [("128590", "9 June 2025 overdue")] * 10, shown
    last = [("128591", "10 June 2025")] * 2 + [("128577", "17 June 2025"), ("B1", "–")]
    assert shown[10:] == last and [it[0] for it in found[10:]] == ["Alpha", "Alpha", "Beta", "Alpha"], shown
    # nothing is sent or asked for
    assert stage.asked == [] and stage.sent == [], stage.asked


def chosen(browser):
    """It is filtered by day and by text, and the file has what is shown."""
    browser.run(CAUGHT)
    for kind, count in (("late", 10), ("soon", 3), ("undated", 1), ("waiting", 14), ("all", 14)):
        choose(browser, kind)
        assert len(rows(browser)) == count, (kind, rows(browser))
        assert compared(browser) == count
    browser.type(browser.labelled("Supplier, order or article"), "beta")
    wait(lambda: len(rows(browser)) == 1, "one row")
    assert file_of(browser, "Open lines")[1][-1] == "17 June 2025"


def elsewhere_too(browser):
    """The overview counts what is overdue, and a supplier's own status has the days."""
    browser.press("‹ Overview", "a")
    wait(lambda: [it[5] for it in browser.rows("table.across tbody")] == ["10", "0"], "what is overdue", lambda: browser.rows("table.across tbody"))
    browser.press("Alpha", "a")
    browser.until_says("Status of Alpha")
    assert browser.run("return document.title").startswith("Status of Alpha"), browser.run("return document.title")
    wanted = {it[1]: it[-1] for it in browser.rows("table.lines tbody")}
    assert wanted == {"128576": "–", "128590": "9 June 2025 overdue", "128591": "10 June 2025", "B1": "–"}, wanted


def search(browser, text):
    browser.run("location.hash = 'overview'")
    browser.type(browser.labelled("Order, article or pallet (SSCC)"), text)
    browser.press("Search all suppliers")
    wait(lambda: browser.run("return document.querySelector('h1')?.textContent") == "Search all suppliers", "search")


def searched(browser, stage):
    """An order, an article and an SSCC are found at each supplier that has them, and the hub is not asked again."""
    stage.asked.clear()
    for text, lines, pallets in ((" 128577 ", 1, 0), (gtin(1), 3, 1), (f"(00) {SSCC}", 0, 1), (SSCC[:14], 0, 3), ("<b>", 0, 0)):
        search(browser, text)
        counts = " and ".join(f"{count} {noun}{'' if count == 1 else 's'}" for count, noun in ((lines, "order line"), (pallets, "pallet")))
        browser.until_says(f"is in {counts} of 2 fetched suppliers.")
        found = len(rows(browser, "Order lines")), len(rows(browser, "Pallets"))
        assert found == (lines, pallets), (text, found)
    search(browser, gtin(1))
    named = {(it[0], it[2]) for it in rows(browser, "Order lines")}
    assert named == {("Alpha", "128590"), ("Alpha", "128591"), ("Alpha", "B1")}, named
    browser.run(CAUGHT)
    assert compared(browser) == 4
    browser.run("location.hash = 'overview'")
    browser.type(browser.labelled("Order, article or pallet (SSCC)"), "12")
    browser.press("Search all suppliers")
    browser.until_says("Give at least 3 characters.")
    assert stage.asked == [], stage.asked


def uploaded_too(browser, stage):
    """Orders that this tab has uploaded need not be given again."""
    signed_in(browser, stage, RETAILER)
    browser.drop("new.edi", interchange(RETAILER, "9", days("NEW", "20250601", 1, BETA)))
    browser.press("Send 1 file")
    browser.until_says("Accepted: the hub has taken it")
    browser.press("Overview", "a")
    fetch(browser, 2)
    browser.until_says("Fetched 2 suppliers.")
    wait(lambda: [it[5] for it in browser.rows("table.across tbody")] == ["–", "1"], "what is overdue", lambda: browser.rows("table.across tbody"))


def many(browser, stage):
    """Of many lines the first are drawn, and the file has all of them."""
    for place in range(MANY):
        stage.upload(RETAILER, interchange(RETAILER, f"N{place}", order(f"N{place:02d}", [5] * LINES)))
    fetched(browser, stage)
    browser.run("location.hash = 'open-lines'")
    count = MANY * LINES + 15
    browser.until_says(f"These are the first 500 of {count}. The file has all of them.")
    assert len(rows(browser)) == 500
    browser.run(CAUGHT)
    assert len(file_of(browser, "Open lines")) == count + 1
    assert browser.rows("table.across tfoot")[0][0] == f"Sum of {count}"
    search(browser, "4000862")
    browser.until_says("These are the first 500 of each: give more of the number.")
    assert len(rows(browser, "Order lines")) == 500


def open_lines(browser, program):
    with Stage(program) as stage:
        furnished(stage)
        stage.upload(RETAILER, interchange(RETAILER, "B1", order("B1", [4])))
        browser.stop_clock(milliseconds(2025, 6, 10, 9, 30))
        fetched(browser, stage)
        with_days(browser, stage)
        chosen(browser)
        elsewhere_too(browser)
        searched(browser, stage)
        uploaded_too(browser, stage)
        many(browser, stage)
        complaints = browser.complaints()
        assert complaints == [], complaints
    return f"14 open lines with the days of 7 orders in two spellings, 5 searches, and {MANY * LINES + 15} lines in one file"


TRIALS = {"open lines of all suppliers": open_lines}
