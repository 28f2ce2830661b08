"""A supplier's day and a planner's day: what each takes in clicks, fields that are typed and seconds of page, hub and driver; and pictures
of both for docs/page.

    python3 -m tests.page.days PROGRAM FOLDER"""
import os
import re
import sys
import time

from tests.page.driver import Browser
from tests.page.pictures import small
from tests.page.screens import furnished
from tests.page.stage import ALPHA, BETA, RETAILER, Keeping, Stage, interchange, milliseconds, order, signed_in

PALLETS = 33
# a person prints by the browser's dialog, which no trial can press
NO_PRINTER = "window.print = () => dispatchEvent(new Event('afterprint'))"


class Person:
    """Uses the page as a person does, and counts."""

    def __init__(self, browser, folder=None):
        self.browser, self.folder, self.begun = browser, folder, 0.0

    def begin(self):
        self.clicks, self.fields, self.begun = 0, 0, time.monotonic()

    def press(self, text, kind="button"):
        self.browser.press(text, kind)
        self.clicks += 1

    def press_named(self, name):
        """A link by its name for who listens, as the links of rows have it."""
        self.browser.click(self.browser.one(f"a[aria-label='{name}']"))
        self.clicks += 1

    def type(self, label, text):
        self.browser.type(self.browser.labelled(label), text)
        self.fields += 1

    def done(self, what):
        took = time.monotonic() - self.begun
        fields = f", {self.fields} fields typed" if self.fields else ""
        return f"{what}: {self.clicks} clicks{fields}, {took:.1f} s", took

    def picture(self, name, to=""):
        if not self.folder:
            return
        began = time.monotonic()
        seen = "document.querySelector(arguments[0]).scrollIntoView({ block: 'center' })"
        self.browser.run(f"if (arguments[0]) {seen}; else scrollTo(0, 0)", to)
        file = os.path.join(self.folder, f"{name}.png")
        self.browser.picture(file)
        with open(file, "rb") as opened:
            shrunk = small(opened.read())
        with open(file, "wb") as opened:
            opened.write(shrunk)
        # a person takes no pictures
        self.begun += time.monotonic() - began


def ten_lines(person, stage):
    """Answers an order of ten lines, from Today."""
    person.begin()
    stage.sent.clear()
    person.press_named("Answer order 128590")
    person.press("Accept all 10 lines")
    person.press("Check answer")
    person.picture("supplier-day-2", ".summary")
    person.press("Send answer")
    person.browser.until_replied("1 ORDRSP accepted")
    sent = stage.sent[-1][1].decode()
    # the lines are named, each as accepted
    assert len(stage.sent) == 1 and "+4'DTM" in sent and sent.count("'LIN+") == 10 == len(re.findall(r"'LIN\+\d+\+5\+", sent)), sent
    return person.done("ten lines answered")


def many_pallets(person, stage):
    """Announces the order on 33 pallets, and prints their labels."""
    person.begin()
    person.press("Announce a despatch", "a")
    person.type("Your GS1 company prefix", "40123455")
    person.press("Load all that is left on this pallet")
    person.type("Split evenly over this many pallets", str(PALLETS))
    person.press("Split")
    person.browser.until_says(f"Done: split over this pallet and pallets 2 to {PALLETS}.")
    person.picture("supplier-day-3", ".pallet:nth-of-type(2)")
    person.press("Check despatch advice")
    person.press("Send despatch advice")
    person.browser.until_replied("1 DESADV accepted")
    assert stage.sent[-1][1].decode().count("GIN+BJ+") == PALLETS
    person.press("Labels", "a")
    person.browser.one(".label")
    assert len(person.browser.all(".label")) == 2 * PALLETS
    person.browser.run(NO_PRINTER)
    person.press("Print labels")
    said = person.done(f"{PALLETS} pallets announced, with labels")
    person.picture("supplier-day-4")
    return said


def supplier(browser, stage, folder=None):
    person = Person(browser, folder)
    signed_in(browser, stage, ALPHA, "#today")
    browser.until_says("looks again every five minutes")
    person.picture("supplier-day-1")
    return [ten_lines(person, stage), many_pallets(person, stage)]


def uploaded(person):
    """Sends the orders of the day."""
    text = interchange(RETAILER, "4001", order("128600", [10], supplier=BETA), order("128601", [24, 12], reference=2))
    person.browser.drop("orders-of-today.edi", text)
    person.begin()
    person.press("Send 1 file")
    person.browser.until_says("Accepted: the hub has taken it")
    person.picture("planner-day-1")
    return person.done("two orders uploaded")


def looked_over(person):
    """Fetches all suppliers."""
    person.begin()
    person.press("Overview", "a")
    person.browser.drop("suppliers.csv", f"GLN;Name\n{ALPHA};Alpha\n{BETA};Beta\n")
    person.press("Fetch the status of 2 suppliers")
    person.browser.until_says("Fetched 2 suppliers.")
    person.picture("planner-day-2")
    return person.done("all suppliers looked over")


def wrong_line(person, stage):
    """Cancels 12 of a line that was ordered by mistake, from the overview."""
    person.begin()
    stage.sent.clear()
    person.press("Alpha", "a")
    person.press_named("Cancel of order 128601, line 2")
    person.type("Quantity to cancel", "12")
    person.press("Check cancellation")
    person.browser.until_says(f"of supplier Alpha ({ALPHA}).", ".summary")
    person.picture("planner-day-3", ".summary")
    person.press("Send cancellation")
    person.browser.until_says("Accepted: the hub has taken it")
    assert stage.sent[-1][1].decode().split("\n")[2:5] == ["128601", "2", "12"], stage.sent
    return person.done("one wrong line cancelled")


def planner(browser, stage, folder=None):
    person = Person(browser, folder)
    signed_in(browser, stage, RETAILER)
    return [uploaded(person), looked_over(person), wrong_line(person, stage)]


def both(browser, program):
    with Stage(program) as stage:
        furnished(stage)
        found = [*supplier(browser, stage), *planner(browser, stage)]
        assert browser.complaints() == []
    assert all(took < 20 for _, took in found), found
    return "; ".join(said for said, _ in found)


TRIALS = {"a supplier's day and a planner's": both}


def main(program, folder):
    # one clock, as in the other pictures
    Keeping.prepared = "250606:0915"
    with Browser() as browser, Stage(program) as stage:
        browser.stop_clock(milliseconds(2025, 6, 6, 9, 30))
        browser.look(1100, 800)
        furnished(stage)
        for said, _ in [*supplier(browser, stage, folder), *planner(browser, stage, folder)]:
            print(said)


if __name__ == "__main__":
    main(os.path.abspath(sys.argv[1]), sys.argv[2])
