"""The SSCCs of a despatch: two tabs propose different ones, scanned ones are understood, one press renumbers what has no label yet, and the
first serial number is the person's."""
import time

from tests.page.driver import wait
from tests.page.forms import check, fresh, send
from tests.page.refusals_told import despatch_by_another
from tests.page.stage import ALPHA, RETAILER, Stage, interchange, order, signed_in

FIRST, SECOND, THIRD, FOURTH, FIFTH, SIXTH, SEVENTH = (
    "340123455000000012",
    "340123455000000029",
    "340123455000000036",
    "340123455000000043",
    "340123455000000050",
    "340123455000000067",
    "340123455000000074",
)
GROUPED = f"(00) {SEVENTH[0]} {SEVENTH[1:9]} {SEVENTH[9:17]} {SEVENTH[17]}"
SCANNED = (f"00{SEVENTH}", f"(00){SEVENTH}", f"]C100{SEVENTH}", GROUPED, SEVENTH[:17])
# what can be seen of ticks for labels that are printed, and of the button for new SSCCs
OFFERED = "return [...document.querySelectorAll('.label-tick, .renumber')].filter(it => it.offsetParent !== null).map(it => it.textContent)"


def ssccs(browser):
    """What is in the field of each pallet."""
    return browser.run("return [...document.querySelectorAll('.pallet > .field input')].map(it => it.value)")


def until(browser, wanted):
    wait(lambda: ssccs(browser) == wanted, f"pallets {wanted}", lambda: ssccs(browser))


def despatch(browser, prefix="40123455"):
    """The form of a despatch, as it opens."""
    fresh(browser, "despatch")
    if prefix:
        browser.type(browser.labelled("Your GS1 company prefix"), prefix)
        browser.keys("tab")


def two_tabs(browser, stage):
    """Neither tab proposes what is on the other's form; what a form leaves is free again, and so is what a closed tab had."""
    signed_in(browser, stage, ALPHA)
    despatch(browser)
    until(browser, [FIRST])
    browser.press("Add a pallet")
    until(browser, [FIRST, SECOND])
    one = browser.tab()
    browser.new_tab()
    signed_in(browser, stage, ALPHA)
    despatch(browser)
    until(browser, [THIRD])
    browser.press("Add a pallet")
    until(browser, [THIRD, FOURTH])
    # the same typed by hand is told
    browser.type(browser.labelled("SSCC", 1), SECOND)
    browser.keys("tab")
    browser.until_says("A form in another tab of this browser uses this SSCC already.")
    browser.close_tab(one)
    browser.press("Add a pallet")
    until(browser, [FIRST, SECOND, THIRD])
    despatch(browser, prefix="")
    until(browser, [FIRST])
    kept = browser.run("return Object.values(localStorage).concat(Object.keys(localStorage))")
    assert kept == [], kept


def scanned(browser):
    """Each form of a scanned SSCC is taken, and 17 digits get their check digit."""
    for text in SCANNED:
        browser.type(browser.labelled("SSCC"), text)
        browser.keys("tab")
        until(browser, [SEVENTH])
        browser.type(browser.labelled("SSCC"), "")


def renumbered(browser, stage):
    """After B12 one press gives new SSCCs to all pallets but those that have their label."""
    despatch(browser)
    browser.type(browser.labelled("SSCC"), FIRST)
    for place in (1, 2):
        browser.press("Add a pallet")
        wait(lambda: len(ssccs(browser)) == place + 1, "a pallet")
    until(browser, [FIRST, SECOND, THIRD])
    # new SSCCs are offered once one is wrong
    assert browser.run(OFFERED) == [], browser.run(OFFERED)
    for place in range(3):
        browser.type(browser.labelled("Quantity of order P1, line 1", place), "1")
    browser.type(browser.labelled("Number of the despatch"), "D-P1")
    despatch_by_another(stage, "X1", "D-X1", FIRST, 1, of="P1")
    despatch_by_another(stage, "X2", "D-X2", SECOND, 1, of="P1")
    send(browser, "despatch advice")
    browser.until_replied("refused B12", ".delivery")
    browser.until_says("You have used this SSCC before.")
    browser.click(browser.labelled("Its label is printed: keep this SSCC", 2))
    browser.press("New SSCCs for pallets without a printed label")
    until(browser, [FOURTH, FIFTH, THIRD])
    browser.until_says("2 pallets have new SSCCs. 1 unchanged.")
    assert browser.run("return document.querySelectorAll('.pallet [aria-invalid]').length") == 0
    stage.sent.clear()
    send(browser, "despatch advice")
    browser.until_replied("1 DESADV accepted")
    sent = stage.sent[0][1].decode()
    assert all(f"GIN+BJ+{it}'" in sent for it in (FOURTH, FIFTH, THIRD)), sent


# the last serial number of extension digit 3, and the first of 4
LAST = ["340123455999999991", "440123455000000002"]


def first_serial(browser):
    """The first serial number of the person, and what is wrong with one."""
    despatch(browser)
    until(browser, [SIXTH])
    browser.type(browser.labelled("First serial number"), "700")
    browser.keys("tab")
    until(browser, ["340123455000007004"])
    browser.press("Add a pallet")
    until(browser, ["340123455000007004", "340123455000007011"])
    browser.type(browser.labelled("First serial number"), "123456789")
    browser.keys("tab")
    browser.until_says("After the prefix 40123455 a serial number has at most 8 digits.")
    # the last serial number of an extension digit is not the end
    browser.type(browser.labelled("First serial number"), "99999999")
    browser.keys("tab")
    until(browser, LAST)
    # asked again, and once more before that is done, the page proposes the same
    browser.run("for (const it of [1, 2]) document.querySelector('[data-field=\"ssccFields.first\"]').dispatchEvent(new Event('change'))")
    time.sleep(1)
    until(browser, LAST)
    browser.type(browser.labelled("First serial number"), "")


def sent_by_another_tab(browser, stage):
    """What another tab has sent is not proposed by a form that was open before, though its own first serial number leads there."""
    one = browser.tab()
    despatch(browser)
    sent = wait(lambda: [it for it in ssccs(browser) if it], "an SSCC")[0]
    browser.type(browser.labelled("Quantity of order P1, line 1"), "1")
    serial = str(int(sent[9:17]))
    browser.new_tab()
    signed_in(browser, stage, ALPHA)
    despatch(browser, prefix="")
    two = browser.tab()
    browser.to_tab(one)
    send(browser, "despatch advice")
    browser.until_replied("1 DESADV accepted")
    browser.press("Mailbox", "a")
    browser.until_says("new entr")
    browser.to_tab(two)
    for label, text in (("SSCC", ""), ("First serial number", serial), ("Your GS1 company prefix", "40123455")):
        browser.type(browser.labelled(label), text)
    browser.keys("tab")
    wait(lambda: len(ssccs(browser)[0]) == 18, "an SSCC")
    assert ssccs(browser) != [sent], sent
    browser.close_tab(one)


def without_prefix(browser, stage):
    """Without a prefix and a pallet of before nothing can be proposed: what was typed stays, and the prefix is asked for."""
    stage.upload(RETAILER, interchange(RETAILER, "P2", order("P2", [5], supplier="8712345000004")))
    signed_in(browser, stage, "8712345000004")
    despatch(browser, prefix="")
    browser.type(browser.labelled("SSCC"), "1234")
    check(browser, "despatch advice")
    browser.press("New SSCCs for pallets without a printed label")
    browser.until_says("Give your company prefix, so that the page can propose an SSCC.")
    assert ssccs(browser) == ["1234"], ssccs(browser)
    assert browser.run("return document.activeElement.labels[0].textContent") == "Your GS1 company prefix"


def numbers(browser, program):
    with Stage(program) as stage:
        stage.upload(RETAILER, interchange(RETAILER, "P1", order("P1", [500])))
        two_tabs(browser, stage)
        scanned(browser)
        renumbered(browser, stage)
        first_serial(browser)
        sent_by_another_tab(browser, stage)
        without_prefix(browser, stage)
        assert browser.complaints() == []
    return f"2 tabs with 4 pallets, {len(SCANNED)} ways to give one SSCC, and 2 pallets of 3 renumbered"


TRIALS = {"the numbers of pallets": numbers}
