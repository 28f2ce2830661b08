"""A tab that nobody has used for ten minutes: the key is forgotten, what was typed stays, and the same GLN goes on where it was."""
from tests.page.driver import ELEMENT, wait
from tests.page.drafts import DRAFTS
from tests.page.forms import asked, send
from tests.page.keys import NAME, kept, left_behind
from tests.page.stage import ALPHA, BETA, KEYS, RETAILER, Stage, interchange, order, signed_in

# the clock of the tab goes on from so many milliseconds later
# by the clock of the page itself, which may be ahead already
LATER = """const [then, from] = [window.Date.now() + arguments[0], performance.now()];
    window.Date.now = () => then + performance.now() - from"""
TEN = 600_000
LOCKED = "it has forgotten your key"
HEADING = "return document.querySelector('h1')?.textContent ?? ''"
FIELDS = ("Number of the despatch", "SSCC", "Quantity of order K1, line 1")


def form(browser):
    browser.run("location.hash = 'despatch'")
    browser.type(browser.labelled("SSCC"), "340123455000000012")
    browser.type(browser.labelled("Number of the despatch"), "TYPED-7")
    browser.type(browser.labelled("Quantity of order K1, line 1"), "3")


def unlock(browser, key=KEYS[ALPHA]):
    browser.type(browser.labelled("Key"), key)
    browser.press("Sign in")


def put_away(browser, stage):
    """While the tab is locked neither the key nor what was typed is there; a wrong key opens nothing."""
    signed_in(browser, stage, ALPHA)
    form(browser)
    browser.run(LATER, TEN - 5_000)
    browser.run("return new Promise(done => setTimeout(done, 1500))")
    assert browser.run(HEADING) == "Announce a despatch", "locked too early"
    browser.run(LATER, TEN)
    browser.until_says(LOCKED)
    assert left_behind(browser, KEYS[ALPHA]) == [] and left_behind(browser, "TYPED-7") == []
    assert [it[0] for it in kept(browser)] == [NAME] and KEYS[ALPHA] not in kept(browser)[0][1], kept(browser)
    assert not browser.all("nav a") and browser.run(HEADING) == "Locked"
    assert browser.run("return [document.activeElement.type, document.querySelector('input').readOnly]") == ["password", True]
    unlock(browser, "alpha-key-2")
    browser.until_says("Denied")
    assert browser.run(HEADING) == "Locked"


def gone_on(browser, stage):
    """The same form, with what was typed in it, can be sent."""
    unlock(browser)
    wait(lambda: browser.run(HEADING) == "Announce a despatch", "the form")
    values = [browser.run("return arguments[0].value", {ELEMENT: browser.labelled(it)}) for it in FIELDS]
    assert values == ["TYPED-7", "340123455000000012", "3"], values
    assert browser.address().endswith("#despatch") and browser.all("nav a[aria-current]")
    stage.sent.clear()
    send(browser, "despatch advice")
    browser.until_replied("1 DESADV accepted")
    assert len(stage.sent) == 1 and b"+TYPED-7+9'" in stage.sent[0][1], stage.sent


def another_address(browser, stage):
    """An address that is asked for meanwhile is shown once the tab is open again; the first use after a rest locks, and does nothing."""
    signed_in(browser, stage, RETAILER)
    browser.run(LATER + "; dispatchEvent(new KeyboardEvent('keydown', { key: 'Enter' }))", TEN)
    browser.until_says(LOCKED)
    browser.run("location.hash = 'upload'")
    browser.run("location.hash = 'cancel'")
    browser.run("return new Promise(done => setTimeout(done, 300))")
    assert browser.run(HEADING) == "Locked"
    unlock(browser, KEYS[RETAILER])
    browser.until_says("Cancel a quantity")


def ended(browser, stage):
    """A locked tab that is reloaded is signed out, and so is one that is brought back after ten minutes; the GLN is there."""
    signed_in(browser, stage, ALPHA)
    browser.run(LATER, TEN)
    browser.until_says(LOCKED)
    browser.run("setTimeout(() => location.reload())")
    wait(lambda: browser.run(HEADING) == "Sign in", "signing in")
    assert browser.run("return document.querySelector('input').value") == ALPHA
    signed_in(browser, stage, ALPHA)
    old = "const it = JSON.parse(sessionStorage.getItem(arguments[1])); it.used = Date.now() - arguments[0]; "
    browser.run(old + "sessionStorage.setItem(arguments[1], JSON.stringify(it)); setTimeout(() => location.reload())", TEN, NAME)
    wait(lambda: browser.run(HEADING) == "Sign in", "signing in")
    assert not browser.all("nav a")
    # signing out of a locked tab
    signed_in(browser, stage, ALPHA)
    browser.run(LATER, TEN)
    browser.until_says(LOCKED)
    browser.press("Sign out")
    wait(lambda: browser.run(HEADING) == "Sign in", "signing in")
    assert kept(browser) == [], kept(browser)


def locked_with_draft(browser, stage):
    """A locked tab with a draft: what was typed is in its store, the key is not."""
    signed_in(browser, stage, ALPHA)
    form(browser)
    wait(lambda: len(browser.run(DRAFTS)) == 1, "a draft")
    browser.run(LATER, TEN)
    browser.until_says(LOCKED)
    store = browser.run("return JSON.stringify(Object.entries(sessionStorage))")
    assert "TYPED-7" in store and KEYS[ALPHA] not in store, store


def reloaded(browser):
    """The locked tab is loaded again: it asks for a key, and says that it keeps a draft, but not what is in it."""
    browser.run("setTimeout(() => location.reload())")
    wait(lambda: browser.run(HEADING) == "Sign in", "signing in")
    browser.until_says("This tab still has what you typed")
    assert left_behind(browser, "TYPED-7") == [] and len(browser.run(DRAFTS)) == 1


def signed_in_as(browser, who):
    browser.type(browser.labelled("GLN"), who)
    unlock(browser, KEYS[who])
    browser.one("nav a[aria-current]")


def drafts_of_locked_tabs(browser, stage):
    """The same GLN gets its draft back; another GLN clears it, and so does *Sign out*, before a reload and after it."""
    stage.upload(RETAILER, interchange(RETAILER, "K2", order("K1", [7], supplier=BETA)))
    locked_with_draft(browser, stage)
    reloaded(browser)
    signed_in_as(browser, ALPHA)
    browser.until_says("What you typed here before is back.")
    assert browser.run("return arguments[0].value", {ELEMENT: browser.labelled(FIELDS[0])}) == "TYPED-7"
    browser.run(LATER, TEN)
    browser.until_says(LOCKED)
    reloaded(browser)
    signed_in_as(browser, BETA)
    wait(lambda: browser.run(DRAFTS) == [], "no draft of the GLN before")
    # the sign-in says of a draft that it is back, until the screen is there
    wait(lambda: browser.run(HEADING) != "Sign in", "the form")
    assert "is back" not in browser.text()
    for again in (False, True):
        locked_with_draft(browser, stage)
        if again:
            reloaded(browser)
        browser.press("Sign out")
        if not again:
            assert asked(browser) == "There are drafts"
            browser.click(browser.all("dialog button")[1])
        wait(lambda: browser.run(HEADING) == "Sign in" and not browser.run("return sessionStorage.length"), "an empty store")


def locks(browser, program):
    with Stage(program) as stage:
        stage.upload(RETAILER, interchange(RETAILER, "K1", order("K1", [7])))
        put_away(browser, stage)
        gone_on(browser, stage)
        another_address(browser, stage)
        ended(browser, stage)
        complaints = browser.complaints()
        assert complaints == [], complaints
    return "5 tabs that were locked, one of them with a form that was sent afterwards"


def drafts_and_locks(browser, program):
    with Stage(program) as stage:
        stage.upload(RETAILER, interchange(RETAILER, "K1", order("K1", [7])))
        drafts_of_locked_tabs(browser, stage)
        complaints = browser.complaints()
        assert complaints == [], complaints
    return "4 locked tabs with a draft: given back to the same GLN, and cleared by another GLN and by signing out"


TRIALS = {"ten idle minutes": locks, "drafts of a locked tab": drafts_and_locks}
