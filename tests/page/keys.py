"""Who may sign in, from where, and where the key is then: in the tab's memory and its session storage alone, until the person signs out."""
from tests.page.driver import ELSEWHERE, wait
from tests.page.stage import ALPHA, BETA, KEYS, MAILBOX, RETAILER, Stage, opened, sign_in, signed_in

DENIED = "Denied: the hub does not know this GLN with this key."
NO_HUB = "This is not what a hub replies"
NAME = "edihub.sign-in"
# what the browser is answered: another status, type and text, or nothing
INSTEAD = """const [status, text] = arguments;
    window.fetch = async () => { if (!status) throw new TypeError('network'); return new Response(text, { status }); }"""
# the menu's item of a page that was loaded again, once its screen is there
RELOADED = """const isThere = !document.body.dataset.before && document.querySelector('main:not([aria-busy]) h1');
    return isThere ? document.querySelector('nav a[aria-current]')?.getAttribute('href') : null"""
PAGE = "<!doctype html><title>Wi-Fi</title><p>Please sign in to this network"


def wrong(browser, stage):
    others = ((ALPHA, KEYS[BETA]), (RETAILER, KEYS[ALPHA]), ("7612345000008", "gamma-key-1"))
    for who, key in ((ALPHA, "alpha-key-2"), (ALPHA, "Alpha-key-1"), *others):
        sign_in(browser, stage, who, key)
        browser.until_says(DENIED)
        assert not browser.all("nav a"), "signed in by a wrong key"
        assert browser.run("return sessionStorage.length") == 0
    of_key = "A key has 8 to 64"
    no_gln = ("4012345500005", "alpha-key-1", "A GLN has 13 digits")
    for who, key, said in (no_gln, (ALPHA, "short", of_key), (ALPHA, "alpha key 1", of_key)):
        sign_in(browser, stage, who, key)
        browser.until_says(said)
    browser.type(browser.labelled("Key"), KEYS[ALPHA])
    browser.press("Sign in")
    browser.until_says("new entr")


def answers_of_no_hub(browser, stage):
    """Whatever a network puts in the hub's place signs nobody in, and what was typed stays to be tried again."""
    answers = ((200, PAGE), (200, ""), (200, "end"), (200, "x\nend\n"), (403, PAGE), (302, ""), (404, "not found"), (502, ""), (0, ""))
    for status, text in answers:
        opened(browser, stage)
        browser.type(browser.labelled("GLN"), ALPHA)
        browser.type(browser.labelled("Key"), KEYS[ALPHA])
        browser.run(INSTEAD, status, text)
        browser.press("Sign in")
        browser.until_says("The hub does not reply." if status in (0, 502) else NO_HUB)
        assert not browser.all("nav a"), (status, text)
        assert browser.run("return document.querySelector('input[type=password]').value") == KEYS[ALPHA], (status, text)
        assert browser.run("return sessionStorage.length") == 0
    return len(answers)


def places(browser, stage):
    """Over plain http the page asks for no key, but on this machine."""
    port = stage.proxy.server_port
    browser.go(f"http://{ELSEWHERE}:{port}/")
    browser.until_says("This address begins with http, so others could read your key")
    assert not browser.all("input"), "fields over plain http"
    # the browser says too that it does not trust this address
    assert all("untrustworthy" in it for it in browser.complaints())
    browser.go(f"http://localhost:{port}/")
    browser.one("form.sign-in")


def for_password_managers(browser, stage):
    """Names by which a password manager knows the fields, and a form that cannot put them into an address, even if no script is there."""
    opened(browser, stage)
    names = "return [...document.querySelectorAll('form.sign-in input')].map(it => [it.type, it.name, it.autocomplete])"
    assert browser.run(names) == [["text", "username", "username"], ["password", "password", "current-password"]], browser.run(names)
    browser.type(browser.labelled("GLN"), ALPHA)
    browser.type(browser.labelled("Key"), KEYS[ALPHA])
    # a browser may say by an exception that the policy forbids it
    submitted = "const it = document.querySelector('form.sign-in'); try { it.submit(); } catch {} return it.method"
    assert browser.run(submitted) == "post"
    browser.run("return new Promise(done => setTimeout(done, 300))")
    assert browser.address() == stage.address, browser.address()
    # the policy said that it forbids this
    said = browser.complaints()
    assert all("form-action" in it for it in said), said


def left_behind(browser, key):
    """Where the key stands in what a tab leaves or shows, but for its session storage."""
    script = """const kept = [location.href, document.cookie, document.referrer,
        ...[localStorage, history.state].map(it => JSON.stringify(it)), document.documentElement.outerHTML,
        ...[...document.querySelectorAll('input')].map(it => it.value),
        ...performance.getEntries().map(it => it.name)];
        return kept.filter(it => it.includes(arguments[0]))"""
    return browser.run(script, key)


def kept(browser):
    """What the session storage has, but for work of the person."""
    return browser.run("return Object.entries(sessionStorage).filter(([name]) => !/^edihub\\.(draft|sent)\\./.test(name))")


def only_in_the_tab(browser, stage):
    """Neither the address nor another store has the key; a reload goes on where one was, another tab has none, and signing out ends it."""
    for who in (ALPHA, RETAILER):
        signed_in(browser, stage, who)
        for screen in browser.run("return [...document.querySelectorAll('nav a')].map(it => it.getAttribute('href'))"):
            browser.run("location.hash = arguments[0]", screen)
            browser.one("h1")
            assert left_behind(browser, KEYS[who]) == [], (screen, left_behind(browser, KEYS[who]))
        assert [it[0] for it in kept(browser)] == [NAME] and KEYS[who] in kept(browser)[0][1], kept(browser)
        stores = browser.run("return [localStorage.length, document.cookie]")
        assert stores == [0, ""], stores
        assert browser.developer("Network.getAllCookies")["cookies"] == []
        # the tab goes on where it was
        browser.run("document.body.dataset.before = 1; setTimeout(() => location.reload())")
        wait(lambda: browser.run(RELOADED) == screen, f"the screen {screen}")
        one = browser.tab()
        browser.new_tab()
        browser.go(stage.address)
        browser.one("form.sign-in")
        browser.close_tab(one)
    # from the first address, so that there is one to go back to
    signed_in(browser, stage, ALPHA, "")
    browser.press("Sign out")
    browser.one("form.sign-in")
    assert kept(browser) == [], kept(browser)
    browser.run("history.back()")
    browser.one("form.sign-in")
    assert not browser.all("nav a"), "signed in after signing out"


def nothing_comes_back(browser, stage):
    """After signing out no page of before comes back, be it loaded again or brought back as it was."""
    signed_in(browser, stage, ALPHA)
    browser.until_says("new entr")
    browser.go("about:blank")
    browser.go(stage.address + MAILBOX)
    browser.until_says("new entr")
    browser.press("Sign out")
    browser.one("form.sign-in")
    for _ in range(2):
        browser.ask("POST", "/back")
    browser.one("form.sign-in")
    assert not browser.all("nav a"), "a page came back after signing out"
    # as a browser does that keeps pages as they were
    signed_in(browser, stage, ALPHA)
    browser.until_says("new entr")
    browser.run("dispatchEvent(new PageTransitionEvent('pageshow', { persisted: true }))")
    assert browser.all("nav a"), "signed out, though nobody did"
    browser.run("sessionStorage.clear(); dispatchEvent(new PageTransitionEvent('pageshow', { persisted: true }))")
    browser.one("form.sign-in")
    assert not browser.all("nav a")


def keys(browser, program):
    with Stage(program) as stage:
        wrong(browser, stage)
        count = answers_of_no_hub(browser, stage)
        places(browser, stage)
        for_password_managers(browser, stage)
        only_in_the_tab(browser, stage)
        nothing_comes_back(browser, stage)
    assert browser.complaints() == []
    return f"8 wrong ones, {count} answers of no hub, and no key in an address, a cookie, another store or the page"


TRIALS = {"keys": keys}
