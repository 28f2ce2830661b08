"""The focus is never lost: whichever button of a screen is pressed, something that can be seen has the focus then, so that a keyboard or a
screen reader goes on from there. And what the page says aloud it says in a live region that was there before."""
from tests.page.driver import DriverFault, wait
from tests.page.screens import SCREENS, furnished, opened
from tests.page.stage import ALPHA, Stage, signed_in
from tests.page.stage import opened as tab_opened

# the buttons of the screen that can be pressed, each kind once, by their places among all; what a person leaves the page by is not
BUTTONS = """const all = [...document.querySelectorAll('main button, main summary')];
    const kinds = new Set();
    return all.flatMap((it, place) => {
        const kind = [it.className, it.textContent.replace(/\\d+/g, '')].join();
        if (it.disabled || it.closest(':disabled') || !it.checkVisibility() || kinds.has(kind)) return [];
        kinds.add(kind);
        return [[place, it.textContent]];
    })"""
FOCUS_ON = "document.querySelectorAll('main button, main summary')[arguments[0]].focus()"
# counts what the page waits for: requests, and that it is loaded again
COUNT = """if (window.waited !== undefined) return;
    const real = window.fetch; window.waited = 0; window.print = () => {};
    addEventListener('beforeunload', it => it.stopImmediatePropagation(), { capture: true });
    navigation.addEventListener('navigate', it => { if (it.navigationType === 'reload') window.waited += 1; });
    window.fetch = (...words) => { window.waited += 1; return real(...words).finally(() => { window.waited -= 1; }); }"""
# once there is a screen, nothing was waited for in a while, and what a browser does itself to the focus, before it draws a frame, is done
CALM = """const [done] = arguments;
    let calm = 0;
    const look = () => {
        calm = window.waited || document.querySelector('main[aria-busy]') || !document.querySelector('main h1') ? 0 : calm + 1;
        if (calm > 5) requestAnimationFrame(() => setTimeout(() => done(true)));
        else setTimeout(look, 30);
    };
    look();"""
FOCUSED = """const it = document.activeElement;
    return it && it !== document.body && it.checkVisibility() ? (it.id || it.className || it.tagName) : null"""
# notes each live region that says something which it had not said when it came: one that was there before may, one that comes with it may not
LISTEN = """window.unheard = [];
    if (window.learn) return window.learn();
    const REGIONS = '[role=status], [role=alert], [aria-live]';
    const known = new WeakSet();
    const regions = () => [...document.querySelectorAll(REGIONS)];
    const learn = () => regions().filter(it => it.checkVisibility()).forEach(it => known.add(it));
    window.learn = learn;
    learn();
    new MutationObserver(all => {
        const isScreen = all.some(it => it.target.id === 'main');
        for (const { target } of all) {
            const at = target instanceof Element ? target : target.parentElement;
            const changed = [at?.closest(REGIONS), ...(at?.querySelectorAll(REGIONS) ?? [])];
            for (const it of changed) {
                const says = it?.isConnected && it.checkVisibility() && it.textContent.trim();
                if (says && !isScreen && !known.has(it)) window.unheard.push(it.textContent.trim());
            }
        }
        learn();
    }).observe(document.body, { childList: true, characterData: true, subtree: true, attributes: true, attributeFilter: ['hidden'] });"""


def calm_down(browser):
    """Waits until nothing moves any more. Firefox's driver does not wait for a page that a key loads again: the script that waits ends
    with the page that it began in, with a fault or without an answer, and begins again in the next one."""
    is_calm = False
    while not is_calm:
        try:
            is_calm = browser.ask("POST", "/execute/async", {"script": CALM, "args": []})
        except DriverFault as fault:
            if "unloaded" not in str(fault):
                raise


def press(browser, screen, place, text):
    """Presses a button as a keyboard does."""
    browser.run(FOCUS_ON, place)
    browser.run(LISTEN)
    browser.keys("enter")
    calm_down(browser)
    unheard = browser.run("return window.unheard ?? []")
    assert unheard == [], f"{text!r} of {screen} says this where nobody listens: {unheard}"
    assert browser.run(FOCUSED), f"{text!r} of {screen} loses the focus"


def in_turn(browser, stage, screen, before):
    """Presses each button of a screen that is opened afresh. Returns how many these are."""
    place, sent = 0, None
    while True:
        # what was sent cannot be sent again, and what was posted has changed the hub
        if len(stage.posted) != sent:
            stage.back_to(before)
            tab_opened(browser, stage)
        elif SCREENS[screen][0] is None or screen in ("locked", "no-answer"):
            tab_opened(browser, stage)
        # some screens send something before they are as they are shown
        sent = len(stage.posted)
        opened(browser, stage, screen)
        browser.run(COUNT)
        buttons = browser.run(BUTTONS)
        if place == len(buttons):
            return place
        press(browser, screen, *buttons[place])
        browser.run("document.querySelector('[data-typed]')?.removeAttribute('data-typed')")
        place += 1


def kept(browser, program):
    with Stage(program) as stage:
        furnished(stage)
        before = stage.keep()
        pressed = [in_turn(browser, stage, it, before) for it in SCREENS]
    return f"{sum(pressed)} buttons of {len(SCREENS)} screens"


# presses it twice, as in a double click
TWICE = """const it = [...document.querySelectorAll('main button')].find(it => it.textContent === 'Show read entries');
    it.focus(); it.click(); it.click()"""
ON_LINK = "return document.activeElement?.matches('.taken tbody a') ? document.activeElement.textContent : ''"


def taken(browser, program):
    """Each entry that was taken is listed once, and the first has the focus."""
    with Stage(program) as stage:
        furnished(stage)
        for number in (2, 4):
            stage.ask(ALPHA, f"mail/item/{number}/taken", "")
        signed_in(browser, stage, ALPHA)
        browser.named("button", "Show read entries")
        browser.run(TWICE)
        browser.until_says("128576", ".taken")
        wait(lambda: browser.run(ON_LINK) == "128590", "focus on the first that was taken", lambda: browser.run(ON_LINK))
        found = [it[0] for it in browser.rows(".taken table")]
        assert found == ["4", "2", "1"], found
    return f"{len(found)} entries"


TRIALS = {"the focus is not lost": kept, "what was taken is listed once": taken}
