"""Whether each screen can be used without a mouse, by who listens, by who sees little, and on a phone: what Lighthouse would look at,
looked at here."""
import base64
import os
import subprocess

from tests.page.driver import wait
from tests.page.pictures import rows_of
from tests.page.screens import SCREENS, furnished, opened
from tests.page.stage import ALPHA, Stage

CONTROLS = {"button", "link", "textbox", "searchbox", "radio", "checkbox", "combobox", "table", "img", "group"}

# the lowest contrast of a text with its ground, and where it is
CONTRAST = """const rgb = it => {
        const found = it.match(/[\\d.]+/g).map(Number);
        return found.length < 4 ? [...found, 1] : found;
    };
    const over = (top, below) => [0, 1, 2].map(k => top[k] * top[3] + below[k] * (1 - top[3])).concat(1);
    const ground = it => { if (!it) return [255, 255, 255, 1]; const own = rgb(getComputedStyle(it).backgroundColor);
        return own[3] === 1 ? own : over(own, ground(it.parentElement)); };
    const light = it => {
        const [r, g, b] = it.map(k => k / 255).map(k => k <= 0.04045 ? k / 12.92 : ((k + 0.055) / 1.055) ** 2.4);
        return 0.2126 * r + 0.7152 * g + 0.0722 * b;
    };
    const contrast = (a, b) => { const [x, y] = [light(a), light(b)].sort((p, q) => q - p); return (x + 0.05) / (y + 0.05); };
    const texts = document.createTreeWalker(document.body, NodeFilter.SHOW_TEXT);
    let least = [99, ''];
    while (texts.nextNode()) {
        const it = texts.currentNode.parentElement;
        const unseen = !it.checkVisibility() || it.closest('fieldset:disabled, button:disabled, noscript, .skip');
        if (!texts.currentNode.data.trim() || unseen) continue;
        const below = ground(it);
        const found = contrast(over(rgb(getComputedStyle(it).color), below), below);
        if (found < least[0]) least = [found, texts.currentNode.data.trim().slice(0, 40)];
    }
    return least"""

# the lowest contrast of the edge and the parts of a bar with the bar's own ground, and whether the browser leaves its colours alone
BARS = """const light = it => {
        const parts = it.match(/\\w\\w/g).map(k => parseInt(k, 16) / 255);
        const [r, g, b] = parts.map(k => k <= 0.04045 ? k / 12.92 : ((k + 0.055) / 1.055) ** 2.4);
        return 0.2126 * r + 0.7152 * g + 0.0722 * b;
    };
    const contrast = (a, b) => { const [x, y] = [light(a), light(b)].sort((p, q) => q - p); return (x + 0.05) / (y + 0.05); };
    const bar = getComputedStyle(document.querySelector('.bar'));
    const colour = name => bar.getPropertyValue(name).trim();
    const parts = ['--edge', '--despatched', '--refused', '--cancelled'].map(it => contrast(colour(it), colour('--paper')));
    return [Math.min(...parts), bar.printColorAdjust, bar.forcedColorAdjust]"""

# fields that have no label, headings of the first rank, and what is wider than the page
STRUCTURE = """const all = it => [...document.querySelectorAll(it)];
    const unlabelled = all('input, select').filter(it => !it.labels?.length && !it.ariaLabel).map(it => it.outerHTML);
    const ids = all('[id]').map(it => it.id);
    const named = all('[aria-describedby]').flatMap(it => it.getAttribute('aria-describedby').split(' '));
    const described = named.filter(it => !ids.includes(it));
    return { unlabelled, described, twice: ids.filter((it, place) => ids.indexOf(it) !== place), headings: all('h1').length,
        cut: all('main td').filter(it => it.scrollWidth > it.clientWidth + 1).map(it => it.textContent),
        wide: document.documentElement.scrollWidth - document.documentElement.clientWidth,
        language: document.documentElement.lang, title: document.title }"""

# notes of whatever gets the focus its name, whether a ring is seen round it, and whether it is in sight itself, under nothing else; and
# when the focus leaves the page
NOTE = """const [first] = [window.reached === undefined, window.reached = []];
    if (!first) return;
    const note = ({ target: it }) => {
        // the browser does this a little later
        it.scrollIntoView({ block: 'nearest', inline: 'nearest' });
        const style = getComputedStyle(it);
        const ring = style.outlineStyle !== 'none' && parseFloat(style.outlineWidth) >= 2;
        const at = rect => document.elementFromPoint(rect.x + rect.width / 2, rect.y + rect.height / 2);
        const isSeen = [...it.getClientRects()].some(rect => it.contains(at(rect)) || it.labels?.[0]?.contains(at(rect)));
        window.reached.push([it.tagName, (it.labels?.[0] ?? it).textContent.trim().slice(0, 30), ring, isSeen]);
    };
    addEventListener('focusin', note);
    addEventListener('blur', it => it.target === window && window.reached.push(null));"""
# the thing that the tabulator reaches first
FIRST = "Skip to the content"
AT_ONCE, MOST = 40, 160
# a wide window, a phone, and a window of 1,280 pixels that is enlarged to 200 %: width, height, and whether it is a phone
WIDE, PHONE, ENLARGED = (1280, 900, False), (360, 740, True), (640, 450, False)
# and the narrowest
NARROW = ((320, 640, True), ENLARGED)


def names(browser, screen):
    """Each control has a name for who listens, as the browser itself computes it, if it says so. Returns how many these are."""
    if not browser.hears:
        return 0
    nodes = browser.developer("Accessibility.getFullAXTree")["nodes"]
    found = [it for it in nodes if not it.get("ignored") and it.get("role", {}).get("value") in CONTROLS]
    nameless = [it["role"]["value"] for it in found if not it.get("name", {}).get("value", "").strip() and it["role"]["value"] != "group"]
    assert not nameless, (screen, nameless)
    return len(found)


def sound(browser, screen):
    it = browser.run(STRUCTURE)
    assert (it["unlabelled"], it["described"], it["twice"]) == ([], [], []), (screen, it)
    assert (it["headings"], it["language"]) == (1, "en") and it["title"].endswith(" · edihub"), (screen, it)
    assert it["wide"] <= 0 and it["cut"] == [], f"{screen} is wider than the page by {it['wide']}, or its cells {it['cut']}"


def rings(browser, screen, size):
    """Each control that can be seen is reached by the tabulator, and no other; and it shows that it has the focus."""
    width, height, is_phone = size
    browser.look(width, height, narrow=is_phone)
    browser.to_start()
    browser.run(NOTE)
    reached = []
    while one_round(reached) is None and len(reached) < MOST:
        before = len(reached)
        browser.tab_through(AT_ONCE)
        reached = browser.run("return window.reached")
        assert len(reached) > before, f"the tabulator reaches nothing more of {screen} in {size}: {reached[-1:]}"
    found = one_round(reached) or reached
    for tag, name, ringed, seen in found:
        assert ringed and seen, (screen, size, tag, name, ringed, seen)
    assert len(found) >= 3 and found[0][1] == FIRST, (screen, size, found)
    return len(found)


def one_round(reached):
    """What is reached until the focus leaves the page or begins again; None if it does not yet."""
    ends = [place for place, it in enumerate(reached) if place and (it is None or it[1] == FIRST)]
    return reached[: ends[0]] if ends else None


def access(browser, program):
    controls, reached, least = 0, 0, [99, ""]
    with Stage(program) as stage:
        furnished(stage)
        for name in SCREENS:
            for narrow, dark in ((False, False), (True, False), (False, True), (True, True)):
                browser.look(*((360, 740) if narrow else (1280, 900)), dark=dark, narrow=narrow)
                if not narrow and not dark:
                    opened(browser, stage, name)
                    controls += names(browser, name)
                sound(browser, name)
                found = browser.run(CONTRAST)
                assert found[0] >= 4.5, (name, "dark" if dark else "light", found)
                least = min(least, found)
            for width, height, is_phone in NARROW:
                browser.look(width, height, narrow=is_phone)
                sound(browser, name)
            reached += sum(rings(browser, name, it) for it in (WIDE, PHONE, ENLARGED))
            browser.look()
    return f"{len(SCREENS)} screens, {controls} controls with names, {reached} rings seen, least contrast {least[0]:.1f} ({least[1]})"


def bars(browser, program):
    """The bars of a status can be seen by day and by night, on paper, and where the reader chose other colours."""
    least = 99
    browser.go("about:blank")
    with Stage(program) as stage:
        furnished(stage)
        opened(browser, stage, "status")
        for words in ({"dark": False}, {"dark": True}):
            browser.look(**words)
            found, *kept = browser.run(BARS)
            assert found >= 3 and kept == ["exact", "none"], (words, found, kept)
            least = min(least, found)
        browser.look()
        browser.developer("Emulation.setEmulatedMedia", media="print")
        found, *kept = browser.run(BARS)
        browser.developer("Emulation.setEmulatedMedia", media="")
        assert found >= 3 and kept == ["exact", "none"], (found, kept)
    return f"least contrast of a part {min(least, found):.1f}"


def by_keyboard(browser, program):
    """An order is answered without a mouse: tabulator, blank and enter alone."""
    with Stage(program) as stage:
        furnished(stage)
        browser.go("about:blank")
        browser.go(stage.address)
        browser.one("form.sign-in")
        browser.keys(*ALPHA, "tab", *"alpha-key-1", "enter")
        browser.until_says("Orders to answer (2)")
        pressed = 0
        steps = [("128590", "enter", "gate 3"), ("Answer", "enter", "Accept all 10 lines"), ("Accept all 10 lines", "space", "")]
        sends = [("Check answer", "enter", "10 lines accepted."), ("Send answer", "enter", "Accepted: the hub has taken it")]
        for said, key, then in [*steps, *sends]:
            for _ in range(60):
                if browser.run("return document.activeElement.textContent.trim()") == said:
                    break
                browser.keys("tab")
                pressed += 1
            browser.keys(key)
            pressed += 1
            browser.until_says(then)
        lines = [it.split()[4] for it in stage.ask(ALPHA, "status").splitlines() if it.startswith("L 128590 ")]
        assert lines == ["A"] * 10, lines
        # the first thing that the tabulator reaches skips the menu, and is no screen of its own
        browser.run("location.hash = 'mailbox'")
        browser.until_says("new entries")
        browser.run("document.querySelector('.skip').focus()")
        browser.keys("enter")
        wait(lambda: browser.run("return document.activeElement.id") == "main", "focus on the content")
        assert browser.address().endswith("#mailbox") and "new entries" in browser.text()
        # what takes the reader along: the heading of a new screen has the focus
        browser.run("location.hash = 'status'")
        browser.until_says("Order lines")
        assert browser.run("return document.activeElement.tagName") == "H1"
    return f"an order of ten lines answered by {pressed} keys after signing in"


# a bar of which some is despatched and some open, or that is full: where it is in the picture of the window
BAR_AT = """const it = [...document.querySelectorAll('table.lines .bar')].find(bar => {
        const end = part => parseFloat(bar.style.getPropertyValue(`--end-of-${part}`).replace('calc(', ''));
        if (arguments[0]) return end('despatched') === 100;
        return end('despatched') > 20 && end('despatched') < 60 && end('open') > 90;
    });
    it.scrollIntoView({ block: 'center' });
    const { x, y, width, height } = it.getBoundingClientRect();
    return [x, y, width, height]"""


def light(pixel):
    parts = [it / 255 for it in pixel]
    r, g, b = [it / 12.92 if it <= 0.04045 else ((it + 0.055) / 1.055) ** 2.4 for it in parts]
    return 0.2126 * r + 0.7152 * g + 0.0722 * b


def contrast(one, other):
    high, low = sorted((light(one), light(other)), reverse=True)
    return (high + 0.05) / (low + 0.05)


def of_bar(rows, x, y, width, height):
    """The least contrast of a drawn bar: what is despatched and the edge beside what is open, which is empty."""
    across, end = rows[int(y + height / 2)], int(x + width)
    despatched, empty = across[int(x + 4)], across[end - 5]
    edge = max(contrast(it, empty) for it in across[end - 3 : end + 2])
    return min(contrast(despatched, empty), edge)


def in_picture(browser, folder, **features):
    """A bar as it is drawn in the window, where the reader has these wishes."""
    wishes = [{"name": name.replace("_", "-"), "value": value} for name, value in features.items()]
    browser.developer("Emulation.setEmulatedMedia", features=wishes)
    place = browser.run(BAR_AT, False)
    return of_bar(window(browser, folder), *place)


def window(browser, folder):
    """The pixels of each row of the window."""
    file = os.path.join(folder, "bar.png")
    browser.picture(file)
    with open(file, "rb") as opened_file:
        return rows_of(opened_file.read())[2]


def full(browser, folder):
    """A bar of one part alone has one colour from end to end."""
    x, y, width, height = browser.run(BAR_AT, True)
    # within its edge, which is a pixel wide
    across = window(browser, folder)[int(y + height / 2)][round(x) + 1 : round(x + width) - 1]
    assert len(set(across)) == 1, across


def on_paper(browser, folder):
    """The same on paper, where a browser leaves out grounds unless the page says that they count."""
    printed = browser.developer("Page.printToPDF", printBackground=False)
    files = [os.path.join(folder, it) for it in ("bars.pdf", "bars.png")]
    with open(files[0], "wb") as file:
        file.write(base64.b64decode(printed["data"]))
    words = ["-dBATCH", "-dNOPAUSE", "-dFirstPage=1", "-dLastPage=1", "-r72", "-sDEVICE=png16m", f"-sOutputFile={files[1]}"]
    subprocess.run(["gs", *words, files[0]], stdout=subprocess.DEVNULL, check=True)
    with open(files[1], "rb") as file:
        found = {it for row in rows_of(file.read())[2] for it in row}
    wanted = browser.run("return getComputedStyle(document.documentElement).getPropertyValue('--despatched').trim()")
    pixel = bytes.fromhex(wanted[1:])
    assert any(max(abs(a - b) for a, b in zip(it, pixel)) <= 8 for it in found), f"no bar of {wanted} on paper"
    return contrast(pixel, (255, 255, 255))


def drawn_bars(browser, program):
    """What a reader sees of a bar: on screen, in colours of the reader's own choice, and on paper."""
    with Stage(program) as stage:
        furnished(stage)
        opened(browser, stage, "status")
        full(browser, stage.folder)
        found = {}
        for name, wishes in (("day", {}), ("chosen colours", {"forced_colors": "active"})):
            found[name] = in_picture(browser, stage.folder, **wishes)
        found["chosen dark ones"] = in_picture(browser, stage.folder, forced_colors="active", prefers_color_scheme="dark")
        browser.developer("Emulation.setEmulatedMedia", features=[])
        found["paper"] = on_paper(browser, stage.folder)
        assert all(it >= 3 for it in found.values()), found
    return "contrast: " + ", ".join(f"{name} {it:.1f}" for name, it in found.items())


TRIALS = {"accessibility": access, "bars of a status": bars, "bars as they are drawn": drawn_bars, "the keyboard alone": by_keyboard}
