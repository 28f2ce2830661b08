"""Texts in order numbers that would do harm where they were taken for markup, a part of an address or separators: each is shown as it is,
answered and despatched."""
from tests.page.forms import change, send
from tests.page.stage import ALPHA, RETAILER, Stage, interchange, order, released, signed_in

NUMBERS = [
    "<img src=x onerror=window.harmed=1>",
    "<script>window.harmed=2</script>",
    "\"'><b>bold</b>&amp;&lt;",
    "a?b'c+d:e??'+:",
    "?'?'?'",
    "  two  blanks  within",
    "javascript:window.harmed=3",
    "100%25/../#/%2e%2e",
    "${window.harmed=4}{{harmed}}",
    "refused B03",
    "end",
]
FREE_TEXT = "<b>Gate 3</b>? It's \xe4\xf6\xfc+:"


def shown(browser, number):
    """The texts of the page have the number as it is, and no element was made of it."""
    texts = browser.run("return [...document.querySelectorAll('.exact')].map(it => it.textContent)")
    assert number in texts, (number, texts)
    harm = browser.run("return [window.harmed ?? null, document.querySelectorAll('main img, main b, main script, main style').length]")
    assert harm == [None, 0], (number, harm)


def answered(browser, stage, place, number):
    browser.run("location.hash = arguments[0]", f"entry/{place}")
    browser.until_says("Date of the order")
    shown(browser, number)
    shown(browser, FREE_TEXT)
    browser.press("Answer", "a")
    change(browser, 1, "9")
    shown(browser, number)
    stage.sent.clear()
    send(browser, "answer")
    browser.until_replied("1 ORDRSP accepted")
    sent = stage.sent[0][1].decode("latin-1")
    assert f"'RFF+ON:{released(number)}'NAD" in sent and f"'RFF+ON:{released(number)}:1'" in sent, sent
    shown(browser, number)


def despatched(browser, stage, numbers):
    """All of them on one pallet, each line under its order."""
    browser.run("location.hash = 'despatch'")
    browser.type(browser.labelled("Your GS1 company prefix"), "40123455")
    for box in browser.all(".orders input"):
        browser.click(box)
    for number in numbers:
        shown(browser, number)
    browser.press("Load all that is left on this pallet")
    stage.sent.clear()
    send(browser, "despatch advice")
    browser.until_replied("1 DESADV accepted")
    sent = stage.sent[0][1].decode("latin-1")
    for number in numbers:
        assert f"QTY+12:9'RFF+ON:{released(number)}:1'" in sent, sent


def cancelled(browser, stage, numbers):
    """The retailer cancels by the link of the line, whose address carries the number."""
    more = [f"C{place}{it}"[:35] for place, it in enumerate(numbers)]
    for place, number in enumerate(more):
        stage.upload(RETAILER, interchange(RETAILER, f"C{place}", order(number, [7])))
    for number in more:
        signed_in(browser, stage, RETAILER)
        browser.run("location.hash = arguments[0]", f"supplier/{ALPHA}")
        browser.one("table.lines a")
        its_link = "[...document.querySelectorAll('table.lines a')].find(it => it.getAttribute('aria-label').includes(arguments[0]))"
        browser.run(f"{its_link}.click()", number)
        browser.until_says("7 pieces are open")
        browser.type(browser.labelled("Quantity to cancel"), "2")
        stage.sent.clear()
        send(browser, "cancellation")
        browser.until_says("Accepted: the hub has taken it")
        assert stage.sent[0][1].decode("latin-1").split("\n")[2] == number, (number, stage.sent)
        browser.run("document.title = ''")


def not_understood(browser, stage, last):
    """What the page cannot read stands there raw: an entry whose text is none of the hub's spelling, and a line of a status. The entry is
    new, since the page keeps those that it has read."""
    browser.run(
        """const [item] = arguments;
        const real = window.fetch;
        window.fetch = async (path, ...words) => {
            const answer = await real(path, ...words);
            if (!path.endsWith(item) && !path.endsWith('/status')) return answer;
            const text = path.endsWith('/status') ? 'X <b>new</b>\\n' + await answer.text() : "UNA:+.? 'UNB+<b>new</b>'";
            return new Response(text, { status: 200 });
        }""",
        f"/mail/item/{last}",
    )
    stage.upload(RETAILER, interchange(RETAILER, "raw", order("raw", [7])))
    browser.run("location.hash = arguments[0]", f"entry/{last}")
    browser.until_says("The page does not understand this entry.")
    browser.until_says("UNB+<b>new</b>'")
    browser.run("location.hash = 'status'")
    browser.until_says("The page does not understand these lines of the report:")
    browser.until_says("X <b>new</b>")
    assert browser.run("return document.querySelectorAll('main b').length") == 0


def hostile(browser, program, numbers=tuple(NUMBERS), begin=lambda stage: None):
    with Stage(program) as stage:
        begin(stage)
        for place, number in enumerate(numbers, 1):
            text = order(number, [12], texts=[f"FTX+AAI+++{released(FREE_TEXT)}"])
            stage.upload(RETAILER, interchange(RETAILER, f"H{place}", text))
        signed_in(browser, stage, ALPHA)
        browser.until_says(f"{len(numbers)} new entries")
        for place, number in enumerate(numbers, 1):
            browser.run("location.hash = 'mailbox'")
            browser.until_says("new entries")
            shown(browser, number)
            answered(browser, stage, place, number)
        browser.run("location.hash = 'status'")
        browser.one("table.lines")
        for number in numbers:
            shown(browser, number)
        despatched(browser, stage, numbers)
        cancelled(browser, stage, numbers)
        signed_in(browser, stage, ALPHA)
        browser.until_says("new entries")
        not_understood(browser, stage, 2 * len(numbers) + 1)
        complaints = browser.complaints()
        assert complaints == [], complaints
    return f"{len(numbers)} order numbers, each shown, answered, despatched and cancelled; what is not understood is raw"


TRIALS = {"hostile texts": hostile}
