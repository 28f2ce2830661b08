"""A colleague answers a line while the form is open: *Accept all* and *Refuse all* answer only the lines that the form names."""
from tests.page.forms import send
from tests.page.stage import ALPHA, RETAILER, Stage, gtin, interchange, message, order, signed_in

FOCUSED = "return document.activeElement.closest('.choices')?.querySelector('legend').textContent"


def by_a_colleague(stage, number, line, action):
    parties = ("DTM+137:20250604:102", f"RFF+ON:{number}", f"NAD+BY+{RETAILER}::9", f"NAD+SU+{ALPHA}::9")
    named = (f"LIN+1+{action}+{gtin(line)}:SRV", f"RFF+ON:{number}:{line}", "UNS+S")
    stage.upload(ALPHA, interchange(ALPHA, f"C{number}", message("ORDRSP:D:01B:UN:EAN009", f"BGM+231+{number}+4", *parties, *named)))


def answers(stage, number):
    return [it.split()[4] for it in stage.ask(ALPHA, "status").splitlines() if it.startswith(f"L {number} ")]


def meanwhile(browser, program):
    with Stage(program) as stage:
        for place, (number, press, action, code) in enumerate((("A1", "Accept all 3 lines", 5, "A"), ("A2", "Refuse all", 7, "N")), 1):
            stage.upload(RETAILER, interchange(RETAILER, number, order(number, [10, 20, 30])))
            signed_in(browser, stage, ALPHA)
            browser.run("location.hash = arguments[0]", f"answer/{place}")
            browser.press(press)
            by_a_colleague(stage, number, 2, 7 if action == 5 else 5)
            other = "N" if action == 5 else "A"
            stage.sent.clear()
            send(browser, "answer")
            # the answer speaks of a line that waits no more, so nothing of it is done, and the form says at which line
            browser.until_replied("refused B07")
            assert answers(stage, number) == ["W", other, "W"], answers(stage, number)
            sent = stage.sent[0][1].decode()
            assert sent.count("'LIN+") == 3 and "+4'DTM" in sent, sent
            browser.until_says("is answered already", ".answers")
            # which is said above the usual causes too
            browser.until_says("is answered already", ".delivery")
            assert browser.run(FOCUSED) == "Answer to line 2", browser.run(FOCUSED)
            # sent again, it names the lines that still wait
            send(browser, "answer")
            browser.until_replied("1 ORDRSP accepted")
            assert answers(stage, number) == [code, other, code], answers(stage, number)
            assert stage.sent[1][1].count(b"'LIN+") == 2, stage.sent[1]
        complaints = browser.complaints()
        assert complaints == [], complaints
    return "2 answers to all lines, each refused while it names one that a colleague answered"


TRIALS = {"a colleague's answer meanwhile": meanwhile}
