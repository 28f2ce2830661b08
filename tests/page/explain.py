"""A file is checked: the page says what it says, or what is wrong and where, and nothing goes to the hub. Where the site serves no `/show`,
the page says so, and all else works."""
import re
import subprocess
import sys
import threading

from tests.cases.fault_places import OF_ENVELOPES, OF_TEXTS
from tests.page.agreement import by_node
from tests.page.driver import wait
from tests.page.stage import ALPHA, RETAILER, Stage, gtin, interchange, order, signed_in

# the text of what is marked as the place of a fault
MARKED = "return document.querySelector('mark')?.textContent ?? ''"
FOCUSED = "return document.activeElement.className"


def dropped(browser, text, name="orders.edi"):
    """Drops a file, and waits for what is said of it. A text is spelled in UTF-8, so it has ASCII alone."""
    browser.drop(name, text)
    browser.until_says(name, ".verdict h2")


def right(browser):
    """What each message says is there, as the program prints it."""
    dropped(browser, interchange(RETAILER, "7", order("K1", [5, 6]), order("K2", [7], reference=2)))
    browser.until_says("2 messages, and nothing is wrong with the file itself.", ".verdict")
    browser.until_says("Message 2: Order (reference 2)", ".explained")
    said = browser.run("return [...document.querySelectorAll('.shown-message pre')].map(it => it.textContent)")
    assert said[0].startswith("order K1\nbuyer ") and f"line 2 item 0{gtin(2)} ordered 6" in said[0], said
    browser.until_says("3 June 2025, 09:15", ".explained .terms")
    assert browser.run(FOCUSED) == "verdict" and browser.run(MARKED) == ""


def one_message_wrong(browser):
    """One message is refused with its code, and the segment is marked; the other is explained."""
    wrong = order("K2", [7], reference=2).replace("QTY+21:7'", "QTY+21:x'")
    dropped(browser, interchange(RETAILER, "8", order("K1", [5]), wrong).replace("'", "'\r\n"))
    browser.until_says("1 of 2 messages would be refused: see below.", ".verdict")
    # what is wrong with the segment is said before what else can be
    browser.until_says("M08 “x” is not a whole number. A quantity is missing, there are two, or it is not valid.", ".has-fault")
    assert browser.run(MARKED) == "QTY+21:x'", browser.run(MARKED)
    browser.until_says("Line 21 of the file, segment 20.", ".has-fault")
    assert "line 1 item" in browser.text(".shown-message:not(.has-fault)")


def refused_whole(browser):
    """A fault of the whole file: of a segment in another spelling, of a byte, and at the end."""
    text = interchange(RETAILER, "9", order("K1", [5]))
    others = text[9:].replace("'", "~\n").replace("+", "*").replace(":", "|").replace("UNZ*1", "UNZ*2")
    for file, code, where, mark in (
        ("UNA|*.? ~" + others, "E14", "Line 13 of the file, segment 13.", "UNZ*2*9~"),
        (text.replace("K1", "K\t1"), "E03", "segment 3, after 106 bytes: a tab (0x09).", "\u2409"),
        (text.replace("K1", "K\n1"), "E03", "segment 3, after 106 bytes: a line break (0x0A).", "\u240a"),
        (text[:-1], "E04", "the end of the file.", "(the end of the file)"),
        ("Dear hub", "E05", "Line 1 of the file, segment 1, after 1 byte: the character e (0x65).", "e"),
    ):
        dropped(browser, file, f"{code}-{len(file)}.edi")
        browser.until_says("This file would be refused as a whole.", ".verdict")
        browser.until_says(code, ".explained")
        browser.until_says(where, ".explained")
        assert browser.run(MARKED) == mark, (code, browser.run(MARKED), browser.text(".explained"))
    dropped(browser, "x" * 1_048_577, "long.edi")
    browser.until_says("E01", ".explained")


class Instead:
    """Answers in the place of the program."""

    def __init__(self, status, body):
        self.answer, self.asked = (status, body), []

    def of(self, text):
        self.asked.append(text)
        return self.answer


def without_answer(browser, stage):
    """What does not explain the file is told, and the last file that was chosen counts."""
    real = stage.proxy.explainer
    for status, body, said in (
        (503, b"busy\n", "Other files are being checked at the moment."),
        (504, b"too slow\n", "The server of this page does not reply"),
        (413, b"too large\n", "does not take a file of this size"),
        (200, b"<html>sign in</html>", "The page does not understand what the server said of this file"),
    ):
        stage.proxy.explainer = Instead(status, body)
        dropped(browser, "x", f"{status}-{len(body)}.edi")
        browser.until_says(said, ".verdict")
        assert browser.text(".explained") == ""
    slow, goes_on = Instead(200, b"refused E05 tag at offset 0 line 1 segment 1\n"), threading.Event()
    answer = slow.of
    slow.of = lambda text: goes_on.wait(20) and answer(text) if text == b"slow" else answer(text)
    stage.proxy.explainer = slow
    browser.drop("slow.edi", "slow")
    browser.until_says("Reading slow.edi", ".verdict")
    dropped(browser, "quick", "quick.edi")
    goes_on.set()
    wait(lambda: b"slow" in slow.asked, "the first answer")
    assert browser.text(".verdict h2") == "quick.edi"
    stage.proxy.explainer = real


def not_served(browser, stage):
    """Without the path the screen says so, and shows no place for files; so it does where another page answers there. The rest works."""
    real, served = stage.proxy.explainer, sys.modules["show"].SERVED
    for explainer, answer in ((None, served), (real, b"<!doctype html>")):
        stage.proxy.explainer, sys.modules["show"].SERVED = explainer, answer
        browser.run("location.hash = 'sent'")
        browser.press("Check a file", "a")
        browser.until_says("This site does not check files. Everything else works without it")
        assert not browser.all(".drop") and browser.run("return document.querySelector('nav a[aria-current]').textContent") == "Sent"
    stage.proxy.explainer, sys.modules["show"].SERVED = real, served
    browser.run("location.hash = 'mailbox'")
    browser.until_says("1 new entry")


def checked(browser, program):
    with Stage(program) as stage:
        stage.upload(RETAILER, interchange(RETAILER, "1", order("K1", [5])))
        signed_in(browser, stage, ALPHA)
        browser.until_says("3 June 2025")
        browser.run("location.hash = 'sent'")
        browser.press("Check a file", "a")
        browser.one(".drop")
        stage.asked.clear()
        stage.posted.clear()
        right(browser)
        one_message_wrong(browser)
        refused_whole(browser)
        without_answer(browser, stage)
        assert stage.sent == [] and stage.asked == [], (stage.sent, stage.asked)
        assert {it for it in stage.posted} == {("/show", None)}, "a key went to another place than the hub"
        not_served(browser, stage)
        signed_in(browser, stage, RETAILER, screen="#upload")
        browser.press("Check a file", "a")
        browser.one(".drop")
        complaints = browser.complaints()
        assert complaints == [], complaints
    return "8 files explained, of which 7 have a fault in its place, 4 answers that explain nothing, and a site without it"


def printed(program, text):
    return subprocess.run([program, "show"], input=text, stdout=subprocess.PIPE, check=False).stdout.decode("latin-1")


def places(program):
    """What `show` prints of files that are refused as a whole is read, and the page finds the line of the byte and the segment that it
    names. Long files are left out."""
    texts = [(text, code, offset, line, segment) for _, text, code, offset, line, segment in OF_TEXTS if len(text) < 100_000]
    envelopes = [(text.encode("latin-1"), code, segment) for _, text, code, segment in OF_ENVELOPES if len(text) < 100_000]
    calls, wanted = [], []
    for text, code, offset, line, segment in texts:
        spelled = text.decode("latin-1")
        calls += [("edi/shown.js", "readShown", printed(program, text)), ("edi/fault_place.js", "placeOfByte", spelled, offset)]
        wanted += [({"code": code, "segment": segment, "offset": offset}, None), (line, spelled[offset : offset + 1])]
    for text, code, segment in envelopes:
        spelled = text.decode("latin-1")
        its = re.findall(r"(?:\?.|[^?'])*'", spelled.removeprefix("UNA:+.? '"))[segment - 1]
        calls += [("edi/shown.js", "readShown", printed(program, text)), ("edi/fault_place.js", "placeOfSegment", spelled, segment)]
        wanted += [({"code": code, "segment": segment, "offset": None}, None), (1, its)]
    for call, found, (one, other) in zip(calls, by_node("call.mjs", calls), wanted, strict=True):
        has = (found["fault"], found["head"]) if call[1] == "readShown" else (found["line"], found["it"])
        assert has == (one, other), f"{call} answers {found!r}, not {one!r} and {other!r}"
    return f"{len(texts)} bytes and {len(envelopes)} segments"


ALONE = {"places of faults": places}
TRIALS = {"a file is checked": checked}
