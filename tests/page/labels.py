"""Pallet labels: the symbols of Code 128 in Node, and what a browser prints of an accepted despatch, read from the paper by another
program. What is printed is drawn by Ghostscript and decoded by zbarimg; without them nothing is scanned."""
import base64
import glob
import os
import re
import shutil
import subprocess
import tempfile

from tests.page.access import CONTRAST, WIDE, names, rings, sound
from tests.page.agreement import by_node
from tests.page.driver import wait
from tests.page.forms import send
from tests.page.stage import ALPHA, RETAILER, Stage, gtin, interchange, message, signed_in

PREFIX = "40123455"
SSCCS = ["340123455000000012", "340123455000000029", "340123455000000036"]
START_B, START_C, TO_C, TO_B, FNC1, STOP = 104, 105, 99, 100, 102, 106
DOTS = 300
MILLIMETRE = DOTS / 25.4
# the least that the GS1 General Specifications ask for on logistic units, in millimetres, and the quiet zone in modules
MODULE, HEIGHT, QUIET = 0.495, 31.75, 10
SIZES = {"A6": (105, 148), "A5": (148, 210)}
TOOLS = ("gs", "zbarimg")


def lacking(*tools):
    return [it for it in tools if not shutil.which(it)]


def checked(*values):
    """These values with the check character of ISO/IEC 15417 and the stop character."""
    total = values[0] + sum(place * it for place, it in enumerate(values))
    return [*values, total % 103, STOP]


def pairs(digits):
    return [int(digits[at : at + 2]) for at in range(0, len(digits), 2)]


SYMBOLS = [
    # the example of the standard, whose check character is 87
    (("AIM1234", False), [START_B, 33, 41, 45, TO_C, 12, 34, 87, STOP]),
    (("00" + SSCCS[0],), checked(START_C, FNC1, 0, *pairs(SSCCS[0]))),
    (("02040008621414043748",), checked(START_C, FNC1, 2, *pairs("04000862141404"), 37, 48)),
    # the last of an odd number of digits is in code set B
    (("0204000862141404375",), checked(START_C, FNC1, 2, *pairs("04000862141404"), 37, TO_B, 5 + 16)),
    (("12", False), checked(START_C, 12)),
    (("123", False), checked(START_B, 17, 18, 19)),
    (("1234A", False), checked(START_C, 12, 34, TO_B, 33)),
    # before an odd number of digits the first stays in code set B
    (("A12345", False), checked(START_B, 33, 17, TO_C, 23, 45)),
    (("A123B", False), checked(START_B, 33, 17, 18, 19, 34)),
    (("12345678A1234", False), checked(START_C, 12, 34, 56, 78, TO_B, 33, TO_C, 12, 34)),
]
LINE = {"gtin": "04000862141404", "quantity": 5}
STRINGS = [
    ("element_strings.js", ("ssccString", SSCCS[0]), {"text": f"00{SSCCS[0]}", "readable": f"(00) {SSCCS[0]}"}),
    (
        "element_strings.js",
        ("contentString", {"gtin": "04000862141404", "count": 5}),
        {"text": "0204000862141404375", "readable": "(02) 04000862141404 (37) 5"},
    ),
    ("element_strings.js", ("contentOf", [LINE, LINE]), {"gtin": "04000862141404", "count": 10}),
    ("element_strings.js", ("contentOf", [LINE, {**LINE, "gtin": "04000862141411"}]), None),
    ("element_strings.js", ("contentOf", [{**LINE, "quantity": 100_000_000}]), None),
    ("bar_code.js", ("modulesOf", "00" + SSCCS[0]), 156 + 2 * QUIET),
    ("sizes.js", ("fits", "020400086214140437" + "1" * 6, {"width": 105, "module": 0.5}), True),
    ("sizes.js", ("fits", "020400086214140437" + "1" * 7, {"width": 105, "module": 0.5}), False),
    ("sizes.js", ("fits", "020400086214140437" + "1" * 7, {"width": 148, "module": 0.625}), True),
    ("sizes.js", ("fits", "020400086214140437" + "1" * 8, {"width": 105, "module": 0.5}), True),
]


def symbols(_program):
    calls = [("labels/code128.js", "symbolValues", *words) for words, _ in SYMBOLS]
    for call, found, (_, wanted) in zip(calls, by_node("call.mjs", calls), SYMBOLS, strict=True):
        assert found == wanted, f"{call} answers {found}, not {wanted}"
    calls = [(f"labels/{module}", *words) for module, words, _ in STRINGS]
    for call, found, (_, _, wanted) in zip(calls, by_node("call.mjs", calls), STRINGS, strict=True):
        assert found == wanted, f"{call} answers {found}, not {wanted}"
    # each symbol character has three bars and three spaces of eleven modules in all, and an even number of modules in bars
    *widths, stop = by_node("call.mjs", [("labels/code128.js", "widthsOf", [it]) for it in range(STOP + 1)])
    right = all(len(it) == 6 and sum(it) == 11 and sum(it[::2]) % 2 == 0 and 1 <= min(it) <= max(it) <= 4 for it in widths)
    assert right and len({tuple(it) for it in widths}) == STOP and stop == [2, 3, 3, 1, 1, 1, 2], (widths, stop)
    return f"{len(SYMBOLS)} symbols, {len(STRINGS)} element strings and {STOP + 1} symbol characters"


def decoded(file):
    """The texts of the symbols in a picture, from top to bottom as zbarimg finds them."""
    words = ["zbarimg", "--raw", "-q", "-Sdisable", "-Scode128.enable", file]
    ran = subprocess.run(words, stdout=subprocess.PIPE, stderr=subprocess.DEVNULL)
    return ran.stdout.decode("latin-1").split("\n")[:-1]


def picture(widths, file):
    """A symbol as a picture: four dots to the module."""
    line = b"\xff" * 40 + b"".join((b"\xff" if place % 2 else b"\0") * (4 * it) for place, it in enumerate(widths)) + b"\xff" * 40
    with open(file, "wb") as opened:
        opened.write(b"P5 %d 60 255\n" % len(line) + line * 60)


def scanned(_program):
    """Each pair of digits and each printable character, read by another program's table."""
    if lacking("zbarimg"):
        return "not tried, since zbarimg is not here"
    digits = "".join(f"{it:02}" for it in range(100))
    printable = "".join(chr(it) for it in range(0x20, 0x7F))
    texts = [digits[at : at + 40] for at in range(0, 200, 40)] + [f"x{printable[at : at + 19]}" for at in range(0, len(printable), 19)]
    texts += ["00" + it for it in SSCCS] + [f"0204000862141404{37}{'9' * it}" for it in range(1, 9)]
    with tempfile.TemporaryDirectory() as folder:
        values = by_node("call.mjs", [("labels/code128.js", "symbolValues", it) for it in texts])
        widths = by_node("call.mjs", [("labels/code128.js", "widthsOf", it) for it in values])
        for place, (text, drawn) in enumerate(zip(texts, widths, strict=True)):
            file = os.path.join(folder, f"{place}.pgm")
            picture(drawn, file)
            assert decoded(file) == [text], (text, decoded(file))
    return f"{len(texts)} symbols"


# texts that are as long as they may be
LONG = "All kinds of fine foods and drinks."
NUMBER = "D-<b>7</b>".ljust(35, "9")


def ordered(*lines):
    """An order with a place of delivery, of these quantities of one article after the other."""
    head = ("BGM+220+128590+9", "DTM+137:20250603:102", f"NAD+BY+{RETAILER}::9")
    supplier = f"NAD+SU+{ALPHA}::9++Alpha Foods:{LONG}:{LONG}+Long Road 5:Gate 9+Ghent++9000+BE"
    place = "NAD+DP+5412345000020::9++Warehouse North+Quay 12+Antwerp++2000+BE"
    article = lambda at: (f"LIN+{at}++{gtin(at)}:SRV", f"PIA+1+S-{at}:SA", f"IMD+F++:::Article <i>{at}</i>:{LONG}")
    segments = [it for at, quantity in enumerate(lines, 1) for it in (*article(at), f"QTY+21:{quantity}")]
    return message("ORDERS:D:01B:UN:EAN010", *head, supplier, place, *segments, "UNS+S")


def despatched(browser):
    """Two pallets of one article each, and one of two."""
    browser.run("location.hash = 'despatch/1'")
    browser.type(browser.labelled("Number of the despatch"), NUMBER)
    browser.type(browser.labelled("Your GS1 company prefix"), PREFIX)
    browser.keys("tab")
    browser.type(browser.labelled("Quantity of order 128590, line 1"), "48")
    for _ in SSCCS[1:]:
        browser.press("Add a pallet")
    browser.type(browser.labelled("Quantity of order 128590, line 2", 1), "105")
    browser.type(browser.labelled("Quantity of order 128590, line 2", 2), "2")
    browser.type(browser.labelled("Quantity of order 128590, line 3", 2), "7")
    send(browser, "despatch advice")
    browser.until_replied("1 DESADV accepted")


class Paper:
    """What the browser prints, page by page, as grey pictures."""

    def __init__(self, browser, folder):
        for name in os.listdir(folder):
            os.remove(os.path.join(folder, name))
        file = os.path.join(folder, "printed.pdf")
        with open(file, "wb") as opened:
            printed = browser.developer("Page.printToPDF", preferCSSPageSize=True, printBackground=False)
            opened.write(base64.b64decode(printed["data"]))
        to = os.path.join(folder, "page-%03d.pgm")
        words = ["gs", "-q", "-dNOPAUSE", "-dBATCH", "-dSAFER", "-sDEVICE=pgmraw", f"-r{DOTS}", f"-sOutputFile={to}", file]
        subprocess.run(words, check=True)
        self.pages = sorted(glob.glob(os.path.join(folder, "page-*.pgm")))


def grey(file):
    """Width, height and the rows of a picture."""
    with open(file, "rb") as opened:
        data = opened.read()
    head = re.match(rb"P5\s+(?:#.*\n)?(\d+)\s+(\d+)\s+255\s", data)
    width, height = int(head[1]), int(head[2])
    pixels = data[head.end() :]
    return width, height, [pixels[at * width : (at + 1) * width] for at in range(height)]


def runs(row):
    """The lengths of white and dark in a row by turns, beginning with white."""
    bits = bytes(0 if it < 128 else 1 for it in row)
    return [len(it) for it in re.findall(rb"\x01+|\x00+", bits)] if bits[:1] == b"\x01" else []


def bars(rows):
    """The places where symbols begin and end, from top to bottom: rows alike with many bars."""
    found, begin = [], None
    for at, row in enumerate([*rows, b""]):
        is_bars = row.count(0) > 100 and len(runs(row)) > 60
        if is_bars and begin is None:
            begin = at
        if not is_bars and begin is not None:
            found += [(begin, at)] if at - begin > 10 * MILLIMETRE else []
            begin = None
    return found


def measured(file, size, wanted):
    """The symbols of a page are as large as a logistic unit asks for, their quiet zones are empty, and they say exactly this."""
    width, height, rows = grey(file)
    assert abs(width - size[0] * MILLIMETRE) < 2 and abs(height - size[1] * MILLIMETRE) < 2, (width, height, size)
    assert sorted(decoded(file)) == sorted(wanted), (decoded(file), wanted)
    places = bars(rows)
    assert len(places) == len(wanted), (places, wanted)
    least = 99
    for begin, end in places:
        left, *inner, right = runs(rows[(begin + end) // 2])
        # six elements for each symbol character, and seven for the stop character
        modules = (len(inner) - 7) // 6 * 11 + 13
        module = sum(inner) / modules / MILLIMETRE
        assert module >= MODULE - 0.005 and (end - begin) / MILLIMETRE >= HEIGHT, (module, (end - begin) / MILLIMETRE)
        assert min(left, right) / MILLIMETRE >= QUIET * module, (left, right, module)
        # the quiet zones hold over the whole height
        quiet = int(QUIET * module * MILLIMETRE) - 1
        assert all(min(row[left - quiet : left]) > 127 for row in rows[begin:end]), "ink in a quiet zone"
        least = min(least, module)
    return least


WANTED = [
    [f"020{gtin(1)}3748", "00" + SSCCS[0]],
    [f"020{gtin(2)}37105", "00" + SSCCS[1]],
    ["00" + SSCCS[2]],
]


def labels_scan(browser, folder):
    """Both sizes, two labels of each pallet, and after them the despatch note on a page of its own."""
    least = []
    for name, size in SIZES.items():
        browser.click(browser.labelled(name))
        wait(lambda: browser.all(f".label[data-size={name}]"), f"labels of {name}")
        paper = Paper(browser, folder)
        *pages, note = paper.pages
        assert len(pages) == 2 * len(WANTED), paper.pages
        least += [measured(file, size, WANTED[place // 2]) for place, file in enumerate(pages)]
        width, height, _ = grey(note)
        assert abs(width - 210 * MILLIMETRE) < 3 and abs(height - 297 * MILLIMETRE) < 3 and decoded(note) == [], (width, height)
    return min(least)


def printed_apart(browser, folder):
    """Each button prints its part alone."""
    browser.run("window.print = () => { window.asked = document.querySelector('.papers').dataset.print }")
    for button, what, count in (("Print labels", "labels", 2 * len(WANTED)), ("Print despatch note", "note", 1)):
        browser.press(button)
        assert browser.run("return window.asked") == what
        pages = Paper(browser, folder).pages
        assert len(pages) == count, (what, pages)
        browser.run("dispatchEvent(new Event('afterprint'))")
        assert browser.run("return document.querySelector('.papers').dataset.print ?? ''") == ""


def texts(browser):
    said = browser.run("return [...document.querySelectorAll('.label:not(.copy)')].map(it => it.innerText)")
    assert len(said) == len(SSCCS), said
    for text in ("Warehouse North\nQuay 12\n2000 Antwerp\nBE", "Alpha Foods", f"(00) {SSCCS[0]}", f"Article <i>1</i> {LONG}, S-1", NUMBER):
        assert text in said[0], (text, said[0])
    assert f"(02) 0{gtin(1)} (37) 48" in said[0] and "2 articles, 9 pieces" in said[2] and "(02)" not in said[2], said
    note = browser.text(".despatch-note")
    for text in (f"Despatch note {NUMBER}", "Alpha Foods", *(f"SSCC {it}" for it in SSCCS)):
        assert text in note, (text, note)
    rows = browser.rows(".despatch-note table")
    article = lambda at: f"{gtin(at)}Article <i>{at}</i> {LONG}Your article S-{at}"
    wanted = [["128590", "1", article(1), "48"], ["128590", "2", article(2), "105"], ["128590", "2", article(2), "2"]]
    assert rows == [*wanted, ["128590", "3", article(3), "7"], ["Sum of 2", "", "", "9"]], rows
    # what is drawn are SVG elements, with no style of their own and no address
    marked = "it => it.hasAttribute('style') || it.src || it.href"
    marks = browser.run(f"return [...document.querySelectorAll('.papers *')].filter({marked}).length")
    # addresses give way to what names the pallet
    place = "it => it.querySelector(arguments[0]).getBoundingClientRect().bottom"
    low = lambda part: browser.run(f"return [...document.querySelectorAll('.label:not(.copy)')].map({place})", part)
    assert all(a <= b for a, b in zip(low(".label-facts"), low(".label-texts"), strict=True)), (low(".label-facts"), low(".label-texts"))
    svg = "http://www.w3.org/2000/svg"
    drawn = browser.run("return [...document.querySelectorAll('.bar-code, .bar-code *')].map(it => it.namespaceURI)")
    assert marks == 0 and len(drawn) == 4 * 5 and set(drawn) == {svg}, (marks, drawn)
    assert browser.run("return document.querySelectorAll('.papers b, .papers i').length") == 0


def usable(browser):
    for narrow, dark in ((False, False), (True, False), (True, True)):
        browser.look(*((360, 740) if narrow else (1280, 900)), dark=dark, narrow=narrow)
        sound(browser, "labels")
        found = browser.run(CONTRAST)
        assert found[0] >= 4.5, found
    browser.look()
    names(browser, "labels")
    rings(browser, "labels", WIDE)


def found_again(browser, stage):
    """The list of what was sent leads to the labels, also after a reload; another address has none."""
    browser.press("Sent", "a")
    browser.one("table.sent")
    browser.go(browser.address())
    browser.ask("POST", "/refresh")
    browser.press("Labels", "a")
    browser.until_says(f"Despatch note {NUMBER}")
    texts(browser)
    browser.run("location.hash = 'labels/nothing'")
    browser.until_says("This tab has no accepted despatch under this address.")


def labels(browser, program):
    with Stage(program) as stage, tempfile.TemporaryDirectory() as folder:
        stage.upload(RETAILER, interchange(RETAILER, "1001", ordered(48, 107, 7)))
        signed_in(browser, stage, ALPHA)
        despatched(browser)
        browser.press("Labels", "a")
        browser.until_says(f"Despatch note {NUMBER}")
        texts(browser)
        usable(browser)
        scans = not lacking(*TOOLS)
        if scans:
            least = labels_scan(browser, folder)
            printed_apart(browser, folder)
        found_again(browser, stage)
        complaints = browser.complaints()
        assert complaints == [], complaints
    if not scans:
        return f"labels of 3 pallets; not scanned, since {' and '.join(lacking(*TOOLS))} is not here"
    return f"labels of 3 pallets in {len(SIZES)} sizes, printed and scanned, with a module of {least:.3f} mm at least"


ALONE = {"symbols of pallet labels": symbols, "symbols that another program reads": scanned}
TRIALS = {"labels that scan": labels}
