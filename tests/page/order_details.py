"""What a buyer writes in an order beside numbers and quantities, as in the public examples of EANCOM 2002: read in Node, and through the
hub on the screens, on paper and wherever a GTIN is shown."""
from tests.page.access import CONTRAST, names, sound
from tests.page.agreement import by_node
from tests.page.forms import send
from tests.page.stage import ALPHA, RETAILER, Stage, gtin, interchange, message, order, signed_in

HEADER = [
    "BGM+220+128576+9",
    "DTM+137:20250603:102",
    "DTM+2:202506061430:203",
    "DTM+64:20250605:102",
    "DTM+61:20250620:102",
    "DTM+76:20250607:102",
    "PAI+::42",
    "FTX+ZZZ+1+001::91",
    "FTX+AAI+++Gate 3, ring twice:and wait",
    "RFF+CT:652744",
    "DTM+171:20250501:102",
    f"NAD+BY+{RETAILER}::9",
    "CTA+OC+:P FORGET",
    f"NAD+SU+{ALPHA}::9++Alpha Foods?: fine goods:Second name+Long Road 5+K\xf6ln++50667+DE",
    "NAD+DP+5412345000020::9++Warehouse North+Quay 12:Dock ?+4+Antwerp+:::Flanders+2000+BE",
    "NAD+UC+++Shop 7",
    "CUX+2:EUR:9",
    "PAT+1++5:3:D:30",
]
WHOLE = [
    f"LIN+1++{gtin(1)}:SRV",
    "PIA+1+ABC?+1234:IN",
    "PIA+5+S-77:SA::91",
    "IMD+F++:::Mug <b>blue</b>?:?'Erna?':0.3 l, 100% ?+ handle",
    "IMD+C++TU::9",
    "QTY+21:48",
    "QTY+59:12",
    "DTM+2:20250610:102",
    "FTX+AAI+++No plastic wrap",
    "PRI+AAA:14.58:CT::1:KGM",
    "PRI+AAB:15,00",
    "RFF+CT:652744:3",
    "RFF+PL:AUG93RNG04",
    "PAC+4++CT",
    "QTY+52:12",
]
CODED = [
    f"LIN+2++{gtin(2)}:SRV",
    "IMD+F+35+:::red",
    "IMD+C++XYZ::9",
    "QTY+21:10",
    "PRI+AAA:1.25:CA:AAE:100",
    "DTM+2:2025060620250608:718",
    "LOC+7+3312345502000::9",
]
LONG = "W" * 200
BARE = [f"LIN+3++{gtin(3)}:SRV", "QTY+21:7"]
WIDE = [f"LIN+4++{gtin(4)}:SRV", f"IMD+F++:::{LONG}", "QTY+21:9", f"FTX+AAI+++{LONG}", f"RFF+PL:{LONG[:35]}"]
SUMMARY = ["UNS+S", "MOA+86:1234.5", "CNT+2:4"]
ORDER = message("ORDERS:D:01B:UN:EAN010", *HEADER, *WHOLE, *CODED, *BARE, *WIDE, *SUMMARY)

LISTS = ("descriptions", "itemKinds", "supplierNumbers", "buyerNumbers", "packs", "prices", "parties", "dates", "contracts", "texts", "raw")
EMPTY = {it: [] for it in LISTS}
EMPTY["currency"] = ""
UNREAD = ("PAI+::42", "FTX+ZZZ+1+001::91", "DTM+171:20250501:102", "CTA+OC+:P FORGET", "PAT+1++5:3:D:30", "MOA+86:1234.5")
MUG = "Mug <b>blue</b>:'Erna' 0.3 l, 100% + handle"


def pack(kind, quantity, of=""):
    return {"kind": kind, "quantity": quantity, "type": of}


def date(kind, text, form="102"):
    return {"kind": kind, "text": text, "format": form}


OF_HEADER = EMPTY | {
    "dates": [
        date("137", "20250603"),
        date("2", "202506061430", "203"),
        date("64", "20250605"),
        date("61", "20250620"),
        date("76", "20250607"),
    ],
    "texts": ["Gate 3, ring twice and wait"],
    "contracts": ["652744"],
    "currency": "EUR",
    "parties": [
        {"kind": "BY", "gln": RETAILER, "address": []},
        {"kind": "SU", "gln": ALPHA, "address": ["Alpha Foods: fine goods", "Second name", "Long Road 5", "50667 K\xf6ln", "DE"]},
        {"kind": "DP", "gln": "5412345000020", "address": ["Warehouse North", "Quay 12", "Dock +4", "2000 Antwerp", "Flanders", "BE"]},
        {"kind": "UC", "gln": "", "address": ["Shop 7"]},
    ],
    "raw": [f"{it}'" for it in UNREAD],
}
OF_WHOLE = EMPTY | {
    "descriptions": [MUG],
    "itemKinds": ["traded unit"],
    "supplierNumbers": ["S-77"],
    "buyerNumbers": ["ABC+1234"],
    "packs": [pack("59", "12"), pack("PAC", "4", "CT"), pack("52", "12")],
    "prices": [
        {"kind": "AAA", "amount": "14.58", "type": "CT", "basis": "1", "unit": "KGM"},
        {"kind": "AAB", "amount": "15.00", "type": "", "basis": "", "unit": ""},
    ],
    "dates": [date("2", "20250610")],
    "texts": ["No plastic wrap"],
    "contracts": ["652744, line 3"],
    "raw": ["RFF+PL:AUG93RNG04'"],
}
# a code that the page does not know, a price specification, a span of days and a place are shown as they are written
OF_CODED = EMPTY | {
    "descriptions": ["Colour: red"],
    "prices": [{"kind": "AAA", "amount": "1.25", "type": "CA", "basis": "100", "unit": ""}],
    "raw": ["IMD+C++XYZ::9'", "PRI+AAA:1.25:CA:AAE:100'", "DTM+2:2025060620250608:718'", "LOC+7+3312345502000::9'"],
}
OF_WIDE = EMPTY | {"descriptions": [LONG], "texts": [LONG], "raw": [f"RFF+PL:{LONG[:35]}'"]}
# a line's segments, and what is read of them
ODD = [
    # a sixth component of a name is its format, and more than five texts are too many: both are shown as they are written
    ("NAD+DP+++A:B:C:D:E:1", {"parties": [{"kind": "DP", "gln": "", "address": list("ABCDE")}], "raw": ["NAD+DP+++A:B:C:D:E:1'"]}),
    ("FTX+AAI+++1:2:3:4:5:6", {"texts": ["1 2 3 4 5"], "raw": ["FTX+AAI+++1:2:3:4:5:6'"]}),
    ("NAD+DP++Old style:of 3124", {"parties": [{"kind": "DP", "gln": "", "address": ["Old style", "of 3124"]}]}),
    ("NAD+SF+++Another", {"raw": ["NAD+SF+++Another'"]}),
    ("PIA+5+1:SA+2:IN+3:HS", {"supplierNumbers": ["1"], "buyerNumbers": ["2"], "raw": ["PIA+5+1:SA+2:IN+3:HS'"]}),
    ("PIA+3+1:SA", {"raw": ["PIA+3+1:SA'"]}),
    ("PRI+AAA:1.2.3", {"raw": ["PRI+AAA:1.2.3'"]}),
    ("PRI+AAE:1", {"raw": ["PRI+AAE:1'"]}),
    ("QTY+59:12.000:PCE", {"packs": [{"kind": "59", "quantity": "12", "type": ""}]}),
    ("QTY+59:12:KGM", {"packs": [{"kind": "59", "quantity": "12", "type": ""}], "raw": ["QTY+59:12:KGM'"]}),
    # the dates of a part of the quantity stay beside it
    ("QTY+11:24'DTM+2:20250603:102", {"raw": ["QTY+11:24'", "DTM+2:20250603:102'"]}),
    ("IMD+F++:::rouge::fr", {"descriptions": ["rouge (fr)"]}),
    ("IMD+B++XY::9:boxed", {"descriptions": ["boxed"], "raw": ["IMD+B++XY::9:boxed'"]}),
    ("FTX+DEL+++To the back door", {"texts": ["Delivery: To the back door"]}),
    ("DTM+2:20250230:102", {"raw": ["DTM+2:20250230:102'"]}),
    ("RFF+CT", {"raw": ["RFF+CT'"]}),
]


def details(text):
    segments = by_node("call.mjs", [("edi/segments.js", "readSegments", "UNA:+.? '" + text)])[0]
    return by_node("call.mjs", [("edi/order_details.js", "readDetails", {"segments": segments})])[0]


def read(_program):
    found = details(ORDER)
    assert found["header"] == OF_HEADER, found["header"]
    for line, wanted in zip(found["lines"], [OF_WHOLE, OF_CODED, EMPTY, OF_WIDE], strict=True):
        assert line == wanted, f"{line}, not {wanted}"
    odd = [["LIN+1++1", it] for it, _ in ODD]
    text = message("ORDERS:D:01B:UN:EAN010", "BGM+220+1+9", *(it for line in odd for it in line), "UNS+S")
    for (segment, wanted), line in zip(ODD, details(text)["lines"], strict=True):
        assert line == EMPTY | wanted, f"{segment} is read as {line}, not {wanted}"
    return f"an order of {len(HEADER + WHOLE + CODED)} segments, and {len(ODD)} others"


def order_shown(browser):
    browser.until_says("Gate 3, ring twice and wait")
    said = browser.text()
    for text in (
        "Deliver to\nWarehouse North, Quay 12, Dock +4, 2000 Antwerp, Flanders, BE, 5412345000020",
        f"Supplier\nAlpha Foods: fine goods, Second name, Long Road 5, 50667 K\xf6ln, DE, {ALPHA}",
        "Final recipient\nShop 7",
        "Delivery wanted\n6 June 2025, 14:30",
        "Delivery at the earliest\n5 June 2025",
        "Cancelled unless delivered by\n20 June 2025",
        "Delivery planned for\n7 June 2025",
        "Contract\n652744",
        "Currency\nEUR",
        "FTX+ZZZ+1+001::91'",
        "MOA+86:1234.5'",
    ):
        assert text in said, (text, said)
    lines = browser.rows("table.order-lines tbody")
    first = [gtin(1), f"{MUG}, traded unit", "Your article S-77", "Buyer's article ABC+1234"]
    assert lines[0][1] == "".join(first), lines[0]
    assert lines[0][2] == "12 consumer units in each4 packages (carton)12 in each package", lines[0]
    assert lines[0][3] == "14.58 EUR, net, by contract, per 1 KGM15.00 EUR, gross", lines[0]
    remarks = "Delivery wanted: 10 June 2025Contract: 652744, line 3No plastic wrapRFF+PL:AUG93RNG04'"
    assert lines[0][8] == remarks, lines[0]
    assert lines[1][1] == gtin(2) + "Colour: red" and "IMD+C++XYZ::9'" in lines[1][8], lines[1]
    assert lines[2] == ["3", gtin(3), "", "", "7", "7", "0", "not answered yet", ""], lines[2]
    assert browser.run("return document.querySelectorAll('main b').length") == 0


def on_paper(browser):
    browser.developer("Emulation.setEmulatedMedia", media="print")
    for text in ("Warehouse North", "Your article S-77", "Gate 3", "14.58 EUR", "No plastic wrap", "PAI+::42'"):
        assert text in browser.text(), text
    browser.developer("Emulation.setEmulatedMedia", media="")


def usable(browser, screen):
    for narrow, dark in ((False, False), (True, False), (True, True), (False, True)):
        browser.look(*((360, 740) if narrow else (1280, 900)), dark=dark, narrow=narrow)
        sound(browser, screen)
        found = browser.run(CONTRAST)
        assert found[0] >= 4.5, (screen, found)
    browser.look()
    names(browser, screen)


ARTICLE = f"{gtin(1)}{MUG}Your article S-77"
ARTICLES = [ARTICLE, gtin(2) + "Colour: red", gtin(3), gtin(4) + LONG]


def cells(browser, table, column):
    return [it[column] for it in browser.rows(table) if len(it) > column]


def written(browser, program):
    """The order's own screen, its answer, its despatch, the status, and another order of the same article."""
    with Stage(program) as stage:
        stage.upload(RETAILER, interchange(RETAILER, "1001", ORDER))
        stage.upload(RETAILER, interchange(RETAILER, "1002", order("128590", [5])))
        signed_in(browser, stage, ALPHA)
        browser.until_says("2 new entries")
        browser.run("location.hash = 'entry/1'")
        order_shown(browser)
        on_paper(browser)
        usable(browser, "order with details")
        # another order has the supplier's GLN alone
        browser.run("location.hash = 'entry/2'")
        browser.until_says(f"Supplier\nAlpha Foods: fine goods, {ALPHA}")
        browser.run("location.hash = 'answer/1'")
        browser.one("table.answers")
        assert cells(browser, "table.answers", 1)[0] == ARTICLE, browser.rows("table.answers")
        usable(browser, "answer with details")
        browser.press("Accept all 4 lines")
        send(browser, "answer")
        browser.until_replied("1 ORDRSP accepted")
        browser.run("location.hash = 'answer/2'")
        browser.until_says("Answer order 128590")
        assert cells(browser, "table.answers", 1) == [ARTICLE], browser.rows("table.answers")
        browser.run("location.hash = 'despatch/1'")
        browser.one("table.contents")
        assert cells(browser, "table.contents", 2) == ARTICLES, browser.rows("table.contents")
        usable(browser, "despatch with details")
        browser.run("location.hash = 'status'")
        browser.one("table.lines tfoot td")
        assert cells(browser, "table.lines tbody", 2) == [*ARTICLES, ARTICLE], browser.rows("table.lines")
        usable(browser, "status with details")
        browser.type(browser.labelled("Order or article"), "erna")
        assert cells(browser, "table.lines tbody", 0) == ["128576", "128590"], browser.rows("table.lines tbody")
        browser.type(browser.labelled("Order or article"), "S-77")
        assert cells(browser, "table.lines tbody", 0) == ["128576", "128590"], browser.rows("table.lines tbody")
        complaints = browser.complaints()
        assert complaints == [], complaints
    return "an order with all of it, shown, printed and carried to 4 other screens"


ALONE = {"what a buyer writes": read}
TRIALS = {"the order as the buyer wrote it": written}
